"""Reports the checks of a script that fail. The status of the script is what counts."""


class Counts:
    """Prints each fault. `end` returns the status: 1 if there was one."""
    failed = 0

    def judge(self, fault: object, what: object) -> None:
        if fault is not None:
            print(f"FAILED: {what}: {fault}", flush=True)
            self.failed += 1

    def that(self, what: object, holds: object) -> None:
        self.judge(None if holds else "this does not hold", what)

    def end(self) -> int:
        return 1 if self.failed else 0
