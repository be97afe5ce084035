"""For pytest: what all tests of this repository share."""
import os
import pathlib
import signal
import subprocess

import pytest

TOP = pathlib.Path(__file__).resolve().parent
# A shell's background jobs ignore SIGINT, and so would the programs that tests run.
signal.signal(signal.SIGINT, signal.default_int_handler)
# What stands below rust tests lldpa-live and lldpa-ctl, which are one program.
LIVE = pathlib.Path(os.environ.get("LLDPA_LIVE") or TOP / "rust/live/out/lldpa-live")
LACKS_LIVE = pytest.mark.skip(reason="cargo: tools/release/live.sh builds lldpa-live with it")
# modules that load the machine, need it, or need an answer within a tenth of a second
ALONE = ("test_budget test_evil_memory test_live_flood test_load_dear test_load_floods test_load_quiet "
         "test_load_tables test_slow_record").split()


def pytest_collection_modifyitems(items):
    for item in items:
        if item.module.__name__ in ALONE:
            item.add_marker("alone")
        if TOP / "rust" in item.path.parents and not LIVE.exists():
            item.add_marker(LACKS_LIVE)
        if hasattr(item.obj, "by_the_clock"):
            item.add_marker(pytest.mark.flaky(reruns=2, condition="os.getloadavg()[0] > os.cpu_count()"))


def pytest_addoption(parser):
    parser.addoption("--whole", action="store_true", help="what needs a missing package of Debian fails")


@pytest.hookimpl(hookwrapper=True)
def pytest_runtest_makereport(item, call):
    """With --whole a test is skipped only for a feature of the kernel that is really missing: its reason
    begins with the name of one (tools/gate/install.sh --list)."""
    report = (yield).get_result()
    if report.skipped and item.config.getoption("whole"):
        reason = report.longrepr[2].removeprefix("Skipped: ")
        lacks = subprocess.run([TOP / "tools/gate/install.sh", "--lacks", reason.partition(":")[0]],
                               stdout=subprocess.PIPE, text=True, check=False)
        if not lacks.stdout.startswith("feature: "):
            report.outcome, report.longrepr = "failed", f"{reason}: nothing of this kind may be skipped"


def pytest_terminal_summary(terminalreporter):
    """Says of each test that ran again what had failed."""
    for report in terminalreporter.stats.get("rerun", []):
        crash = getattr(report.longrepr, "reprcrash", None)
        reason = crash.message if crash else report.longreprtext
        terminalreporter.write_line(f"ran again: {report.nodeid}: {reason.splitlines()[0]}")
