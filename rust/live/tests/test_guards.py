"""Tests that a user who may write in a folder cannot make lldpa-live change other files there."""

import os
import stat
import threading

from calls import needs_strace, watched
from kept import State
from patience import eventually
from replaced import LONG
from running_live import OnLinks
from served import numbered

NOBODY = 65534
SLOWLY = 400_000  # microseconds by which a call is delayed


class Guards(OnLinks):
    """Tests with a folder in which everybody may write."""

    def setUp(self) -> None:
        super().setUp()
        self.folder.chmod(0o777)
        self.calls = self.folder / "calls"
        self.state = State()
        self.addCleanup(self.state.folder.cleanup)
        self.target = self.folder / "target"  # a file that lldpa-live must not change
        self.target.write_text("kept")
        self.target.chmod(0o600)

    def stands(self) -> None:
        """Checks that the target is as it was."""
        told = self.target.stat()
        self.assertEqual(self.target.read_text(), "kept")
        self.assertEqual((told.st_uid, told.st_gid, stat.S_IMODE(told.st_mode)),
                         self.told_before)

    def begin(self, user: int = 0) -> None:
        os.chown(self.target, user, user)
        told = self.target.stat()
        self.told_before = (told.st_uid, told.st_gid, stat.S_IMODE(told.st_mode))

    def made_state(self) -> bytes:
        """Returns a state with a neighbor of eth0, as lldpa-live has written it."""
        live = self.live(*self.state.words, "eth0", "--", "--receive-only")
        self.peer().send(numbered(1, LONG))
        self.assertTrue(eventually(lambda: live.neighbors() == 1))
        self.assertEqual(live.ended(), 0)
        return self.state.read()

    def test_a_state_is_neither_read_nor_written_through_a_link(self) -> None:
        octets, first = self.made_state(), self.state.files[0]
        for user, group in ((0, 0), (NOBODY, NOBODY)):
            other = first.parent / f"other-{user}"
            other.write_bytes(octets)
            other.chmod(0o600)
            os.chown(other, user, group)
            first.unlink()
            first.symlink_to(other)
            live = self.live(*self.state.words, "eth0", "--", "--receive-only")
            self.assertTrue(live.says("the state is not used: "))
            self.assertEqual(live.neighbors(), 0)
            self.assertEqual(live.ended(), 0)
            self.assertEqual(other.read_bytes(), octets)

    def test_a_state_that_others_may_change_is_not_read(self) -> None:
        octets = self.made_state()
        for mode in (0o660, 0o620, 0o610, 0o606, 0o604, 0o602, 0o644, 0o666):
            self.state.write(octets)
            self.state.files[0].chmod(mode)
            live = self.live(*self.state.words, "eth0", "--", "--receive-only")
            self.assertTrue(live.says("the state is not used: "), oct(mode))
            self.assertEqual(live.neighbors(), 0, oct(mode))
            self.assertEqual(live.ended(), 0)
        self.state.write(octets)
        live = self.live(*self.state.words, "eth0", "--", "--receive-only")
        self.assertEqual((live.neighbors(), live.errors()), (1, ""))

    @needs_strace
    def test_the_group_is_given_to_the_socket_that_was_made(self) -> None:
        self.begin()
        for calls, how in (("bind", "delay_exit"), ("chown,fchownat,lchown,fchown", "delay_enter"),
                           ("chmod,fchmodat,fchmod", "delay_enter")):
            slow = f"{calls}:{how}={SLOWLY}"
            control = self.folder / f"control-{calls[:5]}"
            over = threading.Event()

            def replace() -> None:
                """Puts a link in the place of the socket as soon as there is one."""
                while not over.wait(0.001):
                    if control.exists() and not control.is_symlink():
                        control.unlink(missing_ok=True)
                        control.symlink_to(self.target)

            thread = threading.Thread(target=replace, daemon=True)
            thread.start()
            live = self.live("--control", str(control), "--control-group", "daemon", "eth0",
                             before=watched(self.calls, calls, slow),
                             awaits=False)
            self.assertTrue(eventually(control.is_symlink), slow)
            live.says("lldpa-live", 2)
            over.set()
            thread.join()
            live.close()
            self.stands()
            control.unlink(missing_ok=True)
