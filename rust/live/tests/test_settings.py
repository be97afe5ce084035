"""Tests settings that outlive a restart."""

import codecs
import contextlib
import os
import signal

from asking import Client
from heard import Heard
from lldpa import Refused
from running_live import OnLinks
from patience import eventually
from served import PROGRAM, numbered


# lines, the agent's refusals, and explanations: the wrong word, and what is allowed instead
REFUSED = (
    ("configure lldp tx-interval 0", "out of range", "0 (seconds between frames, 1 to 3600)"),
    ("configure lldp tx-hold x", "not a number",
     "x (intervals that peers keep a frame, 1 to 100)"),
    ("configure lldp max-neighbors 99", "out of range", "99 (1 to the number of --max-neighbors)"),
    ("configure ports p9 lldp status tx-only", "no such port", "p9 (must be a port of this agent)"),
    ("configure ports eth0 lldp status on", "unknown command",
     "on (rx-and-tx, rx-only, tx-only, disabled)"),
    ("configure lldp", "unknown command",
     "a word is missing (tx-interval or tx-hold or max-neighbors)"),
    ("configure lldp tx-hold 4 5", "extra word", "5 (no word is allowed here)"),
    ("configure system description \t", "unknown command",
     "a word is missing (up to 255 printable characters, in quotes if it has spaces)"),
    ('configure system hostname "a', "bad quote", ""))

REFUSED_HOLD = """lldpa-ctl: {}:2: configure lldp tx-hold 101: out of range: 101 \
(intervals that peers keep a frame, 1 to 100)
lldpa-ctl: 1 of the settings and files were not applied
"""


def whole(text: str, place: str) -> str:
    """Returns the whole message about a refused line."""
    return f"{text}: {place}" if place else text


class TestSettings(OnLinks):
    links = 2

    def setUp(self) -> None:
        super().setUp()
        self.file = self.folder / "lldpa.conf"
        self.parts = self.folder / "lldpa.d"
        self.parts.mkdir()

    def words(self) -> list[str]:
        """Returns the options for the file and the folder of settings."""
        return ["--config", str(self.file), "--config", str(self.parts)]

    def test_they_are_told_before_any_frame_goes_and_outlive_a_restart(self) -> None:
        self.file.write_text("# of this host\n\nconfigure lldp tx-interval 7\r\n"
                             "configure lldp tx-hold 9\n")
        (self.parts / "20-hold.conf").write_text("configure lldp tx-hold 3")
        (self.parts / "10-hold.conf").write_text("configure lldp tx-hold 5\n"
                                                  "configure ports eth1 lldp status rx-only\n"
                                                  'configure system description "a b"\n')
        (self.parts / "30-hold.conf.bak").write_text("configure lldp tx-hold 8\n")
        for _ in range(2):
            peers = [self.peer("peer0"), self.peer("peer1")]
            live = self.live(*self.words(), "eth0", "eth1")
            shown = live.ask("show configuration")
            for line in ("tx-interval=7", "tx-hold=3", "eth0.status=rx-and-tx",
                         "eth1.status=rx-only"):
                self.assertIn(f"configuration.{line}", shown)
            self.assertIn("local-chassis.descr=a b", live.ask("show chassis"))
            self.assertIsNotNone(peers[0].hears())
            self.assertIsNone(peers[1].hears(0.2))
            self.assertIn("lldp.eth1.sent=0", live.ask("show statistics"))
            self.assertEqual(live.ended(), 0)

    def test_wrong_lines_at_the_start_are_told_and_the_agent_runs(self) -> None:
        self.file.write_text("configure lldp tx-hold 3\n#\nconfigure lldp tx-interval 3601\n"
                             "show neighbors\nconfigure lldp tx-interval 7\n")
        heard = Heard(self.folder)
        self.addCleanup(heard.close)
        live = self.live(*self.words(), "eth0", "eth1", env=heard.environment())
        self.assertEqual(live.errors().splitlines(), [
            f"lldpa-live: {self.file}:3: configure lldp tx-interval 3601: "
            "out of range: 3601 (seconds between frames, 1 to 3600)",
            f"lldpa-live: {self.file}:4: show neighbors: a setting must begin with `configure`",
            "lldpa-live: 2 settings were not applied"])
        shown = live.ask("show configuration")
        self.assertIn("configuration.tx-hold=3", shown)
        self.assertIn("configuration.tx-interval=7", shown)
        self.assertIsNotNone(self.peer("peer0").hears())
        self.assertEqual(live.number("settings-refused"), 2)
        self.assertTrue(heard.hears("STATUS=no neighbors on 2 ports; 2 settings refused"))

    def test_a_refusal_says_which_word_is_wrong_and_what_is_allowed(self) -> None:
        self.file.write_text("".join(f"{line}\n" for line, _, _ in REFUSED))
        said = self.live(*self.words(), "eth0").errors().splitlines()
        for number, (_, text, place) in enumerate(REFUSED, 1):
            front, end = f"lldpa-live: {self.file}:{number}: ", f": {whole(text, place)}"
            self.assertTrue(said[number - 1].startswith(front), said)
            self.assertTrue(said[number - 1].endswith(end), said)

    def test_a_line_for_a_port_that_is_not_there_waits_for_it(self) -> None:
        self.file.write_text("configure ports eth2 lldp status rx-only\n")
        live = self.live(*self.words(), "eth0", "eth1", "e*2")
        self.assertEqual((live.errors(), live.number("settings-refused")), ("", 0))
        self.wires.add_link(2)
        live.comes_to("live.eth2.link=up")
        self.assertIn("configuration.eth2.status=rx-only", live.ask("show configuration"))
        self.assertIn("lldp.eth2.sent=0", live.ask("show statistics"))

    def test_a_wrong_line_counts_once_although_its_port_comes_again(self) -> None:
        wrong = "configure ports eth1 lldp status on"
        self.file.write_text(f"{wrong}\nconfigure ports eth1 lldp status rx-only\n")
        live = self.live(*self.words(), "eth0", "eth[1-9]")
        self.assertEqual(live.number("settings-refused"), 1)
        self.wires.remove_link("eth1")
        self.assertTrue(eventually(lambda: not live.has("live.eth1.interface=present")
                                   and not live.has("live.eth1.interface=awaited")))
        self.wires.add_link(1)
        live.comes_to("configuration.eth1.status=rx-only", "show configuration")
        self.assertEqual(live.number("settings-refused"), 1)
        self.assertEqual(live.errors().count(wrong), 1)

    def test_while_it_waits_for_an_interface_no_wrong_line_and_no_reload_is_lost(self) -> None:
        self.file.write_text("configure lldp tx-interval 7\n")
        live = self.live(*self.words(), "eth7", awaits=False)
        self.assertTrue(live.says("eth7: no such interface yet"))
        self.file.write_text("configure lldp tx-interval 8\nconfigure lldp tx-hold 0\n")
        self.assertEqual(live.reload(self.file, self.parts).returncode, 0)
        self.wires.add_link(7)
        self.assertTrue(eventually(live.ask_quietly))
        self.assertIn("configuration.tx-interval=8", live.ask("show configuration"))
        self.assertTrue(live.says("out of range: 0 (intervals that peers keep a frame, 1 to 100)\n"
                                  "lldpa-live: 1 setting was not applied\n"))

    def test_reload_takes_changes_without_a_frame_lost(self) -> None:
        self.file.write_text("configure lldp tx-interval 7\n")
        live, peer = self.live(*self.words(), "eth0", "eth1"), self.peer("peer0")
        for round_ in range(20):
            self.file.write_text(f"configure lldp tx-interval {10 + round_}\n"
                                 "configure lldp tx-hold 101\n"
                                 f"configure system description d{round_}\n")
            for number in range(10):
                peer.send(numbered(number, 500))
            told = live.reload(self.file, self.parts)
            self.assertEqual((told.returncode, told.stderr), (1, REFUSED_HOLD.format(self.file)))
            self.assertIn(f"local-chassis.descr=d{round_}", live.ask("show chassis"))
        self.assertIn("lldp.eth0.received=200", live.ask("show statistics"))
        self.assertIn("configuration.tx-interval=29", live.ask("show configuration"))
        self.assertIn(REFUSED_HOLD.format(self.file).splitlines()[0].partition(": ")[2],
                      live.errors())
        self.assertIn("configuration.tx-hold=4", live.ask("show configuration"))
        self.assertIsNone(live.process.poll())

    def test_what_cannot_be_read_is_told_and_the_rest_is_taken(self) -> None:
        self.file.write_bytes(codecs.BOM_UTF8 + b"configure lldp tx-hold 3\n")
        for name in ("10-locked.conf", "30.conf", ".#hidden.conf"):
            (self.parts / name).write_text("configure lldp tx-interval 9\n")
        (self.parts / "10-locked.conf").chmod(0)
        (self.parts / ".#hidden.conf").chmod(0)
        (self.parts / "11-dangling.conf").symlink_to("/no/such/file")
        (self.parts / "12-folder.conf").mkdir()
        os.mkfifo(self.parts / "13-pipe.conf")
        (self.parts / "14-device.conf").symlink_to("/dev/zero")
        told = [f"lldpa-live: {self.parts}/{name}.conf: {why}" for name, why in (
            ("10-locked", "Permission denied"), ("11-dangling", "No such file or directory"),
            *((name, "not a regular file") for name in ("12-folder", "13-pipe", "14-device")))]
        told.append("lldpa-live: 5 settings were not applied")
        live = self.live(*self.words(), "eth0")
        self.assertEqual(live.errors().splitlines(), told)
        self.assertIn("configuration.tx-hold=3", live.ask("show configuration"))
        self.assertIn("configuration.tx-interval=9", live.ask("show configuration"))
        reloaded = live.reload(self.file, self.parts)  # by root, who may read 10-locked.conf
        self.assertEqual(reloaded.returncode, 1)
        self.assertEqual(reloaded.stderr.splitlines(), [
            *(line.replace("lldpa-live", "lldpa-ctl") for line in told[1:-1]),
            "lldpa-ctl: 4 of the settings and files were not applied"])
        self.assertEqual(live.number("settings-refused"), 4)
        for path in self.parts.glob("1*.conf"):
            path.rmdir() if path.is_dir() else path.unlink()
        reloaded = live.reload(self.file, self.parts)
        self.assertEqual((reloaded.returncode, reloaded.stderr), (0, ""))
        self.assertTrue(live.says("the settings were read again"))
        self.assertEqual(live.number("settings-refused"), 0)
        self.assertEqual(live.ended(), 0)

    def test_refused_lines_are_escaped_and_cut(self) -> None:
        self.file.write_bytes(b"configure \x1b[31m" + b"x" * 300 + b"\n\xff\x07\n")
        live = self.live(*self.words(), "eth0")
        self.assertTrue(live.says("configure \\x1b[31mxxx"))
        self.assertTrue(live.says(":2: \\xff\\x07: "))
        self.assertTrue(live.errors().isascii() and live.errors().replace("\n", "").isprintable())
        self.assertLess(max(map(len, live.errors().splitlines())), 500)
        self.assertEqual(live.number("settings-refused"), 2)

    def test_a_setting_of_each_length_is_handed_over_or_refused(self) -> None:
        front, most = 'configure system description "', 4096
        live = self.live("eth0")
        for length in (255, 256, most - len(front) - 1, most - len(front), 9000):
            self.file.write_text(f'{front}{"x" * length}"\n')
            told = live.reload(self.file)
            self.assertEqual(told.returncode, int(length > 255), told.stderr)
            self.assertIn("x" * 150 if length > 255 else "", told.stderr)
            self.assertEqual(live.number("settings-refused"), int(length > 255))

    def test_two_that_reload_do_not_mix_their_settings(self) -> None:
        live = self.live("eth0")
        with contextlib.closing(Client(live.control)) as one, \
                contextlib.closing(Client(live.control)) as other:
            one.ask("settings begin")
            one.ask("settings line\ta\t1\tconfigure lldp tx-hold 3")
            other.ask("settings begin")
            other.ask("settings line\tb\t1\tconfigure lldp tx-interval 9")
            for line in ("settings line\ta\t2\tconfigure lldp tx-interval 8", "settings end 0"):
                with self.assertRaises(Refused):
                    one.ask(line)
            self.assertEqual(other.ask("settings end 0"), [])
        shown = live.ask("show configuration")
        self.assertIn("configuration.tx-interval=9", shown)
        self.assertIn("configuration.tx-hold=4", shown)

    def test_a_hangup_changes_nothing_and_says_what_reads_the_settings(self) -> None:
        heard = Heard(self.folder)
        self.addCleanup(heard.close)
        self.file.write_text("configure lldp tx-hold 3\n")
        live = self.live(*self.words(), "eth0", env=heard.environment())
        self.assertTrue(heard.hears("READY=1"))
        self.file.write_text("configure lldp tx-hold 5\n")
        for number in range(3000):
            live.signal(signal.SIGHUP)
            if number % 100 == 0:
                self.assertTrue(live.ask_quietly())
        self.assertTrue(live.says("`lldpa-ctl reload` reads the settings again"))
        self.assertIn("configuration.tx-hold=3", live.ask("show configuration"))
        heard.close()
        os.unlink(heard.path)
        self.assertEqual(live.reload(self.file).returncode, 0)
        self.assertIn("configuration.tx-hold=5", live.ask("show configuration"))
        self.assertEqual(live.ended(), 0)
