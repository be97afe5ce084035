"""Tests ports that patterns select, even if their interfaces are added later."""

import subprocess

from asking import since_of
from patience import eventually
from running_live import OnLinks
from served import numbered
from wires import Peer

MOST = 64  # ports


class TestLaterPorts(OnLinks):
    """Tests interfaces that are added later and match a pattern."""

    def made(self, number: int, name: str = "vnet") -> Peer:
        """Makes a link with this name and number, and opens a sender at its far end."""
        self.wires.add_guest(f"{name}{number}", f"far{number}")
        return self.peer(f"far{number}")

    def test_a_pattern_waits_and_takes_what_comes_later(self) -> None:
        live = self.live("lan*", "!lan7", "lan9", awaits=False)
        self.assertTrue(live.says("lan* !lan7 lan9: no such interface yet; waiting for one, and"))
        self.assertEqual(live.ask_refused("show neighbors"),
                         "waiting for an interface: lan* !lan7 lan9")
        first = self.made(1, "lan")
        self.assertTrue(eventually(live.ask_quietly))
        self.assertTrue(eventually(self.wires.all_up))
        first.send(numbered(1, 500))
        self.assertTrue(eventually(lambda: live.neighbors("lan1") == 1))
        self.assertEqual(live.ask("configure ports lan1 lldp status rx-only"), [])
        since = since_of(live.ask("live"))
        self.made(7, "lan")
        second = self.made(2, "lan")
        live.comes_to("live.lan2.link=up")
        self.assertTrue(eventually(self.wires.all_up))
        second.send(numbered(2, 500))
        self.assertTrue(eventually(lambda: live.neighbors("lan2") == 1))
        self.assertIsNotNone(second.hears(5))
        self.assertEqual(live.neighbors("lan1"), 1)
        self.assertTrue(since.items() <= since_of(live.ask("live")).items())
        self.assertEqual([line for line in live.ask("show configuration") if "status" in line],
                         ["configuration.lan9.status=rx-and-tx",
                          "configuration.lan1.status=rx-only",
                          "configuration.lan2.status=rx-and-tx"])

    def test_a_wildcard_alone_takes_no_virtual_interface(self) -> None:
        live = self.live("*", awaits=False)
        self.assertTrue(live.says("*: no such interface yet"))
        self.made(1, "lan")
        self.assertEqual(live.ask_refused("show neighbors"), "waiting for an interface: *")

    def test_guests_that_came_and_went_leave_room_for_the_next(self) -> None:
        live = self.live("eth0", "vnet*", "--", "--receive-only")
        for numbers in (range(30), range(30, 60), range(60, 69)):
            guests = [self.made(number) for number in numbers]  # changes at once are one new agent
            for number in numbers:
                live.comes_to(f"live.vnet{number}.link=up")
            if 68 not in numbers:
                for number in numbers:
                    self.wires.remove_link(f"vnet{number}")
                self.assertTrue(eventually(lambda: "vnet" not in "\n".join(live.ask("live"))))
        guest = guests[-1]
        guest.send(numbered(1))
        self.assertTrue(eventually(lambda: live.neighbors("vnet68") == 1))
        ports = [line for line in live.ask("show neighbors") if line.endswith("too-many=no")]
        self.assertEqual(len(ports), 1 + 9)  # eth0, and the guests that are there

    def test_one_that_finds_no_place_is_told_and_taken_when_another_goes(self) -> None:
        guests = [self.made(number) for number in range(MOST - 1)]
        live = self.live("eth0", "vnet*", "--", "--receive-only")
        self.assertTrue(eventually(self.wires.all_up))
        guests[7].send(numbered(7, 500))
        self.assertTrue(eventually(lambda: live.neighbors("vnet7") == 1))
        self.assertEqual(live.number("ports-refused"), 0)
        late = self.made(MOST)
        self.assertTrue(live.says(f"vnet{MOST}: 64 ports are in use, so this interface is not "
                                  "used\n"))
        self.assertEqual(live.number("ports-refused"), 1)
        self.wires.remove_link("vnet3")
        live.comes_to(f"live.vnet{MOST}.link=up")
        self.assertTrue(eventually(self.wires.all_up))
        late.send(numbered(1))
        self.assertTrue(eventually(lambda: live.neighbors(f"vnet{MOST}") == 1))
        self.assertEqual((live.number("ports-refused"), live.neighbors("vnet7")), (0, 1))

    def test_hundreds_without_a_place_make_one_line(self) -> None:
        made = "\n".join(f"link add swp{number} up type veth peer name end{number}" for number in range(300))
        subprocess.run(["ip", "-n", self.wires.here, "-batch", "-"], input=made, text=True, check=True)
        live = self.live("swp*", "--", "--receive-only")
        self.assertTrue(live.says(" and 228 more: 64 ports are in use, so these interfaces are not used\n"))
        self.assertEqual(live.errors().count("\n"), 1, live.errors())
        self.assertEqual(live.number("ports-refused"), 236)

    def test_a_port_that_was_named_stays_without_its_interface(self) -> None:
        live = self.live("vnet1", "vnet*", awaits=False)
        for number in (1, 2):
            self.made(number)
        self.assertTrue(eventually(live.ask_quietly))
        live.comes_to("live.vnet2.link=up")
        for number in (1, 2):
            self.wires.remove_link(f"vnet{number}")
        live.comes_to("live.vnet1.interface=awaited")
        self.assertTrue(eventually(lambda: "vnet2" not in "\n".join(live.ask("live"))))

    def test_which_interfaces_patterns_give(self) -> None:
        for number in range(1, 6):
            self.made(number, "swp")
        for words, wanted in ((["swp*", "!swp3"], "swp1 swp2 swp4 swp5"),
                              (["swp*,!swp*,!!swp2"], "swp2"), (["swp[12]"], "swp1 swp2"),
                              (["swp5", "*"], "swp5"), (["eth7", "swp?"], "eth7 swp1 swp2 swp3 "
                                                        "swp4 swp5")):
            live = self.live(*words, "--", "--receive-only")
            ports = [line.split(".")[1] for line in live.ask("show neighbors")
                     if ".too-many=" in line]
            self.assertEqual(" ".join(ports), wanted, words)
            live.close()
