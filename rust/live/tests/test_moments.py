"""Tests frames and seconds that lldpa-live gets late: their order, and to which port they go."""

import time

from lldpa import read_show
from loads import Sender
from patience import eventually
from running_live import Live, OnLinks
from served import numbered
from wires import Peer

LONG = 600


class Late(OnLinks):
    links = 2

    def logged(self) -> "list[str]":
        """Returns the lines of the log's file, without the times."""
        text = next(self.log.iterdir()).read_text()
        return [line for line in text.splitlines() if not line.startswith("#")]

    def test_seconds_that_passed_come_before_the_frame_after_them(self) -> None:
        live = self.recorded("eth0", "--", "--receive-only")
        peer, first, second = self.peer(), numbered(1, 1), numbered(2, LONG)
        live.spend(2)  # the kernel begins to stamp frames some time after it is asked to
        self.becomes_neighbor(live, numbered(3, 2), peer)  # it ages out at one of these seconds
        with live.stopped():
            peer.send(first)
            time.sleep(3.2)
            peer.send(second)
        self.assertTrue(eventually(lambda: f"rx eth0 {second.hex()}" in self.logged()))
        lines = self.logged()
        between = lines[lines.index(f"rx eth0 {first.hex()}") + 1:
                        lines.index(f"rx eth0 {second.hex()}")]
        ticks = sum(int((line + " 1").split()[1]) for line in between)
        self.assertEqual({line.split()[0] for line in between}, {"tick"})
        self.assertIn(ticks, (3, 4))
        self.assertIn("lldp.eth0.ageouts=2", live.ask("show statistics"))

    def test_a_frame_in_time_comes_before_the_seconds_that_would_forget_its_neighbor(self) -> None:
        live = self.live("--events", "eth0", "--", "--receive-only")
        peer = self.peer()
        live.spend(2)
        self.becomes_neighbor(live, numbered(1, 4), peer)
        with live.stopped():
            for _ in range(5):
                time.sleep(1)
                peer.send(numbered(1, 4))
        live.spend(1)
        self.assertEqual(live.neighbors(), 1)
        self.assertIn("lldp.eth0.ageouts=0", live.ask("show statistics"))
        self.assertNotIn("gone", live.errors())


class TakenOut(OnLinks):
    """Tests ports that go while frames of other ports wait."""

    links = 1
    guests = 5

    def come(self, number: int) -> Peer:
        self.wires.add_guest(f"vnet{number}", f"far{number}")
        return self.peer(f"far{number}")

    def speak(self, peers: "list[Peer]", gone: int = -1) -> None:
        """Lets each guest that is there speak in its own name, which has its number."""
        for _ in range(40):
            for number, peer in enumerate(peers):
                if number != gone:
                    peer.send(numbered(100 + number, LONG))

    def test_no_frame_goes_to_the_port_that_took_its_place(self) -> None:
        peers = [self.come(number) for number in range(self.guests)]
        live = self.live("vnet*", "eth0", "--", "--receive-only")
        strangers = [numbered(number % 90, LONG + number) for number in range(2000)]
        Sender(self, self.wires, ["peer0"], strangers)
        for turn in range(4):
            gone = turn % 2
            self.speak(peers)
            self.wires.remove_link(f"vnet{gone}")
            last = time.monotonic() + 4  # the port goes 2 seconds after its interface
            while time.monotonic() < last:
                self.speak(peers, gone)
            self.assertTrue(eventually(lambda: f".vnet{gone}." not in " ".join(live.ask("live"))))
            self.are_in_place(live)
            peers[gone] = self.come(gone)
            live.comes_to(f"live.vnet{gone}.link=up")
        self.speak(peers)
        self.assertTrue(eventually(lambda: all(live.neighbors(f"vnet{number}") == 1
                                               for number in range(self.guests))))
        self.are_in_place(live)

    def test_frames_that_wait_when_a_port_goes_reach_their_own_ports(self) -> None:
        for until in (1.94, 1.96, 1.98):  # the port goes after 2 seconds, while frames wait
            peers = [self.come(number) for number in range(self.guests)]
            live = self.live("vnet*", "eth0", "--", "--receive-only")
            self.wires.remove_link("vnet0")
            began = time.monotonic()
            live.comes_to("live.vnet0.interface=awaited")
            time.sleep(max(0, began + 1.5 - time.monotonic()))
            with live.stopped():
                for ttl in range(800):
                    for number in range(1, self.guests):
                        peers[number].send(numbered(100 + number, LONG + ttl))
                time.sleep(max(0, began + until - time.monotonic()))
            self.assertTrue(eventually(lambda: ".vnet0." not in " ".join(live.ask("live"))))
            self.are_in_place(live)
            self.assertEqual([live.neighbors(f"vnet{number}") for number in range(1, self.guests)],
                             [1] * (self.guests - 1))
            live.close()
            for number in range(1, self.guests):
                self.wires.remove_link(f"vnet{number}")

    def are_in_place(self, live: Live) -> None:
        """Checks that each guest's port has at most the guest itself."""
        for one in read_show(live.ask("show neighbors")).neighbors:
            if one.port != "eth0":
                self.assertEqual(one.port_id.text, f"p10{one.port[-1]}")
