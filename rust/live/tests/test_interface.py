"""Tests which frames of an interface reach the agent, and which are counted."""


from running_live import Live, OnLinks
from patience import eventually
from served import numbered
from wires import ip

LONGEST_FRAME = 1514
OTHERS = "ignores LLDP frames that are tagged, to another address or longer than 1,514 octets"


class TestFrames(OnLinks):
    """Tests frames from a sender at the other end of a link."""

    def setUp(self) -> None:
        super().setUp()
        for end in ("eth0", "peer0"):
            self.wires.set_link(end, "mtu", "9000")
        self.sender = self.peer()
        self.port = self.live("eth0", "--", "--receive-only")

    def takes(self, number: int, octets: bytes) -> bool:
        """True if a frame adds this neighbor before the next frame adds neighbor 99."""
        self.sender.send(octets)
        self.sender.send(numbered(99))
        name = f"ifname=p{number}"
        self.assertTrue(eventually(lambda: "ifname=p99" in " ".join(self.port.ask("live"))))
        is_there = any(line.endswith(name) for line in self.port.ask("live"))
        for gone in (99, number):
            self.sender.send(numbered(gone, 0))
        self.assertTrue(eventually(lambda: self.port.neighbors() == 0))
        return is_there

    def test_what_is_taken_and_what_is_counted(self) -> None:
        frame = numbered(1)
        self.assertTrue(self.takes(1, frame))
        self.assertTrue(self.takes(1, frame.ljust(LONGEST_FRAME, b"\0")))
        self.assertEqual(self.port.number("eth0.other-frames"), 0)
        others = (frame[:12] + bytes.fromhex("81000005") + frame[12:],
                  frame[:12] + bytes.fromhex("88a80005") + frame[12:],
                  bytes.fromhex("0180c2000003") + frame[6:],
                  bytes.fromhex("0180c2000000") + frame[6:],
                  frame.ljust(LONGEST_FRAME + 1, b"\0"), frame.ljust(9000, b"\0"))
        for count, other in enumerate(others, 1):
            self.assertFalse(self.takes(1, other), other[:20])
            self.assertTrue(eventually(lambda: self.port.number("eth0.other-frames") == count),
                            other[:20])
        for other in (frame[:12] + b"\x08\x00" + frame[14:], b"\xff" * 6 + frame[6:],
                      bytes.fromhex("0180c2000001") + frame[6:]):
            self.assertFalse(self.takes(1, other), other[:20])
        self.assertEqual(self.port.number("eth0.other-frames"), len(others))
        self.assertEqual(self.port.errors().count(f"eth0: {OTHERS}"), 1)
        received = 2 * 4 + 3 * (len(others) + 3)  # including those that `takes` sends
        self.assertIn(f"lldp.eth0.received={received}", self.port.ask("show statistics"))

    def test_what_this_host_sends_is_not_taken(self) -> None:
        self.port.ask("configure ports eth0 lldp status rx-and-tx")
        self.peer("eth0").send(numbered(2))
        self.assertIsNotNone(self.sender.hears())
        self.assertIsNotNone(self.sender.hears())
        self.assertIn("lldp.eth0.received=0", self.port.ask("show statistics"))

    def test_interface_in_a_bridge_is_heard(self) -> None:
        ip("-n", self.wires.here, "link", "add", "br0", "type", "bridge")
        ip("-n", self.wires.here, "link", "set", "br0", "up")
        self.wires.set_link("eth0", "master", "br0")
        self.assertTrue(self.takes(1, numbered(1)))

    def test_a_question_comes_after_each_frame_that_came_before_it(self) -> None:
        for count in range(1, 101):
            self.sender.send(numbered(count, 1000 + count))
            self.assertIn(f"lldp.eth0.received={count}", self.port.ask("show statistics"))


class TestNews(OnLinks):
    """Tests that lldpa-live asks for the state of interfaces again if the kernel lost messages."""

    links = 2

    def test_what_the_kernel_lost_is_asked_for(self) -> None:
        live = self.live("eth0", "eth1", "--", "--receive-only")
        with live.stopped():
            for _ in range(300):
                self.wires.set_link("eth1", "down")
                self.wires.set_link("eth1", "up")
            self.wires.remove_link("eth0")
            self.wires.set_link("eth1", "down")
        self.assertTrue(eventually(lambda: state_of(live) == ["awaited", "down", "down"]))
        self.wires.add_link(0)
        self.wires.set_link("eth1", "up")
        self.assertTrue(eventually(lambda: state_of(live) == ["present", "up", "up"]))
        self.becomes_neighbor(live)


def state_of(live: Live) -> list[str]:
    """Returns whether the first interface is present, and the state of both links."""
    return [live.told("live", key) for key in ("live.eth0.interface", "live.eth0.link",
                                               "live.eth1.link")]
