"""Tests lldpa-live on real links: late seconds and frames, and changes of links and interfaces."""

import re
import time

from running_live import Live, OnLinks
from patience import by_the_clock, eventually
from served import numbered


class TestTime(OnLinks):
    """Tests that frames and seconds reach the agent in order, even if lldpa-live is late."""

    @by_the_clock
    def test_stopped_lldpa_live_ages_out_nobody_who_was_heard(self) -> None:
        live, peer = self.receiving()
        self.becomes_neighbor(live, numbered(1, ttl=10), peer)
        with live.stopped():
            for _ in range(6):
                time.sleep(2)
                sent = now()
                peer.send(numbered(1, ttl=10))
        shown = live.ask("show neighbors")
        self.assertIn("lldp.eth0.neighbors=1", shown)
        self.assertIn("lldp.eth0.ageouts=0", live.ask("show statistics"))
        self.assertGreater(seconds_left(shown), 10 - (now() - sent) - 1)

    def test_stopped_lldpa_live_ages_out_who_was_not_heard(self) -> None:
        live, peer = self.receiving()
        peer.send(numbered(1, ttl=2))
        self.assertTrue(eventually(lambda: "lldp.eth0.received=1" in live.ask("show statistics")))
        with live.stopped():
            time.sleep(3.2)
            sent = now()
            peer.send(numbered(2))
        shown = live.ask("show neighbors")
        self.assertIn("lldp.eth0.neighbors=1", shown)
        self.assertIn("lldp.eth0.1.port.ifname=p2", shown)
        self.assertGreater(seconds_left(shown), 120 - (now() - sent) - 1)

    def test_no_second_is_lost_or_told_twice(self) -> None:
        live = self.recorded("eth0")
        begins = begins_of_its_seconds(live)
        with live.stopped():
            time.sleep(2.5)
        begins += begins_of_its_seconds(live)
        self.assertGreater(min(latest for _, latest in begins),
                           max(earliest for earliest, _ in begins))
        told = live.number("seconds")
        self.assertEqual(live.ended(), 0)
        ticks = re.findall("^tick ?(.*)$", next(self.log.iterdir()).read_text(), re.M)
        self.assertIn(sum(int(seconds or 1) for seconds in ticks) - told, (0, 1))


class TestQuestions(OnLinks):
    links = 2

    def test_show_sees_every_frame_that_came_before_it(self) -> None:
        live = self.live("eth0", "eth1", "--", "--receive-only", "--max-neighbors", "128")
        peers = [self.peer("peer0"), self.peer("peer1")]
        for round_ in range(5):
            with live.stopped():
                for number in range(120):
                    for peer in peers:
                        peer.send(numbered(number, 1000 + round_).ljust(1514, b"\0"))
            shown = live.ask("show neighbors")
            for port in ("eth0", "eth1"):
                self.assertIn(f"lldp.{port}.neighbors=120", shown)
            self.assertEqual(sum(line.endswith(f".ttl={1000 + round_}") for line in shown), 240)


class TestLinks(OnLinks):
    def test_link_that_goes_and_comes(self) -> None:
        peer, live = self.peer(), self.live("eth0")
        self.assertIsNotNone(peer.hears())
        self.becomes_neighbor(live, numbered(1), peer)
        self.wires.set_link("peer0", "down")
        live.comes_to("live.eth0.link=down")
        self.assertEqual(live.neighbors(), 1)
        self.wires.set_link("peer0", "up")
        live.comes_to("live.eth0.link=up")
        self.assertIsNotNone(peer.hears())

    def test_forget_on_down_empties_the_table_and_keeps_the_status(self) -> None:
        live, peer = self.live("--forget-on-down", "eth0"), self.peer()
        for status, neighbors, shutdowns in (("rx-and-tx", 1, 0), ("rx-only", 1, 1),
                                             ("disabled", 0, 1)):
            live.ask(f"configure ports eth0 lldp status {status}")
            peer.send(numbered(1))
            # pylint: disable-next=cell-var-from-loop
            self.assertTrue(eventually(lambda: live.neighbors() == neighbors), status)
            self.wires.set_link("eth0", "down")
            live.comes_to("live.eth0.link=down")
            self.assertEqual(live.neighbors(), 0)
            self.assertIn(f"configuration.eth0.status={status}", live.ask("show configuration"))
            self.assertIn(f"lldp.eth0.shutdowns={shutdowns}", live.ask("show statistics"))
            before = live.told("show statistics", "lldp.eth0.sent")
            self.wires.set_link("eth0", "up")
            live.comes_to("live.eth0.link=up")
            self.assertTrue(eventually(self.wires.all_up))
            if status == "rx-and-tx":  # a port sends a shutdown frame only after another frame
                self.assertTrue(eventually(
                    # pylint: disable-next=cell-var-from-loop
                    lambda: live.told("show statistics", "lldp.eth0.sent") != before))

    def test_interface_that_goes_and_comes_back(self) -> None:
        live = self.live("eth0", "--", "--receive-only")
        self.wires.remove_link("eth0")
        self.assertTrue(live.says("eth0: the interface is gone; waiting for the next of that name"))
        self.assertIn("live.eth0.interface=awaited", live.ask("live"))
        self.assertIn("live.eth0.link=down", live.ask("live"))
        self.wires.add_link(0)
        self.assertTrue(live.says("eth0: the interface is there, and in use"))
        live.comes_to("live.eth0.link=up")
        self.becomes_neighbor(live)

    def test_interface_that_is_renamed_and_named_back(self) -> None:
        live, peer = self.receiving()
        self.wires.set_link("eth0", "down")
        self.wires.set_link("eth0", "name", "ethX")
        self.wires.set_link("ethX", "up")
        self.assertTrue(live.says("eth0: the interface is now ethX"))
        self.assertIn("live.eth0.interface=awaited", live.ask("live"))
        self.assertTrue(eventually(self.wires.all_up))
        peer.send(numbered(1))
        time.sleep(0.2)
        self.assertEqual(live.neighbors(), 0)
        self.assertIn("lldp.eth0.received=0", live.ask("show statistics"))
        self.wires.set_link("ethX", "down")
        self.wires.set_link("ethX", "name", "eth0")
        self.wires.set_link("eth0", "up")
        live.comes_to("live.eth0.link=up")
        self.assertTrue(eventually(self.wires.all_up))
        self.becomes_neighbor(live, numbered(2), peer)

    def test_frames_of_a_link_that_went_and_came_meanwhile_count(self) -> None:
        live, peer = self.receiving()
        for count, state in ((1, "down"), (2, "up")):
            with live.stopped():
                if state == "down":
                    peer.send(numbered(count))
                self.wires.set_link("eth0", state)
                if state == "up":
                    self.assertTrue(eventually(self.wires.all_up))
                    peer.send(numbered(count))
            self.assertTrue(eventually(lambda: live.neighbors() == count), state)
            live.comes_to(f"live.eth0.link={state}")


class TestSending(OnLinks):
    def test_a_port_that_a_command_disables_says_goodbye(self) -> None:
        live, peer = self.live("eth0"), self.peer()
        for status in ("rx-only", "disabled"):
            live.ask("configure ports eth0 lldp status rx-and-tx")
            self.assertIsNotNone(peer.hears(ttl=121))
            live.ask(f"configure ports eth0 lldp status {status}")
            self.assertIsNotNone(peer.hears(ttl=0), status)

    @by_the_clock
    def test_fast_start(self) -> None:
        peer = self.peer()
        self.live("eth0")
        self.assertIsNotNone(peer.hears())
        peer.send(numbered(1))
        began = time.monotonic()
        self.assertTrue(all(peer.hears() for _ in range(4)))
        self.assertLess(time.monotonic() - began, 5)

    def test_interface_that_is_replaced_during_a_standstill_is_used(self) -> None:
        live = self.live("eth0", "--", "--receive-only")
        for _ in range(3):
            with live.stopped():
                self.wires.remove_link("eth0")
                self.wires.add_link(0)
            live.comes_to("live.eth0.link=up")
        self.peer().send(numbered(1))
        self.assertTrue(eventually(lambda: live.neighbors() == 1))
        self.assertNotIn("cannot be used", live.errors())

    @by_the_clock
    def test_two_lldpa_lives_see_each_other_and_take_leave(self) -> None:
        here, there = self.live("eth0"), self.live("peer0", side="there")
        self.assertTrue(eventually(here.neighbors) and eventually(lambda: there.neighbors("peer0")))
        self.assertEqual(here.ended(), 0)
        self.assertTrue(eventually(lambda: not there.neighbors("peer0"), 1))

    @by_the_clock
    def test_of_missed_seconds_the_last_frame_goes_out(self) -> None:
        peer, live = self.peer(), self.live("eth0")
        live.ask("configure lldp tx-interval 2")
        self.assertIsNotNone(peer.hears())
        with live.stopped():
            while peer.hears(0.1):
                pass
            time.sleep(8)
        self.assertIsNotNone(peer.hears(10))
        self.assertIsNone(peer.hears(0.5))
        self.assertTrue(eventually(lambda: live.number("eth0.left-out") >= 1))


def now() -> float:
    return time.clock_gettime(time.CLOCK_BOOTTIME)


def seconds_left(shown: list[str]) -> int:
    """Returns the seconds until the first of the shown neighbors ages out."""
    return next(int(line.split("=")[1]) for line in shown if ".expires=" in line)


def begins_of_its_seconds(live: Live) -> list[tuple[float, float]]:
    """Reads lldpa-live's count of seconds for 1.2 seconds. Returns for each reading the interval in
    which the count began. All intervals overlap if lldpa-live counts each second exactly once."""
    last, begins = now() + 1.2, []
    while (before := now()) < last:
        live.ask("show chassis")  # it answers after the seconds up to now
        told = live.number("seconds")
        begins.append((before - told - 1, now() - told))
        time.sleep(0.02)
    return begins
