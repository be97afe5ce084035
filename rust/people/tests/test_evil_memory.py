"""Tests what a client costs that lldpa-live, which was taken over, answers with up to 200 MB: at
most 100 MB of memory. It runs alone, since a client waits 30 seconds."""

import unittest

from patience import by_the_clock
from test_evil import ASK, CLI, Evil, neighbors, of_agent

MEGABYTE = 1_000_000
NATIVE = [f"{ASK} {words}" for words in ("neighbors", "show neighbors", "interfaces", "metrics",
                                         "live", "show statistics")]
IN_PYTHON = [f"{ASK} {words}" for words in ("details", "--json neighbors", "--json interfaces")]
IN_PYTHON += [f"{CLI} -f {form}" for form in ("plain", "keyvalue", "json", "json0", "xml")]
SOME = [f"{ASK} neighbors", f"{ASK} metrics", f"{ASK} show chassis", f"{ASK} --json live",
        f"{ASK} --json neighbors", f"{CLI} -f json"]


class Memory(Evil):
    def test_of_empty_lines(self) -> None:
        self.holds({b"": [b"\n" * 24_000_000]}, SOME)

    @by_the_clock
    def test_of_neighbors_that_said_many_short_things(self) -> None:
        said = b"unknown.9=\n" * 740
        answers = of_agent(neighbors(said))
        self.assertGreater(sum(map(len, answers[b"show neighbors"])), 200 * MEGABYTE)
        self.holds(answers, NATIVE[:4], 0)
        self.holds(of_agent(neighbors(said, 2)), [*NATIVE, *IN_PYTHON], 0)

    @by_the_clock
    def test_of_neighbors_that_said_long_things(self) -> None:
        name = rb"\x01" * 255
        said = b"chassis.name=%b\nchassis.descr=%b\nport.descr=%b\n" % (name, name, name)
        said += b"org.00120f.250=%b\n" % (b"00" * 507)
        self.holds(of_agent(neighbors(said)), NATIVE, 0)
        self.holds(of_agent(neighbors(said, 4)), IN_PYTHON, 0)

    def test_of_too_many_neighbors(self) -> None:
        many = [b"lldp.a.neighbors=99999999\nlldp.a.octets=1\nlldp.a.too-many=no\n"]
        many += [b"".join(b"lldp.a.%d.%b\n" % (place, line) for line in (
            b"chassis.local=1", b"port.local=1", b"ttl=1", b"expires=1"))
            for place in range(1, 200_000)]
        self.holds(of_agent(many), SOME)

    def test_of_lines_that_are_not_printable(self) -> None:
        self.holds({b"": [b"\xff" * 8000 + b"\n"] * 5_000}, SOME)

    @by_the_clock
    def test_a_watch_keeps_no_more_than_40_megabytes(self) -> None:
        answers = of_agent(neighbors(b"unknown.9=\n" * 740, 40))
        programs = [f"{ASK} watch", f"{ASK} --json watch", f"{CLI} watch"]
        native, *others = self.holds(answers, programs, 1)
        large = ": the neighbors say more than 40 MB: watch fewer ports\n"
        late = ": no complete answer within 30 seconds\n"
        self.assertTrue(native.said.endswith(large), native)
        for cost in others:  # a busy machine may not read so much in time
            self.assertTrue(cost.said.endswith((large, late)), cost)


if __name__ == "__main__":
    unittest.main()
