"""Checks that no message of the audit has invisible letters, wherever its input has some."""
import unittest
from concurrent.futures import ThreadPoolExecutor
from typing import Mapping, Tuple

from auditing import HEAD, Row, audited
from lldpa.texts import printable

# a zero-width space, an override of direction, a soft hyphen, an isolate, a filler, and a tag
X = "x\u200b\u202e\u00ad\u2066\u3164\U000e0041"
PLAN = HEAD + "leaf1,swp1,srv1,eth0\n"
LIST = '{"swp1": [{"hostname": "srv1", "port": "eth0"}]}'
KNOWN = "host,port,reason,until\n"
CABLES = "device_a,termination_a,device_b,termination_b\n"
# the plan, the list, further arguments, and the content of the file `more`
CASES: Tuple[Tuple[str, str, str, str], ...] = (
    (HEAD + f"{X},1,{X},1\n", LIST, "", ""), (HEAD + f"leaf1,{X},srv1,eth0\n" * 2, LIST, "", ""),
    (HEAD + f"leaf1,{X},a,1\nb,2,leaf1,{X}\n", LIST, "", ""), (f"host,{X}\n", LIST, "", ""),
    (HEAD + f"{X * 40},1,b,1\n", LIST, "", ""), (PLAN, LIST, f"--columns host={X}", ""),
    (PLAN, LIST, f"--{X}", ""), (PLAN, LIST, X, ""),
    (PLAN, LIST, f"--stale-after {X}", ""), (PLAN, LIST, f"{X}:leaf1", ""),
    (PLAN, LIST.replace("srv1", X), "", ""), (PLAN, LIST.replace("swp1", X), "", ""),
    (PLAN, "{" + f'"{X}": 1,' * 2, "", ""), (PLAN, f"Traceback (most {X}\n{X}", "", ""),
    (PLAN, f'{{"{X}": {LIST}}}', "", ""),
    (CABLES + f'a,"{X},8",b,"7,8,9"\n', LIST, "", ""), (CABLES + f'a,{X},b,"1,1"\n', LIST, "", ""),
    (f"graph {{ a:1 -- {X} }}", LIST, "", ""), (f'{{"results": {X}}}', LIST, "", ""),
    *[(PLAN, LIST, f"--aliases more {option}", f"host,port,alias\n{rows}") for rows in (
        f"a,,{X}\nb,,{X}\n", f"{X},,{X}\n", f"a,,{X}\n{X},,b\n", f"{X}\n") for option in (
            "", "--ignore-case")],
    *[(PLAN, LIST, "--known more", rows) for rows in (
        f"{KNOWN}{X},,{X},\n", f"{KNOWN}leaf1,{X},{X},2001-01-01\n", f"{KNOWN}a,,b,{X}\n", f"{X}\n",
        f"host,port,reason,until,verdict\na,,b,,{X}\n")],
    *[(plan, LIST, "--panels more", rows) for plan in (
        PLAN, HEAD + f"leaf1,swp1,{X},{X}\n{X},R,srv1,eth0\n") for rows in (
            f"panel,front,rear\n{X},{X},{X}\n", f"panel,front,rear\n{X},F,{X}\n",
            f"panel,front,rear\n{X},F,R\n{X},F,S\n")],
)


class Invisible(unittest.TestCase):
    def test_each_message(self) -> None:
        rows = [Row("", files_of(plan, seen, more), f"plan leaf1 {words}", 0, ())
                for plan, seen, words, more in CASES]
        with ThreadPoolExecutor() as pool:
            for row, (_, lines) in zip(rows, pool.map(audited, rows)):
                with self.subTest(row=row):
                    self.assertTrue(lines)
                    self.assertEqual([line for line in lines if printable(line) != line], [])


def files_of(plan: str, seen: str, more: str) -> Mapping[str, str]:
    return {"plan": plan, "leaf1": seen, "more": more}
