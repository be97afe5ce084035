"""Tests the page of a report: its content, and its width in a browser if one is installed."""
import html
import json
import re
import shutil
import subprocess
import unittest
from collections import Counter

import rack
import shapes
from auditing import HEAD, InAFolder, run
from lldpa_audit.report.page import page_of
from lldpa_audit.report.report import Report
from patience import HANGS
from test_report import report_of

BROWSER = shutil.which("chromium") or shutil.which("chromium-browser")
LONG = "a-long-name-of-a-host-as-some-have-them.rack17.row3.dc1.example.net"

# a browser reports how wide the page and its window are, and how many tables of faults there are
ASKED = """<script>
parent.document.documentElement.setAttribute('data-widths', JSON.stringify([
  document.documentElement.scrollWidth, window.innerWidth,
  document.querySelectorAll('table.faults').length]));
</script>"""


def many_faults(ends: int, hosts: int = 20) -> Report:
    """Returns a report of this many links of this many leafs, with faults of several kinds."""
    known = ["= ", "= other{0} p", "= {1}{0} eth0, other p", "= other{0} p, x 1, x 2, x 3, x 4",
             "= {1}{0} eth0, {1}{0} eth0"]
    return report_of("; ".join(f"leaf{at % hosts} swp{at} - {LONG}{at} eth0" for at in range(ends)),
                     "; ".join(f"leaf{at % hosts} swp{at} {known[at % 6].format(at, LONG)}"
                               for at in range(ends) if at % 6 < 5))



class Elements:
    """The elements of a page, its texts and the addresses that it links to."""

    def __init__(self, page: str) -> None:
        self.tags = Counter(re.findall(r"<(\w+)", page))
        self.texts = [html.unescape(text).strip() for text in re.split(r"<[^>]*>", page)]
        self.addresses = re.findall(r'(?:src|href)="?([^">]*)', page)


class Content(InAFolder):
    def test_rack(self) -> None:
        page, show = self.folder / "page.html", self.file("show", rack.text_of_show())
        more = self.file("more", self.folder.joinpath("plan.csv").read_text() + "leaf2,1,srv,1\n")
        ran = run(more, "--host", "leaf1", "--html", str(page), show)
        self.assertEqual(ran.returncode, 1)
        elements = Elements(page.read_text())
        for text in ("line 5", "2 swapped, 1 silent, 1 wrong, 1 extra",
                     "Hosts that were not looked at: 2", *"  ".join(rack.LINES[:4]).split("  ")):
            self.assertIn(text, elements.texts)
        self.assertEqual(elements.tags["script"], 0)
        beside = re.findall(r"</(?:h[12]|p|table|tr|div|section)>([^<]*)", page.read_text())
        self.assertEqual({text.strip() for text in beside}, {""})
        repairs = [f"#r{number}" for number in (1, 1, 2, 3, 4)]
        self.assertEqual(elements.addresses, ["#h0", *repairs])

    def test_moved_cable(self) -> None:
        """Checks that a moved cable is one line of the output, the page and the JSON, although both
        its ends see that it was moved."""
        plan = self.file("moves", f"{HEAD}leaf1,swp7,host07,eth0\nleaf1,swp8,host08,eth0\n")
        leaf1 = self.file("l", shapes.napalm("swp17 host07 eth0\nswp8 host08 eth0\n"))
        host07 = self.file("h", shapes.napalm("eth0 leaf1 swp17\n"))
        lists = [f"leaf1:{leaf1}", f"host07:{host07}"]
        text = "moved: host07 eth0 is at leaf1 swp17, wants leaf1 swp7"
        page = self.folder / "page.html"
        ran = run(plan, *lists, "--html", str(page))
        self.assertEqual(ran.stdout.splitlines()[:-1], [f"leaf1 swp7  {text}"])
        self.assertEqual(len(re.findall('<tr id="r', page.read_text())), 1)
        self.assertIn(text, Elements(page.read_text()).texts)
        found = json.loads(run(plan, *lists, "--json").stdout)
        self.assertEqual([one["text"] for one in found["repairs"]], [text])
        self.assertEqual([(one["port"], one["moved_to"]["port"], one["repair"])
                          for one in found["ends"] if one["verdict"] != "right"],
                         [("eth0", "swp17", 1), ("swp7", "swp17", 1)])

    def test_names_that_would_be_markup(self) -> None:
        page = "".join(page_of(report_of("<b>a 1& - \"' <", "<b>a 1& = <i>\udcff\x1b </table>")))
        elements = Elements(page)
        self.assertFalse({"i", "script"} & set(elements.tags))
        self.assertIn("wrong: wants \"' <, has <i>\\xff\\x1b </table>", elements.texts)
        self.assertNotIn("\x1b", page)


@unittest.skipUnless(BROWSER, "chromium: it is not installed")
class InABrowser(InAFolder):
    """Checks that the page is not wider than a wide or a narrow window."""

    def test_thousand_faults(self) -> None:
        page = "".join(page_of(many_faults(1000))).replace("</body>", f"{ASKED}</body>")
        for width in (1280, 400):  # in a frame, since a browser's window has a minimum width
            frame = f'<iframe width={width} height=900 srcdoc="{html.escape(page)}"></iframe>'
            file = self.file("page.html", f"<!DOCTYPE html><html><body>{frame}</body></html>")
            ran = subprocess.run(
                [str(BROWSER), "--headless", "--no-sandbox", "--disable-gpu", "--hide-scrollbars",
                 f"--user-data-dir={self.folder}/browser", "--window-size=1400,1000",
                 "--dump-dom", f"file://{file}"],
                capture_output=True, text=True, timeout=HANGS, check=False)
            found = re.search(r'data-widths="([^"]*)"', ran.stdout)
            assert found is not None, ran.stderr
            wide, window, tables = json.loads(found[1])
            self.assertEqual((window, tables), (width, 20))
            self.assertLessEqual(wide, window)
