"""Tests the text of switches, read by TextFSM and a template that was written for this test."""
import os
import subprocess
import sys
import unittest
from pathlib import Path
from typing import Sequence

from auditing import AUDIT, HEAD, InAFolder, without_ages
from lldpa_audit.seen.listing import SeenFault
from lldpa_audit.seen.templates import need_all

TEMPLATE = r"""Value Required LOCAL_INTERFACE (\S+)
Value CHASSIS_ID (\S+)
Value NEIGHBOR_PORT_ID (.+?)
Value NEIGHBOR_NAME (\S+)

Start
  ^Local Intf:\s+${LOCAL_INTERFACE}\s*$$
  ^Chassis id:\s+${CHASSIS_ID}\s*$$
  ^Port id:\s+${NEIGHBOR_PORT_ID}\s*$$
  ^System Name:\s+${NEIGHBOR_NAME}\s*$$ -> Record
  ^-+\s*$$
  ^Total entries displayed:
  ^\s*$$
  ^. -> Error

EOF
"""
INDEX = """Template, Hostname, Platform, Command

brief.textfsm, .*, cisco_ios, sh[[ow]] lldp nei[[ghbors]]$$
detail.textfsm, .*, cisco_ios, sh[[ow]] lldp nei[[ghbors]] det[[ail]]
detail.textfsm, .*, huawei_vrp, dis[[play]] lldp nei[[ghbor]]
"""
RULE = "-" * 48
TEXT = "".join(f"{RULE}\nLocal Intf: Gi1/0/{at}\nChassis id: 0200.5e00.530{at}\nPort id: eth0\n"
               f"System Name: host0{at}\n\n" for at in (1, 2)) + "Total entries displayed: 2\n"
PLAN = f"{HEAD}leaf1,Gi1/0/1,host01,eth0\nleaf1,Gi1/0/2,host02,eth0\n"
RIGHT = "2 cables: 2 right, 0 wrong"
NTC = ("ntc-templates (`pip install ntc-templates`, or NTC_TEMPLATES_DIR=its folder of "
       "templates)")


def has_textfsm(python: str) -> bool:
    return subprocess.run([python, "-c", "import textfsm.clitable"], stderr=subprocess.DEVNULL,
                          check=False).returncode == 0


# Debian's package is for Debian's Python
PYTHON = next(filter(has_textfsm, (sys.executable, "/usr/bin/python3")), "")


class Totals(unittest.TestCase):
    def test_texts_that_end_with_a_total(self) -> None:
        """Checks that the text of these platforms is refused if it does not end with a total."""
        for platform in ("cisco_ios", "cisco_xr", "cisco_nxos"):
            with self.assertRaisesRegex(SeenFault, "it was cut short"):
                need_all("Local Intf: Gi1\n", platform, 1)
            need_all("Total entries displayed: 1\n", platform, 1)
        need_all("Local Intf: Gi1\n", "aruba_os", 1)


class Platforms(InAFolder):
    def setUp(self) -> None:
        super().setUp()
        self.file("plan", PLAN)
        self.file("templates/index", INDEX.replace("$$", "$"))
        self.file("templates/detail.textfsm", TEMPLATE)
        self.file("leaf1", TEXT)

    def ran(self, *words: str, templates: str = "templates",
            python: Sequence[str] = (PYTHON,)) -> "list[str]":
        """Returns the lines of an audit of leaf1, standard error first."""
        given = {"NTC_TEMPLATES_DIR": templates} if templates else {}
        environment = {**os.environ, **given}
        if not templates:
            environment.pop("NTC_TEMPLATES_DIR", None)
        ran = subprocess.run([*python, AUDIT, *words, "plan", "leaf1"], cwd=self.folder,
                             env=environment, capture_output=True, text=True, check=False)
        said = ran.stderr.replace("lldpa-audit: ", "")
        return said.splitlines() + without_ages(ran.stdout).splitlines()

    @unittest.skipUnless(PYTHON, "python3-textfsm: no Python here has it")
    def test_a_text(self) -> None:
        for platform in ("cisco_ios", "cisco_ios=sh lldp neighbors detail",
                         "huawei_vrp=display lldp neighbor"):
            self.assertEqual(self.ran("--platform", platform), [RIGHT])
        self.file("leaf1", TEXT.replace("host01", "host09"))
        self.assertIn("wrong: wants host01 eth0, has host09 eth0",
                      self.ran("--platform", "cisco_ios")[0])
        self.file("leaf1", {"changed": True, "stdout": [TEXT.strip()]})
        self.assertEqual(self.ran("--platform", "cisco_ios"), [RIGHT])
        self.file("leaf1", {"Gi1/0/1": [], "Gi1/0/2": []})  # JSON is read as JSON
        self.assertEqual(self.ran("--platform", "cisco_ios")[0],
                         "leaf1  silent at all 2 links that were looked at")

    @unittest.skipUnless(PYTHON, "python3-textfsm: no Python here has it")
    def test_faults(self) -> None:
        for platform, text, why in (
                ("cisco_nxos", TEXT, "templates has no template for cisco_nxos and `show lldp "
                                     "neighbors detail`"),
                ("huawei_vrp", TEXT, "templates has no template for huawei_vrp and `show lldp "
                                     "neighbors detail`"),
                ("cisco_ios=show lldp neighbors", TEXT, "brief.textfsm: No such file or directory"),
                ("cisco_ios", f"{TEXT}leaf1#\n", "the template for cisco_ios does not fit: State "
                                                 "Error raised"),
                ("cisco_ios", "Total entries displayed: 0\n", "it is an empty list: ntc-templates"),
                ("cisco_ios", TEXT[:-1], "its last line is incomplete: it was cut short"),
                ("cisco_ios", TEXT[:TEXT.index("Total")],
                 "it was cut short: it does not end with `Total entries displayed`"),
                ("cisco_ios", TEXT + TEXT, "it has 2 lists of neighbors: give only one"),
                ("cisco_ios", TEXT.replace(": 2", ": 3"),
                 "it says that it has 3 entries, but the template finds 2"),
                ("cisco_ios", "sh: ssh: command not found\n", "the command that wrote it failed")):
            with self.subTest(platform=platform, text=text):
                self.file("leaf1", text)
                self.assertIn(why, self.ran("--platform", platform)[0])
        self.file("leaf1", TEXT)
        self.assertIn("gone/index: No such file", self.ran("--platform", "x", templates="gone")[0])

    @unittest.skipUnless(PYTHON, "python3-textfsm: no Python here has it")
    def test_the_platform_in_a_name(self) -> None:
        """Checks that each file may have a platform of its own, and that --platform gives it a
        command, or is for the files that name none."""
        (self.folder / "leaf1").unlink()
        self.file("plan", f"{PLAN}leaf2.lab,Gi1/0/1,host03,eth0\nleaf3,Gi1/0/1,host04,eth0\n")
        for name, host in (("leaf1.cisco_ios.txt", "host01"), ("leaf2.lab.huawei_vrp", "host03"),
                           ("leaf3.txt", "host04")):
            self.file(f"leaf1/{name}", TEXT.replace("host01", host))
        words = ["--planned-only", "--platform", "cisco_ios"]
        self.assertIn("no template for huawei_vrp", self.ran(*words)[0])
        found = self.ran(*words, "--platform", "huawei_vrp=display lldp neighbor")
        self.assertEqual(found, ["4 cables: 4 right, 0 wrong"])

    def test_what_is_missing(self) -> None:
        """Checks that the fault names what to install."""
        without = ("/usr/bin/python3", "-S")  # a Python without Debian's packages
        self.assertIn("--platform needs textfsm (Debian: `apt install python3-textfsm`)",
                      self.ran("--platform", "cisco_ios", python=without)[0])
        self.assertIn("use `show lldp neighbors detail | json`, or --platform",
                      self.ran(python=without)[0])

    @unittest.skipUnless(PYTHON, "python3-textfsm: no Python here has it")
    def test_missing_templates(self) -> None:
        package = Path(self.folder, "package")
        self.assertIn(f"--platform needs {NTC}",
                      self.ran("--platform", "cisco_ios", templates="")[0])
        self.file("package/ntc_templates/__init__.py", "")
        os.rename(self.folder / "templates", package / "ntc_templates" / "templates")
        os.environ["PYTHONPATH"] = str(package)
        self.addCleanup(os.environ.pop, "PYTHONPATH")
        self.assertEqual(self.ran("--platform", "cisco_ios", templates=""), [RIGHT])
