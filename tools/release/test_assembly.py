"""Tests tools/release/plain.py, which makes assembly for GNU as."""

import platform
import re
import shutil
import subprocess
import sys
import tempfile
import unittest
from pathlib import Path

from served import REPOSITORY

PLAIN = str(REPOSITORY / "tools" / "release" / "plain.py")
FROM = '''\t.file\t"rattle"
\t.section\t".text.a::b","ax",@progbits
\t.globl\tmain                            # -- Begin function main
"a::b":                                 # @"a::b"
\tcallq\t"a:b"
\tjmp\t"a::<#1>"
a.b:
\tretq
"a:b":
\tretq
"a::<#1>":
\tleaq\t.Ltext(%rip), %rax
\tretq
main:
\tcallq\ta.b
\tretq
.Ltext:
\t.asciz\t"# no \\"comment\\" \\"a::b\\""
\t.ident\t"rattle logic=00"
\t.section\t".note.GNU-stack","",@progbits
\t.addrsig
\t.addrsig_sym "a::b"
'''


def plain(text: str, head: str) -> str:
    with tempfile.NamedTemporaryFile("w") as file:
        file.write(head)
        file.flush()
        return subprocess.run([sys.executable, "-B", PLAIN, file.name], input=text, text=True,
                              stdout=subprocess.PIPE, check=True).stdout


class Plain(unittest.TestCase):
    def test_names_stay_different(self) -> None:
        labels = re.findall(r"^([\w.]+):", plain(FROM, "# head\n"), re.M)
        self.assertEqual(labels, ["a.b_", "a.b", "a.b__", "a.1", "main", ".Ltext"])

    def test_texts_flags_and_the_stack_section_stay(self) -> None:
        lines = plain(FROM, "# head\n").splitlines()
        self.assertEqual(lines[:3], ["# head", '\t.file\t"rattle"',
                                     '\t.section\t.text.a.b,"ax",@progbits'])
        self.assertIn('\t.asciz\t"# no \\"comment\\" \\"a::b\\""', lines)
        self.assertEqual(lines[-2:], ['\t.ident\t"rattle logic=00"',
                                      '\t.section\t".note.GNU-stack","",@progbits'])

    def test_comments_go(self) -> None:
        self.assertEqual(plain("\tmov\tx0, #1 // one\n// two\n", "// head\n"),
                         "// head\n\tmov\tx0, #1\n")

    @unittest.skipUnless(platform.machine() == "x86_64", "x86-64: it is for this processor")
    @unittest.skipUnless(shutil.which("gcc"), "gcc: it is not installed")
    def test_gcc_takes_it(self) -> None:
        with tempfile.TemporaryDirectory() as folder:
            file = Path(folder, "one.s")
            file.write_text(plain(FROM, "# head\n"))
            words = ["gcc", "-Wa,--fatal-warnings", "-c", file, "-o", f"{folder}/one.o"]
            made = subprocess.run(words,
                                  stderr=subprocess.PIPE, text=True, check=False)
            self.assertEqual((made.returncode, made.stderr), (0, ""))


if __name__ == "__main__":
    unittest.main()
