#!/usr/bin/env python3
"""Tests of ./list. Run:  python3 tools/list_test.py

Nothing is proved: a stand-in for the kit's rt builds programs that say their names and count their input's bytes, and refuse an input with a number as its
last line."""
import os
import shutil
import subprocess
import tempfile
import unittest

TOP = os.path.join(os.path.dirname(os.path.realpath(__file__)), "..")
RT = """#!/bin/sh
[ "$1" = run ] && [ $# -eq 1 ] || exit 2
name=${PWD##*/}
mkdir -p out
sleep 0.1
echo 'rt: chose --jobs 2 for lists'
sleep 2.5
[ ! -e ../../broken ] || exit 1
cp ../../program "out/$name"
chmod +x "out/$name"
"""
PROGRAM = """#!/bin/sh
text=$(cat | tr -d '\\0')
case $text in
*refused*) echo "refused ${text##*refused }" ;;
*) printf '%s %s\\n' "${0##*/}" "${#text}" ;;
esac
"""
ELF = "\x7fELF"


class List(unittest.TestCase):
    def setUp(self):
        self.top = tempfile.mkdtemp()
        self.addCleanup(shutil.rmtree, self.top)
        shutil.copy(os.path.join(TOP, "list"), self.top)
        self.write("crates.txt", "lists:\nelf: lists\nlisting: lists io\nlisting_elf: elf lists io\nother: lists\n")
        for path in ("lists/src/lib.rt", "listing/src/main.rt", "listing_elf/src/main.rt"):
            self.write(f"crates/{path}", "")
        self.write("program", PROGRAM)
        self.write("bin/rt", RT)
        os.chmod(os.path.join(self.top, "bin/rt"), 0o755)
        self.write("deposit", "x" * 512)
        self.write("file", ELF + "x" * 60)

    def write(self, name, text):
        path = os.path.join(self.top, name)
        os.makedirs(os.path.dirname(path), exist_ok=True)
        with open(path, "w", encoding="utf-8") as file:
            file.write(text)

    def run_list(self, *words, kit=True):
        path = (os.path.join(self.top, "bin") + ":" if kit else "") + "/usr/bin:/bin"
        ran = subprocess.run(["./list", *words], cwd=self.top, env={"PATH": path}, capture_output=True, text=True, check=False)
        return ran.returncode, ran.stdout.strip(), ran.stderr

    def test_builds_once_and_again_after_a_change(self):
        status, out, said = self.run_list("deposit")
        self.assertEqual((status, out), (0, "listing 512"))
        self.assertIn("proving its 2 crates", said)
        self.assertIn("0 of 2 crates proved, now lists (0 min 0", said)
        self.assertEqual(self.run_list("deposit"), (0, "listing 512", ""))
        self.write("crates/lists/src/lib.rt", "// newer")
        self.assertIn("may be older than its sources", self.run_list("deposit")[2])
        self.assertEqual(self.run_list("deposit"), (0, "listing 512", ""))

    def test_an_elf_file_has_a_program_of_its_own(self):
        status, out, said = self.run_list("file")
        self.assertEqual((status, out), (0, "listing_elf 64"))
        self.assertIn("proving its 3 crates", said)
        self.assertEqual(os.listdir(os.path.join(self.top, "crates/listing_elf/out")), ["listing_elf"])
        self.assertEqual(self.run_list("file"), (0, "listing_elf 64", ""))
        for text in ("", "\x7fEL", "x" + ELF):
            self.write("deposit", text)
            self.assertEqual(self.run_list("deposit")[:2], (0, f"listing {len(text)}"))

    def test_refusals_in_words(self):
        self.run_list("file")
        said = "list: 26: the file's tables, names or sizes break a rule (docs/SPECIFICATION.md, S118 to S121)\n"
        self.write("file", ELF + "refused 26 0 0")
        self.assertEqual(self.run_list("file"), (0, "refused 26 0 0", said))
        self.write("file", ELF + "refused 9 4 0")
        self.assertIn("no symbols: section 4 (", self.run_list("file")[2])
        self.write("file", ELF + "refused 10 4 7")
        self.assertIn(": section 4, symbol 7 (", self.run_list("file")[2])
        for number in range(1, 27):
            self.write("file", ELF + f"refused {number} 0 0")
            status, out, said = self.run_list("file")
            self.assertEqual((status, out), (0, f"refused {number} 0 0"))
            self.assertRegex(said, rf"^list: {number}: [a-z0-9][^|]+ \(docs/SPECIFICATION.md, S[0-9]+(( to|,) S[0-9]+)?\)\n$")
        self.write("file", ELF + "refused 27 0 0")
        self.assertEqual(self.run_list("file"), (0, "refused 27 0 0", ""))

    def test_longer_than_the_program_reads(self):
        for name, front, most in (("file", ELF, "1,048,576"), ("deposit", "", "65,536")):
            length = int(most.replace(",", "")) + 1
            self.write(name, front + "refused 1 0 0")
            os.truncate(os.path.join(self.top, name), length)
            status, out, said = self.run_list(name)
            self.assertEqual((status, out), (0, "refused 1 0 0"))
            self.assertIn(f"list: the file {name} has {length} bytes; the listing program reads {most} at most", said)
            self.assertNotIn("list: 1:", said)

    def test_a_failed_build(self):
        self.write("broken", "")
        status, out, said = self.run_list("deposit")
        self.assertEqual((status, out), (2, ""))
        self.assertIn("the program was not built", said)

    def test_without_the_kit(self):
        self.assertEqual(self.run_list("deposit", kit=False), (2, "", "list: the Rattle kit's rt is not on PATH, and the program is not built yet\n"))

    def test_files_that_are_not_taken(self):
        self.assertEqual(self.run_list("nothing"), (2, "", "list: there is no file nothing\n"))
        self.assertEqual(self.run_list("crates"), (2, "", "list: crates is not a plain file\n"))
        self.assertEqual(self.run_list()[0], 2)
        with open(os.path.join(self.top, "deposit"), "wb") as file:
            file.truncate(16777217)
        self.assertEqual(self.run_list("deposit"), (2, "", "list: the file deposit has 16777217 bytes; a deposit has 16777216 at most\n"))
        os.truncate(os.path.join(self.top, "file"), 16777217)
        self.assertEqual(self.run_list("file"), (2, "", "list: the file file has 16777217 bytes; an ELF file has 16777216 at most\n"))


if __name__ == "__main__":
    unittest.main()
