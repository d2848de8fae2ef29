"""Holds recorded cases to tools/model.py.

usage: model_check.py FOLDER

FOLDER has the files stdin and stdout, in the form of crates/replay_lines: the cases, and what the load call gave for each. A case of a file must be
one that tools/elf_cases.py writes, for the model reads no file."""
import os
import sys

import elf_cases
import model
from replay_cases import file_texts, printed


def unpacked(text):
    """Bytes of a word: hexadecimal, `xx(n)` is xx and n more of it, `-` is nothing."""
    out = bytearray()
    at = 0
    while text != "-" and at < len(text):
        if text[at] == "(":
            end = text.index(")", at)
            out += out[-1:] * int(text[at + 1 : end])
            at = end + 1
        else:
            out.append(int(text[at : at + 2], 16))
            at += 2
    return bytes(out)


def expected(line, files):
    name, deposit, entries, patches, rewrite, *lengths = line.split(" ")
    if int(rewrite) > 1:
        known, text = files.get(name, ("", ""))
        if known != line + "\n":
            raise SystemExit("tools/elf_cases.py doesn't write the case %s so" % name)
        return text
    numbers = [] if entries == "-" else [int(x) for x in entries.split(",")]
    room = dict(zip(model.TABLES, map(int, lengths)))
    return printed(name, unpacked(deposit), numbers, unpacked(patches), int(rewrite), room)


def main():
    if len(sys.argv) != 2:
        print(__doc__)
        return 2
    with open(os.path.join(sys.argv[1], "stdin"), encoding="ascii") as f:
        lines = f.read().splitlines()
    with open(os.path.join(sys.argv[1], "stdout"), encoding="ascii") as f:
        given = f.read()
    at = 0
    files = {name: (line, text) for name, line, text in map(file_texts, elf_cases.all_cases())}
    for line in lines:
        text = expected(line, files)
        if not given.startswith(text, at):
            print("the model says\n%sthe load call\n%s" % (text, given[at : at + len(text) + 200]))
            return 1
        at += len(text)
    if at != len(given):
        print("more was written than the cases ask for")
        return 1
    print("%d cases: the model gives the same" % len(lines))
    return 0


if __name__ == "__main__":
    sys.exit(main())
