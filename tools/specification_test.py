#!/usr/bin/env python3
"""Holds docs/SPECIFICATION.md and the definitions to each other. Run:  python3 tools/specification_test.py

Statements are numbered S1, S2, .. without a gap; each definition that one cites exists, each public definition of the model is cited, and each
statement that a comment of a definition cites exists. The contracts of the public calls cite no definition outside the model."""
import glob
import os
import re
import unittest

TOP = os.path.join(os.path.dirname(os.path.realpath(__file__)), "..")
DECLARED = re.compile(r"^\s*(?:(?:abbrev|unfoldable) )?pub (?:record |data )?([^\s:]+)", re.M)

# What the statements are written with, and the examples.
PLAIN = """Bytes.ascii Bytes.push Bytes.keep Bytes.or_else Bytes.◌∈◌ Bytes.each Bytes.first_in Bytes.maybe Bytes.find Bytes.is_some Bytes.little_bytes
Bytes.AllBytes""".split()


# The public calls. Of the kit's crates a contract may cite io, which says how many bytes are written.
CALLS = [("load", "lib", "load"), ("load_elf", "lib", "load_elf"), ("rows_functions", "lib", "find"), ("buncoyew", "lib", "buncoyew_load"),
         ("buncoyew", "lib", "buncoyew_load_elf"), ("buncoyew", "lib", "buncoyew_find"),
         ("load_numbers", "lib", "load_flat"), ("load_elf_numbers", "lib", "load_flat_elf"), ("listed", "lib", "list")]

# The programs whose text the contract of `list` tells: each says by which definition.
LISTINGS = ["listing", "listing_elf"]
BELIEVED = ("model", "io")


def read(path):
    with open(path, encoding="utf-8") as file:
        return file.read()


def definitions(path):
    """The public definitions of a file, without the fields of its records."""
    text = re.sub(r"^  pub [^\s:]+ :.*$", "", read(path), flags=re.M)
    return {name for name in DECLARED.findall(text) if name not in ("mod", "use", "_")}


def modules(names):
    """The files of these modules, in whichever crate they stand."""
    return [path for name in names for folder in ("specs", "proofs") for path in glob.glob(os.path.join(TOP, "crates", "*", folder, f"{name}.antt"))]


MODEL = os.path.join(TOP, "crates", "model", "specs")
PAGE = read(os.path.join(TOP, "docs", "SPECIFICATION.md"))
MODULES = {os.path.basename(path)[: -len(".antt")]: definitions(path) for path in glob.glob(os.path.join(MODEL, "*.antt"))}
CITED = set(re.findall(r"`([A-Z]\w*\.[^`\s]+)`", PAGE)) - {"Module.name"}


class Specification(unittest.TestCase):
    def test_numbers(self):
        for letter in "ST":
            numbers = [int(n) for n in re.findall(rf"^- \*\*{letter}(\d+)\.\*\*", PAGE, re.M)]
            self.assertEqual(numbers, list(range(1, len(numbers) + 1)))

    def test_cited_definitions_exist(self):
        missing = [name for name in sorted(CITED) if name.split(".")[1] not in MODULES.get(name.split(".")[0], ())]
        self.assertEqual(missing, [])

    def test_every_definition_is_cited(self):
        left = {f"{module}.{name}" for module, names in MODULES.items() for name in names} - CITED - set(PLAIN)
        self.assertEqual(sorted(left), [])

    def test_cited_theorems_exist(self):
        files = modules(["Demand3", "RefusedCalls", "LentBack", "Finds"])
        known = {name for path in files for name in re.findall(r"^\s*pub ([\w-]+) :", read(path), re.M)}
        lines = [line for line in PAGE.split("\n") if re.match(r"- \*\*T[1-8]\.\*\*", line)]
        cited = {name for line in lines for name in re.findall(r"`([a-z]+(?:-[a-z0-9]+)+|immediates|finds)`", line)}
        self.assertEqual(sorted(cited - known), [])
        self.assertGreater(len(cited), 10)

    def test_statements_cited_in_comments_exist(self):
        stated = set(re.findall(r"^- \*\*(S\d+)\.\*\*", PAGE, re.M))
        for path in glob.glob(os.path.join(TOP, "crates", "*", "specs", "*.antt")):
            cited = {n for line in read(path).split("\n") if line.strip().startswith("-- S") for n in re.findall(r"\bS\d+\b", line)}
            self.assertEqual(sorted(cited - stated), [], path)

    def test_contracts_of_calls_cite_the_model_alone(self):
        for crate, file, call in CALLS:
            text = read(os.path.join(TOP, "crates", crate, "src", f"{file}.rt"))
            contract = re.search(rf"^(?:pub )?(?:extern \"C\" )?fn {call}(?:<[^(]*>)?\(.*?^\{{$", text, re.M | re.S).group(0)
            self.assert_cites_model(contract, text, call)

    def test_listings_are_of_the_model(self):
        for crate in LISTINGS:
            text = read(os.path.join(TOP, "crates", crate, "src", "main.rt"))
            self.assert_cites_model(re.search(r"^    ghost text = \{ .* \};$", text, re.M).group(0), text, crate)

    def assert_cites_model(self, contract, text, call):
        words = set(re.split(r"[\s().,{}]+", contract))
        cited = {name: owner for owner, names in re.findall(r"^ghost use Rattle\.(?!std\.)(\w+)\.\S*\{(.*)\};$", text, re.M)
                 for name in re.split(r",\s*", names) if name.split(" as ")[-1] in words}
        self.assertIn("model", cited.values(), call)
        self.assertEqual({name: owner for name, owner in cited.items() if owner not in BELIEVED}, {}, call)


if __name__ == "__main__":
    unittest.main()
