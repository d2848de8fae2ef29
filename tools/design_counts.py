#!/usr/bin/env python3
"""Counts, in the sources of a tree, the places of each point of docs/DESIGN-PASS.md: tools/design_counts [--list POINT] [TREE]."""
import collections
import glob
import os
import re
import sys


def functions(root):
    """Each function of src/: its file, name, parameters, clauses and body."""
    for path in sorted(glob.glob(f"{root}/crates/*/src/*.rt")):
        lines = open(path, encoding="utf-8").read().split("\n")
        at = 0
        while at < len(lines):
            head = re.match(r"(\s*)(pub )?(const )?(extern \"C\" )?fn (\w+)", lines[at])
            if not head:
                at += 1
                continue
            indent, end = head[1], at
            while lines[end] not in (indent + "}", indent + "{}") and not lines[end].rstrip().endswith("{}"):
                end += 1
            text = lines[at : end + 1]
            open_at = next((k for k, line in enumerate(text) if line == indent + "{" or line.rstrip().endswith("{") and "ensures" not in line and "requires" not in line), len(text) - 1)
            clause_at = next((k for k, line in enumerate(text) if re.match(r"\s*(requires|ensures)\b", line)), open_at)
            signature = " ".join(line.strip() for line in text[: max(clause_at, 1)])
            yield path.split("/crates/")[1], head[5], signature, "\n".join(text[clause_at:open_at]), text[open_at + 1 : -1], indent
            at = end + 1


def parameters(signature):
    inside = re.search(r"\((.*)\)(?: ->|\s*\{|$)", signature)
    return re.findall(r"(\w+): ([^,]+?)(?:,|$)", inside[1]) if inside else []


def options(root):
    """1: own enums with the shape of Option or Result; answers and fields where a number or a flag stands for none."""
    for path in sorted(glob.glob(f"{root}/crates/*/src/*.rt")):
        text = open(path, encoding="utf-8").read()
        where = path.split("/crates/")[1]
        for name, inside in re.findall(r"enum (\w+)(?:<[^>]*>)? \{\n(.*?)\n\}", text, re.S):
            variants = re.findall(r"^    (\w+)(\(.*\))?(?: \{)?,?$", inside, re.M)
            full = [v for v, value in variants if value]
            bare = [v for v, value in variants if not value]
            refused = [v for v, value in variants if "Refusal" in value]
            if len(variants) <= 3 and full and (bare or refused):
                yield f"{where}: enum {name}"
            if name == "Ordering":
                yield f"{where}: enum {name}"
        for line in re.findall(r"^// .*(?:\b0 where (?:it|there|none|no)\b|, or 0\b|, else 0\b|else 0\.|where a name stands for none|one more than|One more than).*$", text, re.M):
            yield f"{where}: {line[3:90]}"
        for line in re.findall(r"^    (?:pub )?(?:seen|found|whole|clean|broken|known): \w+,$", text, re.M):
            yield f"{where}: field {line.strip()}"
        if "const NOTHING" in text:
            yield f"{where}: const NOTHING"


def shape(signature, body):
    names = {}

    def one(match):
        word = match[0]
        if word in ("let", "mut", "if", "else", "while", "for", "in", "return", "match", "loop", "break", "true", "false", "as", "self"):
            return word
        return names.setdefault(word, f"x{len(names)}")

    text = re.sub(r"b?\"[^\"]*\"|b'.'", "S", "\n".join(line.strip() for line in body if not line.strip().startswith("//")))
    text = re.sub(r"\b(u8|u16|u32|u64|usize)\b", "T", text)
    text = re.sub(r"\b(0[xX][0-9A-Fa-f_]+|\d[\d_]*)\b", "N", text)
    types = re.sub(r"\b(u8|u16|u32|u64|usize)\b", "T", ", ".join(kind for _, kind in parameters(signature)))
    return re.sub(r"[A-Za-z_]\w*", one, re.sub(r"\b([TNS])\b", r"\1", text)), re.sub(r"\w+", "P", types)


def twins(root):
    """2: functions of one shape: equal but for names, numbers, strings and number types."""
    groups = collections.defaultdict(list)
    for path, name, signature, _, body, _ in functions(root):
        if body:
            groups[shape(signature, body)].append(f"{path}: {name}")
    for (text, _), them in groups.items():
        if len(them) > 1 and len(text) > 14:
            for one in them[1:]:
                yield f"{one} ~ {them[0]}"


def loops(root):
    """3: loops that are no `for`."""
    for path in sorted(glob.glob(f"{root}/crates/*/src/*.rt")):
        for number, line in enumerate(open(path, encoding="utf-8"), 1):
            if re.match(r"\s*(while\b|loop \{)|.*= loop \{", line) and not re.match(r"\s*//", line):
                yield f"{path.split('/crates/')[1]}:{number}: {line.strip()}"


def by_hand(root):
    """4: functions that convert, compare, copy or print by hand."""
    for path, name, signature, _, body, _ in functions(root):
        text = " ".join(line.strip() for line in body)
        casts = re.fullmatch(r"\(?[\w.]+\)? as (u8|u16|u32|u64|usize|i16|i32)", text)
        least = re.fullmatch(r"if (\w+) < (\w+) \{ (\1|\2) \} else \{ (\1|\2) \}", text)
        bytes_of = re.search(r"\b256 \* \w+.*\b65536 \*|\+ 256 \* \w+\(", text)
        ordering = "-> Ordering" in signature and "Ordering::Less" in text
        cases = re.match(r"match \w+ \{ (\w+::\w+(\([^)]*\))?( \| [\w:]+)* => [\w\"'.]+, )+", text + " ")
        equal = re.search(r"!= \w+\[\w+\]|\[\w+\] != ", text) and "while" in text
        constructed = re.fullmatch(r"(Err\()?Refusal \{ number(: \w+)?, .*\}\)?", text)
        if casts or least or bytes_of or ordering or cases or equal or constructed:
            yield f"{path}: {name}"


def facts(root):
    """5: functions whose parameters travel in a group, and facts in the `requires` of three functions and more."""
    groups = (("d", "t", "v"), ("d", "gap"), ("d", "h"), ("d", "order"), ("symbols", "lo", "hi"), ("sections", "programs", "functions", "maps"), ("numbers", "high", "low"))
    conjuncts = collections.Counter()
    for path, name, signature, clauses, _, _ in functions(root):
        names = [one for one, _ in parameters(signature)]
        for group in groups:
            if any(tuple(names[k : k + len(group)]) == group for k in range(len(names))):
                yield f"{path}: {name}({', '.join(group)})"
                break
        for clause in re.findall(r"requires(?: \w+)? \{(.*?)\}(?=\s*$|\s*(?:requires|ensures))", clauses, re.S):
            for fact in set(re.sub(r"\s+", " ", one).strip(" ()") for one in clause.split("×")):
                conjuncts[fact] += 1
    for fact, count in sorted(conjuncts.items()):
        if count >= 3:
            for _ in range(count):
                yield f"requires {fact[:100]}"


def buffers(root):
    """6: a slice with a length or a place beside it; parallel arrays; searches by halves."""
    for path, name, signature, _, body, _ in functions(root):
        them = parameters(signature)
        beside = any(kind.startswith("&") and "[" in kind and them[k + 1][1] == "usize" and them[k + 1][0] in ("n", "w", "at", "lo", "from", "count", "i", "m") for k, (_, kind) in enumerate(them[:-1]))
        parallel = any((them[k][0], them[k + 1][0]) in (("high", "low"), ("sums", "moments")) for k in range(len(them) - 1))
        halves = re.search(r"\b(middle|mid)\b", " ".join(body)) is not None
        if beside or parallel or halves:
            yield f"{path}: {name}"


def steps(root):
    """7: a number or an enum that says which step to run."""
    for path, name, signature, _, body, _ in functions(root):
        text = " ".join(body)
        if re.search(r"\b(step|tries): \w+", signature) or re.search(r"match (by|part|which) \{", text):
            yield f"{path}: {name}"


def proofs(root):
    """8: lines of answers and invariants, and of lemmas in proofs/."""
    for path in sorted(glob.glob(f"{root}/crates/*/proofs/**/*.antt", recursive=True)):
        for _ in open(path, encoding="utf-8"):
            yield path.split("/crates/")[1]


POINTS = (options, twins, loops, by_hand, facts, buffers, steps, proofs)


def main(words):
    listed = int(words[1]) if words[:1] == ["--list"] else 0
    root = (words[2:] if listed else words)[:1] or [os.path.dirname(os.path.dirname(os.path.abspath(__file__)))]
    for number, point in enumerate(POINTS, 1):
        found = list(point(root[0]))
        if not listed:
            print(f"{number} {len(found):6} {point.__doc__[3:]}")
        elif listed == number:
            print("\n".join(found))


main(sys.argv[1:])
