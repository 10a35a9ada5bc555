#!/usr/bin/env python3
"""Counts, in the src/ of every crate, the places that docs/DESIGN-PASS.md speaks of, by their points.

    tools/places.py             a line a point: what is counted, and how many places there are
    tools/places.py POINT       the places of one point, 1 to 8, a line each

Each count goes by the text alone, so it also finds places that are as they should be: the page says of each that is left why it stays.
"""
import glob
import os
import re
import sys
from collections import defaultdict

ROOT = os.path.dirname(os.path.dirname(os.path.abspath(__file__)))
NUMBER = r"(?:u8|u16|u32|u64|usize)"
CODE = r"(?:refusal|kind|number|outcome|reason|order|which|code|letter)"


class Fn:
    """A function: its file and line, name, parameters, clauses and body, comments left out."""

    def __init__(self, file, line, name, params, clauses, result, body):
        self.at = f"{file}:{line}"
        self.crate = file.split("/")[1]
        self.name, self.params, self.clauses, self.result, self.body = name, params, clauses, result, body


def without_comments(text):
    return re.sub(r"//[^\n]*", "", text)


def sources():
    for path in sorted(glob.glob(f"{ROOT}/crates/*/src/*.rt")):
        with open(path, encoding="utf-8") as f:
            yield os.path.relpath(path, ROOT), without_comments(f.read())


def closing(text, at, pair):
    """The place behind the bracket that closes the one at `at`."""
    depth = 0
    for i in range(at, len(text)):
        if text[i] == pair[0]:
            depth += 1
        elif text[i] == pair[1]:
            depth -= 1
            if depth == 0:
                return i + 1
    return len(text)


def parts_of(text):
    """What commas part at depth 0."""
    parts, depth, last = [], 0, 0
    for i, c in enumerate(text):
        if c in "([{<":
            depth += 1
        elif c in ")]}" or c == ">" and text[i - 1] != "-":
            depth -= 1
        elif c == "," and depth == 0:
            parts.append(text[last:i].strip())
            last = i + 1
    return [it for it in parts + [text[last:].strip()] if it]


def functions():
    for file, text in sources():
        for found in re.finditer(r"\bfn (\w+)", text):
            opens = text.find("(", found.end())
            shuts = closing(text, opens, "()")
            rest = text[shuts:]
            clauses, at = [], 0
            result = re.match(r"\s*->\s*([^{]*?)(?=\s*(?:\bwhere\b|\brequires\b|\bensures\b|\{|;))", rest)
            if result:
                at = result.end()
            while True:
                clause = re.compile(r"\s*(requires|ensures)\*?\s*(\w+\s*)?\{").match(rest, at)
                if not clause:
                    break
                end = closing(rest, clause.end() - 1, "{}")
                clauses.append((clause[1], " ".join(rest[clause.end() : end - 1].split())))
                at = end
            start = re.compile(r"\s*(?:where[^{]*)?\{").match(rest, at)
            body = rest[start.end() : closing(rest, start.end() - 1, "{}") - 1] if start else ""
            yield Fn(file, text.count("\n", 0, found.start()) + 1, found[1], parts_of(text[opens + 1 : shuts - 1]), clauses, result[1].strip() if result else "", body)


def lines_like(pattern):
    for file, text in sources():
        for number, line in enumerate(text.split("\n"), 1):
            if re.search(pattern, line):
                yield f"{file}:{number}: {line.strip()}"


def enums_with_values():
    """Enums of which one case has a value and another has none or means that there is none."""
    for file, text in sources():
        for found in re.finditer(r"\benum (\w+)[^{]*\{", text):
            cases = parts_of(text[found.end() : closing(text, found.end() - 1, "{}") - 1])
            if any(re.search(r"[({]", it) for it in cases):
                yield f"{file}:{text.count(chr(10), 0, found.start()) + 1}: enum {found[1]}"


def point_1():
    yield from enums_with_values()
    yield from lines_like(rf"\bis_(?:known|written)\s*:\s*bool|\bgoes_on\s*:\s*bool")
    yield from lines_like(rf"(?<!fn )\b{CODE}\s*:\s*{NUMBER}\b")
    yield from lines_like(r"\bconst [A-Z_]+\s*:\s*u(?:8|32)\s*=\s*\d\s*;")
    for it in functions():
        if re.fullmatch(NUMBER, it.result) and re.search(r"refusal|kind|number$|order|compare", it.name):
            yield f"{it.at}: fn {it.name} -> {it.result}"


def shape_of(it):
    """The function's text, its types, numbers and names made alike: two with one shape differ in these only."""
    names = {}

    def alike(found):
        word = found[0]
        if re.fullmatch(r"(?:f32|f64|u8|u16|u32|u64|usize|i\d+)", word):
            return "T"
        if re.match(r"\d", word):
            return "N"
        if word in ("let", "mut", "if", "else", "while", "for", "in", "return", "match", "loop", "as", "true", "false", "self"):
            return word
        return names.setdefault(word, f"v{len(names)}")

    text = " ".join(it.params) + " -> " + it.result + " { " + it.body + " }"
    return re.sub(r"\s+", " ", re.sub(r"\b\w+\b", alike, text))


def point_2():
    shapes = defaultdict(list)
    for it in functions():
        if it.crate != "capi_c" and len(it.body.split()) > 5:
            shapes[shape_of(it)].append(it)
    for group in shapes.values():
        if len(group) > 1:
            for it in group[1:]:
                yield f"{it.at}: fn {it.name} is {group[0].name} of {group[0].at}"


def point_3():
    yield from lines_like(r"^\s*while ")


def point_4():
    for it in functions():
        body = " ".join(it.body.split())
        if re.fullmatch(rf"\(?[\w.()% /0-9x_-]+ as {NUMBER}\)?(?: as {NUMBER})?", body):
            yield f"{it.at}: fn {it.name}, a conversion"
        elif re.fullmatch(r"match \w+ \{(?: [\w:]+(?:\(\w+\))? => \d+,)+ \}", body):
            yield f"{it.at}: fn {it.name}, an enum as a number"
        elif re.match(r"(?:put|tell|say|show)(?:_|$)", it.name) and any(re.search(r"&mut (?:\[u8|[A-Z]\b)", p) for p in it.params):
            yield f"{it.at}: fn {it.name}, printing"


def point_5():
    facts = defaultdict(list)
    for it in functions():
        if it.crate != "capi_c":
            for kind, clause in it.clauses:
                if kind == "requires":
                    facts[clause].append(it)
    for clause, group in sorted(facts.items(), key=lambda it: -len(it[1])):
        if len(group) > 2:
            yield f"{group[0].at}: in {len(group)} contracts: {clause}"
    for it in functions():
        if it.crate != "capi_c" and len(it.params) > 7:
            yield f"{it.at}: fn {it.name} has {len(it.params)} parameters"


def point_6():
    place = re.compile(rf"(?:at|from|start|first|top|upper|lo|count|n|len|end|held|room|size|valid|left)\s*:\s*(?:usize|u32)$")
    for it in functions():
        if any(re.search(r"&(?:mut )?\[", p) for p in it.params) and any(place.fullmatch(p) for p in it.params):
            yield f"{it.at}: fn {it.name}"
    for file, text in sources():
        for found in re.finditer(r"\bstruct (\w+)[^{;]*\{", text):
            body = text[found.end() : closing(text, found.end() - 1, "{}") - 1]
            if any(place.fullmatch(re.sub(r"^pub(?:\(\w+\))? ", "", p)) for p in parts_of(body)):
                yield f"{file}:{text.count(chr(10), 0, found.start()) + 1}: struct {found[1]}"


def point_7():
    for file, text in sources():
        for found in re.finditer(rf"\bmatch (?:{CODE}|line\[0\]|\w+\.letter\(\)) \{{\s*(?:\d|b')|\bif {CODE} == \d", text):
            yield f"{file}:{text.count(chr(10), 0, found.start()) + 1}: {found[0].split(chr(10))[0]}"


def point_8():
    for folder in sorted(glob.glob(f"{ROOT}/crates/*/proofs")):
        files = [it for it in glob.glob(f"{folder}/**/*.antt", recursive=True)]
        lines = sum(sum(1 for _ in open(it, encoding="utf-8")) for it in files)
        if files:
            yield f"{os.path.relpath(folder, ROOT)}: {len(files)} files, {lines} lines"


POINTS = [
    (point_1, "enums with a value in a case, flags beside a value, numbers that are codes"),
    (point_2, "functions that differ from another in types, numbers and names only"),
    (point_3, "`while` loops"),
    (point_4, "conversions, enums as numbers, printing, each a function"),
    (point_5, "clauses in three or more contracts; functions with more than seven parameters"),
    (point_6, "functions and structs with a place or a length beside a buffer"),
    (point_7, "a choice by a letter or a number"),
    (point_8, "crates with written proofs (their lines: tools/places.py 8)"),
]


def main():
    if len(sys.argv) > 1:
        for place in POINTS[int(sys.argv[1]) - 1][0]():
            print(place)
        return
    for number, (places, what) in enumerate(POINTS, 1):
        print(f"{number}  {sum(1 for _ in places()):4}  {what}")


main()
