#!/usr/bin/env python3
"""Turns a crate's walked proofs (proofs/F/Proof.antt, `tie.close (tie.spec ..)`) to today's Invariants.antt and Answers.antt.

usage: tools/answers.py CRATE NAMES.json [FUNCTION ..]
       NAMES.json is what `rt check --generated DIR --old-names` writes in the crate's folder

A walked proof answers its goals by their order, and cites a fact by the way back to it. The goals' names and those of the steps come
from NAMES.json. An answer `search rules` is left out, since the check tries that by itself. What it could not turn is said, a line each.
"""
import json
import os
import re
import sys

IDENT = r"[A-Za-z_α-ωκ₀-₉ℕ][A-Za-z0-9_'₀-₉α-ω-]*"
CHAIN = re.compile(r"(?<![A-Za-z0-9_'.«-])(" + IDENT + r")((?:\.(?:«[^»]*»|[A-Za-z0-9_'₀-₉·-]+))*)")
LET = re.compile(r"let (" + IDENT + r") = (" + IDENT + r"(?:\.(?:«[^»]*»|[A-Za-z0-9_'-]+))*) in\s*")


def norm(name):
    return name.replace("-", "_")


class Turner:
    def __init__(self, crate, key, names, folder, said):
        self.crate, self.names, self.folder = crate, names, folder
        self.say = lambda t: said.append(f"{os.path.relpath(folder)}: {t}")
        self.places = {p[0]: p for p in names["places"]}
        self.index = {p[0]: i for i, p in enumerate(names["places"])}

    def read(self):
        with open(os.path.join(self.folder, "Proof.antt"), encoding="utf-8") as f:
            text = f.read()
        lines = text.split("\n")
        head, decls, at = [], [], 0
        while at < len(lines) and (not lines[at].strip() or lines[at].startswith(("--", "use "))):
            head.append(lines[at])
            at += 1
        block = []
        for line in lines[at:]:
            if line and not line[0].isspace() and block and not self.goes_on(block, line):
                decls.append("\n".join(block).rstrip())
                block = []
            block.append(line)
        if "\n".join(block).strip():
            decls.append("\n".join(block).rstrip())
        return head, decls

    @staticmethod
    def goes_on(block, line):
        """A signature, its `unfolding` line and its clauses are one declaration; a comment goes with what follows it."""
        first = next((l for l in block if l and not l.startswith("--")), None)
        if first is None:
            return True
        if line.startswith("--") or first.startswith("module") or line.startswith("module"):
            return False
        if line.startswith("unfolding"):
            return True
        name = re.match(r"(?:pub |abbrev |unfoldable )*(" + IDENT + r")", first)
        return bool(name and re.match(re.escape(name[1]) + r"(?![A-Za-z0-9_'₀-₉-])", line) and not re.match(r"(?:pub |abbrev )?" + re.escape(name[1]) + r" :", line))

    @staticmethod
    def arguments(text):
        """The arguments of tie.spec: names, and terms in parentheses."""
        at, out = 0, []
        while at < len(text):
            if text[at].isspace():
                at += 1
            elif text[at] == "(":
                depth, end = 0, at
                while True:
                    depth += {"(": 1, ")": -1}.get(text[end], 0)
                    end += 1
                    if depth == 0:
                        break
                out.append(text[at + 1:end - 1])
                at = end
            else:
                end = at
                while end < len(text) and not text[end].isspace() and text[end] not in "()":
                    end += 1
                out.append(text[at:end])
                at = end
        return out

    @staticmethod
    def align(args, needs, named):
        """The answers without those of goals that are no more, each of which was `search rules`. An answer to a call's requires has a κs."""
        def at_call(arg):
            text = named[arg] if arg in named else arg
            return " κs" in text.split("=" if arg in named else ".")[0] or bool(re.match(r"λ \S+ κs", text)) or (arg in named and bool(re.search(r"^" + re.escape(arg) + r" \S+ κs", text, re.M)))

        def is_idle(arg):
            return bool(re.fullmatch(r"λ \S+?(?: κs)?\.\s*(search rules|omega arith|refl)", arg.strip()))

        n, m, far = len(args), len(needs), 10 ** 6
        cost = [[far] * (m + 1) for _ in range(n + 1)]
        step = [[None] * (m + 1) for _ in range(n + 1)]
        cost[n][m] = 0
        for i in range(n - 1, -1, -1):
            for j in range(m, -1, -1):
                best = (far, None)
                if j < m:
                    odd = at_call(args[i]) != bool(re.search(r"requires(-\d+)?$", needs[j][0]))
                    best = (cost[i + 1][j + 1] + (5 if odd else 0), "take")
                skip = cost[i + 1][j] + (0.5 if is_idle(args[i]) else 100)
                if skip < best[0]:
                    best = (skip, "skip")
                cost[i][j], step[i][j] = best
        if cost[0][0] >= 100:
            return None
        out, i, j = [], 0, 0
        while i < n:
            if step[i][j] == "take":
                out.append(args[i])
                j += 1
            i += 1
        return out

    def follow(self, place, path):
        while path and path[0] == "before":
            place, path = self.places[place][1] or place, path[1:]
        return place, path

    def step(self, place, path, clue):
        """The new words for a fact: path begins with the step's old name."""
        first = path[0]
        if norm(first) == "requires" and len(self.required) > 1:
            return ["c", "requires"] + self.labelled(self.required, list(path[1:]))
        if norm(first) in ("args", "requires", "ranges", "type_inv", "well_formed", "lifetimes", "sizes", "utf8", "bounds"):
            return ["c", norm(first)] + path[1:]
        first = norm(first)[:1].lower() + norm(first)[1:]
        at = place
        while at and norm(self.places[at][2][0]) != first:
            at = self.places[at][1]
        if at is None:
            found = [p for p in self.names["places"] if norm(p[2][0]) == first]
            if not found:
                self.say(f"{clue}: no step {first}")
                return ["c"] + path
            at = found[0][0]
            self.say(f"{clue}: step {first} is not on the way")
        rest = list(path[1:])
        clauses = self.names["clauses"][self.index[at]]
        if clauses and clauses.get("fields") and rest[:1] == ["ensures"]:
            rest = ["ensures"] + self.labelled(clauses["fields"], rest[1:])
        params = self.names["params"].get(self.places[at][3])
        if params and rest[:1] in (["new"], ["auto"]) and rest[1:] and rest[1] in "01":
            rest = rest[:1] + self.place_in(params, rest[1:])
        return ["c", self.places[at][2][1]] + rest

    @staticmethod
    def place_in(params, rest):
        """A parameter by its place in a row of pairs that ends in a unit."""
        at = 0
        while rest[at:at + 1] == ["1"]:
            at += 1
        return [params[at]] + rest[at + 1:] if rest[at:at + 1] == ["0"] and at < len(params) else rest

    @staticmethod
    def labelled(fields, rest):
        for i, field in enumerate(fields):
            way = ["1"] * i + (["0"] if i < len(fields) - 1 else [])
            if rest[:len(way)] == way and way:
                return [field] + rest[len(way):]
        return rest

    def body(self, binder, text, place, clue):
        env = {binder: ("place", place)}

        def chain(m):
            name, path = m[1], [p for p in m[2].split(".") if p]
            if name not in env or (not path and re.match(r"\s+=\s", m.string[m.end():]) and m.string[:m.start()].rstrip()[-1:] in "{;"):
                return m[0]
            kind, value = env[name]
            if name == "at" and not path:
                return m[0]
            if kind == "term":
                return ".".join(self.chain_term(value, path))
            at, rest = self.follow(value, path)
            if not rest:
                self.say(f"{clue}: a context is passed on")
                return "c"
            return ".".join(self.step(at, rest, clue))

        out = ""
        while True:
            m = None
            for it in LET.finditer(text):
                if it[2].split(".")[0] in env:
                    m = it
                    break
            if not m:
                return (out + CHAIN.sub(chain, text)).strip()
            out += CHAIN.sub(chain, text[:m.start()])
            path = m[2].split(".")
            kind, value = env[path[0]]
            if kind == "term":
                new = ("term", self.chain_term(value, path[1:]))
            else:
                at, rest = self.follow(value, path[1:])
                new = ("place", at) if not rest else ("term", self.step(at, rest, clue))
            env[m[1]] = new
            text = text[m.end():]

    def chain_term(self, value, path):
        if value == ["c", "requires"] and len(self.required) > 1:
            path = self.labelled(self.required, path)
        words = value + path
        if len(words) > 3 and words[2] == "ensures":
            fields = self.fields_of(words[1])
            if fields:
                return words[:3] + self.labelled(fields, words[3:])
        return words

    def fields_of(self, new):
        for i, p in enumerate(self.names["places"]):
            if p[2][1] == new and self.names["clauses"][i]:
                return self.names["clauses"][i].get("fields")
        return None

    def loop_decl(self, decl, changed_of):
        m = re.match(r"abbrev (?:pub )?((invariant|decreases)-(\S+)) : tie\.\S+\n(?:unfolding [^\n]*\n)?\1 ?([^=]*)=\s*(.*)", decl, re.S)
        unfolding = re.search(r"^unfolding .*$", decl, re.M)
        if not m:
            return None
        kind, old, params, body = m[2], m[3], m[4].split(), m[5]
        for ((was, new), names), changed in changed_of:
            if norm(was) == norm(old):
                break
        else:
            self.say(f"no loop {old}")
            return None
        want = len(names) + sum(changed)
        become = {}
        if len(params) == want:
            for i, n in enumerate(names):
                become[params[i]] = f"l.initial.{n}" if changed[i] else f"l.{n}"
            for p, n in zip(params[len(names):], [n for n, c in zip(names, changed) if c]):
                become[p] = f"l.{n}"
        else:
            for p in params:
                n = norm(p.strip("₀«»"))
                if n in names:
                    become[p] = f"l.initial.{n}" if p.endswith("₀") else f"l.{n}"
                else:
                    self.say(f"loop {old}: no variable {p} among {names}")

        def turn(m):
            word = m[1]
            after = body[m.end():]
            if word in become and not re.match(r"\s*=(?!=)", after) or (word in become and m[2]):
                return become[word] + m[2]
            return m[0]

        body = CHAIN.sub(turn, body)
        lines = [f"abbrev pub {kind}-{new} : goal.{kind}-{new}"]
        if unfolding:
            lines.append(unfolding[0])
        lines.append(f"{kind}-{new} {self.given}l = {body.strip()}")
        return "\n".join(lines)

    def turn(self, required, own, is_generic=False):
        """required, own: the labels of the function's requires and of its ensures. A generic function's answers take its bounds first."""
        self.required = required
        self.given = "g " if is_generic else ""
        head, decls = self.read()
        comments = [l for l in head if l.startswith("--")]
        uses = [l for l in head if l.startswith("use ") and ".Statement." not in l and not l.endswith(".Tie as tie")]
        module = f"Rattle.{self.crate}.proofs." + ".".join(os.path.relpath(self.folder, f"crates/{self.crate}/proofs").split("/"))
        loops = list(zip(self.names["loops"], self.names["changed"]))
        invariants, helpers, named, main = [], [], {}, None
        for decl in decls:
            if re.match(r"abbrev (pub )?(invariant|decreases)-\S+ : tie\.", decl):
                it = self.loop_decl(decl, loops)
                invariants.append(it if it else decl)
            elif "statement M" in decl:
                main = decl
            elif re.match(r"(?:pub )?" + IDENT + r" : tie\.Need-", decl):
                m = re.match(r"(?:pub )?(" + IDENT + r") : tie\.(Need-\S+)\n", decl)
                named[m[1]] = decl
            else:
                helpers.append(decl)
        if not main:
            self.say("no main declaration")
            return False
        unfolding = re.search(r"^unfolding .*$", main, re.M)
        spec = main[main.index("tie.spec") + len("tie.spec"):].strip()
        assert spec.endswith(")"), self.folder
        args = self.arguments(spec[:-1])
        args = [a for a in args if not re.fullmatch(r"(invariant|decreases)-\S+", a)]
        needs = self.names["needs"]
        if len(args) != len(needs):
            aligned = self.align(args, needs, named)
            if aligned is None:
                self.say(f"{len(args)} answers and {len(needs)} goals: {[n[1] for n in needs]}")
            else:
                args = aligned
        answers = []
        for i, (arg, (was, new)) in enumerate(zip(args, needs)):
            place = self.names["asked_at"][i][0]
            clue = f"{was} ({new})"
            open_ = unfolding[0] if unfolding else None
            more = ""
            if arg in named:
                decl = named[arg]
                m = re.match(r"[^\n]*\n(unfolding [^\n]*\n)?" + re.escape(arg) + r" (\S+)(?: κs)? =\s*(.*)", decl, re.S)
                if not m:
                    self.say(f"{clue}: {arg} is not read")
                    answers.append(decl)
                    continue
                binder, text = m[2], m[3]
                if m[1]:
                    open_ = m[1].strip()
            else:
                m = re.match(r"λ (\S+?)((?: [^\s.]+)*)\.\s*(.*)", arg, re.S)
                if not m:
                    self.say(f"{clue}: answer {arg[:60]!r}")
                    continue
                binder, text = m[1], m[3]
                more = "".join(f" {x}" for x in m[2].split() if x != "κs")
            if text.strip() == "search rules" and not (open_ and re.search(r"returns|init|preserved", new)):
                continue
            term = self.body(binder, text, place, clue)
            # A test `!b` now gives `b ≡ false` itself.
            term = re.sub(r"not-(?:true|false) (?:c\.[^\s()]+|_) (c\.if-[^\s()]+)", r"\1", term)
            term = re.sub(r"\((c\.if-[^\s()]+)\)", r"\1", term)
            term = self.record(term, own if new.startswith("returns") else self.names["asked"].get(was))
            answers.append("\n".join([f"pub {new} : goal.{new}"] + ([open_] if open_ else []) + [f"{new} {self.given}c{more} = {term}"]))
        self.write(comments, uses, module, invariants, *self.shared(helpers, invariants), answers)
        return True

    @staticmethod
    def shared(helpers, invariants):
        """The helpers that the invariants use, made public, and the others."""
        def name_of(decl):
            m = re.search(r"^(?:pub |abbrev |unfoldable )*(?:record |data )?(" + IDENT + r")", "\n".join(l for l in decl.split("\n") if not l.startswith("--")))
            return m[1] if m else None

        def uses(text, name):
            return bool(re.search(r"(?<![A-Za-z0-9_'.-])" + re.escape(name) + r"(?![A-Za-z0-9_'-])", text))

        mine, text = [], "\n".join(invariants)
        for decl in reversed(helpers):
            name = name_of(decl)
            if name and name not in ("module",) and uses(text, name):
                mine.insert(0, decl)
                text += decl
        public = []
        for decl in mine:
            lines = decl.split("\n")
            i = next(k for k, l in enumerate(lines) if not l.startswith("--"))
            if not re.match(r"(abbrev )?pub ", lines[i]):
                lines[i] = re.sub(r"^(abbrev )?", r"\1pub ", lines[i], count=1)
            public.append("\n".join(lines))
        return public, [name_of(d) for d in mine], [d for d in helpers if d not in mine]

    @classmethod
    def record(cls, term, labels):
        """A tuple of the clauses' answers becomes a record by their names."""
        if not labels or len(labels) < 2 or term == "search rules":
            return term
        parts = cls.tuple(term, len(labels))
        if parts:
            return "record {\n" + "".join(f"    {l} = {p};\n" for l, p in zip(labels, parts)) + "  }"
        return term

    @classmethod
    def tuple(cls, term, n):
        term = term.strip()
        m = re.match(r"((?:let [^\n]*? in\s*)*)\((.*)\)$", term, re.S)
        if not m:
            return None
        inside, depth, parts, last = m[2], 0, [], 0
        for i, ch in enumerate(inside):
            depth += {"(": 1, "{": 1, "[": 1, ")": -1, "}": -1, "]": -1}.get(ch, 0)
            if depth < 0:
                return None
            if ch == "," and depth == 0:
                parts.append(inside[last:i].strip())
                last = i + 1
        parts.append(inside[last:].strip())
        parts = [p for p in parts if p]
        if len(parts) == 2 and n > 2:
            more = cls.tuple(parts[1], n - 1)
            return [m[1] + p for p in [parts[0]] + more] if more else None
        return [m[1] + p for p in parts] if len(parts) == n else None

    def write(self, comments, uses, module, invariants, shared, names, helpers, answers):
        if names:
            invariants = shared + invariants
        for name, kind, decls in (("Invariants", "Given", invariants), ("Answers", "Goals", helpers + answers)):
            if not decls or (name == "Answers" and not answers):
                continue
            if names and name == "Answers":
                uses = uses + [f"use {module}.Invariants.{{{', '.join(names)}}}"]
            with open(os.path.join(self.folder, name + ".antt"), "w", encoding="utf-8") as f:
                f.write("\n".join((comments if name == "Answers" or not answers else []) + uses + [f"use {module}.{kind} as goal", ""]) + "\n" + "\n\n".join(decls) + "\n")


def own_labels(crate):
    """For each function of the crate, by its name, the labels of its requires and of its ensures."""
    out = {}
    for folder, _, files in os.walk(f"crates/{crate}/src"):
        for n in files:
            with open(os.path.join(folder, n), encoding="utf-8") as f:
                text = f.read()
            for m in re.finditer(r"\bfn (\w+)", text):
                rest = text[m.end():]
                end = re.search(r"^\s*\{\s*$|^\}|\{\s*$", rest, re.M)
                clauses = rest[:end.start()] if end else rest
                labels = [re.findall(rf"^\s*{kind} (\w+) \{{", clauses, re.M) for kind in ("requires", "ensures")]
                out.setdefault(m[1], labels + [rest.startswith("<") and not rest.startswith("<'")])
    return out


def main(argv):
    crate, path, only = argv[0], argv[1], argv[2:]
    with open(path, encoding="utf-8") as f:
        names = json.load(f)
    labels, said, done = own_labels(crate), [], 0
    for key, it in names.items():
        m = re.fullmatch(rf"Rattle-{crate}-proofs\.(.*)\.Lts", key)
        if not m:
            continue
        folder = f"crates/{crate}/proofs/" + m[1].replace(".", "/")
        fn = m[1].split(".")[-1]
        if only and fn not in only or not os.path.exists(os.path.join(folder, "Proof.antt")):
            continue
        try:
            if Turner(crate, key, it, folder, said).turn(*labels.get(fn, [[], [], False])):
                os.remove(os.path.join(folder, "Proof.antt"))
                done += 1
        except Exception as e:
            said.append(f"{folder}: {type(e).__name__}: {e}")
    print("\n".join(said))
    print(f"{done} proofs turned")


if __name__ == "__main__":
    main(sys.argv[1:])
