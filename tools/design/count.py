#!/usr/bin/env python3
"""Lists the places in crates/*/src that docs/DESIGN-PASS.md counts, a row for each point, by file and line.

usage: tools/design/count.py [ROOT] [POINT..]      the root is the current folder; points are 1 to 8
It goes by text: a place is what a pattern below finds, whether it stays or not."""
import collections
import glob
import os
import re
import sys

KEYWORDS = set("pub fn let mut if else return match for while loop in as struct enum impl use mod const type ref "
               "break continue self Self true false Ok Err Some None usize u64 u8 bool".split())


def read(path):
    with open(path) as f:
        return f.read()


class Function:
    """A function: where it stands, its parameters, its clauses and its body."""

    def __init__(self, path, line, name, parameters, result, clauses, body):
        self.path, self.line, self.name = path, line, name
        self.parameters, self.result, self.clauses, self.body = parameters, result, clauses, body


def closing(text, at, pair):
    """The place behind the bracket that closes the one at `at`."""
    depth = 0
    for i in range(at, len(text)):
        if text[i] == pair[0]:
            depth += 1
        elif text[i] == pair[1]:
            depth -= 1
            if depth == 0:
                return i + 1
    return len(text)


def functions(path, text):
    for m in re.finditer(r"^ *(?:#\[[^\n]*\]\n *)*(?:pub )?(?:extern \"C\" )?fn (\w+)[^(\n]*\(", text, re.M):
        end = closing(text, m.end() - 1, "()")
        parameters = [p.strip() for p in re.split(r",(?![^<(]*[>)])", text[m.end():end - 1]) if p.strip()]
        at, result, clauses = end, "", []
        r = re.match(r"\s*->\s*((?:\[[^\]]*\]|[^{;\[])*?)(?=\s*(?:\n\s*(?:requires|ensures)|\{|;))", text[at:])
        if r:
            result, at = r.group(1).strip(), at + r.end()
        while True:
            c = re.match(r"\s*(requires|ensures)[^{\n]*\{", text[at:])
            if not c:
                break
            stop = closing(text, at + c.end() - 1, "{}")
            clauses.append((c.group(1), " ".join(text[at + c.end():stop - 1].split())))
            at = stop
        b = re.match(r"\s*\{", text[at:])
        if b:
            stop = closing(text, at + b.end() - 1, "{}")
            yield Function(path, text.count("\n", 0, m.end()) + 1, m.group(1), parameters, result, clauses, text[at + b.end():stop - 1])


def uncommented(text):
    return re.sub(r"//[^\n]*", lambda m: " " * len(m.group(0)), text)


def places(pattern, files):
    for path, text in files:
        for m in re.finditer(pattern, text, re.M):
            yield path, text.count("\n", 0, m.start()) + 1, " ".join(m.group(0).split())


def enums(files):
    """Own enums of two variants, one with a value: the shape of Option or Result."""
    for path, text in files:
        for m in re.finditer(r"enum (\w+)[^{]*\{", text):
            body = text[m.end():closing(text, m.end() - 1, "{}") - 1]
            variants = [v.strip() for v in re.split(r",(?![^(]*\))", body) if v.strip()]
            if len(variants) == 2 and any("(" in v for v in variants):
                yield path, text.count("\n", 0, m.start()) + 1, m.group(1)


def point1(files, fns):
    yield "own enums of the shape of Option or Result", list(enums(files))
    yield "refusals as numbers in code", list(places(r"return [1-9]\d*;|status: [1-9]\d*,|Refused\(\d+\)", files))
    yield "checks and calls that answer a number or (status, value)", [
        (f.path, f.line, f.name) for f in fns
        if (f.result == "Answer" or (f.result == "u64" and re.search(r"status|refus|check", f.name + f.body))) and "/host_" not in f.path]
    yield "kinds as numbers", [(f.path, f.line, f.name) for f in fns if "kind: u64" in f.parameters and "/host_" not in f.path]
    yield "a value that stands for none, or a flag or a count beside the value", list(
        places(r"struct (?:Found|Generated|Fed|Ended)\b|== blocks as usize|len: 0,", files))


def normal(body):
    """The shape of a body: its tokens, each name but a keyword as one sign, each number as another."""
    out = []
    for t in re.findall(r"[A-Za-z_]\w*|\d\w*|\S", re.sub(r'"[^"]*"', "text", body)):
        out.append(t if t in KEYWORDS else "#" if t[0].isdigit() else "x" if re.match(r"\w", t) else t)
    return " ".join(out)


def point2(files, fns):
    groups = collections.defaultdict(list)
    for f in fns:
        if "/host_" in f.path:
            continue
        shape = normal(f.body)
        if len(shape.split()) >= 5 and not shape.startswith("x . x"):
            groups[(shape, len(f.parameters))].append((f.path, f.line, f.name))
    for (shape, _), found in sorted(groups.items(), key=lambda g: -len(g[1])):
        if len(found) > 1:
            yield "one shape: " + ", ".join(n for _, _, n in found), found


def point3(files, fns):
    yield "loops: while and loop", list(places(r"\bwhile\b[^{]*\{|\bloop \{", files))


def point4(files, fns):
    yield "records copied field by field", [
        (f.path, f.line, f.name) for f in fns if len(re.findall(r"\b(\w+): \w+\.\1\b", f.body)) >= 3 and "fn area_at" not in f.body]
    yield "comparisons, conversions and impls by hand", list(places(
        r"^impl\b[^{]*\bfor\b[^{]*|fn smaller|fn digit_of|fn digit_value|fn is_digit", files))


def facts(fns):
    found = collections.defaultdict(list)
    for f in fns:
        if "/host_" in f.path:
            continue
        for kind, text in f.clauses:
            if kind != "requires":
                continue
            text = re.sub(r"\b(\w+)\.(?:old|now)\b", r"\1", text)
            for fact in text.split("×"):
                fact = fact.strip()
                while fact.startswith("(") and closing(fact, 0, "()") == len(fact):
                    fact = fact[1:-1].strip()
                found[re.sub(r"\b[a-z]\b", "_", fact)].append((f.path, f.line, f.name))
    return found


def point5(files, fns):
    for fact, where in sorted(facts(fns).items(), key=lambda g: -len(g[1])):
        if len(where) >= 3:
            yield "asked by %d: %s" % (len(where), fact), where
    names = collections.defaultdict(list)
    for f in fns:
        if "/host_" in f.path:
            continue
        own = [p.split(":")[0].replace("mut ", "") for p in f.parameters]
        for n in (6, 4, 3, 2):
            for i in range(len(own) - n + 1):
                names[tuple(own[i:i + n])].append((f.path, f.line, f.name))
    for group in (("permanent", "scratch", "map", "written"), ("permanent", "scratch", "map"), ("words", "bytes"), ("line", "len"), ("op", "t", "p", "q", "r")):
        where = [(f.path, f.line, f.name) for f in fns if "/host_" not in f.path and " ".join(group) in " ".join(
            p.split(":")[0].replace("mut ", "") for p in f.parameters)]
        if where:
            yield "parameters that travel together: " + ", ".join(group), where


def point6(files, fns):
    pairs = (("line", "len"), ("output", "at"), ("input", "n"), ("output", "n"))
    yield "a buffer with a length or a place beside it", [
        (f.path, f.line, f.name + "(" + a + ", " + b + ")") for f in fns for a, b in pairs
        if " ".join((a, b)) in " ".join(p.split(":")[0].replace("mut ", "") for p in f.parameters)]
    yield "records with an array and its length", list(places(
        r"len: (?:usize|u64),\s*(?:pub )?\w+: \[|(?:digits|entries|text): [^,]*,\s*(?:pub )?len: ", files))


def point7(files, fns):
    yield "a switch that calls a function for each arm", [
        (f.path, f.line, f.name) for f in fns if len(re.findall(r"=> \w+(?:::\w+)+\(", f.body)) >= 2]
    yield "tables of functions, pointers to functions", list(places(r"\[fn\(|: fn\(", files))


def point8(root):
    answers, lemmas = [], []
    for path in sorted(glob.glob(os.path.join(root, "crates/*/proofs/**/*.antt"), recursive=True)):
        text = read(path)
        kind = answers if os.path.basename(path) in ("Answers.antt", "Invariants.antt") else lemmas
        for m in re.finditer(r"^\s*(?:abbrev |unfoldable )?pub (\S+)[^:\n]*:", text, re.M):
            kind.append((path, text.count("\n", 0, m.start()) + 1, m.group(1)))
    yield "answers and invariants", answers
    yield "lemmas of proofs/", lemmas


def main(words):
    root = next((w for w in words if not w.isdigit()), ".")
    points = [int(w) for w in words if w.isdigit()]
    loud = bool(points)
    paths = sorted(glob.glob(os.path.join(root, "crates/*/src/**/*.rt"), recursive=True))
    files = [(os.path.relpath(p, root), uncommented(read(p))) for p in paths]
    fns = [f for path, text in files for f in functions(path, text)]
    rows = [point1, point2, point3, point4, point5, point6, point7]
    for n in points or range(1, 9):
        found = list(point8(root) if n == 8 else rows[n - 1](files, fns))
        print("point %d: %d places" % (n, sum(len(w) for _, w in found)))
        for what, where in found:
            print("  %3d  %s" % (len(where), what))
            if loud:
                for path, line, text in where:
                    print("         %s:%d %s" % (path, line, text))


if __name__ == "__main__":
    main(sys.argv[1:])
