#!/usr/bin/env python3
"""Respells this repository's own definitions and lemmas as today's Rattle does: snake case, in place of camel case and of dashes between words.

usage: python3 tools/port/names.py        once, at the top, right after port.py

A name is own where a file of specs/ or proofs/ declares it. Names that would fall together with a definition's get '_lem', as std's lemmas do.
The goals of Proof.antt files ('X : tie.Need-..') keep their names: Rattle makes those. Functions of src/, strings and outputs are not touched.
Pages (README.md, docs/) are respelled where a name stands between backticks.
"""
import collections
import os
import re
import sys

IDENT = r"(?<![\w'′₀-₉-])[a-z][A-Za-z0-9α-ωΑ-Ω₀-₉_'′]*(?:-[A-Za-z0-9α-ωΑ-Ω₀-₉_'′]+)*(?![\w'′₀-₉])"
TOKEN = re.compile(IDENT)
DECLARED = re.compile(r"^\s*(?:abbrev |unfoldable |pub |data |record |ruleset )*(" + IDENT + r")(?: +(?:\([^)]*\)|\{[^}]*\}))* *:(?!=)(.*)")

# Lemmas whose name would be a definition's: the definition keeps the word.
FALL_TOGETHER = """bit_in used-in fresh-row store_length row_count exit-value on_row read-status read-value no-thread put_word
set-up-written made_in row-at no_room other-parent last-generation area-words index-rest words-there after-lines answer-by answers_by
lowest-from lowest-run""".split()
# A tactic has this name today.
OTHERS = {"first_of": "first_item"}
# port.py gave this lemma of one file a definition's name.
MERGED = {"crates/objects/specs/Effects.antt": [("  header_at : ", "  header_at_lem : "), ("  header_at = refl", "  header_at_lem = refl"), (", header_at)", ", header_at_lem)")]}


def snake(name):
    name = re.sub(r"([a-z0-9₀-₉])([A-Z])", lambda m: m.group(1) + "_" + m.group(2).lower(), name)
    return re.sub(r"([a-z0-9₀-₉])-(?=[a-z0-9])", r"\1_", name)


def files(*ends):
    for folder, dirs, names in os.walk("crates"):
        dirs[:] = sorted(d for d in dirs if d != "out")
        for name in sorted(names):
            if name.endswith(ends):
                yield os.path.join(folder, name)


def read(path):
    with open(path, encoding="utf-8") as f:
        return f.read()


def own_names():
    """The names to respell, each with its new spelling."""
    found = collections.defaultdict(set)
    goals = set()
    for path in files(".antt"):
        for line in read(path).splitlines():
            if line.lstrip().startswith(("use ", "let ", "--", "λ")):
                continue
            m = DECLARED.match(line)
            if m and m.group(2).lstrip().startswith("tie."):
                goals.add(m.group(1))
            elif m:
                found[m.group(1)].add(path)
    new = {}
    for name in list(found) + ["headerAt", "bitAt", "callOf", "classOf", "dataOf", "effectOf", "handleOf", "offsetOf", "roomFor", "rowAt", "slotsOf", "stateOf", "storeOf", "withArea", "withWords"]:
        if name in goals:
            continue
        if name in FALL_TOGETHER:
            new[name] = snake(name) + "_lem"
        elif name in OTHERS:
            new[name] = OTHERS[name]
        elif snake(name) != name:
            new[name] = snake(name)
    spelled = collections.defaultdict(set)
    for name in found:
        spelled[new.get(name, name)].add(name)
    for name, olds in sorted(spelled.items()):
        if len(olds) > 1:
            print(f"names fall together: {name}: {sorted(olds)}")
    return new


def respelled(text, new, walk=False):
    """In a Proof.antt what follows a dot is a step of the code, by its function's name: such a word is no lemma's."""

    def one(m):
        step = walk and m.group(0) in FALL_TOGETHER and text[: m.start()].endswith(".")
        return m.group(0) if step else new.get(m.group(0), m.group(0))

    return TOKEN.sub(one, text)


def camel(new):
    return {old: name for old, name in new.items() if re.search("[A-Z]", old)}


def antt(text, new, walk=False):
    """Code is respelled whole, a comment's camel case alone: a dash between words of a comment is English."""
    words = camel(new)
    out = []
    for line in text.split("\n"):
        code, dash, comment = line.partition("-- ")
        out.append(respelled(code, new, walk) + dash + respelled(comment, words))
    return "\n".join(out)


def rt(text, new):
    """Only ghost text and comments can have such names: there is no camel case in code, and a dash there is a minus."""
    words = camel(new)
    out = []
    for line in text.split("\n"):
        ghost = line.startswith(("ghost use", "    ghost use")) or re.match(r"\s*(requires|ensures|ghost)\b", line)
        out.append(respelled(line, new if ghost else words))
    return "\n".join(out)


def edit(text, new):
    inside = "src/" in text.split("\n", 1)[0]
    out = []
    for line in text.split("\n"):
        if line.startswith(("old: ", "new: ")):
            line = line[:5] + (rt(line[5:], new) if inside else antt(line[5:], new))
        out.append(line)
    return "\n".join(out)


def page(text, new):
    return re.sub(r"`[^`\n]*`", lambda m: respelled(m.group(0), new), text)


def main():
    if not os.path.isdir("crates"):
        sys.exit("names.py: run it at the top of the repository")
    new = own_names()
    if "first_item" not in new.values():
        sys.exit("names.py: the names are respelled already")
    for path in files(".antt", ".rt", ".edit"):
        old = read(path)
        for a, b in MERGED.get(path, []):
            if old.count(a) != 1:
                sys.exit(f"names.py: {path}: {a!r} stands {old.count(a)} times")
            old = old.replace(a, b)
        text = antt(old, new, path.endswith("/Proof.antt")) if path.endswith(".antt") else rt(old, new) if path.endswith(".rt") else edit(old, new)
        if text != read(path):
            with open(path, "w", encoding="utf-8") as f:
                f.write(text)
    for path in ["README.md"] + [os.path.join("docs", n) for n in sorted(os.listdir("docs")) if n.endswith(".md")]:
        text = page(read(path), new)
        if text != read(path):
            with open(path, "w", encoding="utf-8") as f:
                f.write(text)
    print(f"{len(new)} names respelled")


if __name__ == "__main__":
    main()
