#!/usr/bin/env python3
"""Turns the names of this repository's definitions and lemmas to today's spelling: words in snake case, types in camel case.

usage: python3 tools/respell.py [--try]      at the top of the repository, once, after the kit's port.py

A name is turned where it is defined in crates/*/specs or crates/*/proofs: a definition, a lemma, a record and its fields, a case of a data type,
a name that is local to a proof. Names of the library, names that Rattle makes for the goals of a proof, and the names of src/ are left;
but in a name that Rattle makes, the parts that are names of src/ get the spelling that they have there. With --try nothing is written.
Two names of one file that would fall together are printed, and the one that is listed in APART gets the name that stands there.
"""

import collections
import glob
import os
import re
import sys

NAME = r"[A-Za-z_][A-Za-z0-9_']*(?:-[A-Za-z0-9_']+)*"
TOKEN = re.compile(NAME)
# names that would fall together with another, and what they are called
APART = {
    "least-term": "least_term_under",
    "room-but": "room_as_but",
    "same-state": "same_state_is",
    "same-lanes": "same_lanes_are",
    "tight-at": "tight_there",
    "in-tight": "in_tight_set",
}
# names of the library that occur as parts of names that Rattle makes
OF_STD = """as_slice as_mut_slice into_iter push_reserved saturating_sub split_at from_residual is_empty is_some to_string from_le_bytes
with_capacity try_from extend_from_slice as_bytes type_inv in_ok in_err in_default index_mut next_back deref_mut and_then map_err""".split()


def proofs_of_functions(path):
    """A file that answers the goals of a function, and no file of lemmas."""
    return os.path.basename(path) in ("Answers.antt", "Invariants.antt", "Choices.antt", "Proof.antt") and re.search(r"crates/\w+/proofs/.+/", path)


def split_line(line):
    """The code of a line of antt, and its comment."""
    blank = re.sub(r'"(?:\\.|[^"\\])*"', lambda m: '"' + "x" * (len(m[0]) - 2) + '"', line)
    m = re.search(r"(^|\s)--(\s|$)", blank)
    return (line[: m.start()], line[m.start() :]) if m else (line, "")


def outside_strings(text, turn):
    return "".join(p if i % 2 else turn(p) for i, p in enumerate(re.split(r'("(?:\\.|[^"\\])*")', text)))


def antt_files():
    return sorted(glob.glob("crates/*/specs/**/*.antt", recursive=True) + glob.glob("crates/*/proofs/**/*.antt", recursive=True))


def read(path):
    with open(path, encoding="utf-8") as f:
        return f.read()


def is_old(name):
    if "-" in name:
        return True
    return bool(re.match(r"[a-z]", name) and re.search(r"[a-z0-9][A-Z]", name) and len(name) > 3)


def turned(name):
    if name in APART:
        return APART[name]
    if name[0].isupper():
        return "".join(p[:1].upper() + p[1:] for p in name.split("-"))
    return re.sub(r"(?<=[a-z0-9])([A-Z])", lambda m: "_" + m[1].lower(), name.replace("-", "_"))


def own_names():
    """The names that are defined here and have an old spelling."""
    made, std, defined = set(), set(), set()
    for path in antt_files():
        of_function = proofs_of_functions(path)
        for line in read(path).split("\n"):
            line = re.sub(r'"(?:\\.|[^"\\])*"', '""', split_line(line)[0])
            use = re.match(r"(?:pub )?use (\S+?)\.\{(.*)\}", line)
            if use:
                names = TOKEN.findall(use[2])
                if use[1].startswith("Rattle.std") or not use[1].startswith("Rattle."):
                    std.update(names)
                elif re.search(r"\.(Goals|Given)$", use[1]):
                    made.update(names)
            named = re.search(r"^(?:pub )?use .* as (" + NAME + r")\s*$", line)
            if named:
                defined.add(named[1])
            if use or named:
                defined.update(re.findall(r" as (" + NAME + ")", line))
                continue
            made.update(re.findall(r"\b(?:goal|given)\.(?:at\.)?(" + NAME + ")", line))
            head = re.match(r"\s*(?:pub |abbrev |unfoldable |opaque )*(?:record |data |module )?(" + NAME + r")(?: [({].*)? :(?: |$)", line)
            if head:
                defined.add(head[1])
            defined.update(re.findall(r"^\s*(?:pub |abbrev )*(?:record|data|module) (" + NAME + ")", line))
            defined.update(re.findall(r"\blet (" + NAME + ")", line))
            for many in re.findall(r"λ ((?:[({]?" + NAME + r"[^.λ]*? ?)+)\.", line) + re.findall(r"[({]((?:" + NAME + r" )+):", line):
                defined.update(TOKEN.findall(many.split(" : ")[0]))
            if not of_function:
                # patterns of a definition by cases
                cases = re.match(r"\s*(" + NAME + r") ((?:[^=]|=(?= ))*?) = ?", line)
                if cases:
                    defined.update(TOKEN.findall(cases[2]))
            for inner in re.findall(r"\| [\w(]+ ([^↦]*)↦", line) + re.findall(r"\| (" + NAME + r") ↦", line):
                if not of_function:
                    defined.update(TOKEN.findall(inner))
    for path in glob.glob("crates/*/src/**/*.rt", recursive=True):
        for line in re.findall(r"^ *ghost use .*", read(path), re.M):
            defined.update(re.findall(r" as (" + NAME + ")", line))
    return {n for n in defined if is_old(n)} - made - std


def source_words(crate):
    words = set(OF_STD)
    for path in glob.glob(f"crates/{crate}/src/**/*.rt", recursive=True):
        words.update(w for w in re.findall(r"\b[A-Za-z]\w*_\w*\b", read(path)))
    return {w for w in words if "_" in w}


def spell_made(name, words):
    """A name that Rattle makes, its parts that are names of the source spelled as there."""
    parts, out, i = name.split("-"), [], 0
    while i < len(parts):
        for j in range(len(parts), i + 1, -1):
            if "_".join(parts[i:j]) in words:
                break
        else:
            j = i + 1
        out.append("_".join(parts[i:j]))
        i = j
    return "-".join(out)


def main():
    write = "--try" not in sys.argv
    own = own_names()
    together = collections.defaultdict(set)
    words = {c: source_words(c) for c in os.listdir("crates")}
    changed = 0
    for path in antt_files() + sorted(glob.glob("crates/*/src/**/*.rt", recursive=True)) + sorted(glob.glob("crates/*/must-fail/*.edit")):
        crate = path.split("/")[1]
        old = read(path)
        of_function = proofs_of_functions(path)
        seen = collections.defaultdict(set)

        def turn_code(text):
            def one(m):
                w = m[0]
                new = w
                if w in own:
                    new = turned(w)
                elif of_function and "-" in w:
                    new = spell_made(w, words[crate])
                seen[new].add(w)
                return new

            return TOKEN.sub(one, text)

        def turn_comment(text):
            return TOKEN.sub(lambda m: turned(m[0]) if m[0] in own and (m[0][0].isupper() and "-" in m[0] or "`" in text) else m[0], text)

        lines = []
        for line in old.split("\n"):
            if path.endswith(".antt"):
                code, comment = split_line(line)
            else:
                m = re.search(r"(^|\s)//", re.sub(r'"(?:\\.|[^"\\])*"', lambda m: "x" * len(m[0]), line))
                code, comment = (line[: m.start()], line[m.start() :]) if m else (line, "")
            lines.append(outside_strings(code, turn_code) + turn_comment(comment))
        for new, olds in seen.items():
            if len(olds) > 1:
                together[(new, tuple(sorted(olds)))].add(path)
        text = "\n".join(lines)
        if text != old:
            changed += 1
            if write:
                with open(path, "w", encoding="utf-8") as f:
                    f.write(text)
    for (new, olds), paths in sorted(together.items()):
        print("falls together:", new, "<-", ", ".join(olds), "in", ", ".join(sorted(paths)[:4]), f"({len(paths)})")
    print(f"{len(own)} names, {changed} files")


if __name__ == "__main__":
    main()
