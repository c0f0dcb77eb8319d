#!/usr/bin/env python3
"""Respells the repository's own definitions and lemmas, run once after the kit's port.py, at the top of the repository.

Words become snake case (`row-end` becomes `row_end`), types camel case (`Take-says` becomes `TakeSays`). What a proof
file cites of a call is spelled as its function is (`c.slot-of` becomes `c.slot_of`). Functions, strings and comments of
src/ keep their text; names that would fall together are printed, and nothing is written.
"""
import glob
import os
import re
import sys

GENERATED = ("Answers.antt", "Invariants.antt", "Proof.antt")
DECLARED = re.compile(r"^\s*\|?\s*((?:(?:pub|abbrev|unfoldable|data|record|ruleset|open)\s+)*)([^\s:(){}|=;,]+)\s*(?::|\(|\{)")
# Names that no declaration gives: aliases, and names bound inside a proof.
BOUND = {
    "Was-set", "Turned-away", "Words-of", "asked-cells", "refusal-here", "none-was", "fits-too", "n-is", "is-start",
    "is-line", "is-end", "is-rest", "gone-on", "some-solid", "run-kinds",
}
WORD = re.compile(r"[A-Za-z]\w*(?:-\w+)+")
LEFT = r"(?<![\w'\-])"
RIGHT = r"(?![\w'\-])"


def antt_files():
    return sorted(glob.glob("crates/*/specs/**/*.antt", recursive=True) + glob.glob("crates/*/proofs/**/*.antt", recursive=True))


def respelled(name):
    if name[0].isupper():
        return "".join(part[:1].upper() + part[1:] for part in name.split("-"))
    spaced = re.sub(r"(?<=[a-z0-9])([A-Z])", lambda m: "_" + m.group(1).lower(), name)
    return spaced.replace("-", "_")


def declarations():
    for path in antt_files():
        if os.path.basename(path) in GENERATED:
            continue
        for line in open(path, encoding="utf-8"):
            found = DECLARED.match(line)
            if found and not line.lstrip().startswith("--"):
                yield found


def declared_names():
    names = {found.group(2) for found in declarations()}
    return BOUND | {name for name in names if respelled(name) != name and re.fullmatch(r"[A-Za-z][\w'\-]*", name)}


def function_names():
    names = set()
    for path in glob.glob("crates/*/src/**/*.rt", recursive=True):
        names.update(re.findall(r"\bfn (\w+)", open(path, encoding="utf-8").read()))
    return names


def outside_text(line, change):
    """Applies change to the parts of a line of Rattle that are neither a string nor a comment."""
    parts = re.split(r'("(?:[^"\\]|\\.)*"|//.*$)', line)
    return "".join(part if i % 2 else change(part) for i, part in enumerate(parts))


def main():
    renames = {name: respelled(name) for name in declared_names()}
    new = {}
    for name, to in renames.items():
        new.setdefault(to, set()).add(name)
    for found in declarations():
        if found.group(2) in new:
            new[found.group(2)].add(found.group(2))
    together = {to: sorted(names) for to, names in new.items() if len(names) > 1}
    if together:
        sys.exit(f"names that would fall together: {together}")
    calls = {name.replace("_", "-"): name for name in function_names() if "_" in name}
    pattern = re.compile(LEFT + "(" + "|".join(sorted(map(re.escape, renames), key=len, reverse=True)) + ")" + RIGHT)
    cited = re.compile(r"\.(" + "|".join(sorted(map(re.escape, calls), key=len, reverse=True)) + ")" + RIGHT)

    def change(text):
        return pattern.sub(lambda m: renames[m.group(1)], text)

    # port.py respelled some of them before.
    declared = set(new) | {found.group(2) for found in declarations()}

    def known(word):
        return respelled(word) if respelled(word) in declared else word

    def write(path, text, changed):
        if changed != text:
            open(path, "w", encoding="utf-8").write(changed)

    for path in antt_files():
        text = open(path, encoding="utf-8").read()
        write(path, text, cited.sub(lambda m: "." + calls[m.group(1)], change(text)))
    for path in glob.glob("crates/*/src/**/*.rt", recursive=True) + glob.glob("crates/*/must-fail/*.edit"):
        text = open(path, encoding="utf-8").read()
        write(path, text, "\n".join(outside_text(line, change) for line in text.split("\n")))
    for path in ["README.md"] + glob.glob("docs/*.md"):
        if os.path.basename(path) == "PORT.md":
            continue
        text = open(path, encoding="utf-8").read()
        write(path, text, re.sub(r"`[^`\n]+`", lambda m: WORD.sub(lambda w: known(w.group(0)), m.group(0)), text))
    for name in sorted(renames):
        print(name, renames[name])


main()
