#!/usr/bin/env python3
"""Lists the places in crates/*/src that a newer form of the language might serve, point by point.

    python3 tools/places.py [COMMIT] [--show]

It looks at the working tree, or at a commit. It goes by text, so that what it finds is where to look.
"""
import re
import subprocess
import sys
from collections import defaultdict

show = "--show" in sys.argv
commit = next((a for a in sys.argv[1:] if not a.startswith("-")), None)


def git(*args):
    return subprocess.run(["git", *args], capture_output=True, text=True, check=True).stdout


def files(suffix, *folders):
    names = git("ls-tree", "-r", "--name-only", commit).split() if commit else git("ls-files", "-co", "--exclude-standard").split()
    for name in names:
        if name.endswith(suffix) and re.match(r"crates/[^/]*/(%s)/" % "|".join(folders), name):
            try:
                yield name, git("show", f"{commit}:{name}") if commit else open(name).read()
            except FileNotFoundError:
                pass


sources = dict(files(".rt", "src"))
lines = [
    (name, number, line)
    for name, text in sources.items()
    for number, line in enumerate(text.splitlines(), 1)
    if not line.lstrip().startswith("//")
]


def report(title, found):
    print(f"{title}: {len(found)}")
    if show:
        for place in found:
            print("   ", place)


def look(title, pattern):
    report(title, [f"{n}:{k}: {line.strip()}" for n, k, line in lines if re.search(pattern, line)])


# Functions: name, parameters, clauses and body, by matching brackets.
functions = []
for name, text in sources.items():
    code = re.sub(r"//[^\n]*", "", text)
    for head in re.finditer(r"\bfn (\w+)(<[^(]*>)?\(", code):
        depth, at = 1, head.end()
        while depth:
            depth += {"(": 1, ")": -1}.get(code[at], 0)
            at += 1
        parameters = code[head.end():at - 1]
        # the body is the first bracket behind the clauses, each of which has one of its own
        clauses_from = at
        while True:
            brace = code.index("{", at)
            between = code[at:brace]
            depth, end = 1, brace + 1
            while depth:
                depth += {"{": 1, "}": -1}.get(code[end], 0)
                end += 1
            if re.search(r"\b(requires|ensures)\b", between):
                at = end
                continue
            break
        functions.append((name, head.group(1), parameters, code[clauses_from:brace], code[brace:end]))


def shape(body):
    tokens = re.findall(r"\w+|[^\w\s]", body)
    keep = {"if", "else", "match", "for", "while", "in", "let", "mut", "return", "Some", "None", "Ok", "Err", "true", "false"}
    return " ".join(t if t in keep or not re.match(r"\w", t) else "N" if t[0].isdigit() else "I" for t in tokens)


look("1 refusals by number", r"Refused\((u64|_|number|same|[0-9])|[rR]efused\([0-9]|\.number\(\)|match number \{|number: u64")
look("1 variants of an own enum that stand for none, an error or its value", r"^ {4}(Refused|None|Empty|Unreadable|Nothing|NoRoom|Asks|Row)(\(.*\))?,$")
look("1 what was done, told by a bool, or none by nought or an end", r"fn \w+\(.*&mut .*\) -> (bool|Result<bool)|-> Result<bool|None => (0|shelf\.len\(\))|map_or\(0,|unwrap_or\((0|shelf\.len\(\)|self\.cells)\)|-> usize .*or its end")

twins = defaultdict(list)
for name, function, _, _, body in functions:
    form = shape(body)
    if len(form.split()) >= 10:
        twins[name.split("/")[1], form].append(f"{name}: {function}")
same = [" = ".join(group) for group in twins.values() if len(group) > 1]
report("2 functions of a crate with bodies of the same shape", same)

look("3 while", r"(^|[^\w.])while ")
look("3 for over a range", r"(^|[^\w.])for \w+ in .*\.\.")
look("3 for over anything else", r"(^|[^\w.])for .* in (?!.*\.\.).*\{$")

look("4 equality, conversion and printing in functions of their own", r"fn (is_same|from_[a-z]+|to_[a-z]+|number|code|print_[a-z]+|write_[a-z]+|is_saved|is_taken|is_given|is_set|has_no_room)\(|matches!\(")

facts = defaultdict(set)
together = defaultdict(set)
for name, function, parameters, clauses, _ in functions:
    for clause in re.findall(r"requires[^{]*\{([^{}]*)\}", clauses):
        facts[re.sub(r"\b(shelf|part|cells|chunk)\.(now|old)", "cells", " ".join(clause.split()))].add(f"{name}: {function}")
    named = [p.strip() for p in re.split(r",(?![^<(]*[>)])", parameters) if ":" in p]
    for i, one in enumerate(named):
        for other in named[i + 1:]:
            together[one, other].add(f"{name}: {function}")
report("5 facts required by three functions or more", [f"{fact} | {', '.join(sorted(who))}" for fact, who in facts.items() if len(who) > 2])
report("5 pairs of parameters that three functions or more have", [f"{', '.join(pair)} | {', '.join(sorted(who))}" for pair, who in together.items() if len(who) > 2])

look("6 arrays of a fixed size, buffers with a count, lists that are searched", r": \[u64; |&mut \[u64\]|\[0; MOST|\.\.count\]|fn (held_by|index_of|standing)|: (&mut )?Vec<Holding>")
look("7 matches on which step to run", r"match (work|kind|request|command|answer|order|done) \{")

answers = [(n, t) for n, t in files(".antt", "proofs") if n.endswith("Answers.antt")]
proofs = list(files(".antt", "proofs"))
count = sum(len(re.findall(r"^(pub )?[\w-]+(?: \w+)+ =", t, re.M)) for _, t in answers)
print(f"8 files of answers: {len(answers)}, answers: {count}, files of proofs: {len(proofs)}, lines: {sum(len(t.splitlines()) for _, t in proofs)}")
