#!/usr/bin/env python3
"""Counts the places that docs/DESIGN-PASS.md speaks of, in the src/ of every crate (point 8 in the proofs/).

    python3 tools/places.py [CHECKOUT]      the counts
    python3 tools/places.py -v [CHECKOUT]   and each place
"""
import collections
import glob
import os
import re
import sys

ARGS = [a for a in sys.argv[1:] if a != "-v"]
TOP = ARGS[0] if ARGS else "."
SAID = "-v" in sys.argv

FUNCTION = re.compile(
    r'\n[ ]*(?:pub(?:\(crate\))? )?(?:extern "C" )?fn (\w+)(?:<[^(]*>)?\(([^{]*?)\)(?: -> [^\n{]*)?\s*\n'
    r'((?:\s+(?:requires|ensures)[^\n]*\n(?:\s{8,}[^\n]*\n)*)*)'
)


def sources():
    for path in sorted(glob.glob(os.path.join(TOP, "crates/*/src/*.rt"))):
        with open(path, encoding="utf-8") as file:
            yield os.path.relpath(path, TOP), file.read()


def lines(pattern):
    """The lines that have the pattern, as file:line: text."""
    found = []
    for path, text in sources():
        for number, line in enumerate(text.splitlines(), 1):
            if re.search(pattern, line) and not line.lstrip().startswith("//"):
                found.append(f"{path}:{number}: {line.strip()}")
    return found


def functions():
    for path, text in sources():
        for found in FUNCTION.finditer("\n" + text):
            yield path, found.group(1), found.group(2), found.group(3)


def inner(clauses):
    """The innermost facts of the requires."""
    asked = "".join(re.findall(r"requires[^\n]*\n(?:\s{8,}[^\n]*\n)*", clauses))
    asked = re.sub(r"requires \w* ?\{", "", asked)
    facts = re.findall(r"\(([^()]*(?:\([^()]*(?:\([^()]*\)[^()]*)*\)[^()]*)*)\)", asked)
    return [f.strip() for f in facts if re.search(r"[≡≤<]", f) or re.match(r"[A-Z]", f.strip())]


def many_parameters():
    found = []
    for path, name, parameters, _ in functions():
        count = len(re.findall(r"\w+\s*:", parameters)) + ("self" in parameters)
        if count >= 7:
            found.append(f"{path}: {name}, {count} parameters")
    return found


def repeated_facts():
    facts = collections.defaultdict(list)
    for path, name, _, clauses in functions():
        for fact in set(inner(clauses)):
            facts[path.split(os.sep)[1], fact].append(name)
    return [f"{crate}: {fact}: {', '.join(names)}" for (crate, fact), names in sorted(facts.items()) if len(names) >= 3]


def say(point, what, places):
    print(f"{point}  {len(places):4}  {what}")
    if SAID:
        for place in places:
            print(f"           {place}")


def answers():
    found = glob.glob(os.path.join(TOP, "crates/*/proofs/**/Answers.antt"), recursive=True)
    return [line for path in found for line in open(path, encoding="utf-8") if re.match(r"(pub )?[\w-]+ : goal\.", line)]


say(1, "own enums without a name for anything but a result or nothing", lines(r"^(pub(\(crate\))? )?enum (Reading|Taking|Survey|Step|Scan|Verdict|Found|Sought|Listed|Reached|Ticked) "))
say(1, "tests of a number for success", lines(r"\.number (==|!=) 0"))
say(1, "constants that are numbers of refusals", lines(r"^pub const (NO_ROOM|BAD_|CUT_|UNKNOWN_|OUT_OF|MISPLACED|CLOCKS_|BEYOND|NOT_|TOO_|WRONG_|SHORT_|CLASH|UNJOINED|HAS_|OFF_)"))
say(1, "decisions over the number of a kind", lines(r"match (row\.|self\.|r\.)?kind\b"))
say(3, "while", lines(r"^\s*('\w+: )?while "))
say(3, "for, and chains of an iterator", lines(r"^\s*('\w+: )?for \w|\bfor \(|\.iter\(|\.iter_mut\("))
say(4, "casts by as", lines(r" as (u8|u16|u32|u64|usize)\b"))
say(4, "functions that compare, count or subtract by hand", lines(r"fn (same\w*|bit|ago|quotient|difference|copy|clear\w*|time_at|word_at|lesser|least)\("))
say(5, "functions with seven parameters or more", many_parameters())
say(5, "facts in the requires of three functions of a crate or more", repeated_facts())
say(6, "buffers with a count beside them", lines(r"^\s*\w*count: usize,|found: usize|size: usize,"))
say(6, "words by hand: a place and a number", lines(r"\[[^\[\]]*\+ [1-9]\d?\]"))
say(7, "flags among the parameters", lines(r"\b(rated|truth|wanted|on|test): bool"))
say(8, "answers of functions", answers())
