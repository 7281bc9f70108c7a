#!/usr/bin/env python3
"""Counts the places of the points of docs/DESIGN-PASS.md in src/, in the working tree or at a commit.

Usage: tools/places.py [COMMIT] [-v]     -v prints each place.
Points 2, 7 and 8 need reading too: the page says what was found so.
"""
import re
import subprocess
import sys
from collections import defaultdict
from difflib import SequenceMatcher
from itertools import combinations

args = [a for a in sys.argv[1:] if a != "-v"]
loud = "-v" in sys.argv
at = args[0] if args else None


def git(*words):
    return subprocess.run(["git", *words], capture_output=True, text=True, check=True).stdout


def files(pattern):
    listed = git("ls-tree", "-r", "--name-only", at) if at else git("ls-files")
    return [f for f in listed.splitlines() if re.search(pattern, f)]


def text(name):
    return git("show", f"{at}:{name}") if at else open(name).read()


sources = {name: text(name) for name in files(r"^crates/.*/src/.*\.rt$")}


def lines(pattern, skip=r"^\s*(//|ensures|requires|ghost)"):
    for name, body in sources.items():
        for number, line in enumerate(body.splitlines(), 1):
            if re.search(pattern, line) and not re.search(skip, line):
                yield f"{name}:{number}: {line.strip()}"


def across(pattern):
    for name, body in sources.items():
        for found in re.finditer(pattern, body, re.S):
            number = body.count("\n", 0, found.start()) + 1
            yield f"{name}:{number}: {' '.join(found.group(0).split())[:110]}"


def clauses_repeated():
    where = defaultdict(list)
    for name, body in sources.items():
        for number, line in enumerate(body.splitlines(), 1):
            found = re.match(r"\s*(?:requires|ensures)\b[^{]*\{(.*)\}\s*$", line)
            if found:
                where[found.group(1).strip()].append(f"{name}:{number}")
    return (f"{clause}  [{len(at)}]" for clause, at in sorted(where.items()) if len(at) >= 3)


WORDS = "as break const continue else enum false fn for if impl in let loop match mut pub return self struct true while Some None Ok Err".split()


def same_shape():
    """Pairs of functions of a crate whose bodies are nearly one text once names, numbers and literals are blanked."""
    bodies = defaultdict(list)
    for name, body in sources.items():
        for found in re.finditer(r"\bfn (\w+)[^{;]*?(?:\n\s*(?:requires|ensures)[^\n]*)*\s*\{\n(.*?)\n {0,4}\}\n", body, re.S):
            code = re.sub(r"//[^\n]*", "", found.group(2))
            tokens = re.findall(r"\w+|b?'.'|\"[^\"]*\"|\S", code)
            blank = [t if t in WORDS or not re.match(r"[\w\"']|b'", t) else "_" for t in tokens]
            if len(blank) >= 12:
                bodies[name.split("/")[1]].append((found.group(1), blank))
    for crate, functions in sorted(bodies.items()):
        for (one, a), (other, b) in combinations(functions, 2):
            if SequenceMatcher(None, a, b, autojunk=False).ratio() >= 0.9:
                yield f"{crate}: {one} ~ {other}"


def parameters_together():
    where = defaultdict(list)
    for name, body in sources.items():
        for found in re.finditer(r"\bfn (\w+)(?:<[^(]*>)?\(([^)]*)\)", body, re.S):
            named = sorted(set(re.findall(r"(\w+): ([^,]+?)\s*(?:,|$)", found.group(2))))
            for pair in combinations(named, 2):
                where[(name.split("/")[1], pair)].append(found.group(1))
    for (crate, pair), users in sorted(where.items()):
        if len(users) >= 3:
            yield f"{crate}: {pair[0][0]}: {pair[0][1]}, {pair[1][0]}: {pair[1][1]}  {users}"


points = {
    "1 outcome or kind: own enums": lines(r"\benum \w+"),
    "1 a flag or a number beside a value": lines(r"\b\w+: bool\b|Result<[^>]*, u(8|16|32|64|size)>|\bstruct \w+\(.*\bu64"),
    "1 words that are sets": lines(r"-> (\(Outcome, )?u64\b|\b(added|tasks|set): (&mut )?u64\b"),
    "1 an Option or a Result taken apart to be made again":
        across(r"Some\((\w+)\) => Some\(|None => None|Err\(\w+\) => match|Err\(_\)|Some\(_\) => true|None => false"
               r"|let Ok\(\w+\) = [^;]*? else"),
    "2 functions of one shape, but for their words": same_shape(),
    "3 loops over numbers, and while": lines(r"^\s*for \w+ in [^{]*(\w|\))\.\.|^\s*while\b|^\s*loop \{"),
    "3 counters beside a loop": lines(r"(^\s*|=> )(self\.at|\w+) \+= 1\b"),
    "4 conversions, equality and printing by hand":
        lines(r"\bfn (number|letter|other|arity|from_\w+|fmt|eq|cmp|default|put_number)\b|matches!\([\w.]+, \w+::\w+\)"
              r"|\w+\.\w+ == \w+(\.\w+)? && |\.number [!=]= |_ => false"),
    "4 casts": lines(r"\bas (u8|u16|u64|usize)\b"),
    "5 clauses in three contracts or more": clauses_repeated(),
    "5 parameters that travel together through three functions or more": parameters_together(),
    "6 arrays": lines(r": \[[^\]]+; \w+\]"),
    "6 a buffer and a place": lines(r"\b(at|count|depth|waiting): (usize|u8)\b"),
    "7 a switch on a step": across(r"match \w+(?:\.\w+)? \{\s*(?:\w+::\w+[^=]*=> \w+(?:\.\w+)*\([^\n]*\n\s*){3,}"),
    "7 tables of functions": lines(r"\bfn\(|\bdyn\b|&\[.*Fn"),
}
for point, found in points.items():
    found = list(found)
    print(f"{len(found):4}  {point}")
    if loud:
        for place in found:
            print(f"          {place}")
answers = {name: text(name).count("\n") for name in files(r"^crates/.*/proofs/.*\.antt$")}
print(f"{len(answers):4}  8 files of proofs, {sum(answers.values())} lines")
