#!/usr/bin/env python3
"""Brings the repository's own definitions and lemmas to today's spelling: types and modules in camel case, all other words
in snake case. Run once, at the top, after port.py. A name of the library, a name that Rattle made of the code (goals, and
the steps of a context) and a function of src/ keep theirs."""
import collections
import glob
import os
import re
import sys

NAME = re.compile(r"(?<![\w'₀-₉·-])[A-Za-z_][\w'₀-₉]*(?:-[\w'₀-₉]+)*")
USE = re.compile(r"\s*(?:pub )?(?:ghost )?use ([\w.+'-]+)\.\{(.*)\}")
MADE = re.compile(r"(then|else)-.*|in-(ok|err|Ok|Err|Some|None)(-.*)?|loop-.*|.*-via-.*")
# what a projection starts from in the answers to goals: Rattle made the names after it, up to one of PROVED
CONTEXT = {"c", "w", "g", "l"}
PROVED = {"ensures", "requires", "invariant"}
# own names that no hyphen shows
ALSO = {"framesOf": "frames_of", "Goes_on": "GoesOnAfter"}
# constructors begin with a small letter; two types would fall together with a type of another crate
APART = {
    "Not-begun": "unbegun",
    "Under-way": "under_way",
    "Is-completed": "has_completed",
    "Is-terminated": "has_terminated",
    "Largest-shut": "LargestShutPoints",
    "Open-set": "IsOpenSet",
    "is-terminated": "ended_status",
}


def proof_files():
    return sorted(glob.glob("crates/**/*.antt", recursive=True))


def code_files():
    return sorted(glob.glob("crates/**/*.rt", recursive=True))


def split(path, line):
    """The line's code and its comment."""
    mark = "//" if path.endswith(".rt") else "--"
    at = 0 if line.strip().startswith(mark) else line.find(" " + mark + " ")
    return (line, "") if at < 0 else (line[:at], line[at:])


def new_spelling(name):
    if name in APART:
        return APART[name]
    if name[0].isupper():
        return "".join(part[0].upper() + part[1:] for part in name.split("-"))
    return (name[0].lower() + name[1:]).replace("-", "_")


def made_or_lent():
    """Names that are not ours: imported from outside this repository, or made by Rattle."""
    names = set()
    for path in proof_files() + code_files():
        for line in open(path):
            code, _ = split(path, line)
            use = USE.match(code)
            if use:
                parts = use.group(1).split(".")
                ours = parts[0] == "Rattle" and os.path.isdir("crates/" + parts[1])
                if not ours or parts[-1] in ("Goals", "Given"):
                    for item in use.group(2).split(","):
                        names.update(item.split(" as ")[0].split())
            names.update(re.findall(r"goal\.([\w'-]+)", code))
    return names


def own_names():
    lent = made_or_lent()
    found = collections.Counter()
    for path in proof_files() + code_files():
        for line in open(path):
            code, _ = split(path, line)
            for m in NAME.finditer(code):
                name = m.group()
                after_dot = m.start() > 0 and code[m.start() - 1] == "."
                if "-" in name and not after_dot and name not in lent and not MADE.fullmatch(name):
                    found[name] += 1
    names = {name: new_spelling(name) for name in found}
    names.update(ALSO)
    return names


def respell_code(code, names):
    def put(m):
        name = m.group()
        if name not in names:
            return name
        root = re.search(r"([\w'-]+)((?:\.[\w'-]+)*)\.$", code[: m.start()])
        if root and root.group(1) in CONTEXT and not PROVED & set(root.group(2).split(".")):
            return name
        return names[name]
    return NAME.sub(put, code)


def respell_comment(comment, names):
    """In a comment a small word with a hyphen may be plain English: it is a name only between backticks."""
    def put(m):
        name = m.group()
        quoted = comment[max(0, m.start() - 1)] == "`" or name[0].isupper()
        return names[name] if name in names and quoted else name
    return NAME.sub(put, comment)


def modules():
    """Own modules with an underscore in a name that begins with a capital letter, and what they become."""
    found = {}
    for path in proof_files():
        for part in path.split("/"):
            stem = part[:-5] if part.endswith(".antt") else part
            if stem[0].isupper() and "_" in stem:
                found[stem] = "".join(p[0].upper() + p[1:] for p in stem.split("_"))
    return found


def collisions(names):
    """New names that some file that has the old one has already."""
    said = []
    taken = collections.defaultdict(set)
    for old, new in names.items():
        taken[new].add(old)
    said += [f"fall together: {sorted(olds)} -> {new}" for new, olds in taken.items() if len(olds) > 1]
    for path in proof_files() + code_files():
        text = "\n".join(split(path, line)[0] for line in open(path))
        here = {m.group() for m in NAME.finditer(text) if text[m.start() - 1] != "."}
        said += [f"taken in {path}: {old} -> {names[old]}" for old in here & set(names) if names[old] in here]
    return said


def main():
    names = own_names()
    for old in sys.argv[2:]:
        names.pop(old, None)
    if sys.argv[1:2] == ["list"]:
        for old, new in sorted(names.items()):
            print(old, new)
        print("\n".join(collisions(names)))
        return
    dirs = modules()
    word = re.compile(r"(?<![\w'-])(" + "|".join(map(re.escape, dirs)) + r")(?![\w'-])")
    for path in proof_files() + code_files():
        lines = []
        for line in open(path):
            code, comment = split(path, line)
            line = respell_code(code, names) + respell_comment(comment, names)
            lines.append(word.sub(lambda m: dirs[m.group()], line))
        open(path, "w").write("".join(lines))
    for path in ["README.md"] + glob.glob("docs/*.md"):
        text = open(path).read()
        text = re.sub(r"`[^`\n]*`", lambda m: NAME.sub(lambda n: names.get(n.group(), n.group()), m.group()), text)
        open(path, "w").write(word.sub(lambda m: dirs[m.group()], text))
    for old in sorted({p for p in proof_files() + [os.path.dirname(p) for p in proof_files()]}, key=len, reverse=True):
        stem, end = os.path.splitext(os.path.basename(old))
        if stem in dirs:
            os.rename(old, os.path.join(os.path.dirname(old), dirs[stem] + end))


if __name__ == "__main__":
    main()
