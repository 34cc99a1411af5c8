#!/usr/bin/env python3
"""Brings the names of definitions and lemmas to today's spelling: words in snake case, facts in camel case.

usage: tools/respell.py, at the top of the repository, once, right after its sources were brought to the new toolchain's spelling

It reads which names the files of specs/ and the lemma files of proofs/ declare, and rewrites each name that has a dash or a capital behind a
small letter, in all .antt, .rt and .edit files and, between backticks, in comments and pages. Names that fall together stop it before it
writes anything.
"""

import collections
import os
import re
import sys

# Facts are spelled like types. `ground` is the name of a tactic by now, and `some?` is no word.
SPECIAL = {
    "is-fine": "IsFine",
    "is-undecided": "IsUndecided",
    "is-refused": "IsRefused",
    "is-accepted": "IsAccepted",
    "hands-two": "HandsTwo",
    "hands-std": "HandsStd",
    "hands-run": "HandsRun",
    "hands-by": "HandsBy",
    "ground": "ground_of",
    "some?": "nonzero",
}

# These are words of another meaning elsewhere.
IN_FILES = {
    "crates/states/specs/Hands.antt": {"goes_on": "GoesOn"},
    "crates/steps/specs/TurnLaws.antt": {"goes_on": "GoesOn"},
    "crates/calculus/specs/Found.antt": {"left_over": "LeftOver"},
}

# A file of specs/ may not have the name of a module that the toolchain makes.
MODULES = {"crates/states/specs/Contracts.antt": ("states", "Contracts", "Clauses")}

NAME = r"[^\s(){}\[\],;.λ@\"«»`:|]+"
TOKEN = re.compile(NAME)


def files(root, endings):
    for folder, dirs, names in os.walk(root):
        dirs[:] = sorted(d for d in dirs if d not in ("out", ".git", "target"))
        for name in sorted(names):
            if name.endswith(endings):
                yield os.path.join(folder, name)


def read(path):
    with open(path, encoding="utf-8") as f:
        return f.read()


def write(path, text):
    with open(path, "w", encoding="utf-8") as f:
        f.write(text)


def of_function(path):
    """Whether a file is a function's own proof: what is named there is written anew."""
    parts = path.split(os.sep)
    return "proofs" in parts and len(parts) - parts.index("proofs") > 2


def code_of(line, comment):
    """A line in two: code, and the comment behind it."""
    at = 0 if line.lstrip().startswith(comment) else line.find(" " + comment + " ")
    return (line, "") if at < 0 else (line[:at], line[at:])


def declared():
    """The names that the repository declares, and those that it imports from elsewhere."""
    own, other = collections.defaultdict(set), set()
    for path in files("crates", (".antt", ".rt")):
        for line in read(path).splitlines():
            code, _ = code_of(line, "--" if path.endswith(".antt") else "//")
            use = re.match(r"\s*(?:pub |ghost )*use (\S+?)\.\{(.*)\}", code)
            if use:
                parts = use.group(1).split(".")
                if not (parts[0] == "Rattle" and os.path.isdir(os.path.join("crates", parts[1]))):
                    other.update(n.strip().split(" as ")[0] for n in use.group(2).split(","))
            elif path.endswith(".antt") and not of_function(path) and not re.match(r"\s*(?:pub )?use ", code):
                found = re.match(rf"\s*(?:(?:abbrev|unfoldable|pub|let) )*({NAME}) :(?:\s|$)", code)
                if found:
                    own[found.group(1)].add(path)
                for word in TOKEN.finditer(code):
                    name = word.group(0)
                    if re.match("[a-z]", name) and "-" in name and code[word.start() - 1 : word.start()] != ".":
                        own[name].add(path)
    return own, other


def spelled(name):
    if name in SPECIAL:
        return SPECIAL[name]
    if not re.match(r"[a-z]", name):
        return name
    dashed = name.replace("-", "_")
    return re.sub(r"([a-z0-9])([A-Z])(?![a-z])", lambda m: m.group(1) + "_" + m.group(2).lower(), dashed)


def names():
    own, other = declared()
    new = {n: spelled(n) for n in own if spelled(n) != n and (n not in other or n in SPECIAL)}
    back = collections.defaultdict(set)
    for n in own:
        back[new.get(n, n)].add(n)
    for n in other:
        back[n].add(n)
    clash = {k: sorted(v) for k, v in back.items() if len(v) > 1}
    if clash:
        for k, v in sorted(clash.items()):
            print(f"respell: {' and '.join(v)} would both be {k}", file=sys.stderr)
        raise SystemExit(1)
    return new


def turn(text, new, comment):
    """Names in code, and in a comment those between backticks."""

    def code(part):
        return TOKEN.sub(lambda m: new.get(m.group(0), m.group(0)), part)

    def ticked(part):
        return re.sub(r"`[^`]*`", lambda m: code(m.group(0)), part)

    lines = []
    for line in text.split("\n"):
        if comment is None:
            lines.append(ticked(line))
        else:
            before, behind = code_of(line, comment)
            lines.append(code(before) + ticked(behind))
    return "\n".join(lines)


def in_source(text, new):
    """In a source file only what is ghost: clauses, imports and ghost members."""
    dashed = {a: b for a, b in new.items() if a not in ("ground",)}
    return turn(text, dashed, "//")


def main():
    new = names()
    for path in list(files("crates", (".antt", ".rt", ".edit"))):
        text = read(path)
        mine = {**new, **IN_FILES.get(path.replace(os.sep, "/"), {})}
        if path.endswith(".antt"):
            turned = turn(text, mine, "--")
        elif path.endswith(".rt"):
            turned = in_source(text, mine)
        else:
            turned = turn(text, mine, "#")
        for crate, old, now in MODULES.values():
            turned = re.sub(rf"Rattle\.{crate}\.specs\.{old}\b", f"Rattle.{crate}.specs.{now}", turned)
            if path == os.path.join("crates", crate, "specs", "Lib.antt"):
                turned = re.sub(rf"(pub mod ){old}$", rf"\g<1>{now}", turned, flags=re.M)
        if turned != text:
            write(path, turned)
    for path, (crate, old, now) in MODULES.items():
        if os.path.exists(path):
            os.rename(path, os.path.join("crates", crate, "specs", now + ".antt"))
    pages = {a: b for a, b in new.items() if a != "ground"}
    for path in files(".", (".md",)):
        text = read(path)
        turned = turn(text, pages, None)
        if turned != text:
            write(path, turned)
    print(f"respell: {len(new)} names")


if __name__ == "__main__":
    main()
