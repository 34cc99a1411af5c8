#!/usr/bin/env python3
"""Compiles the judge as plain Rust for this machine, over `native.rs`.

Rattle's programs are compiled for x86-64, and run nowhere else. Their code is nearly Rust: what is taken out here is what only a proof
reads and checks of bounds, and what is added is that values are copied. So the code that is measured is the code that is proved, but for
its compiler: nothing is proved of what comes out, and nothing but measuring is done with it.
usage: native.py CHECKOUT PROGRAM
  CHECKOUT  a folder with crates.txt and crates/, this one's or that of an earlier commit
  PROGRAM   the file to write
"""
import pathlib, re, subprocess, sys, tempfile

HERE = pathlib.Path(__file__).resolve().parent


def crates(checkout):
    """The judge, the lists of what may come next if there are any, and what they build on."""
    lines = (checkout / "crates.txt").read_text().splitlines()
    below = {name: lower.split() for name, colon, lower in (line.partition(":") for line in lines) if colon}
    taken, left = [], [name for name in ("judge", "ahead") if name in below]
    while left:
        name = left.pop()
        if name not in taken:
            taken.append(name)
            left += below[name]
    return taken


def plain(text):
    """Without what only a proof reads: ghost imports, members and fields, clauses, and what is said to the prover."""
    text = re.sub(r"^\s*(ghost use\b|#!?\[(tactic|cycle)\b).*\n", "", text, flags=re.M)
    kept, at = [], 0
    for found in re.finditer(r"\n[ \t]*(?:(?:requires|ensures\*?)(?: \w+)? |(?:pub )?ghost \w+(?: =|:) )(?=\{)", text):
        if found.start() < at:
            continue
        kept.append(text[at : found.start()])
        at, open_braces = found.end(), 0
        while True:
            open_braces += {"{": 1, "}": -1}.get(text[at], 0)
            at += 1
            if open_braces == 0:
                break
        # A method that is only declared ends with its last clause; a ghost member or field takes its end with it.
        if text[at] in ",;":
            if "ghost" not in found[0]:
                kept.append(";")
            at += 1
    return "".join(kept) + text[at:] + "\n"


def unchecked(text):
    """Without the checks of bounds that Rust would make: that every index is within is proved, and the proved program makes none. Through
    pointers, since Rust's own unchecked reads still compare with the length, for its compiler to go by, which keeps lengths at hand."""
    at = r"(?<![.\w])((?:[a-z]\w*\.)*(?:[a-z]\w*|[A-Z]+))\[((?:(?!\.\.)[^\[\];])+)\]"
    text = re.sub(rf"^(\s*){at} ([|+&]?=) (.*);$", r"\1unsafe { *\2.as_mut_ptr().add(\3) \4 \5; }", text, flags=re.M)
    return re.sub(at, r"(unsafe { *\1.as_ptr().add(\2) })", text)


def copied(found):
    """A type with what it derives, but for what says that it may be let go, which is Rattle's alone. Where nothing is said, as in earlier
    builds, it can be copied."""
    names = set(re.findall(r"\w+", found[1])) - {"Drop"} if found[1] else {"Clone", "Copy"}
    return (f"#[derive({', '.join(sorted(names))})]\n" if names else "") + found[2]


def module(text, names):
    """As a module of one Rust crate, in which the other crates are modules too."""
    text = re.sub(rf"(?<![\w:])({'|'.join(names)})::(?=[\w{{])", r"crate::\1::", unchecked(plain(text)))
    return re.sub(r"^(?:#\[derive\((.*)\)\]\n)?((?:pub )?(?:struct|enum) )", copied, text, flags=re.M)


def calls(checkout, names):
    """`judge_lists` and `next_lists` of `native.rs`: None for what this build does not know of, as it may be an earlier one."""
    judge = (checkout / "crates" / "judge" / "src" / "lib.rt").read_text()
    sets = "&l.sets, " if "sets: &[u8]" in judge else ""
    unknown = [] if sets else ["!l.sets.is_empty()"]
    unknown += [] if "pub fn judge_named(" in judge else ["l.names.is_some()"]
    named = f"judge::judge_named(names, &l.nodes, &l.records, {sets}work, l.allowance)" if "pub fn judge_named(" in judge else "return None"
    return f"""
fn judge_lists(l: &Lent, work: &mut [u8]) -> Option<Answer> {{
    if {" || ".join(unknown) or "false"} {{
        return None;
    }}
    Some(match &l.names {{
        None => judge::judge(&l.nodes, &l.records, {sets}work, l.allowance),
        Some(names) => {named},
    }})
}}
""" + (next_call(sets) if "ahead" in names else NO_NEXT)


NO_NEXT = """
fn next_lists(_: &Lent, _: &mut [u16], _: &mut [u8]) -> Option<Listing> {
    None
}
"""


def next_call(sets):
    return f"""
fn next_lists(l: &Lent, list: &mut [u16], work: &mut [u8]) -> Option<Listing> {{
    use ahead::answer::Next;
    if {"false" if sets else "!l.sets.is_empty()"} {{
        return None;
    }}
    let next = match &l.names {{
        None => ahead::next(&l.nodes, &l.records, {sets}list, work, l.allowance),
        Some(names) => ahead::next_named(names, &l.nodes, &l.records, {sets}list, work, l.allowance),
    }};
    Some(match next {{
        Next::Listed(f) => Listing::Listed(f.length, f.count),
        Next::Undecided(f) => Listing::Undecided(f.count),
        Next::Refused(r) => Listing::Refused(r.number as u32, r.place as u32),
    }})
}}
"""


def write_sources(checkout, folder):
    names = crates(checkout)
    for name in names:
        for source in sorted((checkout / "crates" / name / "src").glob("*.rt")):
            own = folder / f"{name}.rs" if source.stem == "lib" else folder / name / f"{source.stem}.rs"
            own.parent.mkdir(exist_ok=True)
            own.write_text(module(source.read_text(), names))
    modules = "".join(f"mod {name};\n" for name in names)
    (folder / "main.rs").write_text((HERE / "native.rs").read_text() + calls(checkout, names) + modules)


def build(checkout, program):
    """Fails if there is no such checkout, or if it cannot be compiled."""
    with tempfile.TemporaryDirectory() as folder:
        folder = pathlib.Path(folder)
        write_sources(checkout, folder)
        # One codegen unit: with more, what is inlined into what depends on unrelated code, and one flow took 14.2 or 20.7 µs a state by an
        # edit of native.rs alone.
        words = ["rustc", "-C", "opt-level=3", "-C", "codegen-units=1", "--edition", "2021", "-A", "warnings"]
        subprocess.run(words + [folder / "main.rs", "-o", program], check=True)


if __name__ == "__main__":
    if len(sys.argv) != 3:
        sys.exit(__doc__[__doc__.index("usage") :].rstrip())
    build(pathlib.Path(sys.argv[1]).resolve(), pathlib.Path(sys.argv[2]).resolve())
