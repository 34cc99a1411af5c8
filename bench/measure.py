#!/usr/bin/env python3
"""States per second on the stored flows: the judge, the independent implementation, and the transition rules in Prolog; and a panel's
calls, which ask what may come next.

Every figure is of one run on the same files. Prints a table and keeps it in RESULTS.md beside this file, above that file's first
section. The judge is measured in one of two ways, and the table says which:
- on x86-64, for which Rattle's programs are compiled: the program `replay`, which is given a case again and again;
- elsewhere, where they do not run: the judge's code compiled for this machine as plain Rust (native.py).
usage: measure.py INDEPENDENT [OTHER]
  INDEPENDENT  the independent implementation, which has a subcommand `bench FILE ALLOWANCE`
  OTHER        one more program with `bench FILE`, printing lines that end in '.. M states/s' (optional)
usage: measure.py [--keep] --against EARLIER ..
  EARLIER      an earlier build, a checkout or a git revision, measured by turns with this one and the others, all compiled as plain Rust;
               on x86-64 it may be a program `replay` instead, and then all have to be, and this one is the proved program too
  --keep       keep the table in RESULTS.md, as its section on earlier builds
"""
import math, pathlib, platform, re, resource, struct, subprocess, sys, tempfile

sys.dont_write_bytecode = True
import native

HERE = pathlib.Path(__file__).resolve().parent
HOME = HERE.parent
ELSEWHERE = platform.machine() != "x86_64"
MOST = 4_294_967_295
FLOWS = {name: MOST for name in ["paraa", "choice", "yield", "undo", "lines", "seven", "pairs", "throww", "twelve", "fourteen"]}
FLOWS["throww"] = 100_000  # of some thousand million
FLOWS |= {name: 1_000_000 for name in ["nestp", "c3s12"]}  # as the program allows
FLOWS |= {name: MOST for name in ["bad11", "levels2", "levels4", "levels8"]}
# What is wanted of this build: at least so many times as fast as an earlier one, flow by flow, and all others ("") at least so.
WANTED = {
    "c24c828": {"nestp": 6, "c3s12": 1.8, "twelve": 8, "fourteen": 8, "bad11": 40, "paraa": 1, "choice": 1, "": 0.97},
    "4345dca": {"small": 1, "seven": 0.9},
}
LEVELS = ("levels2", "levels8", 2)  # one search: a state is to take at most so many times as long in the second
PANELS = {"panel-route": False, "panel-lines": False, "panel-undone": False, "panel-machines": True}  # whether names are lent
CLOSINGS = {61441: "done", 61442: "withdrawn", 61443: "failed"}
LIST_ROOM = 259
ROUNDS = 5
LIMIT = 60  # seconds for one call; what takes longer is left out
WORTH_TRYING = 20_000_000  # states, for a program that goes through equal ones again
LEAST = 0.25  # seconds of a run that is timed: a case is judged as often as that takes
ENOUGH = 20  # seconds that one build may take for one flow, but two rounds it has: so a slow build does not hold up all
FEW = 32  # states of a small case
NATIVELY = f"its code compiled for this processor ({platform.machine()}) as plain Rust (`native.py`)"
PROVED = "the proved program `replay`"
WAY = f"{NATIVELY}, where programs do not run" if ELSEWHERE else PROVED
EARLIER_BUILDS = "\n## Against earlier builds\n"
NOTE = f"""
- flow: the file in `bench/flows`. nodes: how many it has. states: how many the search enters, the count of the program's line; all
  programs count the same. differ: how many of them differ, in the term or in how many records led to it.
- judge: the judge's states per second, by processor time: as plain Rust taken inside the process, around a case judged again and again;
  else that of such a process, less that of one that is given as many calls without nodes. a call: the time of one.
- independent: the implementation in `tests/`, plain Rust, going through equal states again, timed inside itself (`oracle bench FILE`).
- Prolog: the transition rules as published, in SWI-Prolog (`rules.pl`), one run, timed inside itself.
- other, where it is there: one more program that was named to `bench/run`, timed inside itself.
- stored: the cases `J` of `crates/replay/stdin`, calls of the judge without names, but those refused with 22, and a call is all of them.
  small: those of them that enter {FEW} states or fewer.
- panel: what may come next, asked after each record of a batch of 256 on a flow of 64 nodes, from none to the last but one: 256 calls, and
  a call is all of them. `panel-route` is one step after the other, `panel-lines` three equal lines side by side, `panel-undone` three that
  fail and are undone, `panel-machines` the same with forty names, its steps drawn without a machine. No run of so many nodes has more than
  34 records: the lists behind that are empty, but all runs are searched for each. A build that does not answer such calls has no figure.
- `throww` is allowed {FLOWS["throww"]:,} states, `nestp` and `c3s12` {FLOWS["nestp"]:,}, all others {MOST:,}. A dash: over {LIMIT} seconds, or not
  tried: what goes through equal states again is not asked for more than {WORTH_TRYING:,}, and Prolog for none that stays undecided or has
  lines that meet.
- `nestp` and `c3s12` were found by a search for slow flows (`bench/slow`). `bad11` is eleven equal events at chosen nodes. `levels2`,
  `levels4` and `levels8` are one search, of equal flows but for how many blocks stand one in the other: a state is to take as long in each.

`bench/run --against EARLIER ..` sets this build beside earlier ones, by turns in one run: the best call of each in {ROUNDS} rounds, the ratio to
this build's (above 1: this one is faster), and between what the ratios of single rounds lie. Where that is wide, something else was
running. A build that has taken {ENOUGH} seconds for a flow has no more rounds of it than two, and one that takes over {LIMIT} for a call none.
"""


def parts(path):
    """The names section of a flow file, its nodes, its records and its sets."""
    b = path.read_bytes()
    num = lambda at: b[at] + 256 * b[at + 1]
    at = 2
    for _ in range(num(0)):
        at += 1 + b[at]
        at += 1 + b[at]
    n, names = num(at), b[:at]
    nodes = [num(at + 2 + 2 * i) for i in range(3 * n)]
    at += 2 + 6 * n
    records = [num(at + 2 + 2 * i) for i in range(num(at))]
    at += 2 + 2 * len(records)
    return names, nodes, records, b[at + 2 :]


def term(nodes, i):
    k, f, s = nodes[3 * i : 3 * i + 3]
    two = {5: "seq", 6: "alt", 7: "par", 8: "hnd", 10: "pair", 11: "cseq", 12: "calt", 13: "cpar"}
    if k == 1: return f"ev({f})"
    if k in (2, 3, 4): return {2: "skip", 3: "throw", 4: "yield"}[k]
    if k == 9: return f"blk({term(nodes, f)})"
    if k in (14, 15, 16): return {14: "pair(skip,skip)", 15: "pair(throw,skip)", 16: "pair(yield,skip)"}[k]
    return f"{two[k]}({term(nodes, f)},{term(nodes, s)})"


def work_wanted(nodes, records):
    return 2 * (len(nodes) // 3) * (len(records) + 1)


def numbers(*lists):
    return b"".join(struct.pack(f"<{len(own)}H", *own) for own in lists)


def judge_case(nodes, records, sets, allowance):
    """A call of the judge without names; without sets in the form that every build knows."""
    if sets: return call_case(0, None, nodes, records, sets, allowance)
    head = struct.pack("<IIHH", allowance, work_wanted(nodes, records), len(nodes), len(records))
    return b"J" + head + numbers(nodes, records)


def call_case(function, names, nodes, records, sets, allowance):
    """A call of the judge (0), or one that asks what may come next (1); names are a section, or None."""
    section = names or b""
    asked = struct.pack("<BBB", function, 1, 0 if names is None else 1)
    lent = struct.pack("<III", allowance, work_wanted(nodes, records), LIST_ROOM)
    lengths = struct.pack("<HHHH", len(section), len(nodes), len(records), len(sets))
    return b"C" + asked + lent + lengths + section + numbers(nodes, records) + sets


def split(stdin):
    """The cases of an input of `replay`, up to the first that is none."""
    # Where a case of a kind has its counts, how many there are, and how many bytes each counts; the bytes follow.
    counts = {b"F": (1, [1]), b"R": (5, [1]), b"J": (9, [2, 2]), b"C": (16, [1, 2, 2, 1])}
    cases, at = [], 0
    while stdin[at : at + 1] in counts:
        first, sizes = counts[stdin[at : at + 1]]
        numbers = struct.unpack_from(f"<{len(sizes)}H", stdin, at + first)
        end = at + first + 2 * len(sizes) + sum(n * size for n, size in zip(numbers, sizes))
        if end > len(stdin): break
        cases.append(stdin[at:end])
        at = end
    return cases


class Input:
    """Cases of one sort, and the lines that are to come if they are known. Said of the sort: which word of a line is the count of states
    entered, and a case that is over at once, with its line."""

    def __init__(self, cases, lines=None, count=3, idle=(judge_case([], [], b"", 0), "refused 1 0 0 clean")):
        self.cases, self.lines, self.count, self.over = cases, lines, count, idle

    def states(self):
        """None if no judge was done with it."""
        return self.lines and sum(int(line.split()[self.count]) for line in self.lines)

    def idle(self):
        """As many calls that have no nodes."""
        case, line = self.over
        return Input([case] * len(self.cases), [line] * len(self.cases))

    def hold(self, lines):
        """Keeps the lines if none are known, else they have to be the same."""
        self.lines = self.lines or lines
        if lines != self.lines:
            told, known = next(((t, k) for t, k in zip(lines, self.lines) if t != k), (f"{len(lines)} lines", f"{len(self.lines)}"))
            sys.exit(f"two builds answer differently: {told!r}, and {known!r}")


class Native:
    """The judge compiled as plain Rust, which takes the time itself."""

    def __init__(self, program):
        self.program = program

    def lines(self, cases, times):
        """Each case's line, and the seconds of a call."""
        words = [self.program, "--timed", str(times)]
        done = subprocess.run(words, input=b"".join(cases), stdout=subprocess.PIPE, check=True, timeout=LIMIT)
        both = [line.rpartition(" ") for line in done.stdout.decode().splitlines()]
        return [line for line, _, _ in both], sum(int(took) for _, _, took in both if took.isdigit()) / 1e9

    def answers(self, given):
        """Whether it knows cases of this sort: an earlier build may not."""
        case, line = given.over
        return self.lines([case], 1)[0] == [line]

    def seconds(self, given, times):
        """Of one call, judged so many times."""
        lines, seconds = self.lines(given.cases, times)
        given.hold(lines)
        return seconds


class Replay:
    """The proved program, or another that is called so: it is given the cases again and again."""

    def __init__(self, words):
        self.words = words

    def run(self, given, times):
        """The processor time of all cases so many times; other work on the machine hardly changes it, unlike the clock's."""
        stdin, before = b"".join(given.cases) * times, spent()
        out = subprocess.run(self.words, input=stdin, stdout=subprocess.PIPE, check=True, timeout=LIMIT).stdout.decode().splitlines()
        seconds = spent() - before
        own = len(given.cases)
        for i in range(times):
            given.hold(out[i * own : (i + 1) * own])
        return seconds

    def answers(self, given):
        case, line = given.over
        return subprocess.run(self.words, input=case, stdout=subprocess.PIPE, check=True).stdout.decode().splitlines() == [line]

    def seconds(self, given, times):
        around = self.run(given.idle(), times)
        return max(self.run(given, times) - around, 1e-9) / times


def spent():
    used = resource.getrusage(resource.RUSAGE_CHILDREN)
    return used.ru_utime + used.ru_stime


class Turns:
    """What one judge takes for one input, a figure for each round it has."""

    def __init__(self, judge, given):
        self.judge, self.given, self.rounds, self.used, self.missing = judge, given, [], 0, None
        self.times = self.often_enough() if judge.answers(given) else None
        if not self.times: self.missing = self.missing or "not answered"

    def often_enough(self):
        """How often to judge so that it can be timed; None if once takes too long."""
        times = 1
        while True:
            try:
                seconds = self.judge.seconds(self.given, times)
            except subprocess.TimeoutExpired:
                self.missing = f"over {LIMIT} s"
                return None
            if seconds * times > LEAST / 5: break
            times *= 5
        if seconds > LEAST: self.took(seconds, 1)
        return max(1, math.ceil(LEAST / seconds))

    def took(self, seconds, times):
        self.rounds.append(seconds)
        self.used += seconds * times

    def turn(self):
        if self.times and len(self.rounds) < ROUNDS and (len(self.rounds) < 2 or self.used < ENOUGH):
            try:
                self.took(self.judge.seconds(self.given, self.times), self.times)
            except subprocess.TimeoutExpired:
                self.used = math.inf

    def best(self):
        return min(self.rounds) if self.rounds else None


def calls(judges, given):
    """The turns of each judge. They take them one after the other, now this one first and now that."""
    turns = [Turns(judge, given) for judge in judges]
    for r in range(ROUNDS):
        for turn in turns[:: 1 if r % 2 == 0 else -1]:
            turn.turn()
    return turns


def prolog(nodes, records):
    """The count by the rules, and states per second; None if that takes too long."""
    n = len(nodes) // 3
    root = ("std" if nodes[3 * (n - 1)] <= 9 else "cmp") + f"({term(nodes, n - 1)})"
    rs = ",".join(f"close({CLOSINGS[r]})" if r in CLOSINGS else f"event({r})" for r in records)
    with tempfile.NamedTemporaryFile("w", suffix=".pl") as f:
        f.write(f":- consult('{HERE / 'rules.pl'}').\n:- initialization((run({root},[{rs}]), halt)).\n")
        f.flush()
        try:
            out = subprocess.run(["swipl", "-O", "-q", f.name], stdout=subprocess.PIPE, check=True, timeout=LIMIT).stdout.decode().split()
        except subprocess.TimeoutExpired:
            return None
    return int(out[1]), int(out[1]) / max(float(out[2]), 1e-9)


def bench(words):
    """What a program with `bench` says: its count, how many states differ, and its states per second; None for what it does not say."""
    out = subprocess.run(words, stdout=subprocess.PIPE, check=True).stdout.decode()
    said = [re.search(pattern, out) for pattern in (r"(\d+) states", r"(\d+) differ", r"([\d.]+) ?M states/s")]
    count, differ, speed = [found and float(found.group(1)) for found in said]
    return count and int(count), differ and int(differ), speed and 1e6 * speed


def millions(speed):
    return f"{speed / 1e6:,.2f}" if speed else "-"


def lasting(turns):
    """A call, with how many rounds there were where it was not all of them."""
    if not turns.rounds: return turns.missing or "-"
    seconds, few = turns.best(), "" if len(turns.rounds) == ROUNDS else f", best of {len(turns.rounds)}"
    return (f"{1e3 * seconds:,.3g} ms" if seconds < 1 else f"{seconds:,.2f} s") + few


def table(head, rows):
    return "\n".join("| " + " | ".join(r) + " |" for r in [head, ["---"] * len(head)] + rows)


def flows():
    """Each flow's name, file, nodes and records, allowance, and its call."""
    for name, allowance in FLOWS.items():
        path = HERE / "flows" / f"{name}.flow"
        _, nodes, records, sets = parts(path)
        idle = (judge_case([], [], sets, 0), "refused 1 0 0 clean")
        yield name, path, nodes, records, allowance, Input([judge_case(nodes, records, sets, allowance)], idle=idle)


def panels():
    """A panel's calls after each record of a batch but its closing, all together."""
    for name, named in PANELS.items():
        names, nodes, records, _ = parts(HERE / "flows" / f"{name}.flow")
        asked = [call_case(1, names if named else None, nodes, records[:i], b"", MOST) for i in range(len(records))]
        yield f"{name}: {len(asked)} calls", Input(asked, count=2, idle=(call_case(1, None, [], [], b"", 0), "refused 1 0 clean"))


def stored():
    """The stored calls of the judge without names, which every build answers alike: all, and those that enter few states."""
    folder = HOME / "crates" / "replay"
    cases, lines = split((folder / "stdin").read_bytes()), (folder / "stdout").read_text().splitlines()
    assert len(cases) + 1 == len(lines)  # the last is no case
    # 22 is left out: builds before request Four give 4 there.
    both = [(c, l) for c, l in zip(cases, lines) if c[:1] == b"J" and not l.startswith("refused 22 ")]
    few = [(c, l) for c, l in both if not l.startswith("refused") and int(l.split()[3]) <= FEW]
    for name, some in [("stored", both), ("small", few)]:
        yield f"{name}: {len(some):,} cases", Input([c for c, _ in some], [l for _, l in some])


def proved_build():
    words = subprocess.run([HOME / "scripts" / "run", "--words", "replay"], stdout=subprocess.PIPE, check=True)
    return Replay(words.stdout.decode().splitlines())


def compiled(checkout, program):
    try:
        native.build(checkout, program)
    except (OSError, subprocess.CalledProcessError) as why:
        sys.exit(f"{checkout}: cannot be compiled as plain Rust: {why}")
    return Native(program)


def earlier_build(argument, program):
    """What a checkout or a revision has, compiled."""
    path = pathlib.Path(argument)
    if not path.is_dir():
        tree = subprocess.run(["git", "-C", HOME, "archive", argument, "--", "crates.txt", "crates"], stdout=subprocess.PIPE)
        if tree.returncode: sys.exit(f"{argument}: no checkout, and no revision")
        path = program.with_suffix(".checkout")
        path.mkdir()
        subprocess.run(["tar", "-x", "-C", path], input=tree.stdout, check=True)
    if not (path / "crates.txt").is_file(): sys.exit(f"{argument}: no checkout")
    return compiled(path, program)


def builds(arguments, folder):
    """This build and the earlier ones, and how they are measured."""
    programs = [pathlib.Path(argument) for argument in arguments if pathlib.Path(argument).is_file()]
    if not programs:
        return [compiled(HOME, folder / "this")] + [earlier_build(a, folder / f"earlier{i}") for i, a in enumerate(arguments)], NATIVELY
    if ELSEWHERE or len(programs) < len(arguments): sys.exit("programs can be measured beside programs only, and on x86-64")
    this = proved_build()
    # They run on the same C library as this one.
    return [this] + [Replay(this.words[:-1] + [str(program)]) for program in programs], PROVED


def commit(argument):
    """The short name of a revision, or of a checkout's last commit; None if there is none."""
    folder, name = (argument, "HEAD") if pathlib.Path(argument).is_dir() else (HOME, argument)
    words = ["git", "-C", folder, "rev-parse", "--short=7", f"{name}^{{commit}}"]
    found = subprocess.run(words, stdout=subprocess.PIPE, stderr=subprocess.DEVNULL)
    return found.stdout.decode().strip() if found.returncode == 0 else None


def wanted(argument, name):
    """The least ratio that is wanted of this flow; None if none is."""
    of_build = WANTED.get(commit(argument), {})
    return of_build.get(name.partition(":")[0], of_build.get(""))


def every_row():
    return [(name, given) for name, *_, given in flows()] + list(stored()) + list(panels())


def compared(judges, wishes):
    """A row for each flow: of the first judge its speed and its call; of each other its call, the ratio, and what is wanted of it. And what
    was wanted and is not so, and how much longer a state takes in more levels, by each judge."""
    rows, below, of_levels = [], [], []
    for name, given in every_row():
        turns = calls(judges, given)
        if not any(turn.rounds for turn in turns): continue
        first, states = turns[0], given.states()
        if name in LEVELS: of_levels.append([turn.best() for turn in turns])
        row = [name, f"{states:,}", millions(first.best() and states / first.best()), lasting(first)]
        for i, turn in enumerate(turns[1:]):
            least, ratio, between = wishes(i, name), None, "-"
            if first.rounds and turn.rounds:
                ratio = turn.best() / first.best()
                single = [b / a for a, b in zip(first.rounds, turn.rounds)]
                between = f"{min(single):,.2f} to {max(single):,.2f}"
            row += [lasting(turn), f"{ratio:,.2f}" if ratio else "-", f"{least:g}" if least else "-", between]
            if least and ratio and ratio < least: below.append((name, i, ratio, least))
        rows.append(row)
        print(" ".join(row), file=sys.stderr, flush=True)
    few, many = of_levels
    return rows, below, [b / a if a and b else None for a, b in zip(few, many)]


def against(arguments, keep, folder):
    judges, way = builds(arguments, folder)
    rows, below, of_levels = compared(judges, lambda i, name: wanted(arguments[i], name))
    few, many, most = LEVELS
    head = ["flow", "states", "M states/s", "a call"]
    for argument in arguments:
        head += [f"{commit(argument) or argument}: a call", "ratio", "wanted", "rounds"]
    text = f"This build is {described()}; {way}; best of {ROUNDS} rounds by turns.\n\n{table(head, rows)}\n\n"
    text += "".join(f"- {name} against {arguments[i]}: {ratio:,.2f}, and {least:g} is wanted\n" for name, i, ratio, least in below)
    text += "" if below else "- no ratio is below what is wanted\n"
    longer = ", ".join(f"{times:,.2f} of {name}" if times else f"- of {name}" for times, name in zip(of_levels, ["this build"] + arguments))
    text += f"- a state of {many} takes so many times as long as one of {few}: {longer}; at most {most} is wanted\n"
    print(text, end="")
    if keep:
        results = HERE / "RESULTS.md"
        above, _, _ = results.read_text().partition(EARLIER_BUILDS)
        results.write_text(above + EARLIER_BUILDS + "\n" + text)


def described():
    """The last commit, and whether anything but the figures has changed since."""
    told = lambda *words: subprocess.run(["git", "-C", HOME, *words], stdout=subprocess.PIPE, check=True).stdout.decode().strip()
    changed = told("status", "--porcelain", "--", ".", ":!bench/RESULTS.md", ":!bench/HISTORY.md")
    return f"commit {told('describe', '--always')}" + (" with changes" if changed else "")


def kept(independent, other, folder):
    head = ["flow", "nodes", "states", "differ", "judge", "a call", "independent", "Prolog"] + (["other"] if other else [])
    judge, rows = compiled(HOME, folder / "this") if ELSEWHERE else proved_build(), []
    for name, path, nodes, records, allowance, given in flows():
        [turn] = calls([judge], given)
        count, differ, speed = bench([independent, "bench", path, str(allowance)])
        if given.states() not in (None, count): sys.exit(f"{name}: {given.lines}, and independently {count} states")
        meets = any(kind >= 256 for kind in nodes[::3])
        slow = prolog(nodes, records) if count < min(allowance, WORTH_TRYING) and not meets else None
        if slow and slow[0] != count: sys.exit(f"{name}: {count} states, and by the rules {slow[0]}")
        row = [name, str(len(nodes) // 3), f"{count:,}", f"{differ:,}", millions(turn.best() and count / turn.best())]
        row += [lasting(turn), millions(speed), millions(slow and slow[1])]
        rows.append(row + ([millions(bench([other, "bench", path])[2])] if other else []))
        print(" ".join(rows[-1]), file=sys.stderr, flush=True)
    for name, given in list(stored()) + list(panels()):
        [turn] = calls([judge], given)
        nodes = "64" if name.startswith("panel") else "-"
        states = [f"{given.states():,}", "-", millions(given.states() / turn.best())] if turn.rounds else ["-", "-", "-"]
        rows.append([name, nodes] + states + [lasting(turn)] + ["-"] * (len(head) - 6))
    text = "# States per second, in millions\n\n"
    text += f"One run at {described()}, all programs on the same files (`bench/flows`), best of {ROUNDS}.\n"
    text += f"The judge is measured by {WAY}.\n\n{table(head, rows)}\n{NOTE}"
    print(text)
    results = HERE / "RESULTS.md"
    _, mark, below = results.read_text().partition(EARLIER_BUILDS)
    results.write_text(text + mark + below)


def main(words):
    keep = words[:1] == ["--keep"]
    rest = words[keep:]
    with tempfile.TemporaryDirectory() as folder:
        folder = pathlib.Path(folder)
        if rest[:1] == ["--against"] and rest[1:] and not any(word.startswith("-") for word in rest[1:]):
            against(rest[1:], keep, folder)
        elif not keep and 1 <= len(rest) <= 2 and not rest[0].startswith("-"):
            kept(rest[0], rest[1] if len(rest) > 1 else None, folder)
        else:
            print(__doc__[__doc__.index("usage") :].rstrip(), file=sys.stderr)
            sys.exit(2)


if __name__ == "__main__":
    main(sys.argv[1:])
