#!/usr/bin/env python3
"""Measures what jobs cost the built program: python3 docs/measure.py [--write] [--runs=N] [PROGRAM] [NAME=PROGRAM ..]

PROGRAM is crates/g5/out/g5 where none is given. Each NAME=PROGRAM is another build, as of an older commit, measured
side by side: in each of N rounds (5) every build runs the job once, its files in a folder of its own, and the least
processor time counts, that of user and system together, from the start of the process to its end, reading and writing
included. The turns are those of the program's report. It prints the jobs and then the goals, and with --write puts
both tables into docs/performance.md in the place of the old ones. A build that refuses a job, since it knows no options
or no fault scripts, has no figure there.
"""
import functools
import os
import re
import subprocess
import sys
import tempfile
import time
from typing import NamedTuple

ROOT = os.path.dirname(os.path.dirname(os.path.abspath(__file__)))
sys.path.insert(0, f"{ROOT}/examples")
import cards

ROUNDS = 5
TURNS = 1_000_000

# Programs that loop for ever. The base of each is behind its BALR 12,0.
REGISTERS = "41200001 05C0 1A12 1A12 1A12 47F0C000"  # LA 2,1; AR 1,2 three times, and back
STORES = "05C0 5A10C014 5010C018 D203C01CC014 47F0C000 0000 00000001"  # A; ST; MVC of 4 bytes
DECIMALS = "05C0 FA73C010C018 F877C020C010 47F0C000 000000000000000C 0000001C"  # AP; ZAP
# LM 6,9 of two areas of 4,096 bytes; MVCL 6,8, sixteen units of 256 bytes
MOVES = "05C0 9869C00E 0E68 47F0C000 0700 0700 00012000 00001000 00014000 00001000"
# L 1; LA 2,1; AR 1,2; ST 1; L 3; BCT 4, which is 0 at the start and so branches 2^32 - 1 times
PLAIN = "05C0 5810C016 41200001 1A12 5010C016 5830C01A 4640C000 00000000 00000005"
# AP of 4 bytes and 1; MVC of a mask of 8; ED of the 7 digits; L 1; ST 1; BCT 4
EDITED = ("05C0 FA30C01EC022 D207C026C02E DE07C026C01E 5810C036 5010C03A 4640C000"
          " 0000000C 1C000000 0000000000000000 4020202020202020 00000007 00000000")

# One attempt in a hundred fails, each by another of the three causes, until the lines of a script are spent.
SOME = "".join(f"{line}\n" for k in range(3300) for line in (
    f"F 0 {300 * k + 100} 3", f"U 0 {300 * k + 200} A 77 1", f"S 0 {300 * k + 299} 5"))
# One word is struck between any two readings of all words, until the lines are spent.
WORDS = "".join(f"W 0 {16 * k + 3} {k % 36} {k % 39}\n" for k in range(10_000))
# Each line strikes at one attempt of core 0, or of a core that no CPU has: at each hundredth attempt, so over all.
ONE_EACH, ELSEWHERE = ("".join(f"U {core} {100 * k + 50} A 77 1\n" for k in range(10_000)) for core in (0, 15))
# A hundred lines that strike at every attempt, two of them on each bit, so that no packet comes back changed.
LASTING = "".join(f"U 0 0 A {40 * bit} *\n" * 2 for bit in range(50))

LOOP, EDITING = "L, LA, AR, ST, L, BCT", "AP, MVC, ED, L, ST, BCT"
GENERATED = "`gen 7 1000000`: eight CPUs, mixed"
BIG_DECK = "one turn of a deck of 16,000,000 bytes"
LINES, IDLE_LINES = f"{LOOP}; 10,000 lines, each strikes once", f"{LOOP}; 10,000 lines on a core without a CPU"
LAST, HALF = f"{LOOP}; 100 lasting lines", f"{LOOP}; half as many turns"


class Job(NamedTuple):
    """A job: its name, its words before the names of files, and the files by name; none of `gen`."""
    name: str
    words: list
    files: dict


def ran(name, deck, schedule, script="", options=()):
    files = {"deck": deck, "console": b"", "schedule": schedule.encode(), "script": script.encode()}
    return Job(name, ["run", *options], files)


def looping(name, code, turns, script="", options=()):
    return ran(name, cards.deck_of(bytes.fromhex(code)), f"0*{turns}", script, options)


@functools.cache
def big_deck():
    """200,000 cards, of which all but the first and the last are text of 56 bytes."""
    return cards.deck_of(bytes.fromhex(PLAIN).ljust(56 * 199_998, b"\x07"))


def jobs(turns=TURNS):
    eight = " ".join(f"{k % 8}*10" for k in range(turns // 10))
    registers = cards.deck_of(bytes.fromhex(REGISTERS))
    return [
        looping("registers: additions and a branch", REGISTERS, turns),
        looping("storage: add, store, move of 4 bytes", STORES, turns),
        looping("decimals of 8 bytes", DECIMALS, turns),
        looping("long moves, 256 bytes a turn", MOVES, turns),
        looping("registers, one attempt in a hundred struck", REGISTERS, turns, SOME),
        looping("registers, 10,000 checkpoint words struck", REGISTERS, turns, WORDS),
        ran("registers, eight CPUs of which one runs", registers, eight, "", ["--cpus=8"]),
        looping("registers, 16 MiB of storage", REGISTERS, turns, "", ["--storage=16384"]),
        looping(LOOP, PLAIN, turns),
        looping(EDITING, EDITED, turns),
        looping(LINES, PLAIN, turns, ONE_EACH),
        looping(IDLE_LINES, PLAIN, turns, ELSEWHERE),
        looping(LAST, PLAIN, turns, LASTING),
        looping(HALF, PLAIN, turns // 2),
        Job(GENERATED, ["gen", "7", str(turns)], {}),
        ran(BIG_DECK, big_deck(), "0*1", "", ["--storage=16384"]),
    ]


def lay_out(job, folder):
    """Writes the files of a job, and returns the program's words for it."""
    for name, content in job.files.items():
        with open(f"{folder}/{name}", "wb") as it:
            it.write(content)
    return [*job.words, *job.files, "log", "trace"] if job.files else job.words


def timed(program, words, folder):
    """The processor time of a run and its report, or nothing where the program refuses the job."""
    with open(f"{folder}/said", "wb") as said, open(os.devnull, "wb") as nowhere:
        begun = subprocess.Popen([program, *words], cwd=folder, stdout=nowhere, stderr=said)
        _, status, used = os.wait4(begun.pid, 0)
        begun.returncode = os.waitstatus_to_exitcode(status)
    with open(f"{folder}/said", encoding="utf-8") as said:
        lines = said.read().splitlines()
    if begun.returncode in (0, 20):
        return used.ru_utime + used.ru_stime, lines[1]
    if begun.returncode in (2, 11):
        return None
    sys.exit(f"{program} {' '.join(words)}: status {begun.returncode}: {lines}")


def measured(programs, rounds):
    """For each job the report of the first program, and each program's least time, or none."""
    for job in jobs():
        with tempfile.TemporaryDirectory() as folder:
            words = lay_out(job, folder)
            best, report = {}, ""
            for _ in range(rounds):
                for name, program in programs.items():
                    if found := timed(program, words, folder):
                        report = found[1] if name == next(iter(programs)) else report
                        best[name] = min(best.get(name, found[0]), found[0])
        yield job.name, report, best


def cell(figure, places=2):
    return "-" if figure is None else f"{figure:.{places}f}"


def row(name, report, best, programs):
    counts = dict(re.findall(r"(\w+) (\d+)", report))
    turns, own = int(counts["turns"]), best[next(iter(programs))]
    times = " | ".join(cell(best.get(it)) for it in programs)
    return f"| {name} | {turns:,} | {int(counts['commits']):,} | {turns / own:,.0f} | {times} |"


def goals(figures, programs):
    """What is divided by what, both figures where they were measured, and what the ratio may be at most."""
    own, *others = programs
    now = {job: best.get(own) for job, best in figures.items()}
    oldest = {job: best.get(others[-1]) for job, best in figures.items()} if others else {}
    old = f"that of {others[-1]}" if others else "that of an older program"
    plain = now[LOOP]
    yield f"{LOOP}: by {old}", plain, oldest.get(LOOP), 0.75
    yield f"{EDITING}: by {old}", now[EDITING], oldest.get(EDITING), 0.8
    for job, most in ((GENERATED, 1.3), (BIG_DECK, 1.0), (LINES, 1.1), (IDLE_LINES, 1.1), (LAST, None)):
        yield f"{job}: by the plain loop", now.get(job), plain, most
    yield f"{LOOP}: by half as many turns", plain, now.get(HALF), None


def rows_of_goals(figures, programs):
    """The goals, with the ratio of what was measured of each job; those that were not measured are left out."""
    yield "| What | Ratio | Goal, at most |"
    yield "|---|---|---|"
    for name, upper, lower, most in goals(figures, programs):
        if upper and lower:
            yield f"| {name} | {upper / lower:.2f} | {cell(most)} |"


def processor():
    with open("/proc/cpuinfo", encoding="utf-8") as it:
        found = re.search(r"^model name\s*: (.*)$", it.read(), re.M)
    return found[1] if found else "an unknown processor"


def where():
    """On what it was measured, and how busy that was."""
    load = os.getloadavg()[0]
    return (f"Measured on {time.strftime('%Y-%m-%d')}, on one of {os.cpu_count()} processors of: {processor()}."
            f" In the last minute of it {load:.1f} processes were running or waiting, this one among them.")


def write(mark, table):
    """Puts a table between its two marks in the page."""
    page = f"{ROOT}/docs/performance.md"
    begin, end = f"<!-- {mark} -->", f"<!-- end of {mark} -->"
    with open(page, encoding="utf-8") as it:
        before, found, rest = it.read().partition(begin)
    after, ends = rest.partition(end)[2], end in rest
    if not (found and ends):
        sys.exit(f"{page}: no place for {mark}")
    with open(page, "w", encoding="utf-8") as it:
        it.write(f"{before}{begin}\n{table}\n{end}{after}")


def programs_of(words):
    """The built program, or the one that is given, and the others by their names."""
    given = [it for it in words if not it.startswith("--")]
    others = dict(it.split("=", 1) for it in given if "=" in it)
    own = [it for it in given if "=" not in it] or [f"{ROOT}/crates/g5/out/g5"]
    return {name: os.path.abspath(it) for name, it in {"now": own[0], **others}.items()}


def main():
    programs = programs_of(sys.argv[1:])
    rounds = next((int(it[7:]) for it in sys.argv if it.startswith("--runs=")), ROUNDS)
    table = [f"| Job | Turns | Commits | Turns a second | {' | '.join(f'Seconds, {it}' for it in programs)} |",
             "|---|---|---|---|" + "---|" * len(programs)]
    print("\n".join(table))
    times = {}
    for name, report, best in measured(programs, rounds):
        times[name] = best
        table.append(row(name, report, best, programs))
        print(table[-1], flush=True)
    reached = "\n".join(rows_of_goals(times, programs))
    print(f"\n{reached}")
    if "--write" in sys.argv:
        write("measured", f"{where()}\n\n" + "\n".join(table))
        write("goals", reached)


if __name__ == "__main__":
    main()
