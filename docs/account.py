#!/usr/bin/env python3
"""Counts the instructions that a turn takes: python3 docs/account.py [--write] [--all] [PROGRAM] [NAME=PROGRAM ..]

PROGRAM is crates/g5/out/g5 where none is given. Callgrind, of valgrind, runs jobs of docs/measure.py for two numbers
of turns; the difference of the counts, shared among the turns between, is what a turn takes, so that start and end do
not count. It prints what a turn takes in all, in PROGRAM and in each NAME=PROGRAM side by side, as in builds of older
commits, and the goals by these counts; then the parts of a turn of PROGRAM, by the functions that the compiler left
whole. With --write it puts the tables into docs/performance.md in the place of the old ones; --all prints every
function of the jobs that have parts instead, with what it calls and by itself.
"""
import os
import re
import subprocess
import sys
import tempfile

import measure

FEW, MANY = 600, 3_000
# Of what `gen` makes, no few turns are like the others.
MIXED = {measure.GENERATED: (5_000, 20_000)}
# One turn has no turns between, and half as many turns are the same turns.
LEFT_OUT = {measure.BIG_DECK, measure.HALF}
PARTS = {"registers": "registers: additions and a branch", "storage": "storage: add, store, move of 4 bytes",
         "decimals": "decimals of 8 bytes", "long moves": "long moves, 256 bytes a turn",
         "L .. BCT": measure.LOOP, "AP .. BCT": measure.EDITING}
# Bytes are copied and filled by loops and not by the one instruction that moves many, which would count once a byte.
LOOPS = "glibc.cpu.x86_rep_stosb_threshold=1000000000:glibc.cpu.x86_rep_movsb_threshold=1000000000"
LINE = re.compile(r"^ *([\d,]+) \([^)]*\)  (.*?)(?: \[[^\[]*\])?$")
TOTAL = "PROGRAM TOTALS"


def run(words, folder, passes=(0,), **how):
    ran = subprocess.run(words, cwd=folder, check=False, stdout=subprocess.PIPE, stderr=subprocess.DEVNULL, text=True,
                         **how)
    if ran.returncode not in passes:
        sys.exit(f"{' '.join(words)}: status {ran.returncode}")
    return ran


def name_of(told):
    """The function's name, without the file before it and the types behind it."""
    return told if told == TOTAL else re.sub(r"::<.*", "", told.partition(":")[2])


def listed(folder, inclusive):
    """The instructions of each function: with what it calls, or by itself."""
    counts = {}
    for line in run(["callgrind_annotate", f"--inclusive={inclusive}", "--threshold=100", "counts"],
                    folder).stdout.splitlines():
        if found := LINE.match(line):
            name = name_of(found[2])
            counts[name] = counts.get(name, 0) + int(found[1].replace(",", ""))
    return counts


def counted(program, name, turns):
    """The counts of a run of so many turns of the job, or nothing where the program refuses it."""
    job = next(it for it in measure.jobs(turns) if it.name == name)
    with tempfile.TemporaryDirectory() as folder:
        words = measure.lay_out(job, folder)
        tool = ["valgrind", "--tool=callgrind", "--callgrind-out-file=counts", program, *words]
        ran = run(tool, folder, (0, 2, 11, 20), env={**os.environ, "GLIBC_TUNABLES": LOOPS})
        return None if ran.returncode in (2, 11) else [listed(folder, it) for it in ("yes", "no")]


def of_a_turn(program, name):
    """What each function takes in a turn, with what it calls and by itself, or nothing."""
    few, many = MIXED.get(name, (FEW, MANY))
    both = [counted(program, name, it) for it in (few, many)]
    if None in both:
        return None
    return [{it: (count - least.get(it, 0)) / (many - few) for it, count in most.items()}
            for least, most in zip(*both)]


def taken(alone, kind):
    return sum(it for name, it in alone.items() if re.match(kind, name))


def parts(whole, alone):
    """The parts of a turn and what they take. What the compiler has put into its caller shows as the caller's own."""
    turn = whole["machine_runs::twin_machine::TwinMachineEngine::turn"]
    units = whole["twin_units::results::PlainUnitResultUnit::work"]
    latch = whole["operand_access::fetch::instruction"] + whole["psw_interrupts::events_due::due"]
    line = whole["trace_text::lines::put_line"]
    yield "a turn", whole[TOTAL]
    yield "the machine's turn", turn
    yield "- the fetch latch: what is due, and the instruction", latch
    yield "- the two units' computations", units
    yield "- silicon, comparison, carrying out, checkpoint words, journal", turn - units - latch
    yield "the trace line", line
    yield "the schedule, counting, writing", whole[TOTAL] - turn - line
    yield "of a turn: bytes that are copied", taken(alone, "__mem(cpy|move)")
    yield "of a turn: bytes that are filled with a value", taken(alone, "__memset")


def rows_of_parts(found):
    columns = {job: dict(parts(*found[name])) for job, name in PARTS.items()}
    yield f"| Instructions in a turn | {' | '.join(columns)} |"
    yield "|---|" + "---|" * len(columns)
    for part in next(iter(columns.values())):
        yield f"| {part} | " + " | ".join(f"{counts[part]:,.0f}" for counts in columns.values()) + " |"


def rows_side_by_side(programs, found, totals):
    """What a turn takes in all, in each program, and keeps it, and what the first one's functions take."""
    yield f"| Instructions in a turn | {' | '.join(programs)} |"
    yield "|---|" + "---|" * len(programs)
    for name in (it.name for it in measure.jobs() if it.name not in LEFT_OUT):
        turns = {own: turn for own, program in programs.items() if (turn := of_a_turn(program, name))}
        totals[name] = {own: turn[0][TOTAL] for own, turn in turns.items()}
        found[name] = turns.get(next(iter(programs)))
        cells = (f"{totals[name][it]:,.0f}" if it in turns else "-" for it in programs)
        yield f"| {name} | {' | '.join(cells)} |"


def show_all(program):
    for job, name in PARTS.items():
        for kind, counts in zip(("with what it calls", "by itself"), of_a_turn(program, name)):
            print(f"{job}, {kind}")
            for function, count in sorted(counts.items(), key=lambda it: -it[1]):
                if count >= 1:
                    print(f"{count:12,.1f}  {function}")


def main():
    programs = measure.programs_of(sys.argv[1:])
    if "--all" in sys.argv:
        show_all(next(iter(programs.values())))
        return
    found, totals, tables = {}, {}, {}
    for mark, rows in (("side by side", rows_side_by_side(programs, found, totals)),
                       ("goals by instructions", measure.rows_of_goals(totals, programs)),
                       ("counted", rows_of_parts(found))):
        tables[mark] = []
        for row in rows:
            print(row, flush=True)
            tables[mark].append(row)
        print()
    if "--write" in sys.argv:
        for mark, table in tables.items():
            measure.write(mark, "\n".join(table))


if __name__ == "__main__":
    main()
