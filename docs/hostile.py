#!/usr/bin/env python3
"""Tries the built program on a host that fails it: python3 docs/hostile.py [--write] [PROGRAM]

PROGRAM is crates/g5/out/g5 where none is given. Each command runs over the files of the examples once undisturbed,
which gives its calls of the system and its whole outputs; then once more for each of these calls and each way in which
that call can fail or fall short, and on devices that are full, closed, small or slow. How each of these runs has to end
follows from the undisturbed one: docs/hostile.md says how. It prints a table of what was tried and seen, and each run
that ended otherwise, and ends with 1 where there is one; --write puts the table into docs/hostile.md. It needs Linux,
strace and prlimit.
"""
import collections
import os
import signal
import sys

import hostile_host as host

ROOT = os.path.dirname(os.path.dirname(os.path.abspath(__file__)))
BEGIN, END = "<!-- tried -->", "<!-- end -->"


def read(name):
    with open(f"{ROOT}/examples/{name}", "rb") as it:
        return it.read()


def jobs():
    """The commands, each over its inputs; what each creates; and what it is given on standard input."""
    hello = {it: read(f"hello/{it}") for it in ("deck", "console", "schedule", "script")}
    stop = {it: read(f"check_stop/{it}") for it in ("deck", "schedule", "script")} | {"console": b""}
    inputs, made = ["deck", "console", "schedule", "script"], ["log", "trace"]
    lines = b"turns 2\npsw 0\nmem 01001C 2\nregs 0\nturns 20\nconsole\nbad\nquit\n"
    yield host.Job("run", ["run", *inputs, *made], hello, made)
    yield host.Job("run, a CPU is lost", ["run", "--cpus=2", "--threshold=1", *inputs, *made], stop, made)
    yield host.Job("debug", ["debug", *inputs], hello, [], lines)
    yield host.Job("gen", ["gen", "7", "300"], {}, [])
    yield host.Job("dis", ["dis", "deck", "010000", "12"], {"deck": hello["deck"]}, [])
    yield host.Job("asm", ["asm", "source", "made"], {"source": read("source/source")}, ["made"])
    parts = {it: read(f"linked/expected/{it}") for it in ("main", "text")}
    yield host.Job("link", ["link", "made", "main", "text"], parts, ["made"])
    yield host.Job("migrate", ["migrate", "old", "new"], {"old": read("logs/old")}, ["new"])
    yield host.Job("audit", ["audit", "log"], {"log": read("check_stop/expected/log")}, [])


# ---- What each failing call has to give.

def early(job, status, line):
    """An end before anything is created or written."""
    return host.Outcome(status, {it: None for it in job.made}, b"", line)


def cut(job, whole, calls, at):
    """An end with status 5 at that call: what was created and written before it is there, and nothing else."""
    files, out = {it: None for it in job.made}, b""
    for call in calls[:at]:
        if call.kind == "openat" and call.file in files:
            files[call.file] = b""
        elif call.kind == "write" and call.file in files:
            files[call.file] += call.text
        elif call.kind == "write" and call.file == "stdout":
            out += call.text
    return host.Outcome(5, files, out, b"write fault\n")


def without_first_byte(whole, calls, at):
    """The whole outputs without the first byte of that write, which the program was told was taken, and was not."""
    call = calls[at]
    before = sum(len(it.text) for it in calls[:at] if it.kind == "write" and it.file == call.file)
    drop = lambda text: text[:before] + text[before + 1:]
    if call.file == "stdout":
        return whole._replace(out=drop(whole.out))
    if call.file == "stderr":
        return whole._replace(err=drop(whole.err))
    return whole._replace(files=whole.files | {call.file: drop(whole.files[call.file])})


def failures(job, whole, calls, at):
    """The ways in which that call can fail, and the outcomes that are right for each."""
    call = calls[at]
    is_output = call.file in job.made or call.file == "stdout"
    if call.kind == "openat" and not call.file:
        # The folder that is opened to see whether a stream is closed.
        yield "error=EMFILE", [whole]
    elif call.kind == "openat" and is_output:
        for error in ("EIO", "ENOSPC", "ENOENT", "EACCES", "EMFILE"):
            yield f"error={error}", [cut(job, whole, calls, at)]
        yield "error=EINTR", [whole]
    elif call.kind == "openat":
        yield "error=ENOENT", [early(job, 3, b"no file: %s\n" % call.file.encode())]
        for error in ("EIO", "EACCES", "EMFILE"):
            yield f"error={error}", [early(job, 4, b"read fault\n")]
        yield "error=EINTR", [whole]
    elif call.kind == "read":
        for error in ("EIO", "EINTR", "EISDIR"):
            yield f"error={error}", [early(job, 4, b"read fault\n")]
    elif call.kind == "write" and is_output:
        for way in ("error=EIO", "error=ENOSPC", "error=EPIPE", "retval=0"):
            yield way, [cut(job, whole, calls, at)]
        yield "retval=1", [without_first_byte(whole, calls, at)]
    elif call.kind == "write":
        said = sum(len(it.text) for it in calls[:at] if it.kind == "write" and it.file == "stderr")
        for way in ("error=EIO", "error=ENOSPC", "retval=0"):
            yield way, [whole._replace(err=whole.err[:said])]
        yield "retval=1", [without_first_byte(whole, calls, at)]
    elif call.kind == "close":
        yield "error=EIO", [whole]
    elif call.kind in ("brk", "mmap", "mremap"):
        # The end of a process's data is left as it is by a failing brk: here at 0, and so before any.
        for when in ("", "+"):
            way = "retval=0" if call.kind == "brk" else "error=ENOMEM"
            yield way + when, [whole, early(job, 10, b"no memory\n")]


def try_calls(trial, job, whole, calls):
    for at, call in enumerate(calls):
        for way, right in failures(job, whole, calls, at):
            got = host.run_failing(job, trial.program, call, way)
            trial.judge(job, f"{call.kind} that fails or is short", f"{call.kind} {call.nth} of {call.file}: {way}",
                        got, right)


# ---- Devices that are full, closed, small or slow.

def cut_at_first_write(job, whole, calls, file):
    for at, call in enumerate(calls):
        if call.kind == "write" and call.file == file:
            return cut(job, whole, calls, at)
    return whole


def try_full(trial, job, whole, calls):
    """Each output in turn is a full device."""
    for file in [*job.made, "stdout"]:
        right = cut_at_first_write(job, whole, calls, file)
        if file in job.made:
            right = right._replace(files=right.files | {file: None})
        got = host.run(job, trial.program, full=file)
        trial.judge(job, "full device", file, got, [right])
    trial.judge(job, "full device", "stderr", host.run(job, trial.program, full="stderr"), [whole._replace(err=b"")])


def try_closed(trial, job, whole, calls):
    """Each stream in turn is closed."""
    reads = any(it.kind == "read" and it.file == "stdin" for it in calls)
    given = early(job, 4, b"read fault\n") if reads else whole
    rights = {"stdin": given, "stdout": cut_at_first_write(job, whole, calls, "stdout"),
              "stderr": whole._replace(err=b"")}
    for number, (stream, right) in enumerate(rights.items()):
        got = host.run(job, trial.program, closed=number)
        trial.judge(job, "closed stream", stream, got, [right])


def try_left(trial, job, whole, calls):
    """Standard output is a pipe that nobody reads any more: where SIGPIPE is ignored, and as a shell leaves it. The
    program ignores that signal itself as it begins, so both end alike."""
    right = cut_at_first_write(job, whole, calls, "stdout")._replace(out=b"")
    trial.judge(job, "pipe that nobody reads", "SIGPIPE ignored", host.run(job, trial.program, left=True), [right])
    got = host.run(job, trial.program, left=True, ignores=())
    trial.judge(job, "pipe that nobody reads", "SIGPIPE as it is", got, [right])


def limited(job, whole, calls, size):
    """The end where no file can have more bytes than that."""
    texts = {}
    for at, call in enumerate(calls):
        if call.kind != "write" or call.file == "stderr":
            continue
        had = texts.get(call.file, b"")
        if len(had) + len(call.text) > size:
            right = cut(job, whole, calls, at)
            part = (had + call.text)[:size]
            if call.file == "stdout":
                right = right._replace(out=part)
            else:
                right.files[call.file] = part
            return right._replace(err=right.err[:size])
        texts[call.file] = had + call.text
    return whole._replace(err=whole.err[:size])


def try_small(trial, job, whole, calls):
    """No file can have more than so many bytes, for every such number: a write is short, and the next one fails."""
    for size in range(max(map(len, [*whole.files.values(), whole.out])) + 1):
        got = host.run(job, trial.program, ["prlimit", f"--fsize={size}"])
        trial.judge(job, "room for n bytes in a file", f"{size} bytes", got, [limited(job, whole, calls, size)])


def try_slow(trial, job, whole, calls):
    """Inputs that give a byte at a time, and outputs that are pipes."""
    for name in [*job.files, *(["stdin"] if job.stdin else [])]:
        got = host.run(job, trial.program, slow=[name])
        trial.judge(job, "input of one byte a read", name, got, [whole])
    if job.files:
        trial.judge(job, "input of one byte a read", "all", host.run(job, trial.program, slow=[*job.files]), [whole])
    for name in job.made:
        trial.judge(job, "output that is a pipe", name, host.run(job, trial.program, piped=name), [whole])


def try_few(trial, job, whole, calls):
    """So many open files are allowed."""
    ends = [early(job, 4, b"read fault\n"), whole]
    ends += [cut(job, whole, calls, at) for at, it in enumerate(calls) if it.kind == "openat" and it.file in job.made]
    for count in range(3, 9):
        allowed = ["prlimit", f"--nofile={count}"]
        if host.starts(trial.program, allowed):
            trial.judge(job, "few open files", f"{count}", host.run(job, trial.program, allowed), ends)


def try_memory(trial, job, whole, calls):
    """So much address space is allowed, in steps of 128 KiB up to where nothing is refused any more."""
    right = [whole, early(job, 10, b"no memory\n")]
    wholes = 0
    for size in range(1 << 17, 1 << 30, 1 << 17):
        allowed = ["prlimit", f"--as={size}"]
        if not host.starts(trial.program, allowed):
            continue
        got = host.run(job, trial.program, allowed)
        # Where it is the stack that cannot grow, the system ends the process.
        killed = [got] if got.status == -signal.SIGSEGV and host.is_front(got, whole) else []
        trial.judge(job, "little memory", f"{size} bytes", got, right + killed)
        wholes = wholes + 1 if got == whole else 0
        if wholes == 8:
            break


def try_names(trial, job, whole, calls):
    """Names that lead nowhere."""
    for file in job.files:
        for name, status in (("folder", 4), (f"{file}/x", 4), ("n" * 300, 4), ("loop", 4), ("dangling", 3), ("", 3)):
            line = b"read fault\n" if status == 4 else b"no file: %s\n" % name.encode()
            got = host.run(job._replace(words=[name if it == file else it for it in job.words]), trial.program)
            trial.judge(job, "name of no file", f"{file}: {name[:9]}", got, [early(job, status, line)])


def try_endless(trial, job, whole, calls):
    """Each input in turn is a device without an end."""
    for file in job.files:
        words = ["/dev/zero" if it == file else it for it in job.words]
        got = host.run(job._replace(words=words), trial.program)
        trial.judge(job, "input without an end", file, got, [early(job, 9, b"too large: /dev/zero\n")])


def try_torn(trial, job, whole, calls):
    """The deck breaks off behind each of its bytes but the last."""
    deck = job.files.get("deck", b"")
    for count in range(len(deck)):
        line = b"deck refused: %s\n" % (b"NotCards" if count % 80 else b"NoEnd")
        got = host.run(job._replace(files=job.files | {"deck": deck[:count]}), trial.program)
        trial.judge(job, "deck that breaks off", f"{count} bytes", got, [early(job, 6, line)])


# ---- What is tried, and what is said of it.

class Trial:
    """The program that is tried, what was seen so far, and what was wrong."""

    def __init__(self, program):
        self.program = program
        self.seen = collections.defaultdict(collections.Counter)
        self.wrong = []

    def judge(self, job, kind, what, got, right):
        self.seen[job.name, kind][got.status] += 1
        if got not in right:
            self.wrong.append(f"{job.name}: {what}: {host.difference(got, right)}")

    def rows(self):
        """A row for each kind of failure: how many runs of each command, and the statuses seen, with their numbers."""
        jobs = list(dict.fromkeys(job for job, _ in self.seen))
        yield f"| What fails | {' | '.join(jobs)} | Statuses seen |"
        yield "|---|" + "---|" * (len(jobs) + 1)
        for kind in dict.fromkeys(kind for _, kind in self.seen):
            counts = [sum(self.seen[job, kind].values()) if (job, kind) in self.seen else "" for job in jobs]
            seen = sum((self.seen[job, kind] for job in jobs if (job, kind) in self.seen), collections.Counter())
            told = ", ".join(f"{it}: {count}" for it, count in sorted(seen.items()))
            yield f"| {kind} | {' | '.join(map(str, counts))} | {told} |"
        runs = sum(sum(it.values()) for it in self.seen.values())
        yield f"| all: {runs} runs, {len(self.wrong)} of them not as they have to be |"


TRIES = (try_calls, try_full, try_closed, try_left, try_small, try_slow, try_few, try_memory, try_names, try_endless,
         try_torn)


def write(table):
    """Puts the table between the two marks of the page."""
    page = f"{ROOT}/docs/hostile.md"
    with open(page, encoding="utf-8") as it:
        before, _, rest = it.read().partition(BEGIN)
    with open(page, "w", encoding="utf-8") as it:
        it.write(f"{before}{BEGIN}\n{table}\n{END}{rest.partition(END)[2]}")


def main():
    given = [it for it in sys.argv[1:] if it != "--write"]
    trial = Trial(os.path.abspath(given[0] if given else f"{ROOT}/crates/g5/out/g5"))
    for job in jobs():
        whole, calls = host.undisturbed(job, trial.program)
        for tries in TRIES:
            tries(trial, job, whole, calls)
        print(f"{job.name}: {len(calls)} calls of its own", file=sys.stderr, flush=True)
    table = "\n".join(trial.rows())
    print(table)
    print("\n".join(trial.wrong))
    if len(given) < len(sys.argv) - 1:
        write(table)
    sys.exit(1 if trial.wrong else 0)


if __name__ == "__main__":
    main()
