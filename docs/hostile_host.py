"""Runs a command of the program on a host that fails it in a chosen way: what docs/hostile.py stands on."""
import fcntl
import os
import re
import signal
import subprocess
import tempfile
import threading
from typing import NamedTuple

LIMIT = 60  # seconds for a run
NOT_ENDED = 999  # its status where it had not ended then
STREAMS = ("stdin", "stdout", "stderr")
IGNORED = (signal.SIGPIPE, signal.SIGXFSZ)
# The calls that are looked at: of files, and of memory.
KINDS = "openat,read,write,close,brk,mmap,mremap,munmap"
LINE = re.compile(r"(\w+)\((.*)\) += (-?\w+)")


class Job(NamedTuple):
    name: str
    words: list
    files: dict  # its inputs by name
    made: list  # the names of the files that it creates
    stdin: bytes = b""


class Outcome(NamedTuple):
    status: int  # negative where a signal ended it
    files: dict  # the bytes of each file that it creates, or None where there is none
    out: bytes
    err: bytes


class Call(NamedTuple):
    kind: str
    nth: int  # among those of its kind, from 1
    file: str  # the last name of the path that it speaks of, or nothing
    text: bytes  # what a write is given


# ---- A run.

def give_slowly(path, text):
    """Gives the bytes to whoever reads the pipe of that name, one for each read: each write is a packet of its own."""
    with open(path, "wb", buffering=0) as pipe:
        fcntl.fcntl(pipe, fcntl.F_SETFL, fcntl.fcntl(pipe, fcntl.F_GETFL) | os.O_DIRECT)
        try:
            for at in range(len(text)):
                pipe.write(text[at:at + 1])
        except BrokenPipeError:
            pass


def take(path, taken):
    with open(path, "rb") as pipe:
        taken[os.path.basename(path)] = pipe.read()


def start(task, *given):
    """Does it beside the run; where the run ends without it, it is left."""
    beside = threading.Thread(target=task, args=given, daemon=True)
    beside.start()
    return beside


def put(path, text, slow):
    if slow:
        os.mkfifo(path)
        start(give_slowly, path, text)
    else:
        with open(path, "wb") as it:
            it.write(text)


def lay_out(job, room, slow):
    """A folder `run` with the inputs and with names that lead nowhere, and beside it the streams."""
    os.mkdir(f"{room}/run")
    for name, text in job.files.items():
        put(f"{room}/run/{name}", text, name in slow)
    put(f"{room}/stdin", job.stdin, "stdin" in slow)
    os.mkdir(f"{room}/run/folder")
    os.symlink("loop", f"{room}/run/loop")
    os.symlink("nothing", f"{room}/run/dangling")


def open_output(room, name, full, left):
    if name == full:
        return os.open("/dev/full", os.O_WRONLY)
    if left and name == "stdout":
        reading, writing = os.pipe()
        os.close(reading)
        return writing
    return os.open(f"{room}/{name}", os.O_WRONLY | os.O_CREAT | os.O_TRUNC)


def content(path):
    if not os.path.isfile(path):
        return None
    with open(path, "rb") as it:
        return it.read()


def prepare(ignores, closed):
    """What is done between fork and exec."""
    def done():
        for number in IGNORED:
            signal.signal(number, signal.SIG_IGN if number in ignores else signal.SIG_DFL)
        if closed is not None:
            os.close(closed)
    return done


def ended_with(words, **how):
    try:
        return subprocess.run(words, timeout=LIMIT, check=False, **how).returncode
    except subprocess.TimeoutExpired:
        return NOT_ENDED


def run(job, program, wrap=(), *, full=None, closed=None, left=False, ignores=IGNORED, slow=(), piped=None):
    """Runs it behind the words of wrap. A file named by `full` is a full device, the stream of the number `closed` is
    closed, standard output is a pipe that nobody reads where it is `left`; inputs named by `slow` give a byte at a
    time, and the output named by `piped` is a pipe."""
    with tempfile.TemporaryDirectory() as room:
        lay_out(job, room, slow)
        taken, reader = {}, None
        if piped:
            os.mkfifo(f"{room}/run/{piped}")
            reader = start(take, f"{room}/run/{piped}", taken)
        words = [it.replace("ROOM", room) for it in wrap]
        words += [program, *("/dev/full" if it == full else it for it in job.words)]
        given = os.open(f"{room}/stdin", os.O_RDONLY)
        out, err = (open_output(room, it, full, left) for it in ("stdout", "stderr"))
        status = ended_with(words, cwd=f"{room}/run", stdin=given, stdout=out, stderr=err,
                            preexec_fn=prepare(ignores, closed))
        for it in (given, out, err):
            os.close(it)
        if reader:
            reader.join(LIMIT)
        files = {it: taken.get(it) if it == piped else content(f"{room}/run/{it}") for it in job.made}
        calls = content(f"{room}/calls")
        ended = Outcome(status, files, content(f"{room}/stdout") or b"", content(f"{room}/stderr") or b"")
    return (ended, calls.decode("latin-1")) if calls is not None else ended


def starts(program, wrap):
    """Whether the program itself is reached behind these words: without a job it says that this is a wrong use."""
    return run(Job("", [], {}, []), program, wrap).status in (2, 10)


# ---- The calls of a run, and runs in which one of them is not answered as it should be.

def traced(job, program, *flags):
    wrap = ["strace", "-qq", "-o", "ROOM/calls", "-y", "-xx", "-s", "10000000", "-e", f"trace={KINDS}", *flags]
    return run(job, program, wrap)


def text_of(quoted):
    return bytes(int(it, 16) for it in re.findall(r"\\x(..)", quoted))


def last_name(words):
    """The last name of the path that the call's first words speak of, which is written in one of two ways."""
    found = re.match(r'\d+<([^>]*)>|AT_FDCWD<[^>]*>, "([^"]*)"', words)
    if not found:
        return ""
    path = found[1] or found[2]
    path = text_of(path).decode("latin-1") if "\\x" in path else path
    return os.path.basename(path)


def undisturbed(job, program):
    """How the job ends, and the calls that are the program's own: those behind the last one of its loader."""
    ended, text = traced(job, program)
    counts, calls, own = {}, [], 0
    for line in text.splitlines():
        found = LINE.match(line)
        if not found:
            continue
        kind, words = found[1], found[2]
        counts[kind] = counts.get(kind, 0) + 1
        file = last_name(words)
        if ".so" in file or kind == "munmap" and not any(it.file in STREAMS or it.file in job.files for it in calls):
            own = len(calls) + 1
        given = re.search(r'"((?:\\x..)*)"', words) if kind == "write" else None
        calls.append(Call(kind, counts[kind], file, text_of(given[1]) if given else b""))
    return ended, [it for it in calls[own:] if it.kind != "munmap"]


def run_failing(job, program, call, way):
    """A run in which that call is answered in that way, as `error=EIO`; behind a + each later one of its kind too."""
    when = f"{call.nth}+" if way.endswith("+") else f"{call.nth}"
    return traced(job, program, "-e", f"inject={call.kind}:{way.rstrip('+')}:when={when}")[0]



# ---- What is said of an outcome.

def is_front(got, whole):
    """Whether all that was written is the beginning of the whole texts."""
    pairs = [(got.out, whole.out), *((got.files[it] or b"", whole.files[it] or b"") for it in got.files)]
    return all(text.startswith(front) for front, text in pairs)


def difference(got, right):
    """In which of its parts it differs from the nearest of those that are right."""
    def parts(want):
        pairs = zip(Outcome._fields, got, want)
        return [f"{name} is {shown(one)}, not {shown(other)}" for name, one, other in pairs if one != other]
    return "; ".join(min(map(parts, right), key=len))


def shown(part):
    if isinstance(part, dict):
        return "{" + ", ".join(f"{name}: {shown(it)}" for name, it in part.items()) + "}"
    if isinstance(part, bytes):
        return f"{len(part)} bytes ending in {part[-24:]!r}" if len(part) > 30 else repr(part)
    return str(part)
