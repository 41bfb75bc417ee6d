"""The program over what real folders and streams do: what each FILE of `load` is answered, and with which status a run
ends where a stream is closed, full, broken or a folder. Nothing is ever written on standard error.

usage: edge.py PROGRAM

A named pipe is read to its end, and one that nobody writes to is waited for: this isn't tried.
"""
import os
import shutil
import signal
import subprocess
import sys
import tempfile
import threading
from pathlib import Path

DONE, SOME_REFUSED, READ_FAULT, WRITE_FAULT = 0, 1, 3, 4
MOST_SECONDS = 20

FILE = b"ht-element 1\ngroup 2 1\nrows 3\nx1.1>x1.11\nx1.21>x1.12\nx1.22>x1.2\nend\n"
LONG = 1 << 33
NOBODY = 65_534

# What stands in the folder besides, and what its load is answered.
LOADS = [
    ("b.ht", "load e 3"),
    ("b..ht-", "load e 3"),
    ("link", "load e 3"),
    ("link_to_none", "refused: file"),
    ("link_to_itself", "refused: file"),
    ("none", "refused: file"),
    ("folder", "refused: file"),
    ("unreadable", "refused: file"),
    ("long", "refused: file form 0"),
    ("pipe", "load e 3"),
    ("pipe_of_none", "refused: file form 1"),
    ("pipe_without_end", "refused: file form 0"),
    (".", "refused: syntax 8"),
    ("..", "refused: syntax 8"),
    ("../b.ht", "refused: syntax 8"),
    ("./b.ht", "refused: syntax 8"),
    ("/dev/zero", "refused: syntax 8"),
    ("folder/b.ht", "refused: syntax 14"),
]

# How the shell sets the streams, and the status and the answers of a script of one group.
STREAMS = [
    ("<script", DONE, b"group 2 1\n"),
    ("</dev/null", DONE, b""),
    ("<script 2>&-", DONE, b"group 2 1\n"),
    ("<&-", READ_FAULT, b""),
    ("<folder", READ_FAULT, b""),
    ("0>scratch", READ_FAULT, b""),
    ("<script >&-", WRITE_FAULT, b""),
    ("<script >/dev/full", WRITE_FAULT, b""),
    ("<script 1<b.ht", WRITE_FAULT, b""),
    ("</dev/null >&-", DONE, b""),
    ("<loads >&-", WRITE_FAULT, b""),
    ("<&- >&- 2>&-", READ_FAULT, b""),
]


class Edge:
    """A folder with the program and what it is tried on."""

    def __init__(self, program, folder):
        self.folder = folder
        os.chmod(folder, 0o755)
        shutil.copy(program, Path(folder, "htcalc"))
        for name in ("b.ht", "b..ht-", "unreadable", "folder/b.ht"):
            Path(folder, name).parent.mkdir(exist_ok=True)
            Path(folder, name).write_bytes(FILE)
        os.chmod(Path(folder, "unreadable"), 0)
        for name, to in ("link", "b.ht"), ("link_to_none", "none"), ("link_to_itself", "link_to_itself"):
            os.symlink(to, Path(folder, name))
        Path(folder, "long").write_bytes(b"")
        os.truncate(Path(folder, "long"), LONG)
        for name in ("pipe", "pipe_of_none", "pipe_without_end"):
            os.mkfifo(Path(folder, name), 0o644)
        Path(folder, "script").write_bytes(b"group 2 1\n")
        Path(folder, "loads").write_bytes(b"group 2 1\nload e b.ht\nshow e\n")

    def run(self, script, **more):
        """The status and the output; a word on standard error is output too."""
        done = subprocess.run(["./htcalc"], input=script, stdout=subprocess.PIPE, stderr=subprocess.STDOUT, cwd=self.folder, timeout=MOST_SECONDS, **more)
        return done.returncode, done.stdout

    def begin(self, stdout, restore):
        """The program, begun over pipes; its signals are set to their defaults, or stay as Python's."""
        return subprocess.Popen(["./htcalc"], stdin=subprocess.PIPE, stdout=stdout, stderr=subprocess.PIPE, cwd=self.folder, restore_signals=restore)


def write_pipe(path, pieces):
    """Writes into a named pipe, as long as somebody reads."""
    def write():
        try:
            with open(path, "wb", buffering=0) as pipe:
                for piece in pieces:
                    pipe.write(piece)
        except BrokenPipeError:
            pass

    threading.Thread(target=write, daemon=True).start()


def endless(piece):
    while True:
        yield piece


def loads(edge):
    """Each FILE, asked as somebody who has no right to read the unreadable one."""
    write_pipe(Path(edge.folder, "pipe"), [FILE[:20], FILE[20:]])
    write_pipe(Path(edge.folder, "pipe_of_none"), [])
    write_pipe(Path(edge.folder, "pipe_without_end"), endless(b" " * 4_096))
    nobody = {"user": NOBODY, "group": NOBODY, "extra_groups": []} if os.geteuid() == 0 else {}
    for name, answer in LOADS:
        given = edge.run(f"group 2 1\nload e {name}\n".encode(), **nobody)
        wanted = SOME_REFUSED if answer.startswith("refused") else DONE
        yield f"load of {name}", given, (wanted, f"group 2 1\n{answer}\n".encode())


def streams(edge):
    for how, status, answers in STREAMS:
        done = subprocess.run(["sh", "-c", f"exec ./htcalc {how}"], stdin=subprocess.DEVNULL, capture_output=True, cwd=edge.folder, timeout=MOST_SECONDS)
        yield how, (done.returncode, done.stdout + done.stderr), (status, answers)


def grown(edge):
    """A file grows while it is loaded again and again: what is read is some beginning of it, and never less than before,
    until it is too long."""
    path, over = Path(edge.folder, "growing"), threading.Event()
    path.write_bytes(b"ht-element 1\ngroup 2 1\nrows 999999\n")

    def grow():
        with open(path, "ab", buffering=0) as file:
            while not over.is_set() and file.tell() < 8_000_000:
                file.write(b"x1>x1\n" * 1_000)

    writer = threading.Thread(target=grow)
    writer.start()
    status, output = edge.run(b"group 2 1\n" + b"load e growing\n" * 200)
    over.set()
    writer.join()
    begin = b"refused: file form "
    forms = [int(line[len(begin):]) if line.startswith(begin) else -1 for line in output.split(b"\n")[1:-1]]
    whole = forms[:forms.index(0)] if 0 in forms else forms
    right = len(forms) == 200 and whole == sorted(whole) and all(form >= 4 for form in whole) and not any(forms[len(whole):])
    yield "load of a growing file", (status, right), (SOME_REFUSED, True)


def broken_pipes(edge):
    """Nobody reads the answers, or nobody reads on; SIGPIPE kills by default, and is ignored where Python started it."""
    for restore in (True, False):
        reader, writer = os.pipe()
        os.close(reader)
        running = edge.begin(writer, restore)
        os.close(writer)
        errors = running.communicate(b"group 2 1\n", timeout=MOST_SECONDS)[1]
        yield "a pipe that nobody reads", (running.returncode, errors), (WRITE_FAULT, b"")
        running = edge.begin(subprocess.PIPE, restore)
        writing = threading.Thread(target=feed, args=(running.stdin, b"group 2 1\nlet a = x1>x1\n" + b"show a\n" * 60_000))
        writing.start()
        first = running.stdout.readline()
        running.stdout.close()
        errors = running.stderr.read()
        running.wait(timeout=MOST_SECONDS)
        writing.join()
        running.stderr.close()
        yield "a pipe that ends early", (running.returncode, first + errors), (WRITE_FAULT, b"group 2 1\n")


def feed(stream, script):
    try:
        with stream:
            stream.write(script)
    except BrokenPipeError:
        pass


def answers_at_once(edge):
    """The answer to a line is there before the next line is."""
    with edge.begin(subprocess.PIPE, True) as running:
        timer = threading.Timer(MOST_SECONDS, running.kill)
        timer.start()
        given = b""
        for line in (b"group 2 1\n", b"let a = x1>x1\n", b"show a\n"):
            running.stdin.write(line)
            running.stdin.flush()
            given += running.stdout.readline()
        running.stdin.close()
        given += running.stdout.read() + running.stderr.read()
        timer.cancel()
    yield "answers line by line", (running.returncode, given), (DONE, b"group 2 1\nlet a 1\nx1>x1\n")


def main():
    signal.signal(signal.SIGPIPE, signal.SIG_IGN)
    cases = wrong = 0
    with tempfile.TemporaryDirectory() as folder:
        edge = Edge(os.path.abspath(sys.argv[1]), folder)
        for part in (loads, streams, grown, broken_pipes, answers_at_once):
            for name, given, wanted in part(edge):
                cases += 1
                if given != wanted:
                    wrong += 1
                    print(f"edge: {name}: {given} and not {wanted}")
    print(f"edge: {cases} cases, {wrong} wrong")
    return 1 if wrong else 0


sys.exit(main())
