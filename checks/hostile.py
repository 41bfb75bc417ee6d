"""Scripts and files that are made to hurt: examples that are cut, spliced and bent, numbers at limits, long words,
deep elements, files that lie, words of the command line at limits. Each run has to end within 20 seconds and 1 GiB by
one of the seven statuses, write nothing on standard error, answer each line of a script that it reads to the end, and
write the same bytes again.

usage: hostile.py PROGRAM [COUNT [SEED]]

COUNT cases are tried, 500 if it isn't given; each is made from the seed and its number alone, and one that breaks
something is kept in a folder that is told. A campaign is pieces with seeds of their own, some of them at a time, behind
all other work, over a copy of the program that no gate replaces meanwhile; these make 100,000 cases:

    seq 20 | xargs -P 3 -I SEED sh -c 'nice -n 19 python3 -B checks/hostile.py PROGRAM 5000 SEED >hostile.SEED'
    tail -qn 1 hostile.*
"""
import random
import re
import resource
import shutil
import subprocess
import sys
import tempfile
from pathlib import Path

EXAMPLES = Path(__file__).resolve().parent.parent / "examples"

MOST_SECONDS = 20
MOST_BYTES = 1 << 30
STATUSES = range(7)

NUMBERS = ["0", "1", "2", "9", "10", "255", "256", "9999", "10000", "65535", "65536", "999999", "4294967296", str(2**127 - 1), str(2**127), "9" * 60]
PIECES = [b"#", b"\r\n", b"\0", b"\xff", b" " * 9, b"\n" * 3, b">", b";", b".", b"^-", b"^", b"=", b"x", b"x1", b"x1.2>x1.1", b"group 2 1\n", b"show a\n"]
QUESTIONS = [
    "show a", "basis a", "types a", "order a", "profile a", "ponds a", "parts p q a", "share a x1.1 x1.2", "image a x1", "equal a a",
    "conj h a a", "conj h a b", "power a a", "power a b", "power b a", "let b = a^-1 a^3",
]


def corpus():
    """The bytes of all scripts and files of the examples that aren't too long to be bent fast."""
    paths = sorted(path for path in EXAMPLES.rglob("*") if path.is_file() and path.name not in ("expected", "status", "words", "README.md", "check"))
    return [data for data in (path.read_bytes() for path in paths) if len(data) <= 20_000]


def cut(rng, data):
    return data[: rng.randrange(len(data) + 1)]


def spliced(rng, data, others):
    other = rng.choice(others)
    at, to = rng.randrange(len(data) + 1), rng.randrange(len(other) + 1)
    return data[:at] + other[to:]


def bent(rng, data):
    """A byte is another one, or gone, or a piece stands before it."""
    at = rng.randrange(len(data) + 1)
    return data[:at] + rng.choice([bytes([rng.randrange(256)]), b"", rng.choice(PIECES)]) + data[at + rng.randrange(2):]


def renumbered(rng, data):
    numbers = list(re.finditer(rb"\d+", data))
    if not numbers:
        return data
    found = rng.choice(numbers)
    return data[: found.start()] + rng.choice(NUMBERS).encode() + data[found.end():]


def doubled(rng, data):
    lines = data.split(b"\n")
    at = rng.randrange(len(lines))
    return b"\n".join(lines[:at] + [lines[at]] * rng.choice([2, 300]) + lines[at + 1:])


def some_letters(rng, length):
    return "".join(rng.choice("12") for _ in range(length))


def comb(rng, depth):
    """The rows of a deep element: the leaves of a comb, in another order."""
    spine = rng.choice(["1", "2", some_letters(rng, 7)])
    letters, leaves = "", []
    for place in range(depth):
        step = spine[place % len(spine)]
        leaves.append("x1." + letters + ("2" if step == "1" else "1"))
        letters += step
    leaves.append("x1." + letters)
    moved = leaves[:]
    rng.shuffle(moved)
    return ";".join(f"{u}>{v}" for u, v in zip(leaves, moved))


def asked(rng, first):
    """A script that binds a by the first line, and asks of it."""
    return "\n".join(["group 2 1", first, *rng.sample(QUESTIONS, 4)]).encode() + b"\n"


def deep(rng):
    return asked(rng, f"let a = {comb(rng, rng.choice([3, 40, 300]))}")


def long_words(rng):
    word = "x1." + some_letters(rng, rng.choice([1, 1023, 1024, 1025, 30_000, 65_000]))
    return rng.choice([f"reduce {word}>x1", f"let a = x1>x1\nimage a {word}", f"let a = x1>x1\nshare a {word} {word}"]).join(["group 2 1\n", "\n"]).encode()


def powers(rng):
    rows = rng.choice([comb(rng, 2), comb(rng, 5), "x1.1>x1.11;x1.21>x1.12;x1.22>x1.2"])
    return asked(rng, f"let b = {rows}\nlet a = b^{rng.choice(['', '-'])}{rng.choice(NUMBERS)} b")


def lying(rng):
    """An element file whose numbers or lines aren't what they say."""
    rows = comb(rng, rng.choice([2, 12, 200])).split(";")
    stated = rng.choice([str(len(rows)), *NUMBERS])
    data = "\n".join(["ht-element 1", "group 2 1", f"rows {stated}", *rows, "end"]).encode() + b"\n"
    return rng.choice([lambda: data, lambda: cut(rng, data), lambda: bent(rng, data), lambda: renumbered(rng, data), lambda: data + b"more\n"])()


def case(seed, number, sources):
    """The script and the file `a.ht` of a case."""
    rng = random.Random(f"{seed} {number}")
    made = rng.choice([deep, long_words, powers, None, None, None, None])
    data = made(rng) if made else rng.choice(sources)
    for _ in range(rng.choice([0, 1, 1, 2, 5]) if made else rng.choice([1, 1, 2, 3])):
        change = rng.randrange(5)
        data = [cut, bent, renumbered, doubled][change](rng, data) if change < 4 else spliced(rng, data, sources)
    if rng.randrange(3) == 0:
        data += asked(rng, "load a a.ht")
    return data, lying(rng)


def some_words(rng):
    """The words of the command line: mostly none or a budget that is one. A sample takes longer than most scripts."""
    kind = rng.randrange(100)
    if kind == 0:
        return ["--sample", rng.choice([str(rng.getrandbits(64)), str(2**64 - 1), *NUMBERS])]
    if kind == 1:
        return ["--budget", rng.choice([*NUMBERS, "-1", "", "x"])]
    budget = rng.choice([None, None, "1", "7", "65536"])
    return [] if budget is None else ["--budget", budget]


def limited():
    resource.setrlimit(resource.RLIMIT_AS, (MOST_BYTES, MOST_BYTES))


def ran(program, folder, script, words):
    return subprocess.run([program, *words], input=script, capture_output=True, cwd=folder, timeout=MOST_SECONDS, preexec_fn=limited)


def wanted_answers(script, words):
    """The number of lines that have an answer: all but blank ones and comments; or six, of a sample."""
    if "--sample" in words:
        return 6
    return sum(1 for line in script.split(b"\n") if line.strip(b" ") and not line.lstrip(b" ").startswith(b"#"))


def fault(program, folder, script, words):
    """What the run breaks, or None."""
    try:
        first = ran(program, folder, script, words)
        if first.returncode not in STATUSES:
            return f"status {first.returncode}"
        if first.stderr:
            return "a word on standard error"
        answers = first.stdout.count(b"\n")
        wanted = wanted_answers(script, words)
        if first.returncode in (0, 1) and answers != wanted:
            return f"{answers} answers to {wanted} lines"
        if first.returncode == 2 and (first.stdout or not words):
            return "bad words, and yet answers, or none of the words"
        if (first.returncode == 1) != (first.returncode < 2 and b"refused: " in first.stdout):
            return f"status {first.returncode} beside its answers"
        again = ran(program, folder, script, words)
        if (first.returncode, first.stdout) != (again.returncode, again.stdout):
            return "another answer the second time"
    except subprocess.TimeoutExpired:
        return f"no end within {MOST_SECONDS} s"
    return None


def main():
    program = str(Path(sys.argv[1]).resolve())
    count = int(sys.argv[2]) if len(sys.argv) > 2 else 500
    seed = sys.argv[3] if len(sys.argv) > 3 else "2026"
    sources = corpus()
    wrong = 0
    with tempfile.TemporaryDirectory() as folder:
        for number in range(count):
            script, file = case(seed, number, sources)
            words = some_words(random.Random(f"{seed} {number} words"))
            Path(folder, "a.ht").write_bytes(file)
            broken = fault(program, folder, script, words)
            if broken is not None:
                wrong += 1
                Path(folder, "script").write_bytes(script)
                kept = shutil.copytree(folder, Path(tempfile.mkdtemp(prefix="hostile-"), "case"))
                print(f"hostile: case {number} of the seed {seed}, with the words {words}, in {kept}: {broken}")
    print(f"hostile: {count} cases, {wrong} wrong")
    return 1 if wrong else 0


sys.exit(main())
