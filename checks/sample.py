"""The summaries of samples against the rule: the elements are made anew from the number, and what the summary says is
what a script is answered of them; the table of docs/formats.md; that no script is read, two runs write the same bytes,
and numbers past 64 bits are none.

usage: sample.py PROGRAM [--write]

--write puts what the program writes into the table.
"""
import os
import re
import subprocess
import sys
import tempfile
from pathlib import Path

from common.samples import row_count, sample
from common.words import file_text

PAGE = Path(__file__).resolve().parent.parent / "docs" / "formats.md"
TABLE = r"(?:^\| `sample \d+` .*\n)+"
NUMBERS = [0, 1, 2, 3, 7, 2_026, 65_536, 2**32, 2**63, 2**64 - 1]
# Of these the elements are asked by scripts too.
ASKED = [1, 2, 2**64 - 1]
BUDGET = "8000"
# A group of eight words is a cycle of eight words, or of two and two, or has attractors and repellers of the
# periods 1 or 2, with as many letters on either side.
ANSWERS = ["conjugate", "order infinite", "power 16 16"]
SCRIPT = "group 2 1\nload a a.ht\nload h h.ht\nload c c.ht\nlet d = h^-1 a h\nequal c d\nbasis a\nbasis c\nconj k a c\norder a\npower a c\n"


def summed(program, number, script):
    """The status of a run for a sample, its output, and how much of the script it read."""
    script.seek(0)
    words = ["--budget", BUDGET, "--sample", str(number)]
    done = subprocess.run([program, *words], stdin=script, stdout=subprocess.PIPE, timeout=60)
    return done.returncode, done.stdout.decode(), os.lseek(script.fileno(), 0, os.SEEK_CUR)


def answered(program, elements):
    """What a script is answered of these elements, and how the lines of a summary tell it."""
    with tempfile.TemporaryDirectory() as folder:
        for name, rows in zip("ahc", elements):
            Path(folder, f"{name}.ht").write_text(file_text(rows), encoding="ascii")
        done = subprocess.run([program, "--budget", BUDGET], input=SCRIPT.encode(), stdout=subprocess.PIPE, cwd=folder, timeout=60)
    _, a, h, c, _, equal, first, second, verdict, order, power = done.stdout.decode().splitlines()
    rows = " ".join(it.split(" ")[2] for it in (a, h, c))
    bases = f"{len(first.split(' '))} {len(second.split(' '))}"
    return equal, [f"rows {rows}", f"basis {bases}", verdict.split(" ")[0], order, " ".join(power.split(" ")[:3])]


def faults(program, number, script):
    """What is wrong with the summary of a number."""
    status, output, read = summed(program, number, script)
    lines = output.splitlines()
    elements = sample(number)
    if status != 0 or len(lines) != 6:
        yield f"status {status}, {len(lines)} lines"
        return
    if read != 0:
        yield f"{read} bytes of the script are read"
    if lines[0] != f"sample {number}" or lines[3:] != ANSWERS:
        yield f"it says {lines}"
    if lines[1] != "rows " + " ".join(str(row_count(rows)) for rows in elements):
        yield f"it says {lines[1]}"
    if number in ASKED:
        equal, told = answered(program, elements)
        if equal != "yes" or told != lines[1:]:
            yield f"a script is answered {equal}, {told}"
        if summed(program, number, script)[1] != output:
            yield "a second run writes other bytes"


def table_row(program, number, script):
    return "| " + " | ".join(f"`{line}`" for line in summed(program, number, script)[1].splitlines()) + " |\n"


def main():
    program = os.path.abspath(sys.argv[1])
    with tempfile.TemporaryFile() as script:
        script.write(b"group 2 1\nshow a\n")
        script.flush()
        page = PAGE.read_text(encoding="utf-8")
        table = "".join(table_row(program, number, script) for number in NUMBERS)
        if "--write" in sys.argv:
            PAGE.write_text(re.sub(TABLE, table, page, flags=re.M), encoding="utf-8")
        wrong = [(number, fault) for number in NUMBERS for fault in faults(program, number, script)]
        if "--write" not in sys.argv and re.findall(TABLE, page, re.M) != [table]:
            wrong.append(("the table", "it isn't what the program writes"))
        if summed(program, 2**64, script)[:2] != (2, ""):
            wrong.append((2**64, "it is taken"))
    for of, fault in wrong:
        print(f"sample: {of}: {fault}")
    print(f"sample: {len(NUMBERS)} samples, {len(ASKED)} of them asked by scripts, {len(wrong)} wrong")
    return 1 if wrong else 0


sys.exit(main())
