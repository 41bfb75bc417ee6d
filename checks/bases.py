"""Least semi-normal bases against the definition: all bases of few expansions are tried, and the one
that every semi-normal basis is under is what `basis` has to answer, and a budget refuses it exactly
where it takes more expansions.

usage: bases.py PROGRAM
"""
import random
import subprocess
import sys

from common.bases import all_bases, least
from common.words import is_reduced, parse, parse_word, rows_text, some_pair


def ask(program, n, r, rows, budget):
    script = f"group {n} {r}\nlet a = {rows_text(rows)}\nbasis a\n"
    words = [] if budget is None else ["--budget", str(budget)]
    done = subprocess.run([program] + words, input=script.encode(), stdout=subprocess.PIPE, timeout=60)
    return done.stdout.decode().split("\n")[2]


def reduced(program, n, r, rows):
    script = f"group {n} {r}\nreduce {rows_text(rows)}\n"
    done = subprocess.run([program], input=script.encode(), stdout=subprocess.PIPE, timeout=60)
    rows = parse(done.stdout.decode().split("\n")[1])
    assert is_reduced(n, rows)
    return tuple(rows)


def main():
    program = sys.argv[1]
    rng = random.Random(2013)
    wrong = tried = 0
    for n, r, most in [(2, 1, 6), (2, 2, 5), (3, 1, 4), (2, 3, 4)]:
        levels = all_bases(n, r, most)
        for _ in range(12):
            rows = reduced(program, n, r, some_pair(rng, n, r, rng.randrange(1, 5 if n == 2 else 3)))
            found = least(rows, levels)
            got = ask(program, n, r, rows, None)
            tried += 1
            if found is None:
                right = not got.startswith("refused") and len(got.split(" ")) > r + most * (n - 1)
            else:
                expansions, basis = found
                right = got != "" and [parse_word(w) for w in got.split(" ")] == basis
                right = right and (expansions == 0 or ask(program, n, r, rows, expansions) == got)
                right = right and (expansions < 2 or ask(program, n, r, rows, expansions - 1) == "refused: budget a")
            if not right:
                wrong += 1
                print(f"bases: group {n} {r}, {rows_text(rows)} is answered {got}, the least is {found}")
    print(f"bases: {tried} elements, {wrong} wrong")
    return 1 if wrong else 0


sys.exit(main())
