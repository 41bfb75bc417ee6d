"""Rows against the definitions: random small rows, right and wrong, are told to be a pair by all
words of one length, and their canonical pair is checked to be reduced, in order and alike.

usage: reduction.py PROGRAM
"""
import random
import subprocess
import sys

from common.words import all_words, behind, is_basis, is_canonical, longest, moved, of_shape, parse, rows_text, some_basis


def answer(n, r, rows):
    """The refusal that the definitions ask for, or None."""
    for place, row in enumerate(rows, 1):
        if not all(of_shape(n, r, w) for w in row):
            return f"refused: rows foreign {place}"
    if not is_basis(n, r, [s for s, _ in rows]):
        return "refused: rows from"
    if not is_basis(n, r, [t for _, t in rows]):
        return "refused: rows to"
    return None


def is_right(n, r, got, rows):
    """A canonical pair that moves each long word as the rows do."""
    if got.startswith("refused"):
        return False
    canonical = parse(got)
    length = longest([s for s, _ in canonical + rows])
    return is_canonical(n, r, canonical) and all(moved(canonical, u) == moved(rows, u) for u in all_words(n, r, length))


def some_rows(rng, n, r):
    size = rng.randrange(4)
    froms, tos = some_basis(rng, n, r, size), some_basis(rng, n, r, size)
    if rng.random() < 0.5:
        rng.shuffle(tos)
    rows = list(zip(froms, tos))
    for _ in range(rng.randrange(3)):
        u, v = rows.pop(rng.randrange(len(rows)))
        rows += [(behind(u, (c,)), behind(v, (c,))) for c in range(1, n + 1)]
    rng.shuffle(rows)
    fate = rng.random()
    place = rng.randrange(len(rows))
    u, v = rows[place]
    if fate < 0.1 and len(rows) > 1:
        rows.pop(place)
    elif fate < 0.2:
        rows.append(rows[place])
    elif fate < 0.3:
        rows[place] = (u, behind(v, (rng.randrange(1, n + 2),)))
    elif fate < 0.4:
        rows[place] = ((u[0] + 1, u[1]), v)
    elif fate < 0.5 and u[1]:
        rows[place] = ((u[0], u[1][:-1]), v)
    return rows


def main():
    rng = random.Random(1974)
    wrong = tried = 0
    for n, r in [(2, 1), (2, 2), (2, 3), (3, 1), (3, 2), (4, 1), (9, 1)]:
        cases = [some_rows(rng, n, r) for _ in range(60 if n < 9 else 15)]
        script = f"group {n} {r}\n" + "".join(f"reduce {rows_text(rows)}\n" for rows in cases)
        done = subprocess.run([sys.argv[1]], input=script.encode(), stdout=subprocess.PIPE, timeout=60)
        answers = done.stdout.decode().split("\n")[1:]
        for rows, got in zip(cases, answers):
            tried += 1
            refusal = answer(n, r, rows)
            if not (got == refusal if refusal else is_right(n, r, got, rows)):
                wrong += 1
                print(f"reduction: group {n} {r}, {rows_text(rows)} is answered {got}")
        if len(answers) != len(cases) + 1:
            wrong += 1
            print(f"reduction: {len(answers) - 1} answers to {len(cases)} lines")
    print(f"reduction: {tried} lists of rows, {wrong} wrong")
    return 1 if wrong else 0


sys.exit(main())
