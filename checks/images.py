"""Images against the definitions: the rows that `image` answers for a word are checked to cover it,
to stand in order, to be merged, and to send random letters behind each entry where the element does.

usage: images.py PROGRAM
"""
import random
import subprocess
import sys

from common.words import behind, is_basis, is_reduced, moved, of_shape, parse, rows_text, some_letters, some_pair, text, under


def is_right(rng, n, r, got, pair, u):
    rows = parse(got)
    froms = [s for s, _ in rows]
    if not all(under(s, u) for s in froms):
        return False
    cut = [(1, s[1][len(u[1]):]) for s in froms]
    tried = [(s, t, some_letters(rng, n, 10)) for s, t in rows for _ in range(4)]
    return (
        is_basis(n, 1, cut)
        and cut == sorted(cut)
        and is_reduced(n, [(c, t) for c, (_, t) in zip(cut, rows)])
        and all(moved(pair, behind(s, z)) == behind(t, z) for s, t, z in tried)
    )


def some_word(rng, n, r):
    return rng.randrange(1, r + 2) if rng.random() < 0.05 else rng.randrange(1, r + 1), tuple(
        rng.randrange(1, n + 2) if rng.random() < 0.03 else rng.randrange(1, n + 1) for _ in range(rng.randrange(5))
    )


def main():
    rng = random.Random(2016)
    wrong = tried = 0
    for n, r in [(2, 1), (2, 3), (3, 1), (3, 2), (5, 2)]:
        for _ in range(12):
            pair = some_pair(rng, n, r, rng.randrange(1, 5))
            words = [some_word(rng, n, r) for _ in range(12)]
            script = f"group {n} {r}\nlet a = {rows_text(pair)}\n" + "".join(f"image a {text(u)}\n" for u in words)
            done = subprocess.run([sys.argv[1]], input=script.encode(), stdout=subprocess.PIPE, timeout=60)
            answers = done.stdout.decode().split("\n")[2:]
            for u, got in zip(words, answers):
                tried += 1
                if of_shape(n, r, u):
                    right = not got.startswith("refused") and is_right(rng, n, r, got, pair, u)
                else:
                    right = got == "refused: word 1"
                if not right:
                    wrong += 1
                    print(f"images: group {n} {r}, {text(u)} by {rows_text(pair)} is answered {got}")
            if len(answers) != len(words) + 1:
                wrong += 1
                print(f"images: {len(answers) - 1} answers to {len(words)} words")
    print(f"images: {tried} words, {wrong} wrong")
    return 1 if wrong else 0


sys.exit(main())
