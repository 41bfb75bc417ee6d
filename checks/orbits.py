"""Sharing of orbits and ponds against the definitions: the powers of small random elements are tried one
by one, on words under the quasinormal basis that is printed.

usage: orbits.py PROGRAM
"""
import random
import subprocess
import sys

from common.bases import is_under
from common.powers import carried, product
from common.words import behind, parse, parse_word, rows_text, some_element, some_letters, some_pair, text, turned

# The powers that are tried, in both directions.
MOST_POWER = 40
QUESTIONS = 12

# x1.2 has a pond.
WITH_POND = parse("x1.1>x1;x1.21>x2;x1.22>x3;x2>x4.21;x3>x4.22;x4>x4.1")
# The addresses of x2.1 and x1.1 agree, but no power carries x2 to x1.
ONE_ADDRESS = parse("x1.1>x2.1;x1.2>x1;x2>x2.2")


def run(program, n, r, lines):
    script = "".join(f"{line}\n" for line in [f"group {n} {r}", *lines])
    done = subprocess.run([program], input=script.encode(), stdout=subprocess.PIPE, timeout=60)
    return done.stdout.decode().split("\n")[1:-1]


def words_of(n, rows, u):
    """The words to which the powers carry u, by their exponents."""
    ahead, back = carried(n, rows, u, MOST_POWER), carried(n, turned(rows), u, MOST_POWER)
    words = {-k: v for k, v in enumerate(back)} | dict(enumerate(ahead))
    return {k: v for k, v in words.items() if v is not None}


def inner_nodes(n, rows, basis):
    """The words under the basis that one step carries to no word under it."""
    left, found = list(basis), []
    while left:
        u = left.pop()
        v = carried(n, rows, u, 1)[1]
        if v is None or not is_under(v, basis):
            found.append(u)
            left += [behind(u, (c,)) for c in range(1, n + 1)]
    return sorted(found)


def ponds(n, rows, basis):
    """The ponds of few steps."""
    for u in inner_nodes(n, rows, basis):
        for k, v in enumerate(carried(n, rows, u, MOST_POWER)):
            if k > 0 and v is not None and is_under(v, basis):
                yield f"{text(u)} {k} {text(v)}"
                break


def some_questions(rng, n, rows, basis):
    """Pairs of words under the basis, many of them in one orbit."""
    for _ in range(QUESTIONS):
        u = behind(rng.choice(basis), some_letters(rng, n, rng.randrange(4)))
        v = behind(rng.choice(basis), some_letters(rng, n, rng.randrange(4)))
        near = [w for k, w in words_of(n, rows, u).items() if abs(k) < 8 and is_under(w, basis)]
        yield u, rng.choice(near) if near and rng.randrange(3) else v


def share_fault(n, rows, u, v, answer):
    """What is wrong with the answer to a question, if anything."""
    words = words_of(n, rows, u)
    powers = [k for k, w in words.items() if w == v]
    if words.get(MOST_POWER) == u or any(k > 0 and w == u for k, w in words.items()):
        powers = [k for k in powers if k >= 0]
        powers = [min(powers)] if powers else []
    if answer == "share none":
        return f"the power {powers[0]} carries the one to the other" if powers else None
    k = int(answer.removeprefix("share "))
    if abs(k) <= MOST_POWER:
        return None if powers == [k] else f"these powers do: {powers}"
    return f"these powers do: {powers}" if powers else None


def ponds_fault(n, rows, basis, answer):
    found = [] if answer == "none" else answer.split(";")
    few = [pond for pond in found if int(pond.split()[1]) <= MOST_POWER]
    right = list(ponds(n, rows, basis))
    return None if few == right else f"the ponds are {right}"


def some_elements(rng, n, r, most):
    found = [some_element(rng, n, r, rng.randrange(most)) for _ in range(30)]
    if (n, r) == (2, 4):
        found += [WITH_POND, turned(WITH_POND)] * 3
    if (n, r) == (2, 2):
        found += [ONE_ADDRESS, turned(ONE_ADDRESS)] * 3
    return found


def parted(rng, n):
    """A number of roots, and an element of which the first root repels and the second one attracts: leaves
    of a tree under the first go by some steps each, often by as many, to leaves of that tree under the
    second, often to the same ones. So there may be ponds in ponds."""
    leaves = [(2,)]
    for _ in range(rng.randrange(1, 4)):
        leaf = leaves.pop(rng.randrange(len(leaves)))
        leaves += [(*leaf, c) for c in range(1, n + 1)]
    ends = list(leaves)
    if rng.randrange(2):
        i, j = rng.sample(range(len(ends)), 2)
        ends[i], ends[j] = ends[j], ends[i]
    steps, roots = rng.randrange(1, 4), 2
    rows = [((1, (1,)), (1, ())), ((2, ()), (2, (1,)))] + [((1, (c,)), (2, (c,))) for c in range(3, n + 1)]
    for leaf, end in zip(leaves, ends):
        count = rng.randrange(1, 4) if rng.randrange(6) == 0 else steps
        between = [(root, ()) for root in range(roots + 1, roots + count + 1)]
        way = [(1, leaf), *between, (2, end)]
        rows += zip(way, way[1:])
        roots += count
    return roots, rows


def elements(rng):
    """Groups with elements, each conjugated by another element."""
    groups = [(2, 1, 7), (2, 2, 6), (2, 4, 5), (3, 1, 5), (3, 2, 3), (4, 1, 3), (9, 1, 2)]
    found = [(n, r, rows) for n, r, most in groups for rows in some_elements(rng, n, r, most)]
    found += [(n, *parted(rng, n)) for n in (2, 3) for _ in range(30)]
    for n, r, rows in found:
        by = some_pair(rng, n, r, rng.randrange(2))
        yield n, r, product(n, r, [turned(by), rows, by])


def main():
    rng = random.Random(2016)
    shared = apart = with_ponds = wrong = 0
    for n, r, rows in elements(rng):
        bound = f"let a = {rows_text(rows)}"
        basis = [parse_word(word) for word in run(sys.argv[1], n, r, [bound, "basis a"])[1].split()]
        asked = list(some_questions(rng, n, rows, basis))
        lines = [f"share a {text(u)} {text(v)}" for u, v in asked]
        answers = run(sys.argv[1], n, r, [bound, "ponds a", *lines])[1:]
        faults = [ponds_fault(n, rows, basis, answers[0])]
        faults += [share_fault(n, rows, u, v, answer) for (u, v), answer in zip(asked, answers[1:])]
        shared += sum(answer not in ("share none", "share 0") for answer in answers[1:])
        apart += answers.count("share none")
        with_ponds += answers[0] != "none"
        for line, answer, fault in zip(["ponds a", *lines], answers, faults):
            if fault is not None:
                wrong += 1
                print(f"orbits: group {n} {r}, {rows_text(rows)}: {line} is answered {answer}: {fault}")
    print(f"orbits: {shared} pairs of words in one orbit, {apart} not, {with_ponds} elements with ponds, {wrong} wrong")
    return 1 if wrong else 0


sys.exit(main())
