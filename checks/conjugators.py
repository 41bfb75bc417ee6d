"""Conjugators against the definition: each one that is printed is multiplied out, conjugates of one
element are conjugate, and where the answer is that no element conjugates, none of few rows does, and
it is the same for the two elements exchanged. A name is bound after `conjugate ROWS` alone, and a
conjugator with too long words is printed and not kept.

usage: conjugators.py PROGRAM
"""
import random
import subprocess
import sys

from common.cases import answered_cases
from common.powers import conjugated, product
from common.words import all_letters, behind, is_canonical, longest, moved, parse, rows_text, some_element, some_letters, some_pair, some_torsion

COMMANDS = ["let a = {a}", "let b = {b}", "order a", "order b", "basis a", "basis b", "conj {h} b a", "conj {h} a b", "show {h}"]

# Groups, with the most expansions of the bases that are permuted and of those of the conjugators tried.
GROUPS = [(2, 1, 5, 3), (2, 2, 4, 2), (3, 1, 4, 2), (3, 2, 3, 1), (4, 1, 3, 1), (5, 1, 3, 1), (5, 2, 2, 1)]


def exchanged(rng, n, r, rows):
    """The canonical pair of the rows, with two `to` words exchanged."""
    tos = [to for _, to in rows]
    i, j = rng.randrange(len(tos)), rng.randrange(len(tos))
    tos[i], tos[j] = tos[j], tos[i]
    return product(n, r, [[(word, to) for (word, _), to in zip(rows, tos)]])


def some_case(rng, n, r, most):
    """Two elements, and whether they are known to be conjugate."""
    a = product(n, r, [(some_element if rng.randrange(3) else some_torsion)(rng, n, r, rng.randrange(most + 1))])
    chosen = rng.randrange(8)
    if chosen < 6:
        b = conjugated(n, r, some_pair(rng, n, r, rng.randrange(most)), a)
        return (a, b, True) if chosen < 4 else (a, exchanged(rng, n, r, b), False)
    return a, product(n, r, [some_element(rng, n, r, rng.randrange(most + 1))]), False


def ask(program, n, r, cases):
    """The answers to the commands for each two elements."""
    script = [f"group {n} {r}"]
    for place, (a, b, _) in enumerate(cases):
        script += [command.format(a=rows_text(a), b=rows_text(b), h=f"h{place}") for command in COMMANDS]
    done = subprocess.run([program], input="".join(f"{line}\n" for line in script).encode(), stdout=subprocess.PIPE, timeout=60)
    answers = done.stdout.decode().split("\n")[1:-1]
    size = len(COMMANDS)
    return [answers[at + 2:at + size] for at in range(0, len(answers) - size + 1, size)]


def faults(n, r, place, case, answers, pairs):
    """What is wrong with the answers."""
    a, b, known = case
    *orders, first, second, back, verdict, shown = answers
    if verdict == "not conjugate":
        wrong = ["they are conjugate"] if known or any(conjugated(n, r, h, a) == b for h in pairs) else []
        if back != verdict:
            return wrong + ["exchanged they are"]
        return wrong if shown == f"refused: name h{place}" else wrong + ["the name is bound"]
    if not verdict.startswith("conjugate x"):
        return ["no verdict"]
    h = parse(verdict.removeprefix("conjugate "))
    wrong = [] if is_canonical(n, r, h) and conjugated(n, r, h, a) == b else ["it doesn't conjugate"]
    if "order infinite" not in orders and len(h) > len(first.split()) + len(second.split()):
        wrong.append("it has too many rows")
    if not back.startswith("conjugate x"):
        wrong.append("exchanged they aren't conjugate")
    return wrong if shown == rows_text(h) else wrong + ["another element is bound"]


def deep_exchange(letters):
    """The two words of so many letters behind letters 1 are exchanged, and no others move."""
    below = (1,) * letters
    first, second = (1, below + (1,)), (1, below + (2,))
    return [(first, second), (second, first)] + [((1, (1,) * k + (2,)),) * 2 for k in range(letters)]


def not_kept_faults(program, rng):
    """Two elements with one cycle of two words of 1,020 letters and with 32: five levels are expanded."""
    a = deep_exchange(1_019)
    b = [((1, (1,) + z), (1, (1,) + tuple(3 - c for c in z))) for z in all_letters(2, 6)] + [((1, (2,)), (1, (2,)))]
    script = [
        "group 2 1",
        "let t = x1.1>x1.11;x1.21>x1.12;x1.22>x1.2",
        "let h = x1.11>x1.12;x1.12>x1.11;x1.2>x1.2",
        "let a = t^-1018 h t^1018",
        f"let b = {rows_text(b)}",
        "conj h a b",
        "show h",
    ]
    done = subprocess.run([program], input="".join(f"{line}\n" for line in script).encode(), stdout=subprocess.PIPE, timeout=60)
    verdict, shown = done.stdout.decode().split("\n")[5:7]
    front, _, text = verdict.rpartition(" ")
    h = parse(text)
    wrong = [] if front == f"conjugate not kept {len(h)} {longest([u for row in h for u in row])}" else [f"the answer is {front}"]
    if not any(len(u[1]) > 1_024 for row in h for u in row) or not is_canonical(2, 1, h):
        wrong.append("the rows are kept ones or not canonical")
    for u, _ in rng.sample(h, 60):
        long = behind(u, some_letters(rng, 2, 1_100))
        if moved(h, moved(a, long)) != moved(b, moved(h, long)):
            wrong.append("the rows don't conjugate")
    return wrong if shown == "x1.11>x1.12;x1.12>x1.11;x1.2>x1.2" else wrong + ["the name has another element"]


def main():
    rng = random.Random(1974)
    yes = no = infinite = wrong = 0
    for fault in not_kept_faults(sys.argv[1], rng):
        wrong += 1
        print(f"conjugators: long words: {fault}")
    for n, r, pairs, place, case, answers in answered_cases(sys.argv[1], rng, GROUPS, some_case, ask):
        yes += any(answer.startswith("conjugate x") for answer in answers[5:6])
        no += answers[5:6] == ["not conjugate"]
        infinite += "order infinite" in answers
        found = faults(n, r, place, case, answers, pairs) if answers else ["no answer"]
        wrong += found != []
        for fault in found:
            print(f"conjugators: group {n} {r}, {rows_text(case[0])} and {rows_text(case[1])} are answered {answers}: {fault}")
    print(f"conjugators: {yes} conjugate, {no} not, {infinite} with an infinite order, {wrong} wrong")
    return 1 if wrong else 0


sys.exit(main())
