"""Products of powers against the definitions: what `let` with a product binds is checked to be
canonical, and each of its rows to move words behind its first word as the steps of the factors do,
one after another from the left, on random letters behind; exponents go from -8 to 8.

usage: products.py PROGRAM
"""
import random
import subprocess
import sys

from common.words import behind, is_canonical, parse, rows_text, some_letters, some_pair, stepped


def through(factors, u):
    """Where the factors' steps lead, one after another."""
    for rows, k in factors:
        if u is not None:
            u = stepped(rows, k, u)
    return u


def is_right(rng, n, r, got, factors):
    """A canonical pair that moves words as all steps do; letters enough are behind for each step."""
    rows = parse(got)
    tried = [(s, t, some_letters(rng, n, 40)) for s, t in rows for _ in range(4)]
    return is_canonical(n, r, rows) and all(through(factors, behind(s, z)) == behind(t, z) for s, t, z in tried)


def factor_text(name, k, rng):
    if k == 1 and rng.random() < 0.5:
        return name
    if k == 0 and rng.random() < 0.5:
        return f"{name}^-0"
    return f"{name}^{k}"


def some_factors(rng, n, small):
    if rng.random() < 0.4:
        return [(rng.choice("abc"), rng.randrange(-8, 9) if small else rng.randrange(-3, 4))]
    return [(rng.choice("abc"), rng.randrange(-2, 3)) for _ in range(rng.randrange(1, 5))]


def main():
    rng = random.Random(1965)
    wrong = tried = 0
    for n, r in [(2, 1), (2, 2), (3, 1), (3, 2), (4, 1)]:
        for _ in range(12):
            pairs = {name: some_pair(rng, n, r, rng.randrange(1, 3)) for name in "abc"}
            products = [some_factors(rng, n, n == 2) for _ in range(6)]
            script = f"group {n} {r}\n" + "".join(f"let {name} = {rows_text(rows)}\n" for name, rows in pairs.items())
            for product in products:
                line = "  ".join(factor_text(name, k, rng) for name, k in product)
                script += f"let z = {line}\nshow z\n"
            done = subprocess.run([sys.argv[1]], input=script.encode(), stdout=subprocess.PIPE, timeout=60)
            shown = done.stdout.decode().split("\n")[5::2]
            for product, got in zip(products, shown):
                factors = [(pairs[name], k) for name, k in product]
                tried += 1
                if got.startswith("refused") or not is_right(rng, n, r, got, factors):
                    wrong += 1
                    print(f"products: group {n} {r}, {product} of {pairs} is answered {got}")
            if len(shown) < len(products):
                wrong += 1
                print(f"products: {len(shown)} answers to {len(products)} products")
    print(f"products: {tried} products, {wrong} wrong")
    return 1 if wrong else 0


sys.exit(main())
