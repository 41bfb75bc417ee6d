"""Where the powers of an element carry words, ponds included, by following all that is under a word.

An entry is letters and a word: what is under the letters, behind the word that is followed, goes under
that word.
"""
from common.words import moved, turned, under


def merged(n, entries):
    """The entries with each n that are one taken together, in order."""
    done = []
    for entry in sorted(entries):
        done.append(entry)
        while len(done) >= n:
            z, (root, y) = done[-n]
            if not z or not y or done[-n:] != [(z[:-1] + (c,), (root, y[:-1] + (c,))) for c in range(1, n + 1)]:
                break
            done[-n:] = [(z[:-1], (root, y[:-1]))]
    return done


def followed(n, rows, entries):
    """One more step behind the entries."""
    found = []
    for z, v in entries:
        w = moved(rows, v)
        if w is None:
            found += [(z + s[1][len(v[1]):], t) for s, t in rows if under(s, v)]
        else:
            found.append((z, w))
    return merged(n, found)


def images(n, rows, u, most):
    """The entries of u for the powers from 0 to the most."""
    entries = [[((), u)]]
    for _ in range(most):
        entries.append(followed(n, rows, entries[-1]))
    return entries


def carried(n, rows, u, most):
    """The word to which each power from 0 to the most carries u, or None."""
    return [entries[0][1] if len(entries) == 1 else None for entries in images(n, rows, u, most)]


def product(n, r, pairs):
    """The canonical pair that moves words as the pairs do, the first one first."""
    rows = []
    for root in range(1, r + 1):
        entries = [((), (root, ()))]
        for pair in pairs:
            entries = followed(n, pair, entries)
        rows += [((root, z), v) for z, v in entries]
    return tuple(rows)


def power(n, r, rows, k):
    """The canonical pair of the k-th power, from that of half the exponent."""
    if k < 0:
        return power(n, r, turned(rows), -k)
    half = [power(n, r, rows, k // 2)] * 2 if k > 1 else []
    return product(n, r, half + [rows] * (k % 2))


def conjugated(n, r, by, rows):
    """The canonical pair of the rows, conjugated by a pair."""
    return product(n, r, [turned(by), rows, by])
