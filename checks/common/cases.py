"""Cases of random elements with the program's answers, for the searches that try all conjugators of few rows."""
from common.bases import all_pairs

IN_GROUP = 60


def answered_cases(program, rng, groups, some_case, ask):
    """Cases of each group: the group, all pairs of few rows, the place of the case, the case, and its answers; none where
    the program gave too few."""
    for n, r, most, tried in groups:
        cases = [some_case(rng, n, r, most) for _ in range(IN_GROUP)]
        pairs = list(all_pairs(n, r, tried))
        answered = ask(program, n, r, cases)
        for place, case in enumerate(cases):
            yield n, r, pairs, place, case, answered[place] if place < len(answered) else []
