"""Element files at the limits of elements and of files, and just past them.

usage: limits.py PROGRAM
"""
import os
import subprocess
import sys
import tempfile

from common.words import all_letters, behind, file_text, turned_words


def comb(depth):
    """The words 2, 12, 112 and so on to those with 1 and 2 exchanged: nothing merges."""
    rows = [((1, (1,) * k + (2,)), (1, (2,) * k + (1,))) for k in range(depth)]
    return rows + [((1, (1,) * depth), (1, (2,) * depth))]


def cases():
    """The file, and what loading it is answered."""
    (u, v), *rest = turned_words(13)
    one_more = [(behind(u, (1,)), behind(v, (2,))), (behind(u, (2,)), behind(v, (1,)))] + rest
    yield file_text(turned_words(13)), "load a 8192"
    yield file_text(one_more), "refused: large 8193 14"
    yield file_text([((1, z), (1, z)) for z in all_letters(2, 14)]), "load a 1"
    yield file_text(comb(1_024)), "load a 1025"
    yield file_text(comb(1_025)), "refused: large 1026 1025"
    yield " " * 4_194_304, "refused: file form 1"
    yield " " * 4_194_305, "refused: file form 0"


def answer(program, file):
    with tempfile.TemporaryDirectory() as folder:
        with open(os.path.join(folder, "a.ht"), "w", encoding="ascii") as out:
            out.write(file)
        done = subprocess.run([program], input=b"group 2 1\nload a a.ht\n", stdout=subprocess.PIPE, cwd=folder, timeout=120)
    return done.stdout.decode().partition("\n")[2].rstrip("\n")


def main():
    program = os.path.abspath(sys.argv[1])
    tried = [(answer(program, file), wanted) for file, wanted in cases()]
    wrong = [it for it in tried if it[0] != it[1]]
    for given, wanted in wrong:
        print(f"limits: {given[:60]} and not {wanted}")
    print(f"limits: {len(tried)} files, {len(wrong)} answered otherwise than they should be")
    return 1 if wrong else 0


sys.exit(main())
