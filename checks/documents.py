"""The documents against the repository: README's first screen and its script, links, the index of examples, the names
that pages give, the list of laws, the picture of the layers, the chain of definitions to be believed, and what
docs/formats.md says of first mistakes and of the filter that numbers answers.

usage: documents.py PROGRAM
"""
import os
import re
import subprocess
import sys
import tempfile
from pathlib import Path

TOP = Path(__file__).resolve().parent.parent
PAGES = [TOP / "README.md", TOP / "examples" / "README.md", *sorted((TOP / "docs").glob("*.md"))]
FIRST_SCREEN = 60


def text_of(page):
    return page.read_text(encoding="utf-8")


def blocks(text):
    """The texts of the blocks of code."""
    return re.findall(r"^```\n(.*?)^```$", text, re.S | re.M)


def answered(program, script, folder=None):
    done = subprocess.run([program], input=script.encode(), stdout=subprocess.PIPE, cwd=folder, timeout=120)
    return done.stdout.decode().splitlines()


def first_screen(_):
    text = text_of(TOP / "README.md")
    lines = text[:text.index("## Setting up")].count("\n")
    if lines > FIRST_SCREEN:
        yield f"README has {lines} lines before the setting up"
    example = TOP / "examples" / "tour" / "01_first_elements"
    script = [line for line in text_of(example / "script").splitlines() if not line.startswith("#")]
    shown = [re.split(r" {3,}", line) for line in blocks(text)[0].splitlines()]
    if shown != [list(it) for it in zip(script, text_of(example / "expected").splitlines())]:
        yield "README's script and answers aren't those of the tour's first example"


def headings(text):
    return {re.sub(r"[^a-z0-9 _-]", "", it.lower()).replace(" ", "-") for it in re.findall(r"^#+ (.*)$", text, re.M)}


def links(_):
    for page in PAGES:
        for link in re.findall(r"\]\(([^)]+)\)", re.sub(r"^```.*?^```$", "", text_of(page), flags=re.S | re.M)):
            name, _, heading = link.partition("#")
            to = page.parent / name if name else page
            if not to.exists() or heading and heading not in headings(text_of(to)):
                yield f"{page.name}: the link {link} leads nowhere"


def index(_):
    listed = set(re.findall(r"\(([^)]*)/script\)", text_of(TOP / "examples" / "README.md")))
    there = {str(it.parent.relative_to(TOP / "examples")) for it in (TOP / "examples").glob("**/script")}
    for example in sorted(listed ^ there):
        yield f"the index of examples and the folders differ in {example}"


def source_words():
    files = [it for it in (TOP / "crates").glob("**/*") if it.suffix in (".rt", ".antt", ".edit")]
    words = {it.stem for it in files} | set(os.listdir(TOP / "crates"))
    return words.union(*(re.findall(r"\w+", text_of(it)) for it in files))


def names(_):
    """What these pages have in backquotes with a capital or an underscore stands in the sources."""
    words = source_words()
    for page in ("definitions.md", "proofs.md", "proved.md"):
        text = re.sub(r"^```.*?^```$", "", text_of(TOP / "docs" / page), flags=re.S | re.M)
        for name in re.findall(r"`(?:\w+::)?(\w*[A-Z_]\w*)(?: [^`]*)?`", text):
            if name not in words:
                yield f"{page}: there is no {name}"


def laws(_):
    """Each law of ht_laws is listed in proofs.md, which tells how many there are."""
    text = text_of(TOP / "docs" / "proofs.md")
    there = [it for file in (TOP / "crates" / "ht_laws" / "src").glob("*.rt") for it in re.findall(r"^pub fn (\w+)", text_of(file), re.M)]
    for law in there:
        if f"| `{law}` |" not in text:
            yield f"proofs.md: the law {law} isn't listed"
    if f"tried by {len(there)} laws" not in text:
        yield f"proofs.md: there are {len(there)} laws"


def layers(_):
    """In the picture of architecture.md each crate is above those that it stands on."""
    picture = blocks(text_of(TOP / "docs" / "architecture.md"))[0].splitlines()
    line_of = {crate: i for i, line in enumerate(picture) for crate in re.findall(r"\bht\w+", line[:50])}
    for crate, on in re.findall(r"^(\w+):(.*)$", text_of(TOP / "crates.txt"), re.M):
        below = [it for it in on.split() if it.startswith("ht_")]
        if not crate.endswith("_tests") and any(line_of.get(crate, 99) >= line_of.get(it, 0) for it in below):
            yield f"architecture.md: {crate} isn't above the crates that it stands on"


def chain(_):
    """Each definition of believe.md stands in one of its files."""
    for row in re.findall(r"^\| \d+ \|(.*?)\|(.*?)\|", text_of(TOP / "docs" / "believe.md"), re.M):
        wanted, files = (re.findall(r"`([^`]+)`", cell) for cell in row)
        there = [TOP / "crates" / it for it in files]
        for name in wanted:
            if not any(it.exists() and name in re.split(r"[^\w◌·]+", text_of(it)) for it in there):
                yield f"believe.md: {name} isn't in {files}"


def mistakes(program):
    """What is written and what is meant, in the table of first mistakes."""
    section = text_of(TOP / "docs" / "formats.md").split("### Ten usual first mistakes")[1].split("\n## ")[0]
    group, bound = "group 2 1\n", "let f = x1.11>x1.1;x1.12>x1.21;x1.2>x1.22\nlet a = x1.1>x1.2;x1.2>x1.1\n"
    rows = re.findall(r"^\| `([^`]+)`([^|]*)\| `([^`]+)` \| `([^`]+)`", section, re.M)
    if len(rows) != 10:
        yield f"formats.md has {len(rows)} first mistakes"
    for wrote, where, answer, meant in rows:
        before = "" if "before" in where else group + bound
        given = answered(program, before + wrote + "\n")[-1]
        if given != answer:
            yield f"formats.md: {wrote} is answered {given}"
        if answered(program, before + meant + "\n")[-1].startswith("refused"):
            yield f"formats.md: {meant} is refused"


def filters(program):
    """The filter that numbers answers, on the example of the page."""
    text = text_of(TOP / "docs" / "formats.md")
    shown = blocks(text.split("### Which line was refused")[1])
    script = blocks(text.split("## An example\n")[1])[0]
    with tempfile.TemporaryDirectory() as folder:
        Path(folder, "s").write_text(script, encoding="utf-8")
        command = shown[0].replace("bin/htcalc", '"$0"', 1)
        done = subprocess.run(["sh", "-c", command, program], stdout=subprocess.PIPE, cwd=folder, timeout=120)
    if done.stdout.decode() != shown[2]:
        yield "formats.md: the filter writes " + done.stdout.decode()


def main():
    program = os.path.abspath(sys.argv[1])
    tried = (first_screen, links, index, names, laws, layers, chain, mistakes, filters)
    wrong = [it for check in tried for it in check(program)]
    for it in wrong:
        print(f"documents: {it}")
    print(f"documents: {len(tried)} checks of {len(PAGES)} pages, {len(wrong)} faults")
    return 1 if wrong else 0


sys.exit(main())
