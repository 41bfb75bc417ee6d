"""Memory that is refused, one call at a time: scripts are run with an allocator of which the k-th call fails, for each
k up to 300 and 300 numbers behind. Then the status is that of no memory, and the output some first lines of that of a
run; or the call made no difference. And memory isn't taken for a number that a file only states: 100 loads of a file
that states 999,999 rows and has three ask for no more than loads of one that says three.

usage: memory.py PROGRAM

The allocator is built by a C compiler ($CC, cc, clang or gcc). Where there is none, only the resident memory of the
loads is compared.
"""
import mmap
import os
import shutil
import struct
import subprocess
import sys
import tempfile
from pathlib import Path

NO_MEMORY = 5
EACH, SPREAD = 300, 300
# What the resident memory of two runs of one script may differ by.
PAGES = 256 * 1024

# The C library's allocator. In a file that is shared with this check stand the number of the call that fails, the
# number of calls made, and the bytes that they asked for.
ALLOCATOR = """
typedef unsigned long size_t;
extern void *__libc_malloc(size_t), *__libc_calloc(size_t, size_t), *__libc_realloc(void *, size_t), *__libc_memalign(size_t, size_t);
extern int *__errno_location(void);
extern char *getenv(const char *);
extern int open(const char *, int, ...), close(int);
extern void *mmap(void *, size_t, int, int, int, long);

static volatile unsigned long *shared;

__attribute__((constructor)) static void share(void)
{
    const char *path = getenv("SHARED_CALLS");
    int file = path ? open(path, 2) : -1;
    void *at = file < 0 ? 0 : mmap(0, 4096, 3, 1, file, 0);
    if (file >= 0)
        close(file);
    if (at != (void *)-1)
        shared = at;
}

static int fails(size_t bytes)
{
    if (!shared)
        return 0;
    shared[2] += bytes;
    if (++shared[1] != shared[0])
        return 0;
    *__errno_location() = 12;
    return 1;
}

void *malloc(size_t bytes) { return fails(bytes) ? 0 : __libc_malloc(bytes); }
void *calloc(size_t count, size_t bytes) { return fails(count * bytes) ? 0 : __libc_calloc(count, bytes); }
void *realloc(void *old, size_t bytes) { return fails(bytes) ? 0 : __libc_realloc(old, bytes); }
void *aligned_alloc(size_t alignment, size_t bytes) { return fails(bytes) ? 0 : __libc_memalign(alignment, bytes); }
void *memalign(size_t alignment, size_t bytes) { return fails(bytes) ? 0 : __libc_memalign(alignment, bytes); }
int posix_memalign(void **at, size_t alignment, size_t bytes)
{
    void *made = fails(bytes) ? 0 : __libc_memalign(alignment, bytes);
    if (!made)
        return 12;
    *at = made;
    return 0;
}
"""

V = ["group 2 1", "let a = x1.1>x1.2;x1.2>x1.1", "let b = x1.1>x1.11;x1.21>x1.12;x1.22>x1.2"]
FOUR_ROOTS = "let p = x1.1>x1;x1.21>x2;x1.22>x3;x2>x4.21;x3>x4.22;x4>x4.1"
TWO_PARTS = "let v = x1.1>x1.2;x1.2>x1.1;x2.1>x2.11;x2.21>x2.12;x2.22>x2.2"
FILE = "ht-element 1\ngroup 2 1\nrows 3\nx1.1>x1.11\nx1.21>x1.12\nx1.22>x1.2\nend\n"

SCRIPTS = [
    V + ["let c = a^-1 b a", "show c", "conj h b b", "conj h b c", "let k = h^-1 b h", "equal k c", "equal b c"],
    V + [
        "let f = x1.1>x1.112;x1.21>x1.111;x1.221>x1.12;x1.222>x1.2",
        "let g = b f b^-1",
        "show g",
        "conj h f g",
        "let k = h^-1 f h",
        "equal k g",
    ],
    V + ["let p = b^2", "let m = b^-2", "let e = b^-1", "power b p", "power b m", "power b e"],
    V + ["load e b.ht", "equal e b", "load u cut.ht", "load u none.ht", "group 2 1"],
    ["group 2 4", FOUR_ROOTS, "let t = x1>x2;x2>x1;x3>x3;x4>x4", "let g = t^-1 p t", "conj h p g", "let k = h^-1 p h", "equal k g"],
    ["group 2 4", "let w = x1>x2;x2>x1.1;x3>x4;x4.1>x1.2;x4.2>x3", "types w", "let v = w^2", "power w v"],
    V + ["let o = x1.1>x1.2;x1.21>x1.12;x1.221>x1.112;x1.222>x1.111", "basis o", "conj h a o", "power o a", "reduce x1.1>x1.1"],
    ["group 2 4", FOUR_ROOTS, "basis p", "types p", "ponds p", "share p x1.12 x4.2", "image p x1"],
    ["group 2 2", TWO_PARTS, "types v", "profile v", "parts p q v", "order p", "order v", "power v v"],
]


def padded(lines):
    """A script in which each line is read and answered before the next one is read to its end."""
    return "".join(line + "\n#" + " " * 4_096 + "\n" for line in lines)


def built(folder):
    """The allocator, or None."""
    source, library = Path(folder, "allocator.c"), Path(folder, "allocator.so")
    source.write_text(ALLOCATOR, encoding="ascii")
    for compiler in [os.environ.get("CC"), "cc", "clang", "gcc"]:
        if compiler and shutil.which(compiler):
            command = [compiler, "-shared", "-fPIC", "-fno-builtin", "-w", "-o", str(library), str(source)]
            if subprocess.run(command, stdout=subprocess.DEVNULL, stderr=subprocess.DEVNULL).returncode == 0:
                return str(library)
    return None


class Refusing:
    """The program over the allocator, in a folder with its files."""

    def __init__(self, program, folder, library):
        self.program, self.folder = program, folder
        self.script, self.output, calls = (Path(folder, name) for name in ("script", "output", "calls"))
        calls.write_bytes(bytes(4_096))
        with open(calls, "r+b") as file:
            self.shared = mmap.mmap(file.fileno(), 4_096)
        self.environment = {"LD_PRELOAD": library, "SHARED_CALLS": str(calls)} if library else {}

    def reset(self, failing):
        self.shared[:24] = struct.pack("=QQQ", failing, 0, 0)

    def told(self):
        """The number of calls made, and the bytes asked for."""
        return struct.unpack("=QQQ", self.shared[:24])[1:]

    def run(self, failing):
        """The status and the output, and the number of calls made."""
        self.reset(failing)
        with open(self.script, "rb") as given, open(self.output, "wb") as taken:
            done = subprocess.run([self.program], stdin=given, stdout=taken, stderr=subprocess.STDOUT, cwd=self.folder, env=self.environment, timeout=20)
        return (done.returncode, self.output.read_bytes()), self.told()[0]

    def wrong_calls(self, lines):
        """Runs the script with each call refused in turn: how many runs, and the calls after which one isn't right."""
        self.script.write_text(padded(lines), encoding="ascii")
        whole, calls = self.run(0)
        if calls == 0:
            return 0, []
        behind = range(EACH + 1, calls + 1, max(1, (calls - EACH) // SPREAD))
        tried = [*range(1, min(EACH, calls) + 1), *behind]
        return len(tried), [k for k in tried if not self.is_right(whole, k)]

    def is_right(self, whole, failing):
        (status, output), calls = self.run(failing)
        lines = output == b"" or output.endswith(b"\n")
        wanting = status == NO_MEMORY and lines and whole[1].startswith(output)
        return calls >= failing and (wanting or (status, output) == whole)

    def loads(self, stated):
        """The most resident bytes, and the bytes asked for, of 100 loads of a file that states so many rows."""
        Path(self.folder, "a.ht").write_text(FILE.replace("rows 3", f"rows {stated}"), encoding="ascii")
        self.reset(0)
        with subprocess.Popen([self.program], stdin=subprocess.PIPE, stdout=subprocess.PIPE, cwd=self.folder, env=self.environment) as running:
            running.stdin.write(b"group 2 1\n" + b"load a a.ht\n" * 100)
            running.stdin.flush()
            answers = [running.stdout.readline() for _ in range(101)]
            status = Path(f"/proc/{running.pid}/status").read_text(encoding="ascii")
            running.stdin.close()
        resident = next(int(line.split()[1]) * 1024 for line in status.splitlines() if line.startswith("VmHWM"))
        return answers[-1], resident, self.told()[1]


def growth(refusing):
    """What is wrong where a file lies."""
    honest, lying = refusing.loads(3), refusing.loads(999_999)
    if (honest[0], lying[0]) != (b"load a 3\n", b"refused: file form 7\n"):
        yield f"the loads are answered {honest[0]} and {lying[0]}"
    if lying[1] > honest[1] + PAGES:
        yield f"a file that lies takes {lying[1]} resident bytes, and one that doesn't {honest[1]}"
    if lying[2] > honest[2]:
        yield f"a file that lies asks for {lying[2]} bytes, and one that doesn't for {honest[2]}"


def main():
    program = os.path.abspath(sys.argv[1])
    runs, wrong = 2, []
    with tempfile.TemporaryDirectory() as folder:
        Path(folder, "b.ht").write_text(FILE, encoding="ascii")
        Path(folder, "cut.ht").write_text(FILE[:-5], encoding="ascii")
        refusing = Refusing(program, folder, built(folder))
        wrong += growth(refusing)
        for number, lines in enumerate(SCRIPTS) if refusing.environment else ():
            tried, calls = refusing.wrong_calls(lines)
            runs += tried
            wrong += [f"script {number}: call {k} refused" for k in calls]
            if not tried:
                wrong.append(f"script {number}: the program asks for no memory that this check sees")
    for it in wrong:
        print(f"memory: {it}")
    skipped = "" if refusing.environment else "; no memory refused, since there is no C compiler"
    print(f"memory: {runs} runs, {len(wrong)} wrong{skipped}")
    return 1 if wrong else 0


sys.exit(main())
