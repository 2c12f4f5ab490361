#!/usr/bin/env python3
"""Tests of ./run, and of the lock and the progress of tools/common.sh.

Works in a copy of ./run and tools/, with a stand-in for the toolchain that hands over the runner of target/bin and
keeps a list of its calls: so it shows what is done before anything is proved, and that no two run at once. Needs the
built runner.
"""
import ctypes
import mmap
import os
import pathlib
import re
import shutil
import signal
import subprocess
import sys
import tempfile
import time

sys.dont_write_bytecode = True
from support import ROOT, examples

RUNNER = ROOT / "target" / "bin" / "runner"
STREAM = (ROOT / "crates" / "runner" / "stdin").read_bytes()
PRINTED = (ROOT / "crates" / "runner" / "stdout").read_bytes()
TEXT = b"reg x7 10\nrun addi x7,x7,1\n"
TEXT_PRINTED = b"0 4 0 0\nx7 11\n"

# Writes a line when it begins and one when it ends, and builds the runner. With one crate it stays at work for as long
# as there is a file named hold, so that no test goes by how fast a machine is.
STAND_IN = """#!/bin/sh
crate=${PWD##*/}
mkdir "$STAND_IN/busy" 2> /dev/null || echo overlap >> "$STAND_IN/calls"
echo "begin $* in $crate" >> "$STAND_IN/calls"
cat > /dev/null # it may read what it is given
while [ "$crate" = answers ] && [ -e "$STAND_IN/hold" ]; do sleep 0.05; done
mkdir -p out
[ "$1" != run ] || cp "$STAND_IN/runner" out/runner
rmdir "$STAND_IN/busy"
echo "end $* in $crate" >> "$STAND_IN/calls"
[ -z "$STAND_IN_FAILS" ] || [ "$crate" != answers ] || { echo "answers NOT PROVED"; exit 1; }
"""

# What a script says that finds the lock held.
WAITS = b"run: waits for another script that proves in this tree"

# A line that calls the toolchain, and is no comment.
TOOLCHAIN = re.compile(r"^(?!.*#.*\brt\b).*(?:^|[ ;|&])rt (?:\"|check|ci|must-fail|lib|run|test|all)", re.M)

checks = 0


def check(what, holds, *seen):
    global checks
    checks += 1
    if not holds:
        sys.exit(f"run_test: not so: {what}" + "".join(f"\n{one}" for one in seen))


def ended(process, data=None):
    """What it printed and said."""
    try:
        return process.communicate(data, timeout=60)
    except subprocess.TimeoutExpired:
        process.kill()
        sys.exit(f"run_test: no end: {process.args}")


def awaited(what, holds):
    """Goes on when it holds."""
    end = time.monotonic() + 60
    while not holds():
        if time.monotonic() > end:
            sys.exit(f"run_test: not so after a minute: {what}")
        time.sleep(0.05)


class Tree:
    """A copy of what ./run needs, and the stand-in."""

    def __init__(self, folder):
        self.folder = pathlib.Path(folder)
        self.root = self.folder / "tree"
        self.aside = self.folder / "aside"
        self.crates = re.findall(r"^(\w+)", (ROOT / "crates.txt").read_text(), re.M)
        for crate in self.crates:
            (self.root / "crates" / crate).mkdir(parents=True)
        self.aside.mkdir()
        shutil.copytree(ROOT / "tools", self.root / "tools")
        for name in ("run", "crates.txt", "crates/runner/stdin"):
            shutil.copy(ROOT / name, self.root / name)
        shutil.copy(RUNNER, self.aside / "runner")
        (self.aside / "rt").write_text(STAND_IN)
        (self.aside / "rt").chmod(0o755)
        self.environment = {**os.environ, "STAND_IN": str(self.aside), "PATH": f"{self.aside}:{os.environ['PATH']}"}
        self.environment.pop("WRENCOBBLE_LOCKED", None)

    def forget(self):
        """Takes the runner away, so that the next ./run proves."""
        (self.root / "target" / "bin" / "runner").unlink(missing_ok=True)

    def hold(self):
        """From now on the stand-in stays at work with one crate."""
        self.forget()
        (self.aside / "calls").write_text("")
        (self.aside / "hold").touch()

    def let_go(self):
        (self.aside / "hold").unlink()

    def is_held(self):
        return self.calls()[-1:] == ["begin lib in answers"]

    def start(self, *words, script=None, **options):
        environment = {**self.environment, **options.pop("environment", {})}
        options = {"stdin": subprocess.DEVNULL, "stdout": subprocess.PIPE, "stderr": subprocess.PIPE,
                   "cwd": self.folder, **options}
        return subprocess.Popen([script or self.root / "run", *words], env=environment, **options)

    def start_into(self, name, *words, **options):
        """The process, and the file with what it says."""
        path = self.folder / name
        with open(path, "wb") as file:
            return self.start(*words, stderr=file, **options), path

    def run(self, *words, data=None, **options):
        """Status, output, what was said, and the calls of the toolchain."""
        (self.aside / "calls").write_text("")
        if data is not None:
            options["stdin"] = subprocess.PIPE
        process = self.start(*words, **options)
        out, said = ended(process, data)
        return process.returncode, out, said.decode(), self.calls()

    def calls(self):
        return (self.aside / "calls").read_text().splitlines()


def prints(tree, what, wanted, *words, **options):
    status, out, said, _ = tree.run(*words, **options)
    check(f"{what}: printed", (status, out) == (0, wanted), status, out, said)


def streams(tree):
    """Every kind of file, by every way in."""
    (tree.folder / "s.bin").write_bytes(STREAM)
    for name in ("t.txt", "t.stream", "with space"):
        (tree.folder / name).write_bytes(TEXT)
    (tree.folder / "marked").write_bytes(b"\xef\xbb\xbf" + TEXT)
    (tree.folder / "link.bin").symlink_to("s.bin")
    (tree.folder / "run.link").symlink_to(tree.root / "run")
    (tree.folder / "empty").write_bytes(b"")
    prints(tree, "the example", PRINTED)
    _, text, printed, *_ = examples("Run it, test it")
    prints(tree, "the example of README.md", printed, "-", data=text)
    for name, wanted in (("s.bin", PRINTED), ("link.bin", PRINTED), ("./s.bin", PRINTED), ("t.txt", TEXT_PRINTED),
                         ("t.stream", TEXT_PRINTED), ("with space", TEXT_PRINTED), ("marked", TEXT_PRINTED),
                         (str(tree.folder / "t.txt"), TEXT_PRINTED), ("empty", b""), ("/dev/null", b"")):
        prints(tree, name, wanted, name)
        prints(tree, f"{name} by a link to ./run", wanted, name, script=tree.folder / "run.link")
        with open(tree.folder / name, "rb") as opened:
            prints(tree, f"- as {name}", wanted, "-", stdin=opened)
    for data, wanted in ((STREAM, PRINTED), (TEXT, TEXT_PRINTED), (b"", b"")):
        prints(tree, "a pipe", wanted, "-", data=data)
        prints(tree, "a pipe by its name", wanted, "/dev/stdin", data=data)
    with open(tree.folder / "s.bin", "rb", buffering=0) as opened:
        opened.seek(5)
        # without the example's first record VL stays 1
        prints(tree, "the rest of a file", b"0 4 0 0\nx7 10\nx40 11\nx50 1\nx51 2\nx52 3\nx53 4\n", "-", stdin=opened)


def slow_pipes(tree):
    """A pipe whose pieces come one by one, of either kind, and a stream longer than what is looked at."""
    for data, wanted in ((STREAM, PRINTED), (TEXT, TEXT_PRINTED), (b"\x04\x07" + bytes(8) + STREAM * 100, None)):
        process = tree.start("-", stdin=subprocess.PIPE)
        for at in (0, 1, 2):
            process.stdin.write(data[at:at + 1])
            process.stdin.flush()
            time.sleep(0.05)
        out, _ = ended(process, data[3:])
        if wanted is None:
            wanted = subprocess.run([RUNNER], input=data, stdout=subprocess.PIPE, check=True).stdout
        check("a slow pipe", (process.returncode, out) == (0, wanted), out)


def stopped_pipe(tree):
    """The runner stops at a bad record, and whoever writes to the pipe is ended by it, also where that is ignored."""
    data = b"\xff" + bytes(3_000_000)
    prints(tree, "a bad record", b"bad record at 0\n", "-", data=data)
    prints(tree, "a bad record, the signal ignored", b"bad record at 0\n", "-", data=data, restore_signals=False,
           preexec_fn=lambda: signal.signal(signal.SIGPIPE, signal.SIG_IGN))


def refused(tree):
    """What is wrong with the arguments or the stream is said before anything is proved."""
    tree.forget()
    (tree.folder / "wrong.txt").write_bytes(b"reg x7 10\nreg x7\n")
    (tree.folder / "bytes.txt").write_bytes(STREAM)
    for words, status, part in (
            (["nothing"], 1, "run: there is no nothing"), (["nothing.txt"], 1, "there is no nothing.txt"),
            ([str(tree.folder)], 1, "is a directory"), ([""], 2, "is empty"), (["s.bin"] * 2, 2, "one file at most"),
            (["wrong.txt"], 1, "line 2: reg has a register and a value"), (["bytes.txt"], 1, "stream: ")):
        seen = tree.run(*words)
        check(f"{words} is refused", seen[0] == status and part in seen[2] and not seen[1] and not seen[3], *seen)
    seen = tree.run("-", data=b"reg x7 10\nreg x7\n")
    check("wrong text from a pipe is refused", seen[0] == 1 and "line 2" in seen[2] and not seen[3], *seen)
    closed = tree.run("-", stdin=None, preexec_fn=lambda: os.close(0))
    check("a closed standard input is refused", closed[0] == 1 and "standard input" in closed[2], *closed)
    for word in ("-h", "--help"):
        seen = tree.run(word)
        check("--help", seen[0] == 0 and seen[1].startswith(b"usage: ./run [FILE]\n") and not seen[3], *seen)
    seen = tree.run()
    check("then it is proved", seen[:2] == (0, PRINTED) and seen[3], *seen)
    seen = tree.run()
    check("and only once", seen[:2] == (0, PRINTED) and not seen[3], *seen)
    later = time.time() + 60
    os.utime(tree.root / "crates.txt", (later, later))
    seen = tree.run()
    check("and again for a source that is newer", seen[:2] == (0, PRINTED) and seen[3], *seen)
    os.utime(tree.root / "crates.txt")


def failing_input(data):
    """A descriptor of a regular file that gives data, and then an error: this process's own memory, up to a hole."""
    size = mmap.PAGESIZE
    libc = ctypes.CDLL(None, use_errno=True)
    libc.mmap.restype = ctypes.c_void_p
    libc.mmap.argtypes = [ctypes.c_void_p, ctypes.c_size_t, ctypes.c_int, ctypes.c_int, ctypes.c_int, ctypes.c_long]
    libc.munmap.argtypes = [ctypes.c_void_p, ctypes.c_size_t]
    base = libc.mmap(None, 16 * size, mmap.PROT_READ | mmap.PROT_WRITE, mmap.MAP_PRIVATE | mmap.MAP_ANONYMOUS, -1, 0)
    libc.munmap(base + size, 15 * size)
    ctypes.memmove(base + size - len(data), data, len(data))
    descriptor = os.open("/proc/self/mem", os.O_RDONLY)
    os.lseek(descriptor, base + size - len(data), os.SEEK_SET)
    return descriptor


def statuses(tree):
    """1 where the runner says anything."""
    with open("/dev/full", "wb") as full:
        seen = tree.run(stdout=full)
    check("a full disk", seen[0] == 1 and "standard output: No space left" in seen[2], *seen)
    seen = tree.run(stdout=None, preexec_fn=lambda: os.close(1))
    check("a closed output", seen[0] == 1 and "standard output: " in seen[2], *seen)
    descriptor = failing_input(STREAM)
    seen = tree.run("-", stdin=descriptor)
    os.close(descriptor)
    check("a read error", seen[0] == 1 and "standard input: Input/output error" in seen[2], *seen)
    check("a read error says that the registers are not printed",
          "its registers are not printed" in seen[2] and seen[1] == b"0 4 0 0\n", *seen)
    tree.forget()
    seen = tree.run(environment={"STAND_IN_FAILS": "yes"})
    check("a failed proof", seen[0] == 1 and "answers NOT PROVED" in seen[2] and
          seen[2].endswith("run: rt lib failed in crates/answers\n"), *seen)
    check("after which all is well", tree.run()[0] == 0)


def at_once(tree, count):
    tree.hold()
    processes, said = zip(*[tree.start_into(f"said {number}") for number in range(count)])

    def waiting():
        return [WAITS in one.read_bytes() for one in said].count(True)
    awaited(f"all but one of {count} say that they wait", lambda: tree.is_held() and waiting() == count - 1)
    tree.let_go()
    seen = [ended(process)[0] for process in processes]
    check(f"{count} at once print the same", all(out == PRINTED for out in seen), *seen)
    check(f"{count} at once end with 0", all(process.returncode == 0 for process in processes))
    calls = tree.calls()
    begun = [call.removeprefix("begin ") for call in calls[0::2]]
    check("no two of the toolchain at once", calls[1::2] == [f"end {call}" for call in begun], calls)
    proved = {call.removeprefix("lib in ") for call in begun[:-1]}
    check("each crate below the runner once, and then it", len(proved) == len(begun) - 1 and
          proved < set(tree.crates) and begun[-1] == "run in runner", calls)
    check("all but one say that they wait", waiting() == count - 1)


def lock(tree):
    at_once(tree, 2)
    at_once(tree, 5)
    tree.forget()
    with open(tree.root / "crates.txt", "rb") as held:
        subprocess.run(["flock", str(held.fileno())], pass_fds=[held.fileno()], check=True)
        seen = tree.run(environment={"WRENCOBBLE_LOCKED": str(tree.root)})
        check("a script of the one that holds the lock doesn't wait", seen[0] == 0 and not seen[2], *seen)
        tree.forget()
        other, said = tree.start_into("said", environment={"WRENCOBBLE_LOCKED": "/"})
        awaited("a lock of another tree is not this one's", lambda: WAITS in said.read_bytes())
        check("it waits for the lock", other.poll() is None)
    check("it goes on when the lock is free", ended(other)[0] == PRINTED)
    reading = tree.start("-", stdin=subprocess.PIPE)
    reading.stdin.write(STREAM)
    reading.stdin.flush()
    prints(tree, "beside one that still reads", PRINTED)
    check("one that still reads", ended(reading)[0] == PRINTED)


def interrupted(tree):
    """Control-C while it proves: it ends, leaves no file, and the lock is free."""
    kept = tree.folder / "kept"
    kept.mkdir()
    tree.hold()
    # the signal is ignored where this test was started in the background
    process = tree.start(start_new_session=True, preexec_fn=lambda: signal.signal(signal.SIGINT, signal.SIG_DFL),
                         environment={"TMPDIR": str(kept)})
    awaited("it is at work", tree.is_held)
    check("it has files", process.poll() is None and list(kept.iterdir()))
    os.killpg(process.pid, signal.SIGINT)
    _, said = ended(process)
    tree.let_go()
    check("an interrupt ends it", process.returncode == 130, process.returncode, said)
    check("it leaves no file", not list(kept.iterdir()), *kept.iterdir())
    (tree.aside / "busy").rmdir()
    prints(tree, "after an interrupt", PRINTED)


def progress(tree):
    tree.hold()
    process, said = tree.start_into("said")
    awaited("the crate at hand is said", lambda: said.read_text().endswith("\n"))
    check("it is the crate at work", tree.is_held(), *tree.calls())
    tree.let_go()
    ended(process)
    found = re.fullmatch(r"run: proving answers \((\d+) of (\d+) are proved\)\n", said.read_text())
    check("nothing else is said", found and 0 < int(found[1]) < int(found[2]) < len(tree.crates), said.read_text())


def every_script_locks():
    """Each script that calls the toolchain takes the lock first, or proves by the functions that do."""
    count = 0
    for path in [ROOT / "run", ROOT / ".ci" / "run", *(ROOT / "tools").iterdir(), *(ROOT / "bench").iterdir(),
                 *(ROOT / "tests").iterdir()]:
        text = path.read_text() if path.is_file() else ""
        if not text.startswith("#!/usr/bin/env bash") and path.name != "common.sh":
            continue
        for called in TOOLCHAIN.finditer(text):
            count += 1
            before = text[:called.start()]
            check(f"{path.name} locks before {called[0].strip()!r}", re.search(r"^ *lock$", before, re.M))
    check("scripts that call the toolchain were found", count >= 3, count)


def main():
    if not RUNNER.exists():
        sys.exit("run_test: there is no runner; ./run builds it")
    every_script_locks()
    with tempfile.TemporaryDirectory() as folder:
        tree = Tree(folder)
        for part in (streams, slow_pipes, stopped_pipe, refused, statuses, lock, interrupted, progress):
            part(tree)
    print(f"run_test: {checks} checks of ./run, its lock and its progress")


main()
