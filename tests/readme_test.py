#!/usr/bin/env python3
"""The commands with which README.md links the library do what it says.

usage: tests/readme_test.py

Runs each block of commands of its section "Link it into a C program" as it stands there, by bash, in a copy of the tree
with what is proved already, and compares what the programs print with examples/slices.out. A line that begins with
apt-get is not run: its packages have to be installed. Needs them and the toolchain.
"""
import pathlib
import re
import shutil
import subprocess
import sys
import tempfile

sys.dont_write_bytecode = True
from support import ROOT, ended, examples

SECTION = "Link it into a C program"
COMMANDS = ("apt-get ", "tools/", "riscv64-linux-gnu-gcc ")  # with which a block of commands begins
PRINTED = (ROOT / "examples" / "slices.out").read_text()


def stop(what):
    sys.exit(f"readme_test: {what}")


def check_packages(line):
    """What the line installs is here, so that the commands after it need no more than it says."""
    packages = line.split("#")[0].split()[2:]
    for package in packages:
        status, state, _ = ended("dpkg-query", "--show", "--showformat=${db:Status-Abbrev}", package)
        if status or not state.startswith(b"ii"):
            print(f"readme_test: {package} is not installed; on Debian: {line.split('#')[0].strip()}", file=sys.stderr)
            sys.exit(2)
    return len(packages)


def copy_of_the_tree(folder):
    """All that git would have, and target/, with its times: what is proved is not proved again."""
    command = ["git", "ls-files", "-z", "--cached", "--others", "--exclude-standard"]
    names = subprocess.run(command, cwd=ROOT, check=True, stdout=subprocess.PIPE).stdout.decode()
    for name in filter(None, names.split("\0")):
        if (ROOT / name).exists():
            (folder / name).parent.mkdir(parents=True, exist_ok=True)
            shutil.copy2(ROOT / name, folder / name)
    if (ROOT / "target").exists():
        shutil.copytree(ROOT / "target", folder / "target", symlinks=True)


def check_block(block, folder):
    """Runs a block, which ends with 0 and, if it runs slices, prints what that prints, after lines of the tools."""
    status, printed, said = ended("bash", "-euo", "pipefail", "-c", block, cwd=folder)
    first = block.split("\n")[0]
    if status:
        stop(f"the block that begins '{first}' ended with {status}:\n{printed.decode()}{said}")
    if re.search(r"^\S* ?\S*slices\S*$", block, re.M) and not printed.decode().endswith(PRINTED):
        stop(f"the block that begins '{first}' printed:\n{printed.decode()}")


def main():
    blocks = [block.decode() for block in examples(SECTION)]
    blocks = [block for block in blocks if block.startswith(COMMANDS)]
    programs = sum(len(re.findall(r"^(?:\./|qemu-riscv64 )", block, re.M)) for block in blocks)
    if (len(blocks), programs) != (4, 4):
        stop(f"README.md has {len(blocks)} blocks of commands, with {programs} programs, and not four that end in one")
    packages = 0
    with tempfile.TemporaryDirectory() as temporary:
        folder = pathlib.Path(temporary) / "tree"
        copy_of_the_tree(folder)
        for block in blocks:
            lines = block.splitlines(keepends=True)
            packages += sum(check_packages(line) for line in lines if line.startswith("apt-get "))
            check_block("".join(line for line in lines if not line.startswith("apt-get ")), folder)
    if not packages:
        stop("README.md installs no package")
    print(f"readme_test: {len(blocks)} blocks of commands and {packages} packages of README.md, as it says")


if __name__ == "__main__":
    main()
