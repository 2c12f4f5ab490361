"""What the tests of the scripts share."""
import importlib.machinery
import importlib.util
import itertools
import pathlib
import subprocess

ROOT = pathlib.Path(__file__).resolve().parents[1]


def module(name):
    """A script of tools/ that is Python, as a module."""
    loader = importlib.machinery.SourceFileLoader(name, str(ROOT / "tools" / name))
    loaded = importlib.util.module_from_spec(importlib.util.spec_from_loader(name, loader))
    loader.exec_module(loaded)
    return loaded


def ended(program, *arguments, data=b"", **options):
    """Status, standard output and what is said on standard error; data is standard input, if no other is given."""
    options = {"stdout": subprocess.PIPE, "stderr": subprocess.PIPE, **options}
    if "stdin" not in options:
        options["input"] = data
    done = subprocess.run([program, *arguments], timeout=600, **options)
    return done.returncode, done.stdout or b"", (done.stderr or b"").decode()


def examples(heading):
    """The code blocks in a section of README.md, as bytes."""
    section = (ROOT / "README.md").read_text().partition(f"\n## {heading}\n")[2].partition("\n## ")[0]
    groups = itertools.groupby(section.splitlines(), lambda line: line.startswith("    "))
    return ["".join(line[4:] + "\n" for line in lines).encode() for is_code, lines in groups if is_code]
