#!/usr/bin/env python3
"""Tests of tools/calls: the scripts of tests/calls, errors, and random scripts, beside the model of the requirements.

usage: calls_test.py [--write]    --write makes each tests/calls/*.out anew, from the model

Needs the library, which tools/calls proves where it is missing.
"""
import os
import pathlib
import random
import re
import select
import subprocess
import sys
import tempfile

sys.dont_write_bytecode = True
import model
import support

TOOL = support.ROOT / "tools" / "calls"
SCRIPTS = support.ROOT / "tests" / "calls"


# --- what a script prints, by the model ------------------------------------------

# name: the bits of each parameter, the call
SETTINGS = {
    "vl": ([64], model.Machine.set_vl), "vli": ([32], model.Machine.set_vl_immediate),
    "mvl": ([32], model.Machine.set_mvl), "state": ([32], model.Machine.set_state),
    "cfg": ([32], model.Machine.set_cfg), "pc": ([64], model.Machine.set_pc),
    "x": ([32, 64], model.Machine.set_register),
    "reg": ([32, 16], lambda m, i, n: m.set_entry(m.registers, i, n)),
    "pred": ([32, 16], lambda m, i, n: m.set_entry(m.predicates, i, n)),
}
READINGS = {"vl": lambda m: m.vl, "mvl": lambda m: m.mvl, "state": model.Machine.state_word, "cfg": lambda m: m.cfg,
            "pc": lambda m: m.pc}
ARRAYS = {"x": lambda m: m.x, "reg": lambda m: m.registers, "pred": lambda m: m.predicates}
FIELDS = {"mvl": "mvl", "vl": "vl", "src": "source", "dst": "destination", "cfg": "cfg"}


def narrowed(numbers, bits):
    """What a parameter of so many bits can't hold is passed as the largest that it can."""
    assert len(numbers) == len(bits), numbers
    return [min(n, 2**b - 1) for n, b in zip(numbers, bits)]


def setting(machine, name, numbers):
    bits, call = SETTINGS[name]
    answer = call(machine, *narrowed(numbers, bits))
    return answer, machine.vl if name in ("vl", "vli") and not answer else 0


def reading(machine, name, numbers):
    if name in READINGS:
        return 0, READINGS[name](machine)
    array = ARRAYS[name](machine)
    return (0, array[numbers[0]]) if numbers[0] < len(array) else (8, 0)


CALLS = {
    "set": lambda m, words: setting(m, words[0], read(words[1:])),
    "get": lambda m, words: reading(m, words[0], read(words[1:])),
    "run": lambda m, words: m.run(*narrowed(read(words), [32, 16])),
    "step": lambda m, words: m.run(*narrowed(read(words), [32]), 1),
}


def poke(machine, name, *numbers):
    if name == "pred":
        machine.predicates[numbers[0]] = numbers[1]
    elif name == "x0":
        machine.x[0] = numbers[0]
    else:
        setattr(machine, FIELDS[name], numbers[0])


def dump(machine):
    yield from (f"reg{i} {n}" for i, n in enumerate(machine.registers) if n)
    yield from (f"pred{i} {n}" for i, n in enumerate(machine.predicates) if n)
    yield (f"pc {machine.pc} mvl {machine.mvl} vl {machine.vl} src {machine.source} dst {machine.destination}"
           f" cfg {machine.cfg}")
    yield from (f"x{i} {n}" for i, n in enumerate(machine.x) if n)
    yield from (f"mem{i} {n}" for i, n in enumerate(machine.memory) if n)


def version():
    """What the header says: the library has to say the same."""
    header = (support.ROOT / "include" / "simplev.h").read_text()
    return "version " + re.search(r'^#define SIMPLEV_VERSION "(.*)"$', header, re.M)[1]


def read(words):
    return [min(int(word, 16 if word.startswith("0x") else 10), 2**64 - 1) for word in words]


def expected(text):
    """The lines that a script without errors prints."""
    machine, lines = model.Machine(), []
    for line in text.split("\n"):
        verb, *words = line.split("#", 1)[0].split() or ["nothing"]
        if verb in CALLS:
            answer, value = CALLS[verb](machine, words) if machine.in_shape() else (6, 0)
            lines.append(f"{answer} {value}")
        elif verb == "fresh":
            machine = model.Machine(*read(words))
        elif verb == "poke":
            poke(machine, words[0], *read(words[1:]))
        elif verb == "mem":
            address, byte = read(words)
            machine.memory[address] = byte
        elif verb == "dump":
            lines += dump(machine)
        elif verb == "version":
            lines.append(version())
        elif verb != "nothing":
            raise ValueError(line)
    return lines


# --- the tool -----------------------------------------------------------------------

def stop(what):
    sys.exit(f"calls_test: {what}")


def tool(*arguments, script=b"", **options):
    """Status, standard output, standard error."""
    status, printed, said = support.ended(TOOL, *arguments, data=script, **options)
    return status, printed.decode(), said


def check(name, got, status, printed, said):
    """A run's status and output, and a part of what it says on standard error ("" for nothing)."""
    if got[:2] != (status, printed) or said not in got[2] or bool(said) != bool(got[2]):
        stop(f"{name}: {got!r}, and not {(status, printed, said)!r}")


def joined(lines):
    return "".join(line + "\n" for line in lines)


# --- the scripts of tests/calls ------------------------------------------------------

def check_scripts():
    scripts = sorted(SCRIPTS.glob("*.txt"))
    answers = set()
    for path in scripts:
        lines = expected(path.read_text())
        out = path.with_suffix(".out")
        if sys.argv[1:] == ["--write"]:
            out.write_text(joined(lines))
        if not out.exists() or out.read_text() != joined(lines):
            stop(f"{out.name} is not what the model gives for {path.name}")
        check(path.name, tool(path), 0, out.read_text(), "")
        answers |= {line.split()[0] for line in lines}
    if len(scripts) < 10 or not set("0123456789") <= answers:
        stop(f"tests/calls has {len(scripts)} scripts, and answers {sorted(answers)}")
    extra = {path.stem for path in SCRIPTS.glob("*.out")} - {path.stem for path in scripts}
    if extra:
        stop(f"no script for {', '.join(sorted(extra))}")
    return len(scripts)


# --- text and errors -----------------------------------------------------------------

# a bad line, and a part of what is said of it
ERRORS = [
    (b"jump 5", "'jump' is none of the commands fresh, set, get, run, step, poke, mem, dump, version"),
    (b"SET x 5 1", "'SET' is none of the commands"),
    (b"set", "set takes one of vl, vli, mvl, state, cfg, pc, x, reg, pred\n"),
    (b"set y 5", "set takes one of vl, vli, mvl, state, cfg, pc, x, reg, pred, and not 'y'\n"),
    (b"get vli", "get takes one of vl, mvl, state, cfg, pc, x, reg, pred, and not 'vli'\n"),
    (b"poke pc 5", "poke takes one of mvl, vl, src, dst, cfg, x0, pred, and not 'pc'\n"),
    (b"set x 5", "the form is: set x I N"),
    (b"set x 5 6 7", "the form is: set x I N"),
    (b"set x 5 6 7 8 9 10", "the form is: set x I N"),
    (b"get vl 1", "the form is: get vl"),
    (b"get x", "the form is: get x I"),
    (b"run 0x007302b3", "the form is: run WORD ALLOWANCE"),
    (b"step 0x007302b3 1", "the form is: step WORD"),
    (b"dump 1", "the form is: dump"),
    (b"version 1", "the form is: version"),
    (b"fresh", "the form is: fresh MEMLEN"),
    (b"mem 1", "the form is: mem ADDRESS BYTE"),
    (b"set x 5 -1", "'-1' is no number; a number is decimal, or 0x and hex digits"),
    (b"set x 5 +1", "'+1' is no number"),
    (b"set x 5 12z", "'12z' is no number"),
    (b"set x 5 1f", "'1f' is no number"),
    (b"set x 5 0x", "'0x' is no number"),
    (b"set x 5 0x1g", "'0x1g' is no number"),
    (b"set x 5 0X1", "'0X1' is no number"),
    (b"set x 5 1_0", "'1_0' is no number"),
    (b"set x 5 1,000", "'1,000' is no number"),
    (b"set x x5 1", "'x5' is no number"),
    (b"set x \xd9\xa3 1", "'\u0663' is no number"),
    (b"poke pred 16 0", "there is no entry 16; entries are 0 to 15"),
    (b"poke pred 18446744073709551616 0", "there is no entry 18446744073709551615"),
    (b"poke pred 0 65536", "65536 is no entry; an entry has 16 bits, 0 to 65535"),
    (b"mem 4096 0", "there is no byte 4096; memory has 4096 bytes, from 0"),
    (b"mem 0xffffffffffffffff 0", "there is no byte 18446744073709551615"),
    (b"mem 0 256", "256 is no byte; a byte is 0 to 255"),
    (b"fresh 0xffffffffffffffff", "a memory of 18446744073709551615 bytes can't be had"),
    (b"fresh 999999999999999999999", "a memory of 18446744073709551615 bytes can't be had"),
    (b"set x 5 1\0", "byte 10 is the control byte 0x00"),
    (b"# \x1b[0m", "byte 3 is the control byte 0x1b"),
    (b"get pc\r\r", "byte 7 is the control byte 0x0d"),
    (b"get\x0cpc", "byte 4 is the control byte 0x0c"),
    (b"\x7f", "byte 1 is the control byte 0x7f"),
    (b"\xef\xbb\xbfget pc", "'\ufeffget' is none of the commands"),  # a byte order mark is one at the start only
    (b"a" * 1_000_000, f"'{'a' * 40}' is none of the commands"),
    (b"set x 5 " + b"9" * 1_000_000 + b"z", f"'{'9' * 40}' is no number"),
]


def check_readme():
    script, dumped = support.examples("Replay a trap by hand")
    printed = joined(expected(script.decode()))
    check("the example of README.md", tool(script=script), 0, printed, "")
    if not printed.endswith(dumped.decode()):
        stop("the dump in README.md is another")


def check_errors():
    """What stands before a bad line is done, what stands after it isn't, and the line is counted."""
    for line, said in ERRORS:
        script = b"set x 5 7\n\nget x 5\n" + line + b"\nget x 5\n"
        check(line[:40], tool(script=script), 1, "0 0\n0 7\n", f"calls: line 4: {said}")
    together = tool(script=b"get vl\njump\n", stderr=subprocess.STDOUT)[1]
    if not together.startswith("0 1\ncalls: line 2: "):
        stop(f"an error is not told after what was printed before it: {together!r}")


def check_text():
    for name, script, printed in [
        ("an empty script", b"", ""),
        ("no newline at the end", b"get vl\nget cfg", "0 1\n0 24\n"),
        ("carriage returns", b"set x 5 7\r\n\r\nget x 5\r\n# \r\nget vl\r", "0 0\n0 7\n0 1\n"),
        ("a byte order mark", b"\xef\xbb\xbfget vl\n", "0 1\n"),
        ("a byte order mark and a comment", b"\xef\xbb\xbf# one\nget vl\n", "0 1\n"),
        ("a long comment", b"#" * 3_000_000 + b"\nget vl\n", "0 1\n"),
        ("a long line of spaces", b" " * 3_000_000 + b"get vl\n", "0 1\n"),
        ("a long number", b"set x 1 " + b"0" * 1_000_000 + b"7\nget x 1\n", "0 0\n0 7\n"),
        ("a comment that is no UTF-8", b"# \xff\xfe\nget vl\n", "0 1\n"),
    ]:
        check(name, tool(script=script), 0, printed, "")
    for mark, encoding in ((b"\xff\xfe", "utf-16-le"), (b"\xfe\xff", "utf-16-be")):
        check(encoding, tool(script=mark + "get vl\n".encode(encoding)), 1, "", "calls: line 1: the script is UTF-16")


# --- arguments, input and output --------------------------------------------------------

def check_arguments(directory):
    status, printed, said = tool("--help")
    words = ["fresh MEMLEN", *(f"set {name} " for name in SETTINGS), "get vl|mvl|state|cfg|pc", "get x|reg|pred I",
             "run WORD ALLOWANCE", "step WORD", "poke mvl|vl|src|dst|cfg|x0 N", "poke pred I N", "mem ADDRESS BYTE",
             "dump", *(f" {answer} " for answer in range(10))]
    missing = [word for word in words if word not in printed]
    if status or said or missing or tool("-h") != (0, printed, ""):
        stop(f"--help: status {status}, {said!r}, without {missing}")
    for arguments, said in [(["a", "b"], "one file at most"), ([""], "the name of the file is empty"),
                            (["-x"], "there is no option -x"), (["--help", "-h"], "one file at most")]:
        check(arguments, tool(*arguments), 2, "", f"calls: {said}; --help says more\n")
    check("a missing file", tool("none.txt", cwd=directory), 1, "", "calls: there is no none.txt\n")
    check("a directory", tool(directory), 1, "", f"calls: {directory} is a directory\n")
    name = "a script's name.txt"
    (directory / name).write_text("get vl\n")
    check("a file of the caller's directory", tool(name, cwd=directory), 0, "0 1\n", "")
    check("-", tool("-", script=b"get cfg\n", cwd=directory), 0, "0 24\n", "")


def check_descriptors(directory):
    """Input that can't be read and output that can't be written are told, and no output is lost in silence."""
    long = b"get vl\n" * 100_000
    for script in (b"get vl\n", long):
        with open("/dev/full", "wb") as full:
            check("a full output", tool(script=script, stdout=full), 1, "",
                  "calls: standard output can't be written: No space left on device\n")
        check("a closed output", tool(script=script, preexec_fn=lambda: os.close(1)), 1, "",
              "calls: standard output can't be written: Bad file descriptor\n")
    check("a closed input", tool(stdin=subprocess.DEVNULL, preexec_fn=lambda: os.close(0)), 1, "",
          "calls: after line 0 the script can't be read: Bad file descriptor\n")
    opened = os.open(directory, os.O_RDONLY)
    check("a directory on standard input", tool(stdin=opened), 1, "",
          "calls: after line 0 the script can't be read: Is a directory\n")
    os.close(opened)
    check("many lines", tool(script=long), 0, "0 1\n" * 100_000, "")


def check_terminal():
    """At a terminal an error doesn't end it, and each answer is there before the next line."""
    terminal, end = os.openpty()
    process = subprocess.Popen([TOOL], stdin=end, stdout=subprocess.PIPE, stderr=subprocess.PIPE)
    os.close(end)
    for line, printed in [(b"set x 5 7\n", b"0 0\n"), (b"sett x 5 8\n\nfresh 0xffffffffffffffff\nget x 5\n", b"0 7\n")]:
        os.write(terminal, line)
        ready, _, _ = select.select([process.stdout], [], [], 30)
        got = os.read(process.stdout.fileno(), 100) if ready else b"nothing"
        if got != printed:
            process.kill()
            stop(f"at a terminal, after {line!r}: {got!r}, and not {printed!r}")
    os.write(terminal, b"\x04")
    rest, said = process.communicate(timeout=60)
    if process.returncode or rest or b"calls: line 2: 'sett'" not in said or b"calls: line 4: a memory" not in said:
        stop(f"at a terminal: status {process.returncode}, {rest!r}, {said!r}")
    os.close(terminal)


# --- random scripts ------------------------------------------------------------------

def number(draw, n):
    return draw.choice([str(n), hex(n), f"0{n}", f"0x{n:016X}"])


def random_value(draw):
    return draw.choice([draw.randrange(4), draw.randrange(70), draw.randrange(300), 2**64 - 1 - draw.randrange(20),
                        draw.getrandbits(64), 2**32 + draw.randrange(70), 2**63, draw.getrandbits(70),
                        # aligned for every access
                        8 * draw.randrange(4), 8 * draw.randrange(8), 8 * draw.randrange(32), 8 * draw.randrange(32),
                        2**64 - 8 * draw.randrange(1, 5)])


# opcode: its values of funct3
OPCODES = {0x33: range(8), 0x3B: (0, 1, 5), 0x13: range(8), 0x1B: (0, 1, 5), 0x03: range(7), 0x23: range(4)}


def random_word(draw):
    """Mostly an instruction that is served, on registers x0 to x7."""
    kind = draw.random()
    if kind < 0.15:
        return 8 << 12 | draw.randrange(8) << 7 | draw.randrange(8) << 2 | 2
    if kind < 0.2:
        return draw.getrandbits(draw.choice([32, 33]))
    opcode = draw.choice(list(OPCODES))
    funct3 = draw.choice(OPCODES[opcode])
    word = opcode | funct3 << 12 | draw.randrange(8) << 7 | draw.randrange(8) << 15 | draw.randrange(8) << 20
    if opcode in (0x33, 0x3B) and draw.random() < 0.5:
        return word ^ draw.randrange(8) << 12 | 1 << 25  # of RV64M, but for some of OP-32
    if opcode in (0x33, 0x3B, 0x1B) and funct3 in (0, 5):
        word |= draw.randrange(2) << 30
    if opcode in (0x03, 0x23) and draw.random() < 0.8:
        low = 20 if opcode == 0x03 else 7  # of the immediate: 0, 8, 16 or 24, so that many accesses are aligned
        word = word & ~(7 << low) | draw.randrange(4) << low + 3
    return word | (draw.getrandbits(7) << 25 if draw.random() < 0.1 else 0)


def random_entry(draw, name):
    """Mostly one that holds for an integer register, x0 to x7."""
    if draw.random() < 0.05:
        return draw.getrandbits(17)
    if name == "pred":
        return draw.randrange(8) << 11 | draw.randrange(4) << 9 | 0x100 | draw.randrange(8) << 1
    real = draw.choice([draw.randrange(8, 60), draw.randrange(128), draw.randrange(118, 128)])
    width = draw.randrange(4) if draw.random() < 0.1 else 0
    return draw.randrange(2) << 15 | real << 8 | 0x80 | width << 5 | draw.randrange(8)


def random_setting(draw, name):
    if name == "x":
        return draw.choice([draw.randrange(8), draw.randrange(8), draw.randrange(130)]), random_value(draw)
    if name in ("reg", "pred"):
        return draw.randrange(17), random_entry(draw, name)
    if name == "state":
        mvl = draw.choice([draw.randrange(12), draw.randrange(64)])
        vl = draw.randrange(mvl + 1)
        return (mvl | vl << 6 | draw.randrange(vl + 1) << 12 | draw.randrange(vl + 2) << 18 | 24 << 24,)
    if name == "cfg" and draw.random() < 0.8:
        return (24,)
    return (random_value(draw) if draw.random() < 0.3 else draw.randrange(1, 34),)


def random_poke(draw):
    """Out of shape, and mostly mended at once, so that what comes after is no row of 6."""
    name = draw.choice([*FIELDS, "x0", "pred"])
    if name == "pred":
        index = draw.randrange(16)
        return [f"poke pred {index} {draw.getrandbits(16)}", f"get pred {index}", f"poke pred {index} 0"]
    good = {"mvl": 64, "vl": 1, "cfg": 24}.get(name, 0)
    lines = [f"poke {name} {number(draw, random_value(draw))}", "get state", f"set vl {draw.randrange(3)}"]
    return lines + ([f"poke {name} {good}"] if draw.random() < 0.9 else [])


def random_lines(draw, size):
    kind = draw.random()
    if kind < 0.35:
        return [f"run {number(draw, random_word(draw))} {draw.choice([0, 1, 2, 3, 70, 65535, 65536, 2**64])}"]
    if kind < 0.45:
        return [f"step {number(draw, random_word(draw))}"]
    if kind < 0.75:
        name = draw.choice([*SETTINGS, "x", "x", "reg", "pred"])
        return [f"set {name} {' '.join(number(draw, n) for n in random_setting(draw, name))}"]
    if kind < 0.85:
        return [f"get {draw.choice(list(READINGS))}"]
    if kind < 0.92:
        return [f"get {draw.choice(list(ARRAYS))} {draw.choice([draw.randrange(18), draw.randrange(130), 2**32])}"]
    if kind < 0.96:
        return random_poke(draw)
    return [f"mem {number(draw, draw.randrange(size))} {draw.randrange(256)}"] if size else ["dump"]


def random_script(draw):
    size = draw.choice([0, 1, 8, 16, 64, 100, 256, 4096, draw.randrange(5000)])
    lines = [f"fresh {number(draw, size)}", "set mvl 64", f"set vl {draw.randrange(1, 12)}"]
    lines += [f"set x {i} {number(draw, random_value(draw))}" for i in draw.sample(range(1, 60), 12)]
    lines += [f"set x {i} {number(draw, random_value(draw))}" for i in range(1, 8)]
    for name in ("reg", "pred"):
        lines += [f"set {name} {i} {number(draw, random_entry(draw, name))}" for i in draw.sample(range(16), 4)]
    for _ in range(draw.randrange(60)):
        lines += random_lines(draw, size)
    return joined([*lines, "dump"])


def check_random(count):
    """All in one script, each begun by a fresh machine; a difference is shown with its own."""
    draw = random.Random(20262)
    scripts = [random_script(draw) for _ in range(count)]
    wanted = [expected(script) for script in scripts]
    status, printed, said = tool(script=joined(scripts).encode())
    got = printed.split("\n")
    for script, lines in zip(scripts, wanted):
        if got[:len(lines)] != lines:
            stop(f"for\n{script}the model prints\n{joined(lines)}and the tool\n{joined(got[:len(lines)])}")
        got = got[len(lines):]
    if status or said or got != [""]:
        stop(f"random scripts: status {status}, {said!r}, and {len(got)} lines more")
    seen = [line[0] for lines in wanted for line in lines]
    rare = [answer for answer in "0123456789" if seen.count(answer) < 20]
    if rare:
        stop(f"random scripts seldom give {rare}")
    return sum(len(lines) for lines in wanted)


def main():
    # what is proved and built for the first call is said on standard error, where later ones have to be silent
    subprocess.run([TOOL, "/dev/null"], check=True)
    scripts = check_scripts()
    check_readme()
    check_errors()
    check_text()
    with tempfile.TemporaryDirectory() as directory:
        check_arguments(pathlib.Path(directory))
        check_descriptors(pathlib.Path(directory))
    check_terminal()
    count = 1000
    lines = check_random(count)
    print(f"calls_test: {scripts} scripts, {len(ERRORS)} errors, {count} random scripts; {lines} lines as the model")


main()
