#!/usr/bin/env python3
"""Tests of tools/stream: the example of the requirements, errors with their lines, text and bytes told apart,
arguments, input and output that fail, and random streams there and back."""
import fcntl
import functools
import os
import pathlib
import random
import subprocess
import sys
import tempfile
import termios
import time

sys.dont_write_bytecode = True
import support

TOOL = support.ROOT / "tools" / "stream"
stream = support.module("stream")
tool = functools.partial(support.ended, TOOL)

EXAMPLE = """# the machine of the example
state mvl=4 vl=4
entry 0 key=5 vector x40
entry 1 key=6 vector x50
reg x7 10
reg x50 1
reg x51 2
reg x52 3
reg x53 4
run add x5,x6,x7 allow 65535
"""
EXAMPLE_BYTES = bytes.fromhex(
    "03 C3000018 01 00 85A8 01 01 86B2 04 07 0A00000000000000 04 32 0100000000000000 04 33 0200000000000000"
    "04 34 0300000000000000 04 35 0400000000000000 05 B3027300 FFFF")

# text, bytes in hex
LINES = [
    ("", ""),
    ("  # nothing", ""),
    ("state", "03 00000018"),
    ("state mvl=64 vl=10 source=3 destination=5 cfg=24", "03 7f321418"),
    ("state 0xffffffff", "03 ffffffff"),
    ("entry 0 key=5 vector x40", "01 00 85a8"),
    ("entry 15 key=31 scalar x127 width=3 float", "01 0f 7f7f"),
    ("entry 200 0x0000", "01 c8 0000"),
    ("mask 2 key=5 x3", "02 02 0629"),
    ("mask 2 key=5 x3 zeroing", "02 02 062d"),
    ("mask 2 key=5 x3 inverted", "02 02 062b"),
    ("reg x7 -1", "04 07 ffffffffffffffff"),
    ("reg x255 0x10", "04 ff 1000000000000000"),
    ("reg x007 010", "04 07 0a00000000000000"),
    ("reg x7 0xfFfFfFfFfFfFfFfF", "04 07 ffffffffffffffff"),
    ("reg x7 -9223372036854775808", "04 07 0000000000000080"),
    ("reg x7 -0x8000000000000000", "04 07 0000000000000080"),
    (f"reg x7 {'0' * 9000}5", "04 07 0500000000000000"),
    ("mem 16 0x0102030405060708", "06 1000 0807060504030201"),
    ("mem 16 01 02 03 04 05 06 07 08", "06 1000 0102030405060708"),
    ("run add x5, x6, x7", "05 b3027300 ffff"),
    ("run ADD x5 ,x6,\tx7 allow 65535", "05 b3027300 ffff"),
    ("run ld x5, 8 ( x6 )", "05 83328300 ffff"),
    ("run 0x829a allow 1", "05 9a820000 0100"),
    ("run c.mv x5,x6", "05 9a820000 ffff"),
    ("run ld x5,8(x6)", "05 83328300 ffff"),
    ("run sd x7,-8(x6) allow 0", "05 233c73fe 0000"),
    ("run srai x5,x6,63", "05 9352f343 ffff"),
    ("run addi x5,x6,-1", "05 9302f3ff ffff"),
    ("run mul x5,x6,x7", "05 b3027302 ffff"),
    ("run mulh x5,x6,x7", "05 b3127302 ffff"),
    ("run mulhsu x5,x6,x7", "05 b3227302 ffff"),
    ("run mulhu x31,x31,x31", "05 b3bfff03 ffff"),
    ("run div x5,x6,x7", "05 b3427302 ffff"),
    ("run divu x5,x6,x7", "05 b3527302 ffff"),
    ("run rem x5,x6,x7", "05 b3627302 ffff"),
    ("run REMU x5,x6,x7 allow 2", "05 b3727302 0200"),
    ("run mulw x5,x6,x7", "05 bb027302 ffff"),
    ("run divw x5,x6,x7", "05 bb427302 ffff"),
    ("run divuw x5,x6,x7", "05 bb527302 ffff"),
    ("run remw x5,x6,x7", "05 bb627302 ffff"),
    ("run remuw x5,x6,x7", "05 bb727302 ffff"),
    ("run 0x027312bb", "05 bb127302 ffff"),
    ("raw 7f ff", "7f ff"),
]

# a bad line, and a part of what is said of it
ERRORS = [
    ("jump", "'jump' is none of"),
    ("state mvl=65", "mvl: 65 is not within 1 to 64"),
    ("state mvl=4 mvl=4", "'mvl' stands twice"),
    ("entry 0 vector x40", "'key=' is missing"),
    ("entry 0 key=5 x40", "either scalar or vector"),
    ("entry 0 key=5 vector", "one real register is needed"),
    ("entry", "the index of an entry is missing"),
    ("mask 2 key=32 x3", "key: 32 is not within 0 to 31"),
    ("reg x7", "reg has a register and a value"),
    ("reg x256 1", "'x256' is none of x0 to x255"),
    ("reg x1_0 1", "'x1_0' is none of x0 to x255"),
    ("reg x\u0663 1", "'x\u0663' is none of x0 to x255"),
    (f"reg x{'9' * 9000} 1", f"'x{'9' * 39}..' is none of x0 to x255"),
    ("reg x7 ten", "'ten' is no number"),
    ("reg x7 1_000", "'1_000' is no number"),
    ("reg x7 0x_1", "'0x_1' is no number"),
    ("reg x7 0x", "'0x' is no number"),
    ("reg x7 1f", "'1f' is no number"),
    ("reg x7 +1", "'+1' is no number"),
    ("reg x7 0b1", "'0b1' is no number"),
    ("reg x7 --1", "'--1' is no number"),
    ("reg x7 \u0663", "'\u0663' is no number"),
    ("reg x7 \u00b2", "'\u00b2' is no number"),
    ("reg x7 -9223372036854775809", "-9223372036854775809 is below -2^63"),
    ("reg x7 -0x8000000000000001", "-0x8000000000000001 is below -2^63"),
    (f"reg x7 -{'9' * 9000}", f"-{'9' * 39}.. is below -2^63"),
    ("reg x7 18446744073709551616", "18446744073709551616 is not within 0 to 18446744073709551615"),
    (f"reg x7 {'9' * 9000}", f"{'9' * 40}.. is not within 0 to 18446744073709551615"),
    ("entry \u0663 key=5 vector x40", "'\u0663' is no number"),
    ("entry 0 key=\u0663 vector x40", "key: '\u0663' is no number"),
    ("entry 0 key=5 vector x\u0664\u0660", "one real register is needed"),
    ("entry 0 0x_1", "word: '0x_1' is no number"),
    ("entry 0 0x10000", "word: 0x10000 is not within 0 to 65535"),
    ("state -1", "'-1' is not known here"),
    ("mem 0 \u0660\u0661 02 03 04 05 06 07 08", "mem: eight bytes of two hex digits each"),
    ("mem 1_0 1", "address: '1_0' is no number"),
    ("mem 70000 1", "address: 70000 is not within 0 to 65535"),
    ("run", "the instruction is missing"),
    ("run lui x5,6", "'lui' is no instruction that is served"),
    ("run mulhw x5,x6,x7", "'mulhw' is no instruction that is served"),
    ("run mulhsuw x5,x6,x7", "'mulhsuw' is no instruction that is served"),
    ("run mulhuw x5,x6,x7", "'mulhuw' is no instruction that is served"),
    ("run muli x5,x6,7", "'muli' is no instruction that is served"),
    ("run mul x5,x6", "mul has 3 operands, not 2"),
    ("run divu x5,x6,7", "'7' is none of x0 to x31"),
    ("run add", "add has 3 operands, not 0"),
    ("run add x5,x6", "add has 3 operands, not 2"),
    ("run add x5,,x6,x7", "an operand is empty"),
    ("run add x5,x6,x7,", "an operand is empty"),
    ("run add ,x5,x6,x7", "an operand is empty"),
    ("run add x5,,x6,x7,", "an operand is empty"),
    ("run add ,", "an operand is empty"),
    ("run add x5 x6 x7", "'x5 x6 x7' is no operand; operands are separated by commas"),
    ("run add x5,x6 x7", "'x6 x7' is no operand; operands are separated by commas"),
    ("run add x5,x6,x\u0667", "'x\u0667' is none of x0 to x31"),
    ("run addi x5,x6,1_0", "immediate: '1_0' is no number"),
    ("run ld x5,\u0668(x6)", "immediate: '\u0668' is no number"),
    ("run 0x_1", "word: '0x_1' is no number"),
    ("run add x5,x6,x32", "'x32' is none of x0 to x31"),
    ("run addi x5,x6,2048", "immediate: 2048 is not within -2048 to 2047"),
    ("run slliw x5,x6,32", "shift amount: 32 is not within 0 to 31"),
    ("run c.mv x5,x0", "second register can't be x0"),
    ("run ld x5,x6", "'x6' is no address like 8(x6)"),
    ("run add x5,x6,x7 allow 65536", "allowance: 65536 is not within 0 to 65535"),
    ("raw 1", "raw has bytes of two hex digits each"),
    ("raw \u0661\u0662", "raw has bytes of two hex digits each"),
    ("raw 0x1", "raw has bytes of two hex digits each"),
    ("r" * 9000, f"'{'r' * 40}..' is none of"),
    ("\0\x1b[0m", "'\\x00\\x1b[0m' is none of"),
]

# bytes, and what they are
KINDS = [
    (b"", "bytes"),
    (b"state mvl=4 vl=4\n", "text"),
    (b"# \tone\r\n\x0c", "text"),
    (b"\xef\xbb\xbfstate\n", "text"),
    ("# größer, \u00a0\u2265\U0001f600".encode(), "text"),
    (EXAMPLE_BYTES, "bytes"),
    *((bytes([byte]), "text" if byte in b"\t\n\r\f" or 32 <= byte < 127 else "bytes") for byte in range(256)),
    (b"state\x00", "bytes"),
    ("# \u0085".encode(), "bytes"),
    (b"\xff\xfes\0t\0", "bytes"),
    (b"# \xc3", "bytes"),
    (b"# \xed\xa0\x80", "bytes"),
    (b"#" * 4095 + "\u00e9".encode(), "text"),
    (b"#" * 4095 + b"\xc3", "text"),
    (b"#" * 4094 + b"\xc3", "bytes"),
    (b"#" * 4095 + b"\x00", "bytes"),
    (b"#" * 4096 + b"\x00\xff", "text"),
]


def check(name, got, wanted):
    if got != wanted:
        sys.exit(f"stream_test: {name}: {got!r}, and not {wanted!r}")


def check_lines():
    check("the example", stream.encode(EXAMPLE), EXAMPLE_BYTES)
    for text, wanted in LINES:
        data = bytes.fromhex(wanted)
        check(text, stream.encode(text), data)
        check(f"{text}, there and back", stream.encode(stream.decode(data)), data)


def check_errors():
    for text, part in ERRORS:
        try:
            said = "encoded as " + stream.encode("state\n" + text + "\n").hex()
        except stream.Bad as bad:
            said = str(bad)
        if not said.startswith("line 2: ") or part not in said:
            sys.exit(f"stream_test: {text}: {said!r}")
    check("an error", tool("encode", data=b"state\njump\n"),
          (1, b"", "stream: line 2: 'jump' is none of state, entry, mask, reg, mem, run, raw\n"))


def check_text():
    """What bytes are taken for text."""
    record = bytes.fromhex("03 00000018")
    check("a byte order mark", tool("encode", data=b"\xef\xbb\xbfstate\n"), (0, record, ""))
    check("carriage returns", tool("encode", data=b"state\r\n# \r\nstate"), (0, record * 2, ""))
    for mark, encoding in ((b"\xff\xfe", "utf-16-le"), (b"\xfe\xff", "utf-16-be")):
        check(encoding, tool("encode", data=mark + "state\n".encode(encoding)),
              (1, b"", "stream: the text is UTF-16; save it as UTF-8\n"))
    check("no UTF-8", tool("encode", data=b"state\n# \xc3\xa9\nstate # \xe9\n"),
          (1, b"", "stream: line 3: byte 0xe9 is no UTF-8\n"))


def check_kinds(directory):
    for data, kind in KINDS:
        check(data[:40], stream.kind_of(data[:stream.LOOKED_AT]), kind)
        if kind == "text" and len(data) <= stream.LOOKED_AT and data[0] in stream.BODY:
            sys.exit(f"stream_test: {data!r} could be a stream")
    for data, kind in KINDS[:6] + KINDS[-3:]:
        check(data[:40], tool("kind", data=data), (0, f"{kind}\n".encode(), ""))
    path = directory / "long"
    path.write_bytes(b"#" * 5000)
    with open(path, "rb", buffering=0) as opened:
        opened.seek(7)
        check("kind", tool("kind", stdin=opened), (0, b"text\n", ""))
        check("where kind leaves a file", opened.tell(), 7)


def wait_until_read(pipe):
    for _ in range(3000):
        if fcntl.ioctl(pipe, termios.FIONREAD, bytes(4)) == bytes(4):
            return
        time.sleep(0.01)
    sys.exit("stream_test: a pipe is not read")


def check_pieces():
    """A pipe gives its bytes in pieces; all of the first 4,096 are looked at."""
    for last, kind in ((b"#", b"text\n"), (b"\0", b"bytes\n")):
        process = subprocess.Popen([TOOL, "kind"], stdin=subprocess.PIPE, stdout=subprocess.PIPE)
        for part in (b"#" * 100, b"#" * 3995, last):
            process.stdin.write(part)
            process.stdin.flush()
            wait_until_read(process.stdin)
        check("pieces", process.communicate(timeout=60)[0], kind)


def check_arguments(directory):
    for arguments, said in [
        ([], "a command is missing: encode, decode, kind"), (["jump"], "'jump' is none of encode, decode, kind"),
        ([""], "'' is none of encode, decode, kind"), (["encode", "a", "b"], "at most one file"),
        (["encode", ""], "the name of the file is empty"), (["decode", "-x"], "there is no option -x"),
    ]:
        check(arguments, tool(*arguments), (2, b"", f"stream: {said}; --help says more\n"))
    for command in ("encode", "decode", "kind"):
        check("a directory", tool(command, directory),
              (1, b"", f"stream: {directory} can't be read: Is a directory\n"))
        check("a missing file", tool(command, "none", cwd=directory),
              (1, b"", "stream: none can't be read: No such file or directory\n"))
    (directory / "a file").write_text("state\n")
    check("a file", tool("encode", "a file", cwd=directory), (0, bytes.fromhex("03 00000018"), ""))
    check("-", tool("encode", "-", data=b"state\n"), (0, bytes.fromhex("03 00000018"), ""))
    check("--help", tool("--help"), (0, stream.__doc__.encode(), ""))
    check("encode -h", tool("encode", "-h"), (0, stream.__doc__.encode(), ""))


def check_descriptors():
    """Input that can't be read and output that can't be written: one line, and no traceback."""
    for command, data in (("encode", b"state\n" * 100_000), ("decode", EXAMPLE_BYTES), ("kind", b""), ("--help", b"")):
        with open("/dev/full", "wb") as full:
            check(f"{command}, a full output", tool(command, data=data, stdout=full),
                  (1, b"", "stream: standard output can't be written: No space left on device\n"))
        check(f"{command}, a closed output", tool(command, data=data, preexec_fn=lambda: os.close(1)),
              (1, b"", "stream: standard output can't be written: Bad file descriptor\n"))
    for command in ("encode", "decode", "kind"):
        check(f"{command}, a closed input", tool(command, stdin=subprocess.DEVNULL, preexec_fn=lambda: os.close(0)),
              (1, b"", "stream: standard input can't be read: Bad file descriptor\n"))
    check("no standard error", tool("jump", preexec_fn=lambda: os.close(2)), (2, b"", ""))
    process = subprocess.Popen([TOOL, "encode"], stdin=subprocess.PIPE, stdout=subprocess.PIPE, stderr=subprocess.PIPE)
    process.stdout.close()
    _, said = process.communicate(b"state\n" * 100_000, timeout=60)
    check("a pipe closed early", (process.returncode, said), (-13, b""))


def random_record(draw):
    kind = draw.choice(list(stream.BODY))
    body = bytearray(draw.randbytes(stream.BODY[kind]))
    if kind == 5 and draw.random() < 0.7:
        body[0] = body[0] & 0x80 | draw.choice([0x33, 0x3B, 0x13, 0x1B, 0x03, 0x23])
        body[3] &= draw.choice([0x01, 0x03, 0x41, 0xFF])
    return bytes([kind]) + body


def check_random(count):
    draw = random.Random(20261)
    for _ in range(count):
        data = b"".join(random_record(draw) for _ in range(draw.randrange(6))) + draw.randbytes(draw.randrange(3))
        check(data.hex(), stream.encode(stream.decode(data)), data)


def main():
    check_lines()
    check_errors()
    check_text()
    with tempfile.TemporaryDirectory() as directory:
        check_kinds(pathlib.Path(directory))
        check_arguments(pathlib.Path(directory))
    check_pieces()
    check_descriptors()
    count = 2000
    check_random(count)
    print(f"stream_test: {len(LINES)} lines, {len(ERRORS)} errors, {len(KINDS)} kinds, {count} random streams there and"
          " back, arguments, input and output")


main()
