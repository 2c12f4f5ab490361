#!/usr/bin/env python3
"""The streams of tests/streams: that crates/test_streams has their bytes, and the output that the model gives.

usage: streams_test.py [--write]    --write makes crates/test_streams' data, args and stdout anew
"""
import random
import sys

sys.dont_write_bytecode = True
import model
from support import ROOT, module

CRATE = ROOT / "crates" / "test_streams"
stream = module("stream")


def offset(draw):
    """Of a load or store; mostly divisible by 8, so that most accesses are aligned."""
    return 8 * draw.randrange(256) + draw.choice([0, 0, 0, 0, 0, 0, 0, 1, 2, 4])


def longer_than_a_buffer():
    """2,000 records, so that records lie across the edges of what is read at a time."""
    draw = random.Random(5)
    lines = ["state mvl=8 vl=8", "entry 0 key=5 vector x40", "entry 1 key=6 vector x50"]
    for _ in range(2000):
        lines.append(draw.choice([
            f"reg x{draw.randrange(50, 58)} {draw.randrange(2**64)}",
            f"mem {draw.randrange(4089)} {draw.randrange(2**64)}",
            f"run add x5,x6,x5 allow {draw.randrange(1, 9)}",
            f"run ld x5,{offset(draw)}(x0) allow {draw.randrange(1, 9)}",
            f"run sd x5,{offset(draw)}(x0) allow {draw.randrange(1, 9)}",
            f"run c.mv x6,x5 allow {draw.randrange(1, 9)}",
        ]))
    return "\n".join(lines) + "\n"


def sources():
    found = {path.stem: path.read_text() for path in (ROOT / "tests" / "streams").glob("*.txt")}
    found["longer_than_a_buffer"] = longer_than_a_buffer()
    return dict(sorted(found.items()))


def wanted():
    """Path and contents of each file that crates/test_streams has to have."""
    streams = {name: stream.encode(text) for name, text in sources().items()}
    files = {f"data/{name}.bin": data for name, data in streams.items()}
    files["args"] = "".join(f"{name}.bin\n" for name in streams).encode()
    files["stdout"] = "".join(f"{name}.bin\n{model.output(data)}" for name, data in streams.items()).encode()
    return files


def main():
    files = wanted()
    if sys.argv[1:] == ["--write"]:
        (CRATE / "data").mkdir(parents=True, exist_ok=True)
        for name, data in files.items():
            (CRATE / name).write_bytes(data)
    for name, data in files.items():
        if not (CRATE / name).exists() or (CRATE / name).read_bytes() != data:
            sys.exit(f"streams_test: crates/test_streams/{name} is not what tests/streams and the model give")
    extra = {f"data/{path.name}" for path in (CRATE / "data").iterdir()} - set(files)
    if extra:
        sys.exit(f"streams_test: no source for {', '.join(sorted(extra))}")
    print(f"streams_test: {len(files) - 2} streams and their output are as the model has them")


main()
