#!/usr/bin/env python3
"""usage: tools/spell_names.py
Spells the repository's own words of specifications and proofs as today's Rattle does: in snake case. It follows
port.py of the toolchain, which respells those that its library shares. Run once, at the top of the repository.

- each word in camel case with a small first letter, in .antt files, in the clauses of .rt files and in edits:
  registerAt becomes register_at;
- each name that a file of specs/ or a file of lemmas defines with a dash: source-ends becomes source_ends. The names
  that Rattle makes for the parts of a proof keep theirs;
- in edits and pages, which port.py leaves alone, the words that port.py respelled.

It changes no path of a file, no function of src/, and no string. It stops, and changes nothing, where two names of a
folder of definitions would fall together."""
import collections
import pathlib
import re
import sys

TOKEN = re.compile(r"(?<![A-Za-z0-9_])[A-Za-z_«»μκ][A-Za-z0-9_'«»μκ₀-₉]*(?:-[A-Za-z0-9_'«»μκ₀-₉]+)*")
CAMEL = re.compile(r"(?<=[a-z0-9])(?=[A-Z])")
# what port.py respells beyond its own library's names ('look:' of its script of names)
PORTED_CAMEL = """
atStart bitsOf bodyAt bytesOf callOf codeOf contextOf entryAt fieldsOf firstOf formOf highHalf isVector layoutOf
lineOf listOf loadPlan lowBits lowHalf lowWord machineOf numberOf outIn pairAt placeIn placeOf positionOf putAt
putBack readingOf settingOf sideOf signBit stateOf tablesOf topOf unitOf upTo valueOf wholeAt wholeOf widthBy
withLengths withOutcome wordAt wordOf wordsOf inRange bitOr bitAnd bitXor
""".split()
# lemmas that would have the name of the definition that they speak of
LEMMAS = {"walk_pairs": {"first_on": "is_on-first_on"}, "division": {"low-word": "low_word-of_z"},
          "simplev_arrays": {"low-word": "low_word-number"}}
DEFINES = re.compile(r"^(?:(?:pub|abbrev|unfoldable) )*(?:record|data|ruleset)? ?([^\s:(){}]+)")
DEFINED = re.compile(r"^\s*(?:(?:pub|abbrev|unfoldable|ruleset) )*([^\s:(){}]+) (?::(?:\s|$)|=.*ruleset)")


def snake(word):
    return CAMEL.sub("_", word).lower()


def is_camel(word):
    return word[0].islower() and "-" not in word and CAMEL.search(word) is not None


def files(pattern):
    return sorted(p for p in pathlib.Path(".").glob(pattern) if p.is_file() and "out" not in p.parts)


def dashed():
    """The names with a dash that specs/ and the files of lemmas define, and those of them that are fields."""
    names, fields = set(), set()
    for path in files("crates/*/**/*.antt"):
        if path.name == "Proof.antt":
            continue
        block = False
        for line in path.read_text(encoding="utf-8").splitlines():
            if re.match(r"(use|mod|pub mod|unfolding|--)", line) or not line.strip():
                continue
            if re.match(r" *(pub )?(record|data|module)\b", line):
                block = "module" not in line
            elif not line[0].isspace():
                block = False
            found = DEFINED.match(line)
            kept = any(found[1] in new.values() for new in LEMMAS.values()) if found else True
            if not kept and "-" in found[1] and found[1][0].islower():
                names.add(found[1])
                if block:
                    fields.add(found[1])
    return names, fields


def turned(text, dash, fields, lemmas={}):
    def word(found):
        w = found[0]
        if w in lemmas:
            return lemmas[w]
        before = text[found.start() - 1] if found.start() else ""
        if w in dash and not (before == "." and w not in fields):
            return w.replace("-", "_")
        return snake(w) if is_camel(w) else w

    return TOKEN.sub(word, text)


def clauses(text, dash, fields):
    """A .rt file: everything but comments and strings."""
    parts = re.split(r'(//[^\n]*|"(?:[^"\\]|\\.)*")', text)
    return "".join(p if i % 2 else turned(p, dash, fields) for i, p in enumerate(parts))


def together(before, after):
    """Names of one file that fall together."""
    seen = collections.defaultdict(set)
    for old, new in zip(before.splitlines(), after.splitlines()):
        if old[:1].isspace() or re.match(r"(use|mod|pub mod|unfolding|--)", old):
            continue
        o, n = DEFINES.match(old), DEFINES.match(new)
        if o and n and re.search(r" :( |$)", old):
            seen[n[1]].add(o[1])
    return [f"{' and '.join(sorted(v))} become {k}" for k, v in seen.items() if len(v) > 1]


def main():
    dash, fields = dashed()
    writes, said = [], []
    for path in files("crates/*/**/*.antt"):
        old = path.read_text(encoding="utf-8")
        new = turned(old, dash, fields, LEMMAS.get(path.parts[1], {}))
        said += [f"{path}: {x}" for x in together(old, new)]
        writes.append((path, old, new))
    for path in files("crates/*/src/**/*.rt"):
        old = path.read_text(encoding="utf-8")
        writes.append((path, old, clauses(old, dash, fields)))
    ported = {w: snake(w) for w in PORTED_CAMEL}
    for path in files("crates/*/must-fail/*.edit") + files("tests/must-fail/*/*.edit"):
        old = path.read_text(encoding="utf-8")
        new = turned(old, dash, fields)
        writes.append((path, old, TOKEN.sub(lambda m: ported.get(m[0], m[0]), new)))
    if said:
        print("\n".join(said), file=sys.stderr)
        raise SystemExit(1)
    changed = [(p, n) for p, o, n in writes if o != n]
    for path, new in changed:
        path.write_text(new, encoding="utf-8")
    print(f"{len(changed)} files changed")


main()
