#!/usr/bin/env python3
"""Every path and every name in the documents exists, and what they quote of the tree is what stands there.

usage: tests/docs_test.py

The documents are README.md, CHANGELOG.md, tests/README.md, all of docs/ but for docs/PORT.md and docs/DESIGN-PASS.md,
which set what is gone beside what stands for it, and for paths the comments of include/simplev.h. It prints how much it
looked at, and what is wrong, a line each. A word in backticks that is a name of something else goes into FOREIGN, a
path that is none of the tree's into NO_PATHS. Needs nothing but Python.
"""

import collections
import fnmatch
import pathlib
import re
import sys

ROOT = pathlib.Path(__file__).resolve().parents[1]
WIDTH = 120

# --- what is not of this repository ---------------------------------------------------------------

# Words in backticks that nothing here defines. Each has to be used in some document.
FOREIGN = {
    "arrayvec": "a library of the toolchain",
    "std": "a library of the toolchain",
    "get_or": "a definition of its library",
    "requires": "a word of the language", "ensures": "the same", "pub": "the same", "const": "the same",
    "self": "the same", "u32": "the same", "u64": "the same",
}

# Words with a slash or a suffix that name no file here, by the whole word.
NO_PATHS = [
    (r"https?://.*", "a page of the net"),
    (r"target/.*", "what is built"),
    (r"/tmp/.*", "a place of the reader's own"),
    (r"that\.txt", "a file of the reader's own"),
    (r"\.\w+", "a suffix by itself"),
]

# Segments of a path that stand for any name.
ANY = {"NAME", "CRATE"}

SUFFIXES = (".md", ".rt", ".rs", ".antt", ".py", ".c", ".h", ".txt", ".sh", ".edit")
NOT_LOOKED_INTO = {".git", "target", "out", "__pycache__"}

# --- the tree -------------------------------------------------------------------------------------


def files_below(folder):
    """The files of a folder and the folders below it, but for what is built."""
    for path in sorted(folder.iterdir()):
        if path.name in NOT_LOOKED_INTO:
            continue
        if path.is_dir():
            yield from files_below(path)
        else:
            yield path.relative_to(ROOT).as_posix()


def folders_of(files):
    return {str(parent) for file in files for parent in pathlib.PurePosixPath(file).parents} - {"."}


FILES = set(files_below(ROOT))
PLACES = FILES | folders_of(FILES)
CRATES = re.findall(r"^(\w+)", (ROOT / "crates.txt").read_text(), re.M)


def text_of(file):
    return (ROOT / file).read_text(errors="replace")


def matching(pattern):
    """The places that a path names, in which NAME stands for any."""
    pattern = "/".join("*" if part in ANY else part for part in pattern.removeprefix("./").rstrip("/").split("/"))
    if "*" not in pattern:
        return {pattern} & PLACES
    depth = pattern.count("/")
    return {place for place in PLACES if place.count("/") == depth and fnmatch.fnmatchcase(place, pattern)}


# --- names that the tree defines ------------------------------------------------------------------

IDENTIFIER = r"[A-Za-z_][\w'-]*"
ANTT = re.compile(r"(\s*)((?:(?:abbrev|unfoldable|pub)\s+)*)(record\s+|data\s+|mod\s+|)([^\s:(){}]+)(.*)")
RUST_ITEM = re.compile(r"(?<!\*)\b(?:fn|struct|enum|trait|const|static|mod|type)\s+(\w+)")
RUST_BLOCK = re.compile(r"(?:pub(?:\(crate\))?\s+)?(?:impl|struct|enum)\s+(\w+).*\{$")
RUST_MEMBER = re.compile(r"\s{4}(?:pub(?:\(crate\))?\s+)?(?:fn\s+|const\s+)?(\w+)\s*(?:[:(,<{]|$)")
RUST_PARAMETER = re.compile(r"[(,\s](\w+): ")
C_ITEM = re.compile(r"#define\s+(\w+)|\b(?:struct|enum)\s+(\w+)|(\w+)\(|\b(SIMPLEV_\w+) =")
PYTHON_ITEM = re.compile(r"^\s*(?:def|class)\s+(\w+)|^(\w+)\s*=", re.M)
SHELL_ITEM = re.compile(r"^(\w+)\(\)", re.M)


def antt_names(text):
    """Names of a file of definitions or proofs, and Record.field and Data.constructor."""
    owner, depth = None, 0
    for line in text.splitlines():
        found = ANTT.match(line)
        if not found or line.lstrip().startswith(("--", "use ")):
            continue
        indent, words, kind, name, rest = len(found[1]), found[2], found[3].strip(), found[4].strip("«»"), found[5]
        if kind in ("record", "data"):
            owner, depth = name, indent
            yield name
        elif kind == "mod" or words or re.match(r"\s+:", rest):
            yield name
            if owner and indent > depth:
                yield f"{owner}.{name}"
        if not kind and indent <= depth:
            owner = None


def rust_names(text):
    """Names of a file of code, Type::member among them, and of parameters."""
    owner = None
    for line in text.splitlines():
        if line.lstrip().startswith("//"):
            continue
        block = RUST_BLOCK.match(line)
        member = owner and RUST_MEMBER.match(line)
        if block:
            owner = block[1]
        elif line.startswith("}"):
            owner = None
        elif member:
            yield member[1]
            yield f"{owner}::{member[1]}"
        yield from RUST_ITEM.findall(line)
        yield from RUST_PARAMETER.findall(line)


def all_groups(pattern):
    return lambda text: [name for found in pattern.finditer(text) for name in found.groups() if name]


def reader_of(file):
    """What finds the names of a file, by its suffix or its first line."""
    by_suffix = {".antt": antt_names, ".rt": rust_names, ".rs": rust_names, ".h": all_groups(C_ITEM),
                 ".c": all_groups(C_ITEM), ".py": all_groups(PYTHON_ITEM), ".sh": all_groups(SHELL_ITEM)}
    suffix = pathlib.PurePosixPath(file).suffix
    if suffix in by_suffix:
        return by_suffix[suffix]
    if file.startswith("tools/") and suffix == "":
        return all_groups(PYTHON_ITEM if "python" in text_of(file).split("\n")[0] else SHELL_ITEM)
    return None


def defined_names():
    """Each name, and the files that define it. A crate is a name too, and so is a program of cargo's."""
    names = collections.defaultdict(set)
    for file in sorted(FILES):
        reader = reader_of(file)
        for name in reader(text_of(file)) if reader else ():
            names[name].add(file)
    for crate in CRATES:
        names[crate].update(file for file in FILES if file.startswith(f"crates/{crate}/"))
    for program in re.findall(r'^name = "(\w+)"', text_of("tests/difftest/Cargo.toml"), re.M):
        names[program].add("tests/difftest/Cargo.toml")
    return names


NAMES = defined_names()

# --- the documents --------------------------------------------------------------------------------

# A paragraph, a cell of a table with the column's head, or a line of a code block with the block's language.
Piece = collections.namedtuple("Piece", "kind line text head")


def documents():
    """README.md comes first, then the others by name."""
    found = [*ROOT.glob("*.md"), *(ROOT / "docs").rglob("*.md"), *(ROOT / "tests").glob("*.md")]
    names = {path.relative_to(ROOT).as_posix() for path in found} - {"docs/PORT.md", "docs/DESIGN-PASS.md"}
    return sorted(names, key=lambda name: (name != "README.md", name))


def cells(line):
    """The cells of a row; a bar within backticks is no border."""
    row = re.sub(r"`[^`]*`", lambda span: span[0].replace("|", "\0"), line.strip().strip("|"))
    return [cell.strip().replace("\0", "|") for cell in row.split("|")]


class Splitter:
    """Splits a document into its pieces."""

    def __init__(self, text):
        self.pieces, self.paragraph, self.heads, self.fence = [], [], None, None
        for number, line in enumerate(text.splitlines(), 1):
            self.take(number, line)
        self.end()

    def end(self):
        if self.paragraph:
            text = " ".join(line.strip() for _, line in self.paragraph)
            self.pieces.append(Piece("text", self.paragraph[0][0], text, None))
            self.paragraph = []

    def take(self, number, line):
        if line.startswith("```"):
            self.end()
            self.fence = None if self.fence is not None else line[3:].strip()
        elif self.fence is not None or (line.startswith("    ") and not self.paragraph):
            self.pieces.append(Piece("code", number, line, self.fence))
        elif line.startswith("|"):
            self.end()
            self.row(number, line)
        else:
            self.heads = None
            if not line.strip() or line.startswith("#") or re.match(r"\s*([-*]|\d+\.) ", line):
                self.end()
            if line.strip():
                self.paragraph.append((number, line))

    def row(self, number, line):
        if self.heads is None:
            self.heads = cells(line)
        elif not re.fullmatch(r"[|\s:-]+", line):
            row = cells(line)
            heads = self.heads + [""] * (len(row) - len(self.heads))
            self.pieces += [Piece("cell", number, cell, head) for cell, head in zip(row, heads)]


PIECES = {name: Splitter(text_of(name)).pieces for name in documents()}


def headings(name):
    return re.findall(r"^#+ (.*)", text_of(name), re.M)


def leads(name):
    """The words in bold with which paragraphs begin."""
    bold = re.findall(r"^\*\*(.+?)\*\*", text_of(name), re.M | re.S)
    return [" ".join(lead.split()).rstrip(".,:;") for lead in bold]


def anchor(heading):
    return re.sub(r"[^\w\- ]", "", heading.lower()).replace(" ", "-")


# --- findings -------------------------------------------------------------------------------------

wrong = []
counts = collections.Counter()


def expect(true, where, what):
    if not true:
        wrong.append(f"{where}: {what}")


# --- paths ----------------------------------------------------------------------------------------


def bare(word):
    """A word of a text without the marks around it."""
    marks = "`()[]{}<>,;:\"'*"
    return word.lstrip(marks).rstrip(marks + ".")


def is_path(word):
    return ("/" in word or word.endswith(SUFFIXES)) and not any(re.fullmatch(rule, word) for rule, _ in NO_PATHS)


def words_of(piece):
    """The words of a piece, links apart. In a code block only what begins with a folder of the root is a path."""
    text = re.sub(r"\]\([^)]*\)", "]", piece.text).replace("`", " ")
    words = [bare(word) for word in text.split()]
    if piece.kind != "code":
        return words
    top = {place.split("/")[0] for place in PLACES if "/" in place}
    return [word for word in words if word.removeprefix("./").split("/")[0] in top and "/" in word]


def found_places(word, before):
    """The places that a word names: from the root, below crates/, beside the path before it, and else anywhere."""
    direct = matching(word) or matching(f"crates/{word}")
    if direct:
        return direct
    if before and matching(f"{before.rpartition('/')[0]}/{word}"):
        return matching(f"{before.rpartition('/')[0]}/{word}")
    below = matching(f"crates/NAME/{word}")
    return below or {place for place in PLACES if "/" not in word.rstrip("/") and place.endswith(f"/{word}")}


def check_paths(name, piece):
    before = None
    for word in words_of(piece):
        if not is_path(word):
            continue
        counts["paths"] += 1
        places = found_places(word, before)
        if piece.head == "was":
            expect(not matching(word), f"{name}:{piece.line}", f"{word} is still there")
            continue
        expect(places, f"{name}:{piece.line}", f"there is no {word}")
        before = min(places, default=before)


def check_header():
    """The comments of include/simplev.h, as one text."""
    comments = " ".join(re.findall(r"/\*.*?\*/", text_of("include/simplev.h"), re.S))
    check_paths("include/simplev.h", Piece("text", 1, comments.replace(" * ", " "), None))


# --- names ----------------------------------------------------------------------------------------


def spans(text):
    return re.findall(r"`([^`]+)`", text)


def is_name(span):
    return re.fullmatch(rf"[._]?{IDENTIFIER}(?:(?:::|\.){IDENTIFIER})*(?:\(\))?", span) and not span.endswith(SUFFIXES)


def whole_names(names):
    """Names as they are defined: `.field` belongs to the record before it, `_end` begins as the name before it."""
    first = None
    for name in names:
        name = name.removesuffix("()")
        if name.startswith(".") and first:
            name = first.split(".")[0] + name
        elif name.startswith("_") and first:
            name = first.rpartition("_")[0] + name
        else:
            first = name
        yield name


def is_defined(name):
    """A name that ends in _ is the beginning of some."""
    return name in NAMES or (name.endswith("_") and any(other.startswith(name) for other in NAMES))


def check_names(name, piece):
    for found in whole_names([span for span in spans(piece.text) if is_name(span)]):
        counts["names"] += 1
        used.add(found)
        expect(found in FOREIGN or is_defined(found), f"{name}:{piece.line}", f"nothing defines `{found}`")


BESIDE = re.compile(r"((?:`[^`]+`(?:,? and |,? or |, | ))+)\(?([\w./+-]+)")


def check_beside(name, piece):
    """A name that stands right before a path is defined in that file."""
    for names, word in BESIDE.findall(piece.text):
        word = bare(word)
        if not is_path(word):
            continue
        places = found_places(word, None)
        inside = {file for place in places for file in FILES if file == place or file.startswith(f"{place}/")}
        for found in whole_names([span for span in spans(names) if is_name(span)]):
            counts["names beside a path"] += 1
            expect(NAMES.get(found, set()) & inside, f"{name}:{piece.line}", f"`{found}` is not defined in {word}")


used = set()


def check_foreign():
    for word in FOREIGN:
        expect(word in used, "FOREIGN", f"no document uses `{word}`")
        expect(word not in NAMES, "FOREIGN", f"`{word}` is defined in {min(NAMES.get(word, {''}))}")


# --- links and sections ---------------------------------------------------------------------------


def check_links(name, piece):
    for target in re.findall(r"\]\(([^)]*)\)", piece.text):
        counts["links"] += 1
        if re.match("https?://", target):
            continue
        file, _, part = target.partition("#")
        place = (pathlib.PurePosixPath(name).parent / file).as_posix() if file else name
        expect(place in FILES, f"{name}:{piece.line}", f"the link {target} leads nowhere")
        if part and place in PIECES:
            known = {anchor(heading) for heading in headings(place)}
            expect(part in known, f"{name}:{piece.line}", f"there is no heading for {target}")


QUOTED = re.compile(r'([\w/]+\.md),? (?:sections? )?((?:"[^"]+"(?:,? and |, )?)+)')


def check_sections(name, piece):
    """A title in quotation marks after a document is one of its headings, or begins one of its entries."""
    for place, titles in QUOTED.findall(piece.text):
        for title in re.findall(r'"([^"]+)"', titles):
            counts["sections"] += 1
            known = headings(place) + leads(place) if place in PIECES else []
            expect(title in known, f"{name}:{piece.line}", f'{place} has no section "{title}"')


# --- docs/ARCHITECTURE.md and docs/DECISIONS.md ---------------------------------------------------

ARCHITECTURE = "docs/ARCHITECTURE.md"
DECISIONS = "docs/DECISIONS.md"
BLOCK = re.compile(r"^```(\w+)\n(.*?)\n```$", re.M | re.S)


def unspaced(text):
    return "\n".join(line.rstrip() for line in text.splitlines())


def check_blocks():
    """Each block of code stands in the file that the paragraph above it names first. The drawing is a block of text."""
    page = text_of(ARCHITECTURE)
    for found in BLOCK.finditer(page):
        if found[1] == "text":
            continue
        counts["blocks"] += 1
        above = page[:found.start()].rstrip().rpartition("\n\n")[2]
        file = next((bare(word) for word in above.split() if is_path(bare(word))), "")
        there = file in FILES and f"\n{unspaced(found[2])}\n" in f"\n{unspaced(text_of(file))}\n"
        first = found[2].split("\n")[0].strip()
        expect(there, ARCHITECTURE, f"the block that begins '{first}' does not stand so in '{file}'")


def check_crates():
    """The table and the drawing have each crate of crates.txt once, and nothing else."""
    listed = [piece.text for piece in PIECES[ARCHITECTURE] if piece.head == "crate"]
    drawing = "\n".join(piece.text for piece in PIECES[ARCHITECTURE] if piece.head == "text")
    drawn = re.findall(r"\w+", re.sub(r"┌─ [^─]+ ─", "", drawing))
    counts["crates"] += len(listed)
    for what, names in (("the table", listed), ("the drawing", drawn)):
        have, want = collections.Counter(names), collections.Counter(CRATES)
        differ = sorted((have - want) | (want - have))
        expect(not differ, ARCHITECTURE, f"{what} and crates.txt differ in {', '.join(differ)}")


def entries_of_decisions():
    """The words in bold with which each entry begins, and a link to its section."""
    heading = None
    for piece in PIECES[DECISIONS]:
        lead = piece.kind == "text" and re.match(r"\*\*(.+?)\*\*", piece.text)
        if piece.kind == "text" and piece.text.startswith("## "):
            heading = piece.text[3:]
        elif lead:
            expect("Ruled out: " in piece.text, f"{DECISIONS}:{piece.line}", "an entry that rules nothing out")
            yield lead[1].rstrip(".,:;"), f"[{heading}](#{anchor(heading)})"


def check_decisions():
    """The table at the head has each entry, in order, with its section; and each entry says what it rules out."""
    rows = [piece.text for piece in PIECES[DECISIONS] if piece.head in ("point", "decision", "section")]
    table, entries = list(zip(rows[0::3], rows[2::3])), list(entries_of_decisions())
    counts["decisions"] += len(entries)
    expect(len(table) == len(entries), DECISIONS, f"the table has {len(table)} rows for {len(entries)} entries")
    differ = [(row, entry) for row, entry in zip(table, entries) if row != entry]
    for row, entry in differ[:1]:
        expect(False, DECISIONS, f"the table has {' '.join(row)} where the entry is {' '.join(entry)}")


# --- lines ----------------------------------------------------------------------------------------

NARROW = ("crates/*/src/*.rt", "include/*", "examples/*", "tools/*", "bench/*", "tests/*.py", "tests/*.h",
          "tests/*_test", "tests/c/*", "tests/rv64/*", "tests/difftest/*.rs", ".ci/*", "run")
OWN_PLACE = re.compile(r"(?<![\w./])/(?:home|root|opt|srv|work)/")


def check_width():
    """No line is longer than WIDTH characters, but for tables, code blocks and links in the documents, and in .rt files
    attributes, which the toolchain's layout keeps on one line."""
    for name in PIECES:
        code = {piece.line for piece in PIECES[name] if piece.kind == "code"}
        for number, line in enumerate(text_of(name).splitlines(), 1):
            counts["lines"] += 1
            apart = line.startswith("|") or number in code or re.fullmatch(r"\S*\[.*\]\(\S+\)\S*", line.strip())
            expect(apart or len(line) <= WIDTH, f"{name}:{number}", f"{len(line)} characters")
    for file in sorted(FILES):
        if any(fnmatch.fnmatchcase(file, pattern) for pattern in NARROW):
            for number, line in enumerate(text_of(file).splitlines(), 1):
                counts["lines"] += 1
                apart = file.endswith(".rt") and line.lstrip().startswith("#[")
                expect(apart or len(line) <= WIDTH, f"{file}:{number}", f"{len(line)} characters")


def check_words():
    """Nothing speaks of a place that only one machine has."""
    for file in sorted(FILES):
        if not file.endswith(".bin"):
            counts["files"] += 1
            found = OWN_PLACE.search(text_of(file))
            expect(not found, file, f"speaks of a machine's {found and found[0]}")


# --- all of it ------------------------------------------------------------------------------------


def check_document(name):
    counts["documents"] += 1
    for piece in PIECES[name]:
        check_paths(name, piece)
        if piece.kind != "code" and piece.head != "was":
            check_names(name, piece)
            check_beside(name, piece)
            check_links(name, piece)
            check_sections(name, piece)


def main():
    for name in PIECES:
        check_document(name)
    for check in (check_header, check_foreign, check_blocks, check_crates, check_decisions, check_width, check_words):
        check()
    kinds = ("documents", "paths", "names", "names beside a path", "links", "sections", "blocks", "crates", "decisions",
             "lines", "files")
    for kind in kinds:
        expect(counts[kind], "docs_test", f"no {kind} were found")
    print("docs_test: " + ", ".join(f"{counts[kind]} {kind}" for kind in kinds))
    if wrong:
        sys.exit("\n".join(wrong) + f"\ndocs_test: {len(wrong)} wrong")


if __name__ == "__main__":
    main()
