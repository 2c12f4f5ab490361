#!/usr/bin/env python3
"""A function and the definition that it is proved equal to have the same words, or differ as docs/CHANGING.md says.

Looks at each contract that equates the result with a definition, and at the names of both. Needs nothing but Python.
"""

import pathlib
import re
import sys

ROOT = pathlib.Path(__file__).resolve().parents[1]

# The function is the verb, the definition its participle.
VERBS = {
    "compute": "computed",
    "decode": "decoded",
    "divide": "divided",
    "divide_words": "words_divided",
    "load": "loaded",
    "locate": "located",
    "sign_extend": "sign_extended",
}

# Contracts that are an expression, by the name with which it begins.
EXPRESSIONS = {
    "a", "funct3", "get_or", "look_up", "low_bits", "self", "set", "sign_bit", "sources_unmasked", "with_registers",
    "words",
}

# One of several functions with one contract, and contracts of several clauses.
OTHERS = {
    ("load_value_as", "load_value"),
    ("arithmetic_shift_word", "sign_extended"),
    ("immediate", "Operation"),
    ("store", "store_answer"),
    ("put", "store_answer"),
    ("new", "tally"),
}

FUNCTION = re.compile(
    r"^impl(?:<[^>]*>)? (?P<type>\w+)|\bfn (?P<name>\w+)[^{]*?\n\s+ensures(?: \w+)? \{ (?P<clause>.*?) \}$",
    re.S | re.M)


def words(name):
    """The words of a name, of a type or a case too."""
    return re.sub(r"([A-Z])", r"_\1", name).lower().strip("_").split("_")


def agree(function, definition, of_type):
    """Whether the two names are a pair of docs/CHANGING.md."""
    if words(function) == words(definition) or VERBS.get(function) == definition:
        return True
    if of_type is None:
        return False
    added = set(words(definition)) - set(words(function))
    return added <= {"of", *words(of_type)} and (function == "of" or set(words(function)) <= set(words(definition)))


def pairs(path):
    """Each function whose contract is `result ≡ definition ..`, with that definition and the type it is a method of."""
    of_type = None
    for found in FUNCTION.finditer(path.read_text()):
        if found["type"]:
            of_type = found["type"]
            continue
        clause = re.sub(r"^\(?(let .*? in )*", "", " ".join(found["clause"].split()))
        equation = re.match(r"result ≡ (?:\w+\.)?(\w+)", clause)
        exported = re.match(r"(?:Replies|Leaves) \((\w+)", clause)
        name = found["name"].removeprefix("simplev_")
        if equation:
            yield name, equation[1], of_type
        elif exported and name != found["name"]:
            yield name, exported[1], None


def main():
    count, wrong = 0, []
    for path in sorted((ROOT / "crates").glob("*/src/*.rt")):
        for function, definition, of_type in pairs(path):
            count += 1
            if definition in EXPRESSIONS or (function, definition) in OTHERS:
                continue
            if not agree(function, definition, of_type):
                wrong.append(f"{path.relative_to(ROOT)}: `{function}` is proved equal to `{definition}`")
    if count < 100:
        wrong.append(f"only {count} contracts were found")
    if wrong:
        sys.exit("names_test: names that differ\n" + "\n".join(wrong))
    print(f"names_test: {count} functions have the words of their definitions")


if __name__ == "__main__":
    main()
