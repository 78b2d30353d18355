#!/usr/bin/env python3
"""Finds the public interface of the crates: types with their public fields and variants, constants, and functions with the types of their parameters.
`checks/lib/public_calls.py CRATE..` prints the interface of crates, in the format of public_calls.txt. That file lists the part of the interface that
must not change. checks/documents compares it with the sources.
"""

import functools
import pathlib
import re
import sys

TOP = pathlib.Path(__file__).resolve().parent.parent.parent
LIST_FILE = TOP / "checks/lib/public_calls.txt"
# Matches the end of a function's signature: a clause, the body, or a semicolon.
SIGNATURE_END = re.compile(r"^\s*(?:requires|ensures|ghost|decreases)\b|[{;]\s*$")


def without_comments(text):
    """Returns a source without comments, attributes and tests."""
    text = re.sub(r"#\[cfg\(test\)\]\nmod \w+;\n", "", text)
    return re.sub(r"^\s*(?://.*|#!?\[.*\])\n", "", text, flags=re.M)


def parts_of(text):
    """Returns the parts of a list, split at the commas outside brackets."""
    depth, parts, part = 0, [], ""
    for previous, char in zip(" " + text, text):
        # The `>` of an arrow does not close a bracket.
        depth += (char in "([{<") - (char in ")]}" or (char == ">" and previous != "-"))
        if char == "," and depth == 0:
            parts, part = [*parts, part], ""
        else:
            part += char
    return [item.strip() for item in [*parts, part] if item.strip()]


def type_of(parameter):
    """Returns the type of a parameter, without its name."""
    return parameter if re.match(r"(?:&(?:'\w+ )?)?(?:mut )?self$", parameter) else parameter.split(": ", 1)[1]


def call_of(signature):
    """Converts a function's signature to the format of public_calls.txt: the name, the types of the parameters, and the type of the result."""
    signature = re.sub(r"\s+", " ", signature).strip()
    name, _, parameters_and_result = re.sub(r"^(?:pub )?(?:const )?fn ", "", signature).partition("(")
    prefixes = (parameters_and_result[:length] for length in range(1, len(parameters_and_result) + 1))
    end = next(len(prefix) - 1 for prefix in prefixes if prefix.count(")") > prefix.count("("))
    return f"{name}({', '.join(type_of(parameter) for parameter in parts_of(parameters_and_result[:end]))}){parameters_and_result[end + 1:]}"


def signature_at(lines, index):
    """Returns the signature of the function that begins at a line."""
    signature_lines = []
    for line in lines[index:]:
        end = SIGNATURE_END.search(line)
        if end and not re.match(r"^\s*(?:requires|ensures|ghost|decreases)\b", line):
            signature_lines.append(line[:end.start()])
        if end:
            break
        signature_lines.append(line)
    return " ".join(signature_lines)


def block_at(lines, index):
    """Returns the lines of the block that begins at a line without indentation."""
    return lines[index + 1:next(end for end in range(index, len(lines)) if lines[end].startswith("}"))]


def calls_in(lines, index, pattern):
    """Returns the functions in a block. `pattern` matches the words before `fn`."""
    block = block_at(lines, index)
    return [call_of(signature_at(block, number)) for number, line in enumerate(block) if re.match(rf"    {pattern}fn ", line)]


def fields_of(lines, index):
    """Returns the variants of an enum, or the public fields of a struct."""
    if lines[index].endswith(";"):
        # A struct whose fields have no names has all of them on its first line.
        return [lines[index][lines[index].index("("):-1]] if "(" in lines[index] else []
    body = re.sub(r"\s+", " ", " ".join(block_at(lines, index)))
    return [part.removeprefix("pub ") for part in parts_of(body) if " enum " in f" {lines[index]} " or part.startswith("pub ")]


@functools.cache
def declarations_of_file(path):
    """Returns the public declarations in a file, as pairs: the name of the item, and its line in public_calls.txt."""
    lines = without_comments(path.read_text()).splitlines()
    declarations = []
    for index, line in enumerate(lines):
        if match := re.match(r"pub (?:enum|struct) (\w+)", line):
            fields = fields_of(lines, index)
            signature = re.sub(r"\s+", " ", signature_at(lines, index)).partition("(")[0].partition(" where ")[0].strip().removeprefix("pub ")
            declarations.append((match[1], signature + (": " + ", ".join(fields) if fields else "")))
        elif match := re.match(r"pub (?:const|type) (\w+)", line):
            declarations.append((match[1], re.sub(r"\s+", " ", signature_at(lines, index)).removeprefix("pub ").strip()))
        elif match := re.match(r"pub trait (\w+)", line):
            declarations += [(match[1], f"{match[1]}::{call}") for call in calls_in(lines, index, "")]
        elif match := re.match(r"impl(?:<.*?>)? (?:(\w+)(?:<.*>)? for )?(\w+)", line):
            if match[1]:
                declarations.append((match[2], f"impl {match[1]} for {match[2]}"))
            else:
                declarations += [(match[2], f"{match[2]}::{call}") for call in calls_in(lines, index, "pub (?:const )?")]
        elif match := re.match(r"pub (?:const )?fn (\w+)", line):
            declarations.append((match[1], call_of(signature_at(lines, index))))
    return declarations


def reexported_names(text):
    """Yields the first word of the path and the name of each item that a crate's root file re-exports with `pub use`."""
    for path, names in re.findall(r"^pub use ((?:\w+::)*)(\{[^}]*\}|\w+);", text, re.M):
        for name in re.findall(r"\w+", names):
            yield path.partition("::")[0], name


def calls_of(crate):
    """Yields the public interface of a crate, line by line."""
    source = TOP / "crates" / crate / "src"
    text = without_comments((source / "lib.rt").read_text())
    public_modules = set(re.findall(r"^pub mod (\w+);", text, re.M)) | {"lib"}
    reexports = set(reexported_names(text))
    names = {name for _, name in reexports}
    for path in sorted(source.rglob("*.rt")):
        yield from (line for name, line in declarations_of_file(path) if path.stem in public_modules or name in names)
    yield from (f"use {name}" for first_word, name in reexports if not (source / f"{first_word}.rt").exists())


def listed_calls():
    """Reads public_calls.txt. Returns the lines of each crate by its name."""
    crates = {}
    for line in LIST_FILE.read_text().splitlines():
        if line.startswith("    "):
            lines.append(line.strip())
        elif line and not line.startswith("#"):
            lines = crates.setdefault(line, [])
    return crates


def missing_calls():
    """Yields the crate and the line for each line of public_calls.txt that is no longer in the crate's interface."""
    for crate, lines in listed_calls().items():
        current_calls = set(calls_of(crate))
        yield from ((crate, line) for line in lines if line not in current_calls)


if __name__ == "__main__":
    for crate_name in sys.argv[1:]:
        print(crate_name)
        for line in calls_of(crate_name):
            print(f"    {line}")
