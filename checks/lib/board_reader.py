"""A second parser of board texts, written only from the manual's chapter about boards. It finds the first error, and the part of the text that
contains the error. It shares no code with the bench."""

import re
import tomllib

SECTIONS = ("rom", "ram", "chain", "keys", "lamp")
MAX_TABLES = {"rom": 16, "ram": 8, "chain": 4, "lamp": 64}
MAX_COLUMNS = 8
BITS_PER_CHIP = 10
# The TOML keys whose values must be unique within a section.
UNIQUE_KEYS = {"rom": "chip", "ram": "bank"}


def is_within(first, last):
    """Returns a function that returns true for integers from `first` to `last`."""
    return lambda value: type(value) is int and first <= value <= last


def numbers_of(name):
    """Returns the kind and the numbers in the name of an I/O line, or None if `name` is not such a name."""
    if not isinstance(name, str):
        return None
    match = re.fullmatch(r"(rom|ram|chain)(0|[1-9]\d?)\.(0|[1-9]\d?)(?:\.(0|[1-9]))?", name, re.ASCII)
    if not match:
        return None
    kind, *numbers = match.groups()
    numbers = [int(number) for number in numbers if number is not None]
    maxima = {"rom": [15, 3], "ram": [7, 3, 3], "chain": [3, 79]}[kind]
    is_line = len(numbers) == len(maxima) and all(number <= maximum for number, maximum in zip(numbers, maxima))
    return (kind, *numbers) if is_line else None


def is_line(value):
    """Returns true if a value is the name of an I/O line."""
    return numbers_of(value) is not None


# The TOML keys that each section's tables must have, in the manual's order, each with a function that tests its value.
KEYS_OF_SECTIONS = {
    "rom": {"chip": is_within(0, 15), "port": lambda value: isinstance(value, str) and re.fullmatch("[i01]{4}", value, re.ASCII) is not None},
    "ram": {"bank": is_within(0, 7), "chips": is_within(1, 4)},
    "chain": {"clock": is_line, "data": is_line, "chips": is_within(1, 8)},
    "keys": {"chain": is_within(0, 3), "first": is_within(0, 79), "rows": is_within(1, 10),
             "columns": lambda value: isinstance(value, list) and value != [] and all(map(is_line, value))},
    "lamp": {"line": is_line},
}


def longest_valid_prefix(lines, count):
    """Returns the number of lines in the longest prefix (up to `count` lines) that is valid TOML, and the prefix's contents."""
    while True:
        try:
            return count, tomllib.loads("".join(f"{line}\n" for line in lines[:count]))
        except tomllib.TOMLDecodeError as error:
            position = re.search(r"at line (\d+)", str(error))
            count = min(count - 1, int(position[1]) if position else count)


def tables_of(document):
    """Yields each section's tables, with the section's name and the table's number from 1 (0 for the key matrix)."""
    for section in SECTIONS:
        section_tables = document.get(section, [])
        section_tables = [section_tables] if section == "keys" and "keys" in document else section_tables if isinstance(section_tables, list) else []
        for index, table in enumerate(section_tables, 1):
            yield section, 0 if section == "keys" else index, table


class ParsedBoard:
    """A board text that is valid TOML, with methods that find its first invalid part."""

    def __init__(self, document):
        self.document = document
        self.tables = list(tables_of(document))

    def first_error(self):
        """Returns the first error: its number, the section, the number of the table, and the key. Uses "" for no section, 0 for no table, and None
        for no key. Returns None if the board is valid."""
        for find_errors in (self.unknown_key_errors, self.missing_key_errors, self.value_errors, self.excess_errors, self.repetition_errors):
            for part in find_errors():
                return part
        line_errors = list(self.line_errors())
        return next((part for number in (25, 26) for part in line_errors if part[0] == number), None)

    def unknown_key_errors(self):
        """Yields error 21 for each unknown TOML key."""
        for key in sorted(self.document):
            if key not in SECTIONS:
                yield 21, "", 0, key
        for section, index, table in self.tables:
            if isinstance(table, dict):
                for key in sorted(table):
                    if key not in KEYS_OF_SECTIONS[section]:
                        yield 21, section, index, key

    def missing_key_errors(self):
        """Yields error 22 for each missing TOML key."""
        for section, index, table in self.tables:
            if isinstance(table, dict):
                for key in KEYS_OF_SECTIONS[section]:
                    if key not in table:
                        yield 22, section, index, key

    def value_errors(self):
        """Yields error 23 for each invalid value."""
        for section in SECTIONS:
            if section != "keys" and not isinstance(self.document.get(section, []), list):
                yield 23, section, 0, None
        for section, index, table in self.tables:
            if not isinstance(table, dict):
                yield 23, section, index, None
                continue
            for key, is_valid in KEYS_OF_SECTIONS[section].items():
                if not is_valid(table[key]):
                    yield 23, section, index, key

    def excess_errors(self):
        """Yields error 27 for each section with too many tables, and for too many columns of the key matrix."""
        for section in SECTIONS:
            tables = [table for kind, _index, table in self.tables if kind == section]
            if section in MAX_TABLES and len(tables) > MAX_TABLES[section]:
                yield 27, section, MAX_TABLES[section] + 1, None
            if section == "keys" and any(len(table["columns"]) > MAX_COLUMNS for table in tables):
                yield 27, "keys", 0, "columns"

    def repetition_errors(self):
        """Yields error 24 for each chip or bank number that occurs again."""
        for section, key in UNIQUE_KEYS.items():
            seen = set()
            for _section, index, table in (entry for entry in self.tables if entry[0] == section):
                if table[key] in seen:
                    yield 24, section, index, key
                seen.add(table[key])

    def direction(self, name):
        """Returns `i` for an input line, `o` for an output line, and `b` for a bit of a chain. Returns None if the board does not have the line."""
        kind, number, *other_numbers = numbers_of(name)
        for section, index, table in self.tables:
            if section == kind == "rom" and table["chip"] == number:
                return "i" if table["port"][3 - other_numbers[0]] == "i" else "o"
            if section == kind == "ram" and table["bank"] == number and other_numbers[0] < table["chips"]:
                return "o"
            if section == kind == "chain" and index == number + 1 and other_numbers[0] < BITS_PER_CHIP * table["chips"]:
                return "b"
        return None

    def line_errors(self):
        """Yields errors 25 and 26: I/O lines that the board lacks, and I/O lines with the wrong direction."""
        chips = [table["chips"] for section, _index, table in self.tables if section == "chain"]
        for section, index, table in self.tables:
            if section == "chain":
                for key in ("clock", "data"):
                    yield from self.errors_of_lines(section, index, key, [table[key]], "o")
            if section == "keys":
                if table["chain"] >= len(chips):
                    yield 25, "keys", 0, "chain"
                elif table["first"] + table["rows"] > BITS_PER_CHIP * chips[table["chain"]]:
                    yield 25, "keys", 0, "rows"
                yield from self.errors_of_lines("keys", 0, "columns", table["columns"], "i")
            if section == "lamp":
                yield from self.errors_of_lines(section, index, "line", [table["line"]], "ob")

    def errors_of_lines(self, section, index, key, names, allowed):
        """Yields the errors of the I/O lines that a TOML key names. `allowed` contains the directions that these lines can have."""
        directions = [self.direction(name) for name in names]
        if None in directions:
            yield 25, section, index, key
        if any(direction is not None and direction not in allowed for direction in directions):
            yield 26, section, index, key


def has_part(document, section, index, key):
    """Returns true if a board's text has this table, or this key at the top level if `section` is empty."""
    if section == "":
        return key in document
    return section in document and (index <= 1 or not isinstance(document[section], list) or len(document[section]) >= index)


def line_of(lines, part):
    """Returns the number of lines in the shortest prefix of the text that is valid TOML and contains a part. `part` describes this part as
    `ParsedBoard.first_error` does."""
    _number, section, index, key = part
    too_short_count, sufficient_count = 0, len(lines)
    while sufficient_count - too_short_count > 1:
        middle = (too_short_count + sufficient_count) // 2
        count, document = longest_valid_prefix(lines[:middle], middle)
        if has_part(document, section, index, key):
            sufficient_count = count
        else:
            too_short_count = middle
    return sufficient_count


def wiring_answer(lines):
    """Returns the answer to `wiring` for a board's text."""
    count, document = longest_valid_prefix(lines, len(lines))
    if count < len(lines):
        return f"no 20 line {count + 1}"
    error = ParsedBoard(document).first_error()
    if error is None:
        return "wiring valid"
    number, section, index, key = error
    answer_words = [f"no {number} line {line_of(lines, error)}"]
    answer_words += [section] if section else []
    answer_words += [str(index)] if index else []
    answer_words += [] if key is None else [f"key {key if re.fullmatch('[A-Za-z0-9_-]+', key) else '?'}"]
    return " ".join(answer_words)
