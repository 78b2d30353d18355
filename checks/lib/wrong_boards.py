"""Random texts of boards with errors, reproducible from a seed. Most have an error in one part, and some are not TOML."""

import random

from board_spellings import TEXT_ENDS, EQUAL_SIGNS, KINDS, RawValue, seeded_board, random_tables_text

# Invalid values for each TOML key. (The values in INVALID_VALUES are invalid for every key.)
INVALID_VALUES_BY_KEY = {
    "chip": [16, -1, 99], "port": ["000", "00000", "iii2", "IIII", "o000"], "bank": [8, -1], "chips": [0, 9, 5], "clock": ["chain0.0", "rom00.1"],
    "data": ["ram0.4.0", "rom0"], "chain": [4, -1], "first": [80, -1], "rows": [0, 11], "line": ["rom16.0", "chain4.0", "ram8.0.0", "led"],
    "columns": [[], ["rom0.4"], ["chain0.0"], ["ram0.0.0"]],
}
INVALID_VALUES = [RawValue(text) for text in ("1.0", "true", "inf", "{}", "{ a = 1 }", "[[]]", "1979-05-27", '"1"', "[1]", '["a"]')]
UNKNOWN_KEYS = ["lamps", "chip", "bank", "line", "port", "x", "Rom", "a-b", "a b", "", "a.b", "_1"]
CHARACTERS = "\"'[]{}=.,#\\ \t0123456789abcdeiorxINF_-+:"


def random_line_name(rng, tables):
    """Returns the name of an I/O line. Usually the board has the chip or the chain of this line."""
    present_chips = [table.get("chip") for table in tables["rom"]] if rng.random() < 0.7 else []
    chip = rng.choice([*present_chips, rng.randrange(16)])
    return rng.choice([f"rom{chip}.{rng.randrange(4)}", f"rom{chip}.{rng.randrange(4)}", f"chain0.{rng.randrange(20)}",
                          f"ram{rng.randrange(8)}.{rng.randrange(4)}.{rng.randrange(4)}", f"chain{rng.randrange(4)}.{rng.randrange(80)}"])


def random_table(rng, tables):
    """Returns one of the tables at random, or None if there is none."""
    section = rng.choice([kind for kind in KINDS if tables[kind]] or [None])
    return rng.choice(tables[section]) if section else None


def remove_key(rng, tables):
    """Removes a key from one of the tables."""
    if table := random_table(rng, tables):
        table.pop(rng.choice(list(table)), None)


def add_key(rng, tables):
    """Adds a key to one of the tables. The key is usually unknown, or belongs to another kind of table."""
    if table := random_table(rng, tables):
        table[rng.choice(UNKNOWN_KEYS)] = rng.choice([1, "a", INVALID_VALUES[0]])


def set_invalid_value(rng, tables):
    """Chooses one of the tables and one of its TOML keys. If invalid values are known for this key, sets it to one of them."""
    if (table := random_table(rng, tables)) and (key := rng.choice([*table])) in INVALID_VALUES_BY_KEY:
        table[key] = rng.choice([*INVALID_VALUES_BY_KEY[key], rng.choice(INVALID_VALUES)])


def replace_line(rng, tables):
    """Replaces the name of an I/O line with another one. The board may lack the new line, or the new line may have the wrong direction."""
    if table := random_table(rng, tables):
        for key in {"clock", "data", "line"} & {*table}:
            table[key] = random_line_name(rng, tables)
        if "columns" in table:
            table["columns"] = [*table["columns"][:rng.randrange(8)], random_line_name(rng, tables)] if isinstance(table["columns"], list) else []


def remove_table(rng, tables):
    """Removes the first table of a random kind."""
    kind = rng.choice(KINDS)
    tables[kind] = tables[kind][1:]


def repeat_table(rng, tables):
    """Adds a copy of a ROM, RAM or chain table."""
    kind = rng.choice(KINDS[:3])
    if tables[kind]:
        tables[kind].append(dict(rng.choice(tables[kind])))


def exceed_limit(rng, tables):
    """Adds too many tables of one kind, or too many columns of keys."""
    kind = rng.choice(["rom", "ram", "chain", "lamp", "keys"])
    if kind == "keys" and tables["keys"]:
        columns = tables["keys"][0].get("columns", [])
        tables["keys"][0]["columns"] = (columns if isinstance(columns, list) else []) * 9
    elif kind != "keys" and tables[kind]:
        tables[kind] += [dict(tables[kind][0]) for _n in range({"rom": 17, "ram": 9, "chain": 5, "lamp": 65}[kind] - len(tables[kind]))]


def move_keys(rng, tables):
    """Sets the chain, the first bit or the number of rows of the keys to another value."""
    if tables["keys"]:
        tables["keys"][0][rng.choice(["chain", "first", "rows"])] = rng.choice([0, 1, 3, 9, 10, 70, 79])


CHANGES = (remove_key, add_key, set_invalid_value, set_invalid_value, replace_line, replace_line, remove_table, repeat_table, exceed_limit, move_keys)


def spoil_text(rng, text):
    """Returns `text` with characters added, removed or replaced, with a line added or removed, or without its end."""
    for _n in range(rng.choice([1, 1, 2, 5])):
        index = rng.randrange(len(text) + 1)
        lines = text.split("\n")
        row = rng.randrange(len(lines))
        text = rng.choice([
            text[:index] + rng.choice(CHARACTERS) + text[index:], text[:index] + text[index + 1:],
            text[:index] + rng.choice(CHARACTERS) + text[index + 1:],
            text[:index], "\n".join(lines[:row] + lines[row + 1:]), "\n".join(lines[:row] + lines[row:row + 1] * 2 + lines[row + 1:]),
        ])
    return text


def random_top_line(rng):
    """Returns a line to insert at the top of a board's text. The line is usually an error there."""
    section, value = rng.choice([*KINDS, *UNKNOWN_KEYS[:6]]), rng.choice(["1", "[1]", "[{}, 2]", "{}", "{ chip = 1 }", '"a"', "[\n]"])
    return f"{section}{rng.choice(EQUAL_SIGNS)}{value}{rng.choice(TEXT_ENDS)}"


def board_with_errors(number):
    """Returns the lines of a random board's text, usually with an error in it. `number` is the seed."""
    rng = random.Random(number)
    board = seeded_board(rng)
    tables = {section: [dict(table) for kind, table in board.tables() if kind == section] for section in KINDS}
    tables["lamp"] = tables["lamp"][:rng.choice([1, 4, 12])]
    tables["rom"] = tables["rom"] if rng.random() < 0.3 else tables["rom"][-6:]
    for _n in range(rng.choice([1, 1, 1, 2, 4])):
        rng.choice(CHANGES)(rng, tables)
    text = random_tables_text(rng, tables)
    if rng.random() < 0.1:
        text = random_top_line(rng) + text
    if rng.random() < 0.25:
        text = spoil_text(rng, text)
    return text.split("\n")
