"""Seeded random boards, and their texts in the many spellings that TOML allows."""

import re

from session_file import Board, chain_line, ram_line, rom_line

KINDS = ("rom", "ram", "chain", "keys", "lamp")
EQUAL_SIGNS = (" = ", " = ", "=", "\t= ")
TEXT_ENDS = ("\n", "\n", "\n\n", " # one\n", "\t\n# one more\n")


class RawValue:
    """A TOML value that is always written in the same way."""

    def __init__(self, text):
        self.text = text


def seeded_board(rng):
    """Returns a random board: any ROM chips and banks, up to four chains, up to 64 lamps, and usually keys if the board has lines for them."""
    density = rng.choice([0, 0.5, 0.5, 0.5, 1])
    roms = {chip: "".join(rng.choices("i01", k=4)) for chip in range(16) if rng.random() < density}
    banks = {bank: chips for bank in range(8) if density and (chips := rng.randrange(5))}
    # The first character of a port's text is for line 3.
    lines = [(rom_line(chip, 3 - index), mark) for chip, port in roms.items() for index, mark in enumerate(port)]
    inputs = [line for line, mark in lines if mark == "i"]
    outputs = [line for line, mark in lines if mark != "i"]
    outputs += [ram_line(bank, chip, line) for bank, chips in banks.items() for chip in range(chips) for line in range(4)]
    chains = [(rng.choice(outputs), rng.choice(outputs), rng.randrange(1, 9)) for _n in range(rng.randrange(5)) if outputs]
    bits = [chain_line(n, bit) for n, (_clock, _data, chips) in enumerate(chains) for bit in range(10 * chips)]
    keys = None
    if chains and inputs and rng.random() < 0.8:
        chain, rows = rng.randrange(len(chains)), rng.randrange(1, 11)
        first = rng.randrange(10 * chains[chain][2] - rows + 1)
        keys = (chain, first, rows, rng.choices(inputs, k=rng.randrange(1, 9)))
    lamps = [rng.choice(outputs + bits) for _n in range(rng.randrange(65)) if outputs]
    return Board(roms, banks, chains, keys, lamps)


def key_text(rng, key):
    """Returns a key with or without quotes."""
    plain = key if re.fullmatch("[A-Za-z0-9_-]+", key) else f'"{key}"'
    return rng.choice([plain, plain, f'"{key}"', f"'{key}'"])


def value_text(rng, value):
    """Returns the text of a value: a number in any base, a string in any quotes, or a list of strings on one or more lines."""
    if isinstance(value, RawValue) or isinstance(value, int) and value < 0:
        return value.text if isinstance(value, RawValue) else str(value)
    if isinstance(value, list):
        texts = [value_text(rng, item) for item in value]
        return rng.choice([f"[{', '.join(texts)}]", f"[ {','.join(texts)}, ]", "[ # some\n  {}\n]".format(",\n\t".join(texts))])
    if isinstance(value, str):
        index = rng.randrange(len(value))
        escaped = f"{value[:index]}\\u{ord(value[index]):04X}{value[index + 1:]}"
        return rng.choice([f'"{value}"', f"'{value}'", f'"{escaped}"', f'"""{value}"""', f"'''{value}'''"])
    return rng.choice([f"{value}", f"+{value}", f"0x{value:X}", f"0x{value:03x}", f"0o{value:o}", f"0b{value:b}", "_".join(str(value))])


def pairs_of(rng, table, prefix=""):
    """Returns a table's `KEY = VALUE` strings in random order, each with a prefix."""
    items = list(table.items())
    rng.shuffle(items)
    return [f"{prefix}{key_text(rng, key)}{rng.choice(EQUAL_SIGNS)}{value_text(rng, value)}" for key, value in items]


def inline_table(rng, table):
    """Returns an inline table. Only its lists can span several lines."""
    return f"{{ {', '.join(pairs_of(rng, table))} }}"


def top_lines(rng, section, tables):
    """Returns the lines that define a section's tables at the top of the text, before the first header."""
    key = key_text(rng, section)
    if section != "keys":
        rows = [f"  {inline_table(rng, table)},\n" for table in tables]
        return [f"{key} = [\n{''.join(rows)}]" if rows else f"{key} = []"]
    if rng.random() < 0.5:
        return [f"{key} = {inline_table(rng, table)}" for table in tables]
    return [line for table in tables for line in pairs_of(rng, table, f"{key}.")]


def lines_under_header(rng, section, table):
    """Returns the lines of a table under its header."""
    key = key_text(rng, section)
    return [f"[{key}]" if section == "keys" else f"[[{key}]]", *pairs_of(rng, table)]


def random_board_text(rng, board):
    """Returns a random text for a board. ROM chips, banks and the kinds of tables are in random order. Chains and lamps keep their order, because
    their position is their number.
    """
    tables = {section: [table for kind, table in board.tables() if kind == section] for section in KINDS}
    rng.shuffle(tables["rom"])
    rng.shuffle(tables["ram"])
    return random_tables_text(rng, tables)


def random_tables_text(rng, tables):
    """Returns the text of a board in random spelling. `tables` has the tables of each kind."""
    kinds = rng.sample(KINDS, len(KINDS))
    under_headers = [section for section in kinds if rng.random() < 0.5]
    lines = [line for section in kinds if section not in under_headers for line in top_lines(rng, section, tables[section])]
    order = [section for section in under_headers for _table in tables[section]]
    rng.shuffle(order)
    for section in order:
        lines += lines_under_header(rng, section, tables[section].pop(0))
    return "".join(line + rng.choice(TEXT_ENDS) for line in lines)
