"""Extracts the tables for the page's help. docs/MANUAL.md has the tables about the bench, and page/help.md the tables about the page."""

import pathlib
import re

PAGE = pathlib.Path(__file__).resolve().parent
# The titles of the sections that have these tables, in the order of the help.
SECTIONS = ("The 45 instructions", "The form of a program", "The sixteen conditions of JCN", "The TOML keys", "The names of lines",
            "The front panel of a board", "Commands", "Places", "Queries", "The keyboard", "What the cells show",
            "Conditions", "The lines of a test", "Inputs", "Properties")


def section_of(manual, title):
    """Returns the text below a heading, up to the next heading."""
    match = re.search(rf"^#+ {re.escape(title)}\n(.*?)(?=^#|\Z)", manual, re.M | re.S)
    if match is None:
        raise ValueError(f"neither docs/MANUAL.md nor page/help.md has a section '{title}'")
    return match.group(1)


def cells_of(line):
    """Returns the cells of a row. In a cell, a backslash and a bar stand for a bar."""
    return [cell.strip().replace("\\|", "|") for cell in re.split(r"(?<!\\)\|", line.strip()[1:-1])]


def tables_of(section):
    """Returns the caption, head and rows of each table in a section. The caption is the bold line before the table; "" if there is none."""
    tables = []
    caption = ""
    rows = []
    for line in [*section.splitlines(), ""]:
        if line.startswith("|"):
            rows.append(cells_of(line))
            continue
        if rows:
            tables.append({"caption": caption, "head": rows[0], "rows": rows[2:]})
            rows, caption = [], ""
        bold_match = re.fullmatch(r"\*\*(.+)\*\*", line)
        caption = bold_match.group(1) if bold_match else caption
    return tables


def manual_tables():
    """Returns the sections, each with its tables."""
    manual = (PAGE.parent / "docs/MANUAL.md").read_text() + (PAGE / "help.md").read_text()
    return [{"title": title, "tables": tables_of(section_of(manual, title))} for title in SECTIONS]
