"""A second implementation of the answers to lines that docs/MANUAL.md ("Lines") defines. It runs the board of board4004.py.

It implements the commands and these queries: `regs`, `state`, `lamps`, `ram`, `list`, `breaks` and `seq`, and also `count` and `trace`, which run
a copy of the board. Python's TOML parser reads the boards, and assembler.py assembles the programs. This bench rejects only keys, RAM chips
and ROM chips that the board lacks, and assumes that all other lines are valid.
"""

from __future__ import annotations

import re
from collections import Counter
from collections.abc import Callable, Iterable, Iterator

from assembler import ADDRESS_COUNT, CODES_ON_PAIR, CODES_ON_REGISTER, assemble
from board4004 import CODES, TWO_WORDS, Board, line_of

# The conditional jumps.
BRANCHES = ("JCN", "ISZ")
# The places whose value `trace` prints as one word: the pattern of the place, and a function that returns the word.
PLACES: list[tuple[str, Callable[..., str]]] = [
    (r"acc", lambda board: f"{board.acc:X}"),
    (r"cy", lambda board: f"{board.cy}"),
    (r"pc", lambda board: f"{board.pc:03X}"),
    (r"dcl", lambda board: f"{board.dcl}"),
    (r"ret", lambda board: ",".join(f"{address:03X}" for address in board.ret)),
    (r"lamps", lambda board: board.chips.lamp_marks() or "-"),
    (r"src", lambda board: f"{board.chips.rom_src:02X}"),
    (r"rom(\w+)", lambda board, chip: f"{board.chips.levels('rom', chip):X}"),
    (r"ram(\w+)\.(\w+)", lambda board, bank, chip: f"{board.chips.levels('ram', bank, chip):X}"),
    (r"chain(\w+)", lambda board, n: "".join(map(str, board.chips.chains[n])) if n < len(board.chips.chains) else "-"),
    (r"r(\w+)", lambda board, k: f"{board.r[k]:X}"),
    (r"rom\.(\w+)", lambda board, address: f"{board.rom[address]:02X}"),
    (r"ram\.(\w+)\.(\w+)", lambda board, bank, src: f"{board.chips.ram[bank][src]:X}"),
    (r"st\.(\w+)\.(\w+)\.(\w+)", lambda board, bank, high, k: f"{board.chips.status[bank][high][k]:X}"),
]


def parse_number(word: str) -> int:
    """Parses a number in a session line."""
    return int(word, 16 if word.startswith("0x") else 10)


def reader_of(place: str) -> Callable[[Board], str]:
    """Returns a function that reads the value of a place, such as `acc`, or the level of an I/O line."""
    if re.fullmatch(r"(rom|chain)\w+\.\w+|ram\w+\.\w+\.\w+", place):
        line = line_of(place)
        return lambda board: str(board.chips.level(line))
    for pattern, reader in PLACES:
        if match := re.fullmatch(pattern, place):
            numbers = [parse_number(word) for word in match.groups()]
            return lambda board: reader(board, *numbers)
    raise ValueError(place)


def count_instructions(board: Board, limit: int) -> tuple[Counter[int], Counter[int], int, str]:
    """Runs a board for at most `limit` cycles. Returns how often the instruction at each address was executed, how often it jumped, the number of
    cycles, and the reason for the stop."""
    runs: Counter[int] = Counter()
    jumps: Counter[int] = Counter()

    def on_instruction(_cycles: int, address: int) -> None:
        runs[address] += 1
        jumps[address] += board.pc != (address + 2) % ADDRESS_COUNT

    return runs, jumps, *board.run(limit, on_instruction)


def count_answer(board: Board, limit: int) -> list[str]:
    """Returns the answer to `count n`: how often a run would execute the instruction at each address, and how often its JCN and ISZ would jump."""
    runs, jumps, cycles, stop = count_instructions(board.copy(), limit)
    lines = [f"{address:03X} {runs[address]}" + (f" {jumps[address]}" if CODES[board.rom[address]][0] in BRANCHES else "") for address in sorted(runs)]
    return [f"count ran {cycles} {stop} lines {len(lines)}", *lines]


def trace_answer(board: Board, limit: int, places: list[str]) -> list[str]:
    """Returns the answer to `trace n PLACE ..`: the instructions in the next n cycles that would change one of the places, or all instructions if
    no place is given."""
    copy, readers = board.copy(), [reader_of(place) for place in places]
    lines: list[str] = []

    def row_text() -> str:
        return "".join(f" {reader(copy)}" for reader in readers)

    first_row = last_row = row_text()

    def on_instruction(cycles: int, address: int) -> None:
        nonlocal last_row
        row = row_text()
        if not places or row != last_row:
            last_row = row
            lines.append(f"{cycles} {address:03X}{row}")

    cycles, stop = copy.run(limit, on_instruction)
    return [f"trace ran {cycles} {stop} lines {len(lines)}{first_row}", *lines]


def ram_answer(board: Board, bank: int) -> list[str]:
    """Returns the answer to `ram b`."""
    chips = board.chips
    lines = [f"ram {bank} chips {chips.chips.get(bank, 0)}"]
    for chip in range(chips.chips.get(bank, 0)):
        for register in range(4 * chip, 4 * chip + 4):
            characters = "".join(f"{value:X}" for value in chips.ram[bank][16 * register:16 * register + 16])
            lines.append(f"{bank}.{chip}.{register % 4} {characters} " + "".join(f"{value:X}" for value in chips.status[bank][register]))
        lines.append(f"{bank}.{chip} out {chips.ram_latch[bank, chip]:X}")
    return lines


def instruction_text(board: Board, address: int) -> str:
    """Returns an instruction in the format of `list`: address, bytes and text."""
    byte, second_byte = board.rom[address], board.rom[(address + 1) % ADDRESS_COUNT]
    if byte not in CODES:
        return f"{address:03X} {byte:02X}    DB 0x{byte:02X}"
    name, low = CODES[byte]
    page_target = f"0x{(address + 2) % ADDRESS_COUNT & 0xF00 | second_byte:03X}"
    far_target = f" 0x{256 * low + second_byte:03X}"
    operands = {"JCN": f" {low}, {page_target}", "FIM": f" P{low}, 0x{second_byte:02X}", "ISZ": f" R{low}, {page_target}", "JUN": far_target, "JMS": far_target,
                "LDM": f" {low}", "BBL": f" {low}", **{name: f" P{low}" for name in CODES_ON_PAIR},
                **{name: f" R{low}" for name in CODES_ON_REGISTER}}
    return f"{address:03X} {byte:02X} {f'{second_byte:02X}' if name in TWO_WORDS else '  '} {name}{operands.get(name, '')}"


def list_answer(board: Board, address: int, limit: int) -> list[str]:
    """Returns the answer to `list a n`. (A two-word instruction at FFF is not supported.)"""
    lines: list[str] = []
    while address < ADDRESS_COUNT and len(lines) < limit:
        lines.append(instruction_text(board, address))
        address += 2 if CODES.get(board.rom[address], ("", 0))[0] in TWO_WORDS else 1
    return lines


def registers_answer(board: Board, separator: str) -> str:
    """Returns the answer to `regs`, which is also a part of `state`."""
    ret = separator.join(f"{address:03X}" for address in board.ret)
    return (f"acc {board.acc:X} cy {board.cy} pc {board.pc:03X} owed {board.owed} dcl {board.dcl} test {board.test} "
            f"r {''.join(f'{value:X}' for value in board.r)} ret {ret}")


def state_answer(board: Board, seq: int) -> str:
    """Returns the answer to `state`."""
    chips = board.chips
    lists = {
        "banks": [f"{bank}.{chips.bank_src[bank]:02X}" for bank in sorted(chips.chips)],
        "roms": [f"{chip}.{latch:X}.{chips.read_port(chip):X}" for chip, latch in chips.rom_latch.items()],
        "rams": [f"{bank}.{chip}.{latch:X}" for (bank, chip), latch in chips.ram_latch.items()],
        "chains": ["".join(str(bit) for bit in chain) for chain in chips.chains],
        "keys": [f"{row}.{column}" for row, column in sorted(chips.pressed_keys)],
        "lamps": [chips.lamp_marks()] if chips.lamps else [],
        "breaks": [f"{address:03X}" for address in sorted(board.breaks)],
        "watches": [f"{bank}.{src:02X}" for bank, src in sorted(board.watches)],
    }
    list_fields = " ".join(f"{name} {','.join(items) or '-'}" for name, items in lists.items())
    return f"state seq {seq} {registers_answer(board, ',')} src {chips.rom_src:02X} {list_fields}"


class Bench:
    """A session: a board, and the number of accepted commands."""

    def __init__(self) -> None:
        self.board = Board()
        self.seq = 0

    def dialogue(self, script: Iterable[str]) -> Iterator[tuple[str, list[str]]]:
        """Yields each line of a script that has an answer, and the lines of this answer. First yields an empty line with the `session` answer."""
        yield "", [f"session {self.seq}"]
        lines = iter(script)
        for line in lines:
            words = line.split()
            if words and words[0] in ("wire", "asm"):
                yield line, self.answer(words[0], list(iter(lines.__next__, ".")))
            elif words:
                yield line, self.answer(*words)

    def answer(self, command: str, *operands: object) -> list[str]:
        """Returns the lines of the answer to a command or a query. The operands are words, or the lines of a text."""
        if command in QUERIES:
            return QUERIES[command](self, *operands)
        reply = COMMANDS[command](self.board, *operands)
        if reply.startswith("no "):
            return [reply]
        self.seq += 1
        return [f"ok {self.seq}{reply}"]


QUERIES: dict[str, Callable[..., list[str]]] = {
    "seq": lambda bench: [f"seq {bench.seq}"],
    "lamps": lambda bench: [f"lamps {bench.board.chips.lamp_marks() or '-'}"],
    "regs": lambda bench: [registers_answer(bench.board, " ")],
    "breaks": lambda bench: ["breaks " + (" ".join(f"{address:03X}" for address in sorted(bench.board.breaks)) or "-")],
    "list": lambda bench, address, limit: list_answer(bench.board, parse_number(address), parse_number(limit)),
    "state": lambda bench: [state_answer(bench.board, bench.seq)],
    "ram": lambda bench, bank: ram_answer(bench.board, parse_number(bank)),
    "count": lambda bench, limit: count_answer(bench.board, parse_number(limit)),
    "trace": lambda bench, limit, *places: trace_answer(bench.board, parse_number(limit), list(places)),
}


# ---- commands: each returns the words after `ok N`, or the answer `no N` if it rejects the command

def wire(board: Board, text: list[str]) -> str:
    """Replaces the board."""
    board.wire("\n".join(text))
    return ""


def load(board: Board, text: list[str]) -> str:
    """Loads a program into ROM. Rejects a program with bytes for ROM chips that the board does not have."""
    image = assemble(text)[0]
    if any(address >> 8 not in board.chips.masks for address in image):
        return "no 42"
    for address, byte in image.items():
        board.rom[address] = byte
    return f" bytes {len(image)}"


def set_key(board: Board, row: str, column: str, is_down: bool) -> str:
    """Presses or releases a key. Rejects a key that the board does not have."""
    if parse_number(row) >= board.chips.keys["rows"] or parse_number(column) >= len(board.chips.columns):
        return "no 41"
    (board.chips.pressed_keys.add if is_down else board.chips.pressed_keys.discard)((parse_number(row), parse_number(column)))
    return ""


def set_membership(items: set, item: object, is_member: bool) -> str:
    """Adds or removes an item of a set (a breakpoint or a watch)."""
    (items.add if is_member else items.discard)(item)
    return ""


def power_cycle(board: Board) -> str:
    """Switches the board off and on, as `reset` does."""
    board.power_on()
    return ""


def set_test(board: Board, level: str) -> str:
    """Sets the TEST pin."""
    board.test = parse_number(level)
    return ""


def poke(board: Board, place: str, value_text: str) -> str:
    """Sets the value of a register or of a memory cell, which `place` names. Rejects a cell in a ROM or RAM chip that the board does not have."""
    kind, *words = place.split(".")
    numbers, value = [parse_number(word) for word in words], parse_number(value_text)
    if kind == "rom":
        if numbers[0] >> 8 not in board.chips.masks:
            return "no 42"
        board.rom[numbers[0]] = value
    elif kind in ("ram", "st"):
        bank, src = numbers[0], numbers[1] if kind == "ram" else 16 * numbers[1]
        if not board.chips.has_ram(bank, src):
            return "no 43"
        if kind == "ram":
            board.chips.write_nibble(bank, src, value)
        else:
            board.chips.write_status(bank, numbers[1], numbers[2], value)
    elif kind in ("acc", "cy", "pc", "dcl"):
        setattr(board, kind, value)
    else:
        board.r[parse_number(kind[1:])] = value
    return ""


def run_answer(cycles_and_stop: tuple[int, str]) -> str:
    """Returns the words that follow `ok N` in the answer to a run or a step. Gets the number of cycles, and the reason for the stop."""
    return " ran {} {}".format(*cycles_and_stop)


COMMANDS: dict[str, Callable[..., str]] = {
    "wire": wire,
    "asm": load,
    "press": lambda board, row, column: set_key(board, row, column, True),
    "release": lambda board, row, column: set_key(board, row, column, False),
    "run": lambda board, limit: run_answer(board.run(parse_number(limit))),
    "step": lambda board: run_answer(board.step()),
    "poke": poke,
    "test": set_test,
    "reset": power_cycle,
    "break": lambda board, address: set_membership(board.breaks, parse_number(address), True),
    "unbreak": lambda board, address: set_membership(board.breaks, parse_number(address), False),
    "watch": lambda board, bank, src: set_membership(board.watches, (parse_number(bank), parse_number(src)), True),
    "unwatch": lambda board, bank, src: set_membership(board.watches, (parse_number(bank), parse_number(src)), False),
}
