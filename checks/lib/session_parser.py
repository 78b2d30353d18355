"""A second parser of session files, written only from docs/FORMAT.md. It parses the bytes of states and commands. bench4004.py then executes the
commands and answers lines.
"""

import re

import bench4004
from session_file import MAX_CYCLES, FORMAT_NAME, FILE_BYTES, Board, State, read

MAX_COMMANDS = 2**32 - 1
# The maximum numbers of chains, and of chips in a chain, by version.
MAX_CHAINS = {1: 2, 2: 4}
MAX_CHIPS = {1: 4, 2: 8}
# The places that `poke` sets, by their numbers in a record: the format of each, the maxima of the numbers in it, and the maximum of its value.
POKE_PLACES = (("acc", 15), ("cy", 1), ("pc", 4095), ("r{}", 15, 15), ("dcl", 7), ("rom.{}", 4095, 255), ("ram.{}.{}", 7, 255, 15),
          ("st.{}.{}.{}", 7, 15, 3, 15))
# The other commands whose operands are all numbers, by the first byte of their record, each with the maxima of its operands.
NUMERIC_COMMANDS = {3: ("press", 255, 255), 4: ("release", 255, 255), 5: ("run", 2**32 - 1), 6: ("step",), 8: ("test", 1), 9: ("reset",),
            10: ("break", 4095), 11: ("unbreak", 4095), 12: ("watch", 7, 255), 13: ("unwatch", 7, 255)}


class RejectedFile(Exception):
    """The error for a file that the program must reject, with its number."""


def require(condition):
    """Raises the error about a damaged file if a condition is false."""
    if not condition:
        raise RejectedFile(51)


class Reader:
    """Reads numbers and bytes from data, one after another. Rejects the file if the data ends too early, or if a number is too large."""

    def __init__(self, data):
        self.data, self.offset = bytes(data), 0

    def read_bytes(self, count):
        """Reads `count` bytes."""
        self.offset += count
        require(self.offset <= len(self.data))
        return self.data[self.offset - count:self.offset]

    def read_numbers(self, count, maximum):
        """Reads `count` numbers of one byte each. None may be larger than `maximum`."""
        values = self.read_bytes(count)
        require(all(byte <= maximum for byte in {*values}))
        return bytearray(values)

    def read_number(self, maximum):
        """Reads a number of 1, 2 or 4 bytes, depending on its maximum."""
        value = int.from_bytes(self.read_bytes(1 if maximum < 256 else 2 if maximum < 65536 else 4), "big")
        require(value <= maximum)
        return value

    def expect_end(self):
        """Rejects the file if some of the data was not read."""
        require(self.offset == len(self.data))


# --- boards

def has_line(board, line):
    """Returns true if a board has an I/O line. `line` must have 0 for each number that this kind of line does not use."""
    kind, number, second, third = line
    if kind == 0:
        return number in board.roms and second < 4 and third == 0
    if kind == 1:
        return second < board.banks.get(number, 0) and third < 4
    return kind == 2 and number < len(board.chains) and second < 10 * board.chains[number][2] and third == 0


def is_input(board, line):
    """Returns true if an I/O line is an input. The first character of a port's text is the port's line 3."""
    return has_line(board, line) and line[0] == 0 and board.roms[line[1]][3 - line[2]] == "i"


def is_board(board):
    """Returns true if these parts form a valid board."""
    def is_output(line):
        return has_line(board, line) and line[0] != 2 and not is_input(board, line)

    chain, first, rows, columns = board.keys or (0, 0, 1, None)
    return (all(0 <= chip < 16 and re.fullmatch("[i01]{4}", port) for chip, port in board.roms.items())
            and all(0 <= bank < 8 and 1 <= chips <= 4 for bank, chips in board.banks.items())
            and len(board.chains) <= 4
            and all(is_output(clock) and is_output(data) and 1 <= chips <= 8 for clock, data, chips in board.chains)
            and (columns is None or chain < len(board.chains) and 1 <= rows <= 10 and first + rows <= 10 * board.chains[chain][2]
                 and 1 <= len(columns) <= 8 and all(is_input(board, line) for line in columns))
            and len(board.lamps) <= 64
            and all(has_line(board, line) and not is_input(board, line) for line in board.lamps))


def read_board(reader, version):
    """Parses the bytes of a board. Rejects an invalid board."""
    ports = [reader.read_bytes(4).decode("latin-1") for _chip in range(16)]
    roms = {chip: port for chip, port in enumerate(ports) if port != "----"}
    banks = {bank: chips for bank, chips in enumerate(reader.read_numbers(8, 4)) if chips}
    chains = [(reader.read_bytes(4), reader.read_bytes(4), reader.read_number(MAX_CHIPS[version])) for _n in range(reader.read_number(MAX_CHAINS[version]))]
    keys = None
    if reader.read_number(1):
        keys = (*reader.read_bytes(3), [reader.read_bytes(4) for _n in range(reader.read_number(8))])
    board = Board(roms, banks, chains, keys, [reader.read_bytes(4) for _n in range(reader.read_number(64))])
    require(is_board(board))
    return board


# --- states

def read_state(snapshot):
    """Parses the state in a snapshot. Returns the state and its version."""
    reader = Reader(snapshot)
    seq = reader.read_number(MAX_COMMANDS)
    version = 2 if snapshot[4:5] == b"\2" else 1
    reader.read_bytes(version - 1)
    board = read_board(reader, version)
    state = State(seq, board, rom=bytearray(reader.read_bytes(4096)))
    for part, count in (("ram", 2048), ("status", 512), ("ram_ports", 32), ("rom_ports", 16)):
        setattr(state, part, reader.read_numbers(count, 15))
    state.accumulator, state.carry, state.registers = reader.read_number(15), reader.read_number(1), reader.read_numbers(16, 15)
    state.counter, *state.return_addresses = [reader.read_number(4095) for _n in range(4)]
    state.bank, state.rom_source, state.bank_sources, state.owed = reader.read_number(7), reader.read_number(255), reader.read_bytes(8), reader.read_number(1)
    state.chains = [reader.read_numbers(10 * chips, 1) for _clock, _data, chips in board.chains]
    state.keys, state.test = reader.read_numbers(board.key_count(), 1), reader.read_number(1)
    state.breakpoints = [reader.read_number(4095) for _n in range(reader.read_number(32))]
    if version == 2:
        state.watches = [(reader.read_number(7), reader.read_number(255)) for _n in range(reader.read_number(8))]
    reader.expect_end()
    require(all(items == sorted({*items}) for items in (state.breakpoints, state.watches)))
    require(not any(any(part) for part in absent_parts(state)))
    return state, version


def absent_parts(state):
    """Yields the parts of a state that must be 0: the memory and ports of missing chips, and the port bits of input lines, which store nothing."""
    for chip in range(16):
        port = state.board.roms.get(chip, "iiii")
        yield b"" if chip in state.board.roms else state.rom[256 * chip:256 * chip + 256]
        yield [state.rom_ports[chip] & sum(8 >> index for index, mark in enumerate(port) if mark == "i")]
    for bank in range(8):
        chips = state.board.banks.get(bank, 0)
        yield state.ram[256 * bank + 64 * chips:256 * bank + 256]
        yield state.status[64 * bank + 16 * chips:64 * bank + 64]
        yield state.ram_ports[4 * bank + chips:4 * bank + 4]
        yield [] if chips else [state.bank_sources[bank]]


def bench_of(state):
    """Returns a bench in a state."""
    bench = bench4004.Bench()
    bench.seq, board = state.seq, bench.board
    board.wire(state.board.text())
    board.rom[:] = state.rom
    board.acc, board.cy, board.pc, board.ret = state.accumulator, state.carry, state.counter, list(state.return_addresses)
    board.r, board.dcl, board.owed, board.test = list(state.registers), state.bank, state.owed, state.test
    board.breaks, board.watches = {*state.breakpoints}, {*state.watches}
    chips = board.chips
    chips.ram = [state.ram[256 * bank:256 * bank + 256] for bank in range(8)]
    chips.status = [[state.status[64 * bank + 4 * high:64 * bank + 4 * high + 4] for high in range(16)] for bank in range(8)]
    chips.ram_latch = {(bank, chip): state.ram_ports[4 * bank + chip] for bank, chip in chips.ram_latch}
    chips.rom_latch = {chip: state.rom_ports[chip] for chip in chips.rom_latch}
    chips.rom_src, chips.bank_src, chips.chains = state.rom_source, list(state.bank_sources), [list(chain) for chain in state.chains]
    chips.pressed_keys = {divmod(index, len(chips.columns)) for index, is_down in enumerate(state.keys) if is_down}
    return bench


# --- commands

def read_command(record, version):
    """Converts a record to the words of its session line, in which a text is a list of lines. Returns them with the number of cycles that the log
    counts for the record."""
    reader = Reader(record)
    record_kind = reader.read_number(13 if version == 2 else 11)
    if record_kind == 1:
        words = ["wire", read_board(reader, version).text().splitlines()]
    elif record_kind == 2:
        bitmap = reader.read_bytes(512)
        addresses = [address for address in range(4096) if bitmap[address // 8] >> address % 8 & 1]
        words = ["asm", [line for address in addresses for line in (f"ORG {address}", f"DB {reader.read_number(255)}")]]
    elif record_kind == 7:
        name, *maxima = POKE_PLACES[reader.read_number(7)]
        numbers = [reader.read_number(maximum) for maximum in maxima]
        words = ["poke", name.format(*numbers[:-1]), str(numbers[-1])]
    else:
        require(record_kind in NUMERIC_COMMANDS)
        name, *maxima = NUMERIC_COMMANDS[record_kind]
        words = [name, *(str(reader.read_number(maximum)) for maximum in maxima)]
    reader.expect_end()
    return words, {"run": lambda: int(words[1]), "step": lambda: 2}.get(words[0], lambda: 0)()


class ParsedFile:
    """The contents of a session file: a bench in the file's state, the text of the board, and the version of the format."""

    def __init__(self, file):
        """Reads a file. Raises `RejectedFile` if the program must reject the file."""
        if len(file) != FILE_BYTES or file[:8] != FORMAT_NAME:
            raise RejectedFile(50)
        contents = read(file)
        require(contents is not None)
        state, self.version = read_state(contents[0])
        self.bench, self.board = bench_of(state), state.board.text().splitlines()
        commands = [read_command(record, self.version) for record in contents[1]]
        require(sum(cycles for _words, cycles in commands) <= MAX_CYCLES)
        for words, _cycles in commands:
            self.accept(words)

    def accept(self, words):
        """Applies a command, which must be accepted at this point."""
        board = self.bench.board
        require(self.bench.seq < MAX_COMMANDS)
        require(words[0] != "run" or 1 <= int(words[1]) <= 100_000)
        require(not self.bench.answer(*words)[0].startswith("no "))
        require(len(board.breaks) <= 32 and len(board.watches) <= 8)
        if words[0] == "wire":
            self.board = words[1]

    def answers_to(self, queries):
        """Returns the first line of a session and the answers to queries."""
        answers = [f"session {self.bench.seq}"]
        for query in queries:
            answers += ["board", *self.board] if query == "board" else self.bench.answer(*query.split())
        return "".join(f"{line}\n" for line in answers)
