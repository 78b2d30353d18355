"""Writes and reads session files as docs/FORMAT.md specifies, without the program. Implements only the commands and instructions that the checks use.

`ExpectedSession` computes the expected bytes of a session's file after each accepted command: its snapshot, its records, and all other bytes, except
the unused part of each snapshot area.
"""

import copy
import dataclasses
import json

FORMAT_NAME = b"MCS4BEN1"
FILE_BYTES = 163_856
SLOTS = (16, 81_936)
LENGTH_BYTES = 4
SNAPSHOT_AREA_BYTES = 16_384
LOG_BYTES = 65_536
MAX_RECORD_BYTES = 8_192
MAX_CYCLES = 4_000_000


def encoded_number(value, count):
    """Returns a number as `count` bytes, with the most significant byte first."""
    return value.to_bytes(count, "big")


# --- boards and states

def rom_line(chip, line):
    """Returns the bytes that encode an I/O line of a ROM chip's port."""
    return bytes([0, chip, line, 0])


def ram_line(bank, chip, line):
    """Returns the bytes that encode an I/O line of a RAM chip's port."""
    return bytes([1, bank, chip, line])


def chain_line(chain, bit):
    """Returns the bytes that encode an output of a chain."""
    return bytes([2, chain, bit, 0])


def name_of(line):
    """Returns the name of an I/O line in a board's text, for example rom0.3."""
    kind, *numbers = line
    return ("rom{}.{}", "ram{}.{}.{}", "chain{}.{}")[kind].format(*numbers)


@dataclasses.dataclass
class Board:
    """A board. `roms` has the port of each ROM, and `banks` the number of RAM chips in each bank. A chain is (clock, data, chips), and the keys are
    (chain, first, rows, columns). `lamps` has the I/O lines of the lamps."""
    roms: dict = dataclasses.field(default_factory=dict)
    banks: dict = dataclasses.field(default_factory=dict)
    chains: list = dataclasses.field(default_factory=list)
    keys: tuple = None
    lamps: list = dataclasses.field(default_factory=list)

    def bytes(self):
        """Returns the bytes of the board in a state or in a record."""
        encoded = "".join(self.roms.get(chip, "----") for chip in range(16)).encode()
        encoded += bytes(self.banks.get(bank, 0) for bank in range(8))
        encoded += bytes([len(self.chains)])
        for clock, data, chips in self.chains:
            encoded += clock + data + bytes([chips])
        if self.keys is None:
            encoded += bytes([0])
        else:
            chain, first, rows, columns = self.keys
            encoded += bytes([1, chain, first, rows, len(columns)]) + b"".join(columns)
        return encoded + bytes([len(self.lamps)]) + b"".join(self.lamps)

    def key_count(self):
        """Returns the number of keys."""
        return self.keys[2] * len(self.keys[3]) if self.keys else 0

    def tables(self):
        """Returns the tables of the board's text, each with the name of its section: ROMs and banks by number, then chains, keys and lamps."""
        tables = [("rom", {"chip": chip, "port": self.roms[chip]}) for chip in sorted(self.roms)]
        tables += [("ram", {"bank": bank, "chips": self.banks[bank]}) for bank in sorted(self.banks)]
        tables += [("chain", {"clock": name_of(clock), "data": name_of(data), "chips": chips}) for clock, data, chips in self.chains]
        if self.keys:
            chain, first, rows, columns = self.keys
            tables.append(("keys", {"chain": chain, "first": first, "rows": rows, "columns": [name_of(line) for line in columns]}))
        return tables + [("lamp", {"line": name_of(line)}) for line in self.lamps]

    def text(self):
        """Returns the board's text as `board` prints it, in the form of the board in the manual's first hour."""
        lines = []
        for section, table in self.tables():
            lines.append(f"[{section}]" if section == "keys" else f"[[{section}]]")
            # In this form, TOML writes numbers, strings and lists in the same way as JSON.
            lines += [f"{key} = {json.dumps(value)}" for key, value in table.items()]
        return "".join(f"{line}\n" for line in lines)


@dataclasses.dataclass
class State:
    """The state of a session, with the parts that a snapshot stores."""
    seq: int = 0
    board: Board = dataclasses.field(default_factory=Board)
    rom: bytearray = dataclasses.field(default_factory=lambda: bytearray(4096))
    ram: bytearray = dataclasses.field(default_factory=lambda: bytearray(2048))
    status: bytearray = dataclasses.field(default_factory=lambda: bytearray(512))
    ram_ports: bytearray = dataclasses.field(default_factory=lambda: bytearray(32))
    rom_ports: bytearray = dataclasses.field(default_factory=lambda: bytearray(16))
    accumulator: int = 0
    carry: int = 0
    registers: bytearray = dataclasses.field(default_factory=lambda: bytearray(16))
    counter: int = 0
    return_addresses: list = dataclasses.field(default_factory=lambda: [0, 0, 0])
    bank: int = 0
    rom_source: int = 0
    bank_sources: bytearray = dataclasses.field(default_factory=lambda: bytearray(8))
    owed: int = 0
    chains: list = dataclasses.field(default_factory=list)
    keys: bytearray = dataclasses.field(default_factory=bytearray)
    test: int = 1
    breakpoints: list = dataclasses.field(default_factory=list)
    watches: list = dataclasses.field(default_factory=list)

    def bytes(self, version=2):
        """Returns the bytes of the state. Version 1 lacks the version byte, and the watches with their count."""
        assert version == 2 or not self.watches
        encoded = encoded_number(self.seq, 4) + (b"\x02" if version == 2 else b"") + self.board.bytes()
        encoded += self.rom + self.ram + self.status + self.ram_ports + self.rom_ports
        encoded += bytes([self.accumulator, self.carry]) + self.registers
        encoded += b"".join(encoded_number(address, 2) for address in [self.counter, *self.return_addresses])
        encoded += bytes([self.bank, self.rom_source]) + self.bank_sources + bytes([self.owed])
        encoded += b"".join(self.chains) + self.keys + bytes([self.test])
        encoded += bytes([len(self.breakpoints)]) + b"".join(encoded_number(address, 2) for address in self.breakpoints)
        if version == 2:
            encoded += bytes([len(self.watches)]) + b"".join(bytes(watch) for watch in self.watches)
        return bytes(encoded)

    def regs_answer(self):
        """Returns the answer to `regs`."""
        return (f"acc {self.accumulator:X} cy {self.carry} pc {self.counter:03X} owed {self.owed} dcl {self.bank} test {self.test} "
                f"r {''.join(f'{register:X}' for register in self.registers)} ret {' '.join(f'{address:03X}' for address in self.return_addresses)}")

    def cycle(self):
        """Executes one cycle. Knows only the few instructions that the checks use."""
        if self.owed:
            self.owed = 0
            return
        code = self.rom[self.counter]
        second_byte = self.rom[(self.counter + 1) % 4096]
        self.counter = (self.counter + 1) % 4096
        if code >> 4 == 0x4:
            self.counter = (code & 15) * 256 + second_byte
            self.owed = 1
        elif code >> 4 == 0x6:
            self.registers[code & 15] = (self.registers[code & 15] + 1) % 16
        elif code >> 4 == 0xD:
            self.accumulator = code & 15
        elif code == 0xF2:
            self.carry, self.accumulator = divmod(self.accumulator + 1, 16)
        else:
            assert code == 0, f"the checks have no instruction {code:02X}"

    def run(self, cycles):
        """Runs a number of cycles, or up to a breakpoint. Returns the part of the answer with the number of cycles and the reason for the stop."""
        start = self.changeable_state()
        done_cycles = skipped = 0
        while done_cycles + skipped < cycles:
            self.cycle()
            done_cycles += 1
            if not self.owed and self.counter in self.breakpoints:
                return f" ran {done_cycles} break"
            if self.changeable_state() == start and skipped == 0:
                # The program loops, so whole iterations are skipped.
                skipped = (cycles - done_cycles) // done_cycles * done_cycles
        return f" ran {cycles} end"

    def changeable_state(self):
        """Returns all parts of the state that the instructions in `cycle` can change. If they repeat, the program loops."""
        return self.counter, self.owed, self.accumulator, self.carry, bytes(self.registers)

    def step(self):
        """Runs one instruction, or its pending second cycle. Returns the part of the answer about its cycles."""
        was_owed = self.owed
        self.cycle()
        if not self.owed or was_owed:
            return " ran 1 end"
        self.cycle()
        return " ran 2 end"

    def reset(self):
        """Performs a power cycle. ROM, keys, TEST, breakpoints, watches and wiring are kept."""
        new_state = State()
        for part in ("ram", "status", "ram_ports", "rom_ports", "accumulator", "carry", "registers", "counter", "return_addresses", "bank", "rom_source",
                     "bank_sources", "owed"):
            setattr(self, part, getattr(new_state, part))
        self.chains = [bytearray(len(chain)) for chain in self.chains]


# --- commands

@dataclasses.dataclass
class Command:
    """A command: its lines, and its record. The function `apply` applies it to a state, and returns what the answer has after `ok N`. `cycles` is the
    number of cycles that it contributes to the cycles of a log."""
    text: str
    record: bytes
    apply: object
    cycles: int = 0


def wire(text, board):
    """Returns the command that replaces the board. `text` is the board's text."""
    def apply(state):
        state.board = board
        state.chains = [bytearray(10 * chips) for _, _, chips in board.chains]
        state.keys = bytearray(board.key_count())
        state.reset()
        for chip in range(16):
            if chip not in board.roms:
                state.rom[256 * chip:256 * chip + 256] = bytes(256)
    return Command(f"wire\n{text}.\n", bytes([1]) + board.bytes(), apply)


def load(text, image):
    """Returns the command that loads a program with these bytes. `text` is the program's text."""
    addresses = sorted(image)
    bitmap = bytearray(512)
    for address in addresses:
        bitmap[address // 8] |= 1 << address % 8
    record = bytes([2]) + bitmap + bytes(image[address] for address in addresses)

    def apply(state):
        for address in addresses:
            state.rom[address] = image[address]
        return f" bytes {len(image)}"
    return Command(f"asm\n{text}.\n", record, apply)


def run(cycles):
    """Returns the command for a run. A log counts all cycles of the command, even if a breakpoint stops the run."""
    return Command(f"run {cycles}\n", bytes([5]) + encoded_number(cycles, 4), lambda state: state.run(cycles), cycles)


def step():
    """Returns the command for a step. A log counts it as two cycles."""
    return Command("step\n", bytes([6]), State.step, 2)


def poke_register(register, value):
    """Returns the command that sets a register."""
    def apply(state):
        state.registers[register] = value
    return Command(f"poke r{register} {value}\n", bytes([7, 3, register, value]), apply)


def press(row, column):
    """Returns the command that presses a key."""
    def apply(state):
        state.keys[row * len(state.board.keys[3]) + column] = 1
    return Command(f"press {row} {column}\n", bytes([3, row, column]), apply)


def set_test_level(level):
    """Returns the command that sets the level of TEST."""
    def apply(state):
        state.test = level
    return Command(f"test {level}\n", bytes([8, level]), apply)


def break_at(address):
    """Returns the command that sets a breakpoint."""
    def apply(state):
        state.breakpoints = sorted({*state.breakpoints, address})
    return Command(f"break {address}\n", bytes([10]) + encoded_number(address, 2), apply)


def watch(bank, source):
    """Returns the command that sets a watch."""
    def apply(state):
        state.watches = sorted({*state.watches, (bank, source)})
    return Command(f"watch {bank} {source}\n", bytes([12, bank, source]), apply)


# --- files

def read(file):
    """Returns the snapshot and the records in a file, or None if the file is damaged."""
    if len(file) != FILE_BYTES or file[:8] != FORMAT_NAME or any(file[9:16]):
        return None
    slot = SLOTS[file[8] % 2]
    length = int.from_bytes(file[slot:slot + LENGTH_BYTES], "big")
    if length > SNAPSHOT_AREA_BYTES - LENGTH_BYTES:
        return None
    snapshot = bytes(file[slot + LENGTH_BYTES:slot + LENGTH_BYTES + length])
    log = file[slot + SNAPSHOT_AREA_BYTES:slot + SNAPSHOT_AREA_BYTES + LOG_BYTES]
    records = []
    offset = 0
    while log[offset] == 1:
        size = int.from_bytes(log[offset + 1:offset + 3], "big")
        if not 1 <= size <= MAX_RECORD_BYTES or offset + 3 + size + 1 > LOG_BYTES:
            return None
        records.append(bytes(log[offset + 3:offset + 3 + size]))
        offset += 3 + size
    return snapshot, records


def file_with_snapshot(snapshot):
    """Returns a file with a snapshot in its first slot, and no records."""
    start = SLOTS[0]
    file = bytearray(FORMAT_NAME + bytes(FILE_BYTES - len(FORMAT_NAME)))
    file[start:start + LENGTH_BYTES + len(snapshot)] = encoded_number(len(snapshot), LENGTH_BYTES) + snapshot
    return file


def put_record(file, offset, record):
    """Writes a record to a log, followed by the byte that marks the end of the log."""
    file[offset:offset + 3 + len(record) + 1] = b"\x01" + encoded_number(len(record), 2) + record + b"\x00"


class ExpectedSession:
    """A session, and the expected bytes of its file."""

    def __init__(self, state=None, slot=0, version=2):
        """Starts a session at this state, with a snapshot in one of the slots."""
        self.state = state or State()
        self.version = version
        self.file = bytearray(FILE_BYTES)
        self.unused_ranges = [None, None]
        self.slot = slot
        self.checkpoints = 0
        self._put_snapshot(slot, version)
        self.file[:16] = FORMAT_NAME + bytes([slot]) + bytes(7)

    def _put_snapshot(self, slot, version):
        """Writes the current state to a slot, with an empty log, and continues with this slot."""
        snapshot = self.state.bytes(version)
        start = SLOTS[slot]
        end = start + LENGTH_BYTES + len(snapshot)
        self.file[start:end] = encoded_number(len(snapshot), LENGTH_BYTES) + snapshot
        self.unused_ranges[slot] = (end, start + SNAPSHOT_AREA_BYTES)
        self.file[start + SNAPSHOT_AREA_BYTES] = 0
        self.slot = slot
        self.log_size = self.cycles = 0
        self.contents = (snapshot, [])

    def checkpoint(self):
        """Writes a snapshot with an empty log to the other slot, and makes this slot the active one."""
        self._put_snapshot(1 - self.slot, 2)
        self.file[8] = self.slot
        self.version = 2
        self.checkpoints += 1

    def accept(self, command):
        """Accepts a command, and returns its answer."""
        record = command.record
        if self.log_size + 3 + len(record) + 1 > LOG_BYTES or self.cycles + command.cycles > MAX_CYCLES:
            self.checkpoint()
        put_record(self.file, SLOTS[self.slot] + SNAPSHOT_AREA_BYTES + self.log_size, record)
        self.log_size += 3 + len(record)
        self.cycles += command.cycles
        self.contents[1].append(record)
        answer = command.apply(self.state) or ""
        self.state.seq += 1
        return f"ok {self.state.seq}{answer}\n"

    def accept_all(self, commands):
        """Accepts commands, and returns their answers."""
        return "".join(self.accept(command) for command in commands)

    def difference_from(self, file):
        """Describes the first difference between a file and the expected bytes, or returns "" if there is none."""
        if len(file) != FILE_BYTES:
            return f"it has {len(file)} bytes"
        expected = bytearray(self.file)
        for unused_range in self.unused_ranges:
            if unused_range:
                expected[unused_range[0]:unused_range[1]] = file[unused_range[0]:unused_range[1]]
        if expected == file:
            return ""
        offset = next(offset for offset in range(FILE_BYTES) if expected[offset] != file[offset])
        return f"from {offset} on it has {bytes(file[offset:offset + 12]).hex(' ')}, and not {bytes(expected[offset:offset + 12]).hex(' ')}"

    def copy(self):
        """Returns an independent copy of the session."""
        return copy.deepcopy(self)
