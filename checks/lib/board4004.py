"""A second implementation of a board of MCS-4 chips, which shares no code with the bench.

The 45 instructions and the chips 4001, 4002, 4003 and 4004 follow Intel's "MCS-4 Micro Computer Set, Users Manual" and data sheets, as
docs/MANUAL.md describes them. Details that Intel leaves open follow docs/MANUAL.md, too. They are: when a chain is clocked, which codes are not
instructions, that a two-cycle instruction takes effect in its first cycle, and what stops a run.
"""

from __future__ import annotations

import pickle
import tomllib
from collections.abc import Callable

from assembler import CODES_WITHOUT_OPERAND, CODES_ON_PAIR, CODES_ON_REGISTER, CODES_WITH_VALUES

ADDRESS_COUNT = 4096
TWO_WORDS = {"JCN", "FIM", "JUN", "JMS", "ISZ"}
TWO_CYCLES = TWO_WORDS | {"FIN"}
# An I/O line: `rom` with chip and line number, `ram` with bank, chip and line number, or `chain` with the chain's number and a bit number.
Line = tuple[str, tuple[int, ...]]


def operations_by_code() -> dict[int, tuple[str, int]]:
    """Returns the mnemonic and the operand of each valid code. The operand in the code's lower half is a register, a pair or a value, or 0 if there
    is none."""
    codes = {code: (name, 0) for name, code in CODES_WITHOUT_OPERAND.items()}
    for name, code in [*CODES_ON_REGISTER.items(), *((name, CODES_WITH_VALUES[name][1]) for name in ("JCN", "JUN", "JMS", "ISZ", "BBL", "LDM"))]:
        codes.update({code + low: (name, low) for low in range(16)})
    for name, code in [*CODES_ON_PAIR.items(), ("FIM", CODES_WITH_VALUES["FIM"][1])]:
        codes.update({code + 2 * pair: (name, pair) for pair in range(8)})
    return codes


CODES = operations_by_code()


def line_of(name: str) -> Line:
    """Parses the name of an I/O line: `rom0.1`, `ram0.1.3`, `chain0.79`."""
    number_text = name.lstrip("abcdefghijklmnopqrstuvwxyz")
    return name.removesuffix(number_text), tuple(int(number) for number in number_text.split("."))


class Chips:
    """The chips, keys and lamps of a board, which a board text describes."""

    def __init__(self, text: str = "") -> None:
        wiring = tomllib.loads(text)
        # The text of a port begins with the letter for line 3, and a mask begins with the letter for line 0.
        self.masks = {part["chip"]: part["port"][::-1] for part in wiring.get("rom", [])}
        self.chips = {part["bank"]: part["chips"] for part in wiring.get("ram", [])}
        self.clocks = [(line_of(part["clock"]), line_of(part["data"])) for part in wiring.get("chain", [])]
        self.chain_bits = [10 * part["chips"] for part in wiring.get("chain", [])]
        # Without keys, there are no rows and columns.
        self.keys = wiring.get("keys", {"chain": 0, "first": 0, "rows": 0, "columns": []})
        self.columns = [line_of(name) for name in self.keys["columns"]]
        self.lamps = [line_of(part["line"]) for part in wiring.get("lamp", [])]
        self.pressed_keys: set[tuple[int, int]] = set()
        self.power_on()

    def power_on(self) -> None:
        """Sets RAM, latches, SRC bytes and chains to 0."""
        self.ram = [bytearray(256) for _bank in range(8)]
        self.status = [[bytearray(4) for _register in range(16)] for _bank in range(8)]
        self.ram_latch = {(bank, chip): 0 for bank in sorted(self.chips) for chip in range(self.chips[bank])}
        self.rom_latch = {chip: 0 for chip in sorted(self.masks)}
        self.rom_src = 0
        self.bank_src = [0] * 8
        self.chains = [[0] * bits for bits in self.chain_bits]

    def has_ram(self, bank: int, src: int) -> bool:
        """Returns true if a bank has the chip that the upper two bits of an SRC byte select."""
        return src >> 6 < self.chips.get(bank, 0)

    def level(self, line: Line) -> int:
        """Returns the level of an I/O line, or 0 if the board does not have this line."""
        kind, numbers = line
        if kind == "ram":
            return self.ram_latch.get(numbers[:2], 0) >> numbers[2] & 1
        number, k = numbers
        if kind == "chain":
            return self.chains[number][k] if number < len(self.chains) and k < len(self.chains[number]) else 0
        if number not in self.masks:
            return 0
        return self.is_pulled(line) if self.masks[number][k] == "i" else self.rom_latch[number] >> k & 1

    def levels(self, kind: str, *chip: int) -> int:
        """Returns the levels of the four lines of a port as a number. Bit k is the level of line k."""
        return sum(self.level((kind, (*chip, k))) << k for k in range(4))

    def is_pulled(self, line: Line) -> int:
        """Returns the level of an input line: 1 if a pressed key connects the line to a driven row, otherwise 0."""
        return int(any(self.columns[column] == line and self.chains[self.keys["chain"]][self.keys["first"] + row] for row, column in self.pressed_keys))

    def lamp_marks(self) -> str:
        """Returns the lamps in the format of `lamps`: `*` for on, `.` for off."""
        return "".join("*" if self.level(lamp) else "." for lamp in self.lamps)

    # ---- the effects of instructions on the chips

    def send_src(self, bank: int, byte: int) -> None:
        """Executes SRC: all ROM chips store the byte. The selected bank stores it, too, if it has chips."""
        self.rom_src = byte
        if bank in self.chips:
            self.bank_src[bank] = byte

    def read_port(self, chip: int) -> int:
        """Executes RDR: returns the levels of a port. The keys define the levels of input lines, and the port's mask those of output lines."""
        mask = self.masks.get(chip, "0000")
        return sum((self.is_pulled(("rom", (chip, k))) if mask[k] == "i" else int(mask[k])) << k for k in range(4))

    def write_rom_port(self, value: int) -> None:
        """Executes WRR: writes the output lines of the selected ROM chip."""
        chip = self.rom_src >> 4
        if chip in self.masks:
            outputs = sum(1 << k for k in range(4) if self.masks[chip][k] != "i")
            self.write_latch(self.rom_latch, chip, value & outputs)

    def write_ram_port(self, bank: int, value: int) -> None:
        """Executes WMP: writes the output lines of the selected RAM chip."""
        if self.has_ram(bank, self.bank_src[bank]):
            self.write_latch(self.ram_latch, (bank, self.bank_src[bank] >> 6), value)

    def write_latch(self, latches: dict, port: object, value: int) -> None:
        """Writes a port. Each chain whose clock rises shifts in the current level of its data line."""
        levels_before = [self.level(clock) for clock, _data in self.clocks]
        latches[port] = value
        for n, (clock, data) in enumerate(self.clocks):
            if not levels_before[n] and self.level(clock):
                self.chains[n] = [self.level(data), *self.chains[n][:-1]]

    def read_nibble(self, bank: int) -> int:
        """Returns the selected RAM nibble."""
        return self.ram[bank][self.bank_src[bank]]

    def write_nibble(self, bank: int, src: int, value: int) -> None:
        """Writes a RAM nibble. A write to a missing chip has no effect."""
        if self.has_ram(bank, src):
            self.ram[bank][src] = value

    def write_status(self, bank: int, register: int, k: int, value: int) -> None:
        """Writes a status nibble. The upper half of an SRC byte selects the nibble's register."""
        if self.has_ram(bank, register << 4):
            self.status[bank][register][k] = value


class Board:
    """A 4004 on a board, with breakpoints and watches."""

    def __init__(self) -> None:
        self.chips = Chips()
        self.rom = bytearray(ADDRESS_COUNT)
        self.test = 1
        self.breaks: set[int] = set()
        self.watches: set[tuple[int, int]] = set()
        self.power_on()

    def power_on(self) -> None:
        """Sets the processor and the chips as after a power cycle."""
        self.acc = self.cy = self.pc = self.dcl = self.owed = 0
        self.r = [0] * 16
        self.ret = [0, 0, 0]
        self.chips.power_on()

    def wire(self, text: str) -> None:
        """Replaces the board. The ROM bytes of missing chips become 0."""
        self.chips = Chips(text)
        self.power_on()
        for page in range(16):
            if page not in self.chips.masks:
                self.rom[256 * page:256 * (page + 1)] = bytes(256)

    def copy(self) -> Board:
        """Returns an independent copy. This is much faster than `copy.deepcopy`."""
        return pickle.loads(pickle.dumps(self))

    def pair(self, k: int) -> int:
        """Returns the value of a register pair. The even register is the upper half."""
        return 16 * self.r[2 * k] + self.r[2 * k + 1]

    def set_pair(self, k: int, byte: int) -> None:
        """Writes a byte to a pair."""
        self.r[2 * k:2 * k + 2] = divmod(byte, 16)

    def set_sum(self, total: int) -> None:
        """Stores a sum in the accumulator, and its overflow in the carry."""
        self.cy, self.acc = divmod(total, 16)

    # ---- cycles

    def is_at_invalid_code(self) -> bool:
        """Returns true if the byte at the program counter is not the code of an instruction."""
        return self.rom[self.pc] not in CODES

    def cycle(self) -> None:
        """Executes one cycle: the first cycle of an instruction, in which it takes effect, or its pending second cycle."""
        if self.owed:
            self.owed = 0
            return
        name, low = CODES[self.rom[self.pc]]
        second_byte = self.rom[(self.pc + 1) % ADDRESS_COUNT]
        self.pc = (self.pc + (2 if name in TWO_WORDS else 1)) % ADDRESS_COUNT
        self.owed = int(name in TWO_CYCLES)
        OPERATIONS[name](self, low, second_byte)

    def step(self) -> tuple[int, str]:
        """Executes an instruction, or its pending second cycle. Returns the number of cycles, and the reason for the stop."""
        if not self.owed and self.is_at_invalid_code():
            return 0, "code"
        cycles = 1 if self.owed else 1 + (CODES[self.rom[self.pc]][0] in TWO_CYCLES)
        for _cycle in range(cycles):
            self.cycle()
        return cycles, "end"

    def stop_reason(self, cycles: int, max_cycles: int, is_watch_hit: bool) -> str:
        """Returns the reason why a run ends after this number of cycles, or "" if it continues. `is_watch_hit` is true if the last cycle changed a
        watched nibble."""
        if not self.owed and self.is_at_invalid_code():
            return "code"
        if cycles and not self.owed and self.pc in self.breaks:
            return "break"
        if cycles and is_watch_hit:
            return "watch"
        return "end" if cycles == max_cycles else ""

    def watched_values(self) -> list[int]:
        """Returns the values of the watched nibbles."""
        return [self.chips.ram[bank][src] for bank, src in self.watches]

    def run(self, max_cycles: int, on_instruction: Callable[[int, int], None] | None = None) -> tuple[int, str]:
        """Runs at most `max_cycles` cycles. Returns the number of cycles, and the reason for the stop. Calls `on_instruction` after the first cycle
        of each instruction, with the number of cycles before the instruction and its address."""
        cycles, is_watch_hit, values = 0, False, self.watched_values()
        while not (reason := self.stop_reason(cycles, max_cycles, is_watch_hit)):
            address, is_first_cycle, values_before = self.pc, not self.owed, values
            self.cycle()
            values = self.watched_values()
            is_watch_hit = values != values_before
            if is_first_cycle and on_instruction:
                on_instruction(cycles, address)
            cycles += 1
        return cycles, reason


# ---- the instructions; each is called after the program counter has moved past its words

def jump_on_page(board: Board, low: int) -> None:
    """Jumps to an address in the page of the program counter. `low` is the lower byte of the address."""
    board.pc = board.pc & 0xF00 | low


def nop(_board: Board, _low: int, _second_byte: int) -> None:
    """No operation."""


def jcn(board: Board, condition: int, second_byte: int) -> None:
    """Jump conditional: bit 2 tests for ACC 0, bit 1 for a carry, bit 0 for TEST 0; bit 3 inverts the condition."""
    is_condition_met = condition & 4 and board.acc == 0 or condition & 2 and board.cy == 1 or condition & 1 and board.test == 0
    if bool(is_condition_met) != bool(condition & 8):
        jump_on_page(board, second_byte)


def fim(board: Board, pair: int, second_byte: int) -> None:
    """Fetch immediate: loads the second byte into a pair."""
    board.set_pair(pair, second_byte)


def src(board: Board, pair: int, _second_byte: int) -> None:
    """Send register control: sends a pair's byte to the chips."""
    board.chips.send_src(board.dcl, board.pair(pair))


def fin(board: Board, pair: int, _second_byte: int) -> None:
    """Fetch indirect: loads the ROM byte at the address in pair 0, in the page of the program counter, into a pair."""
    board.set_pair(pair, board.rom[board.pc & 0xF00 | board.pair(0)])


def jin(board: Board, pair: int, _second_byte: int) -> None:
    """Jump indirect: jumps to the address in a pair, in the page of the program counter."""
    jump_on_page(board, board.pair(pair))


def jun(board: Board, high: int, second_byte: int) -> None:
    """Jump unconditional."""
    board.pc = 256 * high + second_byte


def jms(board: Board, high: int, second_byte: int) -> None:
    """Jump to subroutine; the oldest of three return addresses is lost."""
    board.ret = [board.pc, *board.ret[:2]]
    board.pc = 256 * high + second_byte


def inc(board: Board, k: int, _second_byte: int) -> None:
    """Increment a register."""
    board.r[k] = (board.r[k] + 1) % 16


def isz(board: Board, k: int, second_byte: int) -> None:
    """Increment, and skip the jump if the result is zero."""
    inc(board, k, second_byte)
    if board.r[k]:
        jump_on_page(board, second_byte)


def add(board: Board, k: int, _second_byte: int) -> None:
    """Add a register and the carry to the accumulator."""
    board.set_sum(board.acc + board.r[k] + board.cy)


def sub(board: Board, k: int, _second_byte: int) -> None:
    """Subtract a register: adds the complements of the register and the carry."""
    board.set_sum(board.acc + (15 - board.r[k]) + (1 - board.cy))


def ld(board: Board, k: int, _second_byte: int) -> None:
    """Load the accumulator from a register."""
    board.acc = board.r[k]


def xch(board: Board, k: int, _second_byte: int) -> None:
    """Exchange the accumulator with a register."""
    board.acc, board.r[k] = board.r[k], board.acc


def bbl(board: Board, value: int, _second_byte: int) -> None:
    """Branch back and load. The freed stack entry keeps the address after BBL."""
    board.acc = value
    board.pc, board.ret = board.ret[0], [*board.ret[1:], board.pc]


def ldm(board: Board, value: int, _second_byte: int) -> None:
    """Load immediate."""
    board.acc = value


def wrm(board: Board, _low: int, _second_byte: int) -> None:
    """Write the accumulator into the selected RAM nibble."""
    board.chips.write_nibble(board.dcl, board.chips.bank_src[board.dcl], board.acc)


def wmp(board: Board, _low: int, _second_byte: int) -> None:
    """Write the accumulator to the port of the selected RAM chip."""
    board.chips.write_ram_port(board.dcl, board.acc)


def wrr(board: Board, _low: int, _second_byte: int) -> None:
    """Write the accumulator to the port of the selected ROM chip."""
    board.chips.write_rom_port(board.acc)


def write_status(k: int) -> Callable[[Board, int, int], None]:
    """Returns the instruction WR0 to WR3 that writes status nibble `k` of the selected register."""
    return lambda board, _low, _second_byte: board.chips.write_status(board.dcl, board.chips.bank_src[board.dcl] >> 4, k, board.acc)


def read_status(k: int) -> Callable[[Board, int, int], None]:
    """Returns the instruction RD0 to RD3 that reads status nibble `k` of the selected register."""
    def execute(board: Board, _low: int, _second_byte: int) -> None:
        board.acc = board.chips.status[board.dcl][board.chips.bank_src[board.dcl] >> 4][k]
    return execute


def sbm(board: Board, _low: int, _second_byte: int) -> None:
    """Subtract the selected RAM nibble: adds the complements of the nibble and the carry."""
    board.set_sum(board.acc + (15 - board.chips.read_nibble(board.dcl)) + (1 - board.cy))


def rdm(board: Board, _low: int, _second_byte: int) -> None:
    """Read the selected RAM nibble into the accumulator."""
    board.acc = board.chips.read_nibble(board.dcl)


def rdr(board: Board, _low: int, _second_byte: int) -> None:
    """Read the port of the selected ROM chip into the accumulator."""
    board.acc = board.chips.read_port(board.chips.rom_src >> 4)


def adm(board: Board, _low: int, _second_byte: int) -> None:
    """Add the selected RAM nibble and the carry to the accumulator."""
    board.set_sum(board.acc + board.chips.read_nibble(board.dcl) + board.cy)


def accumulator_operation(compute: Callable[[int, int], tuple[int, int]]) -> Callable[[Board, int, int], None]:
    """Returns an instruction that changes only the accumulator and the carry. `compute` takes the accumulator and the carry, and returns the new
    carry and the new accumulator."""
    def execute(board: Board, _low: int, _second_byte: int) -> None:
        board.cy, board.acc = compute(board.acc, board.cy)
    return execute


def dcl(board: Board, _low: int, _second_byte: int) -> None:
    """Designate command line: selects a RAM bank with the lower three bits of the accumulator."""
    board.dcl = board.acc % 8


OPERATIONS: dict[str, Callable[[Board, int, int], None]] = {
    "NOP": nop, "JCN": jcn, "FIM": fim, "SRC": src, "FIN": fin, "JIN": jin, "JUN": jun, "JMS": jms, "INC": inc, "ISZ": isz, "ADD": add,
    "SUB": sub, "LD": ld, "XCH": xch, "BBL": bbl, "LDM": ldm, "WRM": wrm, "WMP": wmp, "WRR": wrr, "SBM": sbm, "RDM": rdm, "RDR": rdr,
    "ADM": adm, "DCL": dcl, **{f"WR{k}": write_status(k) for k in range(4)}, **{f"RD{k}": read_status(k) for k in range(4)},
    "CLB": accumulator_operation(lambda acc, cy: (0, 0)),
    "CLC": accumulator_operation(lambda acc, cy: (0, acc)),
    "IAC": accumulator_operation(lambda acc, cy: divmod(acc + 1, 16)),
    "CMC": accumulator_operation(lambda acc, cy: (1 - cy, acc)),
    "CMA": accumulator_operation(lambda acc, cy: (cy, 15 - acc)),
    "RAL": accumulator_operation(lambda acc, cy: divmod(2 * acc + cy, 16)),
    "RAR": accumulator_operation(lambda acc, cy: (acc % 2, 8 * cy + acc // 2)),
    "TCC": accumulator_operation(lambda acc, cy: (0, cy)),
    "DAC": accumulator_operation(lambda acc, cy: divmod(acc + 15, 16)),
    "TCS": accumulator_operation(lambda acc, cy: (0, 9 + cy)),
    "STC": accumulator_operation(lambda acc, cy: (1, acc)),
    # DAA can set the carry, but never clears it.
    "DAA": accumulator_operation(lambda acc, cy: (cy | (acc + 6) // 16, (acc + 6) % 16) if cy or acc > 9 else (cy, acc)),
    "KBP": accumulator_operation(lambda acc, cy: (cy, {0: 0, 1: 1, 2: 2, 4: 3, 8: 4}.get(acc, 15))),
}
