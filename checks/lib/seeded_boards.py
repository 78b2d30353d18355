"""Random boards, programs and commands, reproducible from a seed. All of them are text as a user types it.

Many contain details that tools once reported incorrectly. Some parsers read addresses such as 0E0 and 1E2, and the names `inf` and `nan`, as numbers.
A chain of up to 80 bits is clocked often.
"""

from __future__ import annotations

import random

from assembler import ADDRESS_COUNT, CODES_WITHOUT_OPERAND, CODES_ON_PAIR, CODES_ON_REGISTER
from board4004 import Board

INVALID_CODES = [*range(1, 16), 0xE3, 0xFE, 0xFF]
JUMPS = ("JUN", "JMS", "JCN", "ISZ")
NUMBER_LIKE_NAMES = ("inf", "nan", "INFINITY", "infinity", "NaN", "INF", "e0", "E1", "_0E0", "x1e2")
ORG_OFFSETS = (0x00, 0x02, 0x1E, 0x40, 0xD9, 0xDE, 0xE0, 0xE1, 0xF0, 0xF9)
# The maximum number of bytes in the text of a board or of a program.
MAX_TEXT_BYTES = 16384


class Wiring:
    """A random board: its text, and the parts that a program can use."""

    def __init__(self, rng: random.Random) -> None:
        self.rng = rng
        pages = {0, *rng.choices([1, 1, 2, 14, 15, rng.randrange(16)], k=rng.randrange(1, 3))}
        # Often also add the page after a chosen one, because instructions at the end of a page continue on the next page.
        self.pages = sorted(pages | {(page + 1) % 16 for page in pages if rng.random() < 0.4})
        ports = {*self.pages, *rng.sample(range(16), rng.randrange(4))}
        self.ports = {chip: rng.choice(["0000", "0000", "1111", "".join(rng.choices("i01", k=4)), "iiii"]) for chip in sorted(ports)}
        self.banks = {bank: rng.randrange(1, 5) for bank in sorted(rng.sample(range(8), rng.choice([0, 1, 1, 2, 4])))}
        outputs = [[f"rom{chip}.{3 - i}" for i in range(4) if port[i] != "i"] for chip, port in self.ports.items()]
        outputs += [[f"ram{bank}.{chip}.{k}" for k in range(4)] for bank, chips in self.banks.items() for chip in range(chips)]
        self.outputs = [lines for lines in outputs if lines]
        self.inputs = [f"rom{chip}.{3 - i}" for chip, port in self.ports.items() for i in range(4) if port[i] == "i"]
        self.chains = [self.chain() for _n in range(rng.choice([0, 1, 1, 1, 2, 4]))] if self.outputs else []
        self.rows = self.first = self.driver = 0
        self.columns: list[str] = []
        if self.chains and self.inputs:
            self.driver = rng.randrange(len(self.chains))
            bit_count = 10 * self.chains[self.driver][2]
            self.rows = rng.randrange(1, min(10, bit_count) + 1)
            self.first = rng.randrange(min(20, bit_count - self.rows) + 1)
            self.columns = rng.choices(self.inputs, k=rng.randrange(1, 9))
        bits_of_chains = [f"chain{n}.{bit}" for n, chain in enumerate(self.chains) for bit in range(10 * chain[2])]
        self.lines = [line for lines in self.outputs for line in lines] + bits_of_chains
        self.lamps = rng.choices(self.lines, k=rng.choice([0, 3, 8, 20])) if self.lines else []

    def chain(self) -> tuple[str, str, int]:
        """Returns the clock line and the data line of a chain, usually on the same port, and the number of chips in the chain."""
        clock_lines = self.rng.choice(self.outputs)
        data_lines = clock_lines if self.rng.random() < 0.8 else self.rng.choice(self.outputs)
        return self.rng.choice(clock_lines), self.rng.choice(data_lines), self.rng.choice([1, 2, 3, 8, 8])

    def text(self) -> list[str]:
        """Returns the text of the board."""
        lines: list[str] = []
        for chip, port in self.ports.items():
            lines += ["[[rom]]", f"chip = {chip}", f'port = "{port}"']
        for bank, chips in self.banks.items():
            lines += ["[[ram]]", f"bank = {bank}", f"chips = {chips}"]
        for clock, data, chips in self.chains:
            lines += ["[[chain]]", f'clock = "{clock}"', f'data = "{data}"', f"chips = {chips}"]
        if self.columns:
            columns = ", ".join(f'"{line}"' for line in self.columns)
            lines += ["[keys]", f"chain = {self.driver}", f"first = {self.first}", f"rows = {self.rows}", f"columns = [{columns}]"]
        for line in self.lamps:
            lines += ["[[lamp]]", f'line = "{line}"']
        return lines


class Program:
    """A random program for a board: instructions at several addresses, and then targets for its jumps."""

    def __init__(self, rng: random.Random, wiring: Wiring) -> None:
        self.rng, self.wiring = rng, wiring
        # The text of the statement at each address. The targets of jumps are added later.
        self.statements: dict[int, str] = {}
        # The addresses of jumps that end a loop, each with the address of the loop's beginning.
        self.loops: dict[int, int] = {}
        self.free = set(range(ADDRESS_COUNT))
        for page in wiring.pages:
            for word in {0, *rng.sample(ORG_OFFSETS, 2)} if page == 0 else rng.sample(ORG_OFFSETS, rng.randrange(1, 4)):
                self.put_phrases(256 * page + word, rng.randrange(4, 30))
            if rng.random() < 0.5:
                self.put_end_of_page(256 * page)
        self.begins = [address for address, statement in self.statements.items() if not statement.startswith("DB")]
        self.names = self.random_labels()

    def put_phrases(self, address: int, phrase_count: int) -> None:
        """Adds phrases (short sequences of instructions) from an address on, as far as there is room. Usually ends them with a jump, or with a code
        that is not an instruction."""
        statements = [word for _n in range(phrase_count) for word in self.phrase()]
        self.put(address, statements + self.rng.choice([["JUN"], ["JUN"], ["BBL 3"], [f"DB 0x{self.rng.choice(INVALID_CODES):02X}"], []]))

    def put(self, address: int, statements: list[str]) -> None:
        """Adds statements from an address on, as far as there is room. `^5` after a jump sets its target to the first of the last five statements,
        the jump included."""
        put: list[int] = []
        for statement in statements:
            statement, _sign, back = statement.partition(" ^")
            size = 2 if statement.split()[0] in (*JUMPS, "FIM") else 1
            if not {address, address + size - 1} <= self.free or any(word >> 8 not in self.wiring.pages for word in (address, address + size - 1)):
                return
            self.free -= {address, address + size - 1}
            self.statements[address] = statement
            put.append(address)
            if back and put[-int(back)] >> 8 == (address + 2) >> 8:
                self.loops[address] = put[-int(back)]
            address += size

    def put_end_of_page(self, page: int) -> None:
        """Adds two or three NOPs and then a jump within a page, or a FIN, at the end of a page. Adds nothing if there is no room, or if the board
        lacks the next page. The last instruction usually refers to the next page, because the word after it is on that page."""
        if (page >> 8) + 1 in self.wiring.pages and {page + 0xFC, page + 0xFD, page + 0xFE, page + 0xFF, page + 0x100} <= self.free:
            name = self.rng.choice(["ISZ R3", "JCN 12", "JCN 4", "JIN P2", "FIN P2"])
            self.put(page + 0xFC, [*self.rng.randrange(2, 4) * ["NOP"], name])

    def phrase(self) -> list[str]:
        """Returns a few instructions that belong together, or a single instruction of any kind."""
        kind = self.rng.random()
        value, pair = self.rng.randrange(16), self.rng.randrange(8)
        if kind < 0.15:
            return [f"FIM P{pair}, 0x{self.src_byte():02X}", f"SRC P{pair}"]
        if kind < 0.20:
            return [f"LDM {self.rng.choice([*self.wiring.banks, value])}", "DCL"]
        if kind < 0.40 and self.wiring.chains:
            return self.clock_pulses(pair)
        if kind < 0.45:
            return [f"FIM P0, 0x{self.rng.randrange(256):02X}", f"FIN P{pair}"]
        if kind < 0.48:
            return [self.rng.choice(["STC", "CLC"]), f"LDM {value}", "DAA"]
        if kind < 0.57:
            return [f"LDM {value}", self.rng.choice(["WRM", "WMP", "WRR", f"WR{value % 4}"])]
        return [self.any_instruction(value, pair)]

    def src_byte(self) -> int:
        """Returns an SRC byte, usually that of an existing chip."""
        return self.rng.choice([16 * self.rng.choice([*self.wiring.ports]), self.rng.randrange(64), self.rng.randrange(256)])

    def clock_pulses(self, pair: int) -> list[str]:
        """Returns instructions that clock a chain several times."""
        clock, data, _chips = self.rng.choice(self.wiring.chains)
        numbers = [int(word) for word in clock[3:].split(".")]
        up, down = (f"LDM {1 << numbers[-1] | self.rng.choice([0, 1 << int(data[-1])]) | self.rng.choice([0, 4])}", "LDM 0")
        selection = [f"FIM P{pair}, 0x{16 * numbers[0] if clock.startswith('rom') else 64 * numbers[1]:02X}", f"SRC P{pair}"]
        if clock.startswith("ram"):
            selection = [f"LDM {numbers[0]}", "DCL", *selection]
        write_mnemonic = "WRR" if clock.startswith("rom") else "WMP"
        pulse = [up, write_mnemonic, down, write_mnemonic]
        return selection + (self.rng.randrange(1, 6) * pulse if self.rng.random() < 0.5 else [*pulse, f"ISZ R{self.rng.randrange(16)} ^5"])

    def any_instruction(self, value: int, pair: int) -> str:
        """Returns a random instruction of any kind. The target of a jump is added later."""
        name = self.rng.choice([*CODES_WITHOUT_OPERAND, *CODES_ON_REGISTER, *CODES_ON_PAIR, *JUMPS, "FIM", "LDM", "BBL", "ISZ", "JMS"])
        if name == "FIM":
            return f"FIM P{pair}, 0x{self.rng.randrange(256):02X}"
        operand = f" P{pair}" if name in CODES_ON_PAIR else f" R{value}" if name in (*CODES_ON_REGISTER, "ISZ") else ""
        return name + (operand or (f" {value}" if name in ("LDM", "BBL", "JCN") else ""))

    def random_labels(self) -> dict[int, str]:
        """Returns labels for some of the addresses. Some of the labels look like numbers."""
        labelled_addresses = self.rng.sample(self.begins, min(len(self.begins), self.rng.choice([0, 2, 12])))
        return {address: NUMBER_LIKE_NAMES[i] if i < len(NUMBER_LIKE_NAMES) else f"l{address:03X}" for i, address in enumerate(labelled_addresses)}

    def target(self, address: int, name: str) -> str:
        """Returns the target of a jump as a name or a number. Usually an instruction is at the target."""
        if address in self.loops:
            return self.names.get(self.loops[address], f"0x{self.loops[address]:03X}")
        page = (address + 2) % ADDRESS_COUNT >> 8 if name in ("JCN", "ISZ") else self.rng.choice(self.wiring.pages)
        candidates = [begin for begin in self.begins if begin >> 8 == page]
        # The targets up to 12 bytes before the jump, which make a short loop.
        near_targets = [begin for begin in candidates if address - 12 < begin <= address]
        if name == "ISZ" and near_targets and self.rng.random() < 0.7:
            candidates = near_targets
        target_address = self.rng.choice(candidates) if candidates and self.rng.random() < 0.95 else 256 * page + self.rng.randrange(256)
        return self.names.get(target_address, f"0x{target_address:03X}")

    def text(self) -> list[str]:
        """Returns the text of the program."""
        lines, next_address = [], 0
        for address in sorted(self.statements):
            statement = self.statements[address]
            name = statement.split()[0]
            if name in JUMPS:
                statement += (", " if name in ("JCN", "ISZ") else " ") + self.target(address, name)
            if address != next_address:
                lines.append(f"        ORG 0x{address:03X}")
            label = f"{self.names[address]}:" if address in self.names else ""
            lines.append(f"{label:<10}{statement}" + ("" if self.rng.random() < 0.9 else " ; a comment"))
            next_address = address + (2 if name in (*JUMPS, "FIM") else 1)
        return lines


class SeededSession:
    """A random board and program, and random commands for a session with them."""

    def __init__(self, seed: int) -> None:
        self.rng = random.Random(seed)
        self.wiring = Wiring(self.rng)
        self.program = Program(self.rng, self.wiring)
        self.board_text = self.wiring.text()
        self.program_text = self.program.text()

    def setup_lines(self) -> list[str]:
        """Returns the session lines that set up the board and the program."""
        return ["wire", *self.board_text, ".", "asm", *self.program_text, "."]

    def address(self) -> int:
        """Returns an address, usually of an instruction. Often, a loop that clocks a chain follows it, or it is at the end of a page."""
        loops = [target_address - 3 for target_address in self.program.loops.values()]
        if loops and self.rng.random() < 0.3:
            return self.rng.choice(loops)
        addresses_at_page_end = [address for address in self.program.begins if address & 0xFC == 0xFC]
        if addresses_at_page_end and self.rng.random() < 0.2:
            return self.rng.choice(addresses_at_page_end)
        return self.rng.choice(self.program.begins) if self.rng.random() < 0.95 else self.rng.randrange(ADDRESS_COUNT)

    def ram_nibble(self) -> tuple[int, int]:
        """Returns the bank and the SRC byte of a RAM nibble, usually of an existing chip."""
        bank = self.rng.choice([*self.wiring.banks, self.rng.randrange(8)])
        return bank, self.rng.choice([self.program.src_byte(), self.rng.randrange(256)])

    def random_command(self) -> str:
        """Returns a command that changes something. Some of these commands are rejected."""
        rng = self.rng
        bank, src = self.ram_nibble()
        value = rng.randrange(16)
        kinds = [f"poke pc 0x{self.address():03X}"] * 4 + [
            f"poke acc {value}", f"poke cy {value % 2}", f"poke dcl {value % 8}", f"poke r{rng.randrange(16)} {value}",
            f"poke ram.{bank}.{src} {value}", f"poke st.{bank}.{src >> 4}.{rng.randrange(4)} {value}", f"test {value % 2}"]
        if self.wiring.columns:
            key = f"{rng.randrange(self.wiring.rows)} {rng.randrange(len(self.wiring.columns))}"
            kinds += [f"press {key}"] * 3 + [f"release {key}"]
        return rng.choice(kinds)

    def breakpoint_or_watch_command(self, board: Board) -> str:
        """Returns a command that sets or removes a breakpoint or a watch. Usually the program will soon reach it, or has stopped at it."""
        board_ahead, visited, written_nibbles = board.copy(), [board.pc], [self.ram_nibble()]
        board_ahead.breaks = set()

        def record_address(_done: int, address: int) -> None:
            visited.append(address)
            written_nibbles.extend([(board_ahead.dcl, board_ahead.chips.bank_src[board_ahead.dcl])] if board_ahead.rom[address] == 0xE0 else [])

        board_ahead.run(300, record_address)
        address, (bank, src) = self.rng.choice([board.pc, self.address(), *visited[-20:]]), self.rng.choice(written_nibbles)
        return self.rng.choice([f"break {address}"] * 2 + [f"unbreak {address}"] + [f"watch {bank} {src}"] * 2 + [f"unwatch {bank} {src}"])

    def trace_place(self) -> str:
        """Returns a place for `trace`. The board may lack this place."""
        rng = self.rng
        bank, src = self.ram_nibble()
        line = rng.choice(self.wiring.lines + self.wiring.inputs + [f"chain{rng.randrange(4)}.{rng.randrange(80)}"])
        ram_line = f"ram{rng.randrange(8)}.{rng.randrange(4)}.{rng.randrange(4)}"
        return rng.choice(["acc", "cy", "pc", "dcl", f"r{rng.randrange(16)}", f"rom.0x{self.address():x}", f"ram.{bank}.{src}",
                              f"st.{bank}.{src >> 4}.{rng.randrange(4)}", "ret", "lamps", "src", line, line, line, ram_line,
                              line.rpartition(".")[0], line.rpartition(".")[0], ram_line.rpartition(".")[0], f"rom{rng.randrange(16)}",
                              f"chain{rng.randrange(4)}"])

    def run_length(self) -> int:
        """Returns the length of a run in cycles."""
        return self.rng.choice([1, 2, 3, self.rng.randrange(1, 60), self.rng.randrange(1, 400), self.rng.randrange(1, 1500)])
