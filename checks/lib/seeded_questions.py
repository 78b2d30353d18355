"""Random questions for mcs4-prove, reproducible from a seed. Each has a random board (seeded_boards.py), a short program that reads keys and TEST in
loops, and conditions that compare values that such a program changes. Some of these become true, and some never do. Some questions also ask about
mistakes in the program. A quarter of the questions have a stopwatch, and a quarter have marks (second_search.py explains these words). The same
questions can also be asked with limits on the inputs."""

from __future__ import annotations

import dataclasses
import random
from collections.abc import Iterator

from assembler import CODES_WITHOUT_OPERAND
from second_search import (
    MISTAKES, Comparison, InputLimits, Key, Mark, Question, QuestionBoard, Row, all_keys, cell_value, run_to_next_state, is_mark_shown, power_on, search,
    values_read)
from seeded_boards import INVALID_CODES, Program, SeededSession, Wiring

# Most of the instructions that do not access a chip.
CHIPLESS_INSTRUCTIONS = ["CLB", "CLC", "IAC", "CMC", "CMA", "RAL", "RAR", "TCC", "DAC", "TCS", "STC", "DAA", "KBP"]
# The number of cells in each list that a comparison can name.
CELL_COUNTS = {"character": 2048, "status": 512, "ramport": 32, "romport": 16, "banksrc": 8, "register": 16, "counter": 14,
           "chain0": 256, "chain1": 256, "chain2": 256, "chain3": 256}
# The maximum length of a random walk in states (twice as long in `marks_on_walk`), and the number of random walks that measure a time.
MAX_WALK_STATES, TIMED_WALKS = 12, 8


class ReadingProgram(Program):
    """A short program that reads keys and TEST repeatedly."""

    def __init__(self, rng: random.Random, wiring: Wiring) -> None:
        self.rng, self.wiring = rng, wiring
        self.statements, self.loops, self.names = {}, {}, {}
        self.free = set(range(0x1000))
        self.registers = rng.sample(range(16), 2)
        words = [word for _n in range(rng.randrange(0, 3)) for word in self.phrases_before_loop()]
        words += [word for _n in range(rng.randrange(2, 7)) for word in self.loop_phrases()]
        ends = [["JUN"]] * 8 + [["BBL 3"], [f"DB 0x{rng.choice(INVALID_CODES):02X}"], []]
        self.put(0, words + rng.choice(ends))
        self.begins = [at for at, statement in self.statements.items() if not statement.startswith("DB")]

    def phrases_before_loop(self) -> list[str]:
        """Returns instructions before the program's loop. They shift bits into a chain, or write a value to a port or to RAM."""
        if self.wiring.chains and self.rng.random() < 0.8:
            clock, data, _chips = self.rng.choice([self.wiring.chains[self.wiring.driver], self.rng.choice(self.wiring.chains)])
            return self.clock_phrases(clock, data)
        return self.selection_phrases(self.rng.randrange(8)) + [f"LDM {self.rng.randrange(16)}", self.rng.choice(["WRR", "WMP", "WRM", "WR1"])]

    def clock_phrases(self, clock: str, data: str) -> list[str]:
        """Returns instructions that clock a chain up to three times, usually with its data line at 1."""
        numbers = [int(word) for word in clock[3:].split(".")]
        pair = self.rng.randrange(8)
        selection = [f"FIM P{pair}, 0x{16 * numbers[0] if clock.startswith('rom') else 64 * numbers[1]:02X}", f"SRC P{pair}"]
        if clock.startswith("ram"):
            selection = [f"LDM {numbers[0]}", "DCL", *selection]
        write_mnemonic = "WRR" if clock.startswith("rom") else "WMP"
        data_bit = 1 << int(data[-1]) if self.rng.random() < 0.7 else 0
        return selection + self.rng.randrange(1, 4) * [f"LDM {data_bit}", write_mnemonic, f"LDM {data_bit | 1 << numbers[-1]}", write_mnemonic]

    def selection_phrases(self, pair: int) -> list[str]:
        """Returns instructions that select a chip, usually one with inputs."""
        inputs = [16 * int(line[3:].split(".")[0]) for line in self.wiring.inputs]
        return [f"FIM P{pair}, 0x{self.rng.choice(inputs) if inputs and self.rng.random() < 0.8 else self.src_byte():02X}", f"SRC P{pair}"]

    def loop_phrases(self) -> list[str]:
        """Returns instructions for the loop, which usually read keys or TEST and use the value."""
        rng = self.rng
        register = rng.choice(self.registers)
        kind = rng.random()
        if kind < 0.30:
            return self.selection_phrases(rng.randrange(8)) + ["RDR"] + self.phrases_that_use(register)
        if kind < 0.55:
            return [f"JCN {rng.choice([1, 1, 9, 9, 3, 5, 7, 11, 13, 15])}", *self.phrases_that_use(register)]
        if kind < 0.65:
            return [f"INC R{register}"] if rng.random() < 0.5 else [f"ISZ R{register}"]
        if kind < 0.75:
            return self.phrases_before_loop()
        if kind < 0.80:
            return [rng.choice(["JMS", "BBL 1", f"LDM {rng.randrange(16)}", "JUN"])]
        if kind < 0.88:
            return [rng.choice(["RDM", "ADM", "SBM", "RD0", "RD1"]), *self.phrases_that_use(register)]
        return [self.any_instruction(register, register // 2)] if rng.random() < 0.3 else [rng.choice(CHIPLESS_INSTRUCTIONS)]

    def phrases_that_use(self, register: int) -> list[str]:
        """Returns instructions that use a value that was read."""
        rng = self.rng
        written = [name for name in CODES_WITHOUT_OPERAND if name.startswith("W") and name != "WPM"]
        return rng.choice([
            [], ["KBP"], [f"XCH R{register}"], [rng.choice(written)], [rng.choice(written)], [f"JCN {rng.choice([4, 12])}"],
            ["RAR", f"JCN {rng.choice([2, 10])}"], [f"ADD R{register}"], [rng.choice(CHIPLESS_INSTRUCTIONS)], [f"INC R{register}"], ["RAR", "TCC", "WMP"]])


class KeyWiring(Wiring):
    """A small board with a key matrix."""

    def __init__(self, rng: random.Random) -> None:
        self.rng, self.pages, self.lamps = rng, [0], []
        self.ports = {0: "0000", 1: rng.choice(["iiii", "iii1", "0ii0", "i0i1"])}
        self.banks = {0: 1} if rng.random() < 0.5 else {}
        self.outputs = [[f"rom0.{line}" for line in range(4)]]
        self.inputs = [f"rom1.{3 - i}" for i in range(4) if self.ports[1][i] == "i"]
        self.chains, self.driver = [("rom0.0", "rom0.1", 1)], 0
        self.rows, self.first = rng.randrange(1, 4), rng.randrange(3)
        self.columns = rng.choices(self.inputs, k=rng.randrange(1, 4))


class KeyReadingProgram(ReadingProgram):
    """A short program that drives the rows of a key matrix and reads the columns."""

    def phrases_before_loop(self) -> list[str]:
        """Returns instructions that drive rows of the key matrix."""
        return [phrase for _n in range(2) for phrase in self.clock_phrases("rom0.0", "rom0.1")]

    def loop_phrases(self) -> list[str]:
        """Returns instructions for the loop, which usually read the columns and use the value."""
        if self.rng.random() < 0.6:
            return self.selection_phrases(self.rng.randrange(8)) + ["RDR"] + self.phrases_that_use(self.rng.choice(self.registers))
        return super().loop_phrases()


def random_walk(question: Question, rng: random.Random) -> Iterator[QuestionBoard]:
    """Yields the machine at several states of a random walk, in which keys and TEST have random levels."""
    board = power_on(question)
    yield board
    for _n in range(rng.randrange(MAX_WALK_STATES)):
        values = values_read(board)
        run_to_next_state(board, values[rng.choice(sorted(values))], lambda _board: False, min(question.pause, 50))
        yield board


def cells_of(wiring: Wiring) -> list[tuple[str, int]]:
    """Returns cells to compare: registers, ports, and some of the nibbles of RAM and chains. Some belong to missing chips."""
    cells = [("register", k) for k in range(16)] + [("counter", k) for k in range(14)]
    cells += [("romport", chip) for chip in wiring.ports] + [("banksrc", bank) for bank in wiring.banks]
    cells += [("ramport", 4 * bank + chip) for bank, chips in wiring.banks.items() for chip in range(chips)]
    cells += [("character", 256 * bank + src) for bank in wiring.banks for src in (0, 16, 64, 17)]
    cells += [("status", 64 * bank + 4 * high + k) for bank in wiring.banks for high in (0, 1) for k in range(4)]
    return cells + [(f"chain{n}", bit) for n in range(len(wiring.chains)) for bit in range(4)]


def random_comparison(rng: random.Random, wiring: Wiring, boards: list[dict[tuple[str, int], int]]) -> Comparison:
    """Returns a random comparison, usually of a cell that changes on a random walk. It compares the cell with one of its values on that walk, or
    with another value."""
    name, index = rng.choice(cells_of(wiring))
    changing_cells = [each for each in boards[0] if len({seen[each] for seen in boards}) > 1]
    if changing_cells and rng.random() < 0.8:
        name, index = rng.choice(changing_cells)
    elif rng.random() < 0.1:
        name = rng.choice([*CELL_COUNTS])
        index = rng.randrange(CELL_COUNTS[name])
    numbers = [seen.get((name, index), 0) for seen in boards]
    other_values = [number for number in numbers if number != numbers[0]] or numbers
    number = rng.choice(other_values) if rng.random() < 0.5 else rng.randrange(256 if name == "counter" else 16)
    if rng.random() < 0.3:
        k = rng.randrange(4)
        return rng.choice(["in", "out"]), name, index, f"line{k}", *[rng.choice([1 - (numbers[0] >> k & 1), rng.randrange(2)])] * 2
    width = rng.choice([0, 0, 0, 1, 5])
    return ("in", name, index, "whole", number, min(number + width, 255)) if rng.random() < 0.85 else ("out", name, index, "whole", 0, number)


def comparisons_at_address(recorded_values: dict[tuple[str, int], int]) -> Row:
    """Returns comparisons that are true when the machine is between two instructions and its program counter has the recorded value."""
    return [("in", "counter", 3, "whole", 0, 0), *(("in", "counter", n, "whole", *[recorded_values["counter", n]] * 2) for n in (4, 5))]


def opposite_comparison(words: Comparison) -> Comparison:
    """Returns the comparison that is true when another one is false."""
    return ("out" if words[0] == "in" else "in", *words[1:])


def add_stopwatch(question: Question, rng: random.Random, wiring: Wiring, boards: list[dict[tuple[str, int], int]]) -> None:
    """Adds a stopwatch to a question. It measures how long a condition is true, or the time from one address to another. Its limit is near the
    longest time on several random walks."""
    if rng.random() < 0.5:
        question.nevers = []
    kind = rng.random()
    if kind < 0.4:
        condition = random_comparison(rng, wiring, boards)
        question.begins, question.ends = [[condition]], [[opposite_comparison(condition)]]
    elif kind < 0.8:
        question.begins, question.ends = [comparisons_at_address(rng.choice(boards))], [comparisons_at_address(rng.choice(boards))]
    else:
        question.begins = [[random_comparison(rng, wiring, boards)] for _row in range(rng.choice([1, 2]))]
        question.ends = [[random_comparison(rng, wiring, boards), *([("mistake", *MISTAKES)] if rng.random() < 0.2 else [])] for _row in range(rng.choice([1, 2]))]
    if rng.random() < 0.15:
        # Adds a comparison of the lowest byte of the number that the stopwatch shows.
        question.ends.append([("in", "counter", 16, "whole", rng.randrange(1, 6), 255)])
    question.within = max(0, longest_time(question, rng) + rng.choice([-1, 0, 0, 0, 1, 3]))


def longest_time(question: Question, rng: random.Random) -> int:
    """Returns the longest time, in cycles, that the stopwatch of a question shows during some random walks."""
    shown_times = [0]

    def record_elapsed(board: QuestionBoard) -> bool:
        shown_times.append(board.elapsed)
        return False

    for _walk in range(TIMED_WALKS):
        board = power_on(dataclasses.replace(question, within=0))
        for _n in range(MAX_WALK_STATES):
            values = values_read(board)
            run_to_next_state(board, values[rng.choice(sorted(values))], record_elapsed, min(question.pause, 50))
    return max(shown_times)


def add_marks(question: Question, rng: random.Random, wiring: Wiring) -> None:
    """Adds marks that must be seen before a cell has a certain value. The cell gets this value for the first time during a random walk. Usually, the
    earlier reads of the walk show these marks."""
    if rng.random() < 0.5:
        question.nevers = []
    cells, walk = cells_of(wiring), marks_on_walk(question, rng)
    cell_values = [{each: cell_value(board, *each) for each in cells} for board, _marks in walk]
    first_changes = [(each, at) for each in cells for at in range(1, len(walk)) if cell_values[at][each] not in {seen[each] for seen in cell_values[:at]}]
    (name, index), at = rng.choice(first_changes) if first_changes else (rng.choice(cells), 1)
    value = cell_values[min(at, len(walk) - 1)][name, index]
    question.opens = [[("in", name, index, "whole", value, value)]]
    if rng.random() < 0.2:
        question.opens.append([random_comparison(rng, wiring, cell_values)])
    shown = [rng.choice(marks) for _board, marks in walk[:at] if marks]
    if rng.random() < 0.3:
        shown = [(rng.choice(["up", "down"]), row, column) for row in range(wiring.rows) for column in range(len(wiring.columns))]
    chosen_indexes = sorted(rng.sample(range(len(shown)), min(len(shown), rng.choice([1, 1, 1, 2, 2, 3]))))
    question.marks = [shown[index_of_mark] for index_of_mark in chosen_indexes] or [("up", 0, 0), ("down", 0, 0)][:rng.choice([1, 2])]
    if rng.random() < 0.15:
        # Adds a comparison of the number of marks that were seen.
        question.nevers.append([("in", "counter", 17, "whole", rng.randrange(1, len(question.marks) + 2), 255)])


def key_waiting_question(rng: random.Random, wiring: Wiring) -> Question:
    """Returns a question about a program that waits until keys of a row are pressed, one after another, and then stores a number in a register. Some
    of these programs do not wait until a key is up, and some drive other rows as well. Some questions have marks of keys for which the program does
    not wait."""
    row, register, number = rng.randrange(wiring.rows), rng.randrange(12), rng.randrange(1, 16)
    program, marks = [" FIM P7, 0", " SRC P7"], []
    for bit in range(wiring.first + row + 1):
        data = 2 if bit == 0 or rng.random() < 0.1 else 0
        program += [f" LDM {data}", " WRR", f" LDM {data + 1}", " WRR"]
    program += [" FIM P6, 0x10", " SRC P6", "loop: CLB", f" XCH R{register}"]
    for n in range(rng.choice([1, 1, 2])):
        column = rng.randrange(len(wiring.columns))
        rotate_to_carry = (int(wiring.columns[column][-1]) + 1) * [" RAR"]
        if rng.random() < 0.85:
            program += [f"up{n}: RDR", *rotate_to_carry, f" JCN 2, up{n}"]
        program += [f"down{n}: RDR", *rotate_to_carry, f" JCN 10, down{n}"]
        marks += [("up", row, column), ("down", row, column)]
    if rng.random() < 0.3:
        marks[rng.randrange(len(marks))] = (rng.choice(["up", "down"]), rng.randrange(wiring.rows), rng.randrange(len(wiring.columns)))
    opens = [[("in", "register", register, "whole", number, number)]]
    return Question(wiring.text(), [*program, f" LDM {number}", f" XCH R{register}", " JUN loop"], opens=opens, marks=marks)


def marks_on_walk(question: Question, rng: random.Random) -> list[tuple[QuestionBoard, list[Mark]]]:
    """Returns some of the states that a random walk visits: copies of the machine, each with the marks that its next cycle shows."""
    board, walk = power_on(question), []
    for _n in range(2 * MAX_WALK_STATES):
        values = values_read(board)
        levels = values[rng.choice(sorted(values))]
        board.chips.pressed_keys = set(levels[0])
        marks = [(level, row, column) for row, column in all_keys(board) for level in ("up", "down") if is_mark_shown(board, (level, row, column))]
        walk.append((board.copy(), marks))
        run_to_next_state(board, levels, lambda _board: False, min(question.pause, 50))
    return walk


def seeded_question(seed: int, max_states: int) -> Question:
    """Returns a random question whose search may visit at most `max_states` states. One in eight has a long program of arbitrary instructions."""
    rng = random.Random(seed)
    wiring: Wiring
    if seed % 8 == 7:
        session = SeededSession(seed)
        wiring, question = session.wiring, Question(session.board_text, session.program_text)
    elif seed % 8 == 6:
        wiring = KeyWiring(rng)
        question = key_waiting_question(rng, wiring)
    elif seed % 8 == 2:
        wiring = KeyWiring(rng)
        question = Question(wiring.text(), KeyReadingProgram(rng, wiring).text())
    else:
        wiring = Wiring(rng)
        question = Question(wiring.text(), ReadingProgram(rng, wiring).text())
    question.max_states, question.pause = max_states, rng.choice([1, 2, 7, 30, 100, 300])
    if seed % 8 == 6:
        return question
    cells = cells_of(wiring)
    boards = [{each: cell_value(board, *each) for each in cells} for board in random_walk(question, rng)]
    question.nevers = [[random_comparison(rng, wiring, boards) for _each in range(rng.choice([1, 2, 2, 3]))] for _row in range(rng.choice([0, 1, 1, 1, 2]))]
    if rng.random() < 0.5:
        mistake_condition = ("mistake", *rng.sample(MISTAKES, rng.choice([1, 1, 2, len(MISTAKES)])))
        question.nevers.append([mistake_condition, *([random_comparison(rng, wiring, boards)] if rng.random() < 0.2 else [])])
    if seed % 4 == 1:
        add_stopwatch(question, rng, wiring, boards)
    if seed % 8 == 2:
        add_marks(question, rng, wiring)
    return question


# ---- limits on the inputs

# The maximum number of questions among which `limited_question` chooses.
MAX_ATTEMPTS = 4


def random_limits(rng: random.Random, keys: list[Key]) -> InputLimits:
    """Returns random limits for a board with these keys. Some limits allow all inputs. Some allow the press of keys that the board does not have."""
    if rng.random() < 0.1:
        return InputLimits(rng.choice([None, len(keys), 255]), True, keys, True)
    limits = InputLimits(rng.choice([None, None, None, 0, 1, 1, 1, 2, 2, 3, 255]), rng.random() < 0.6, [], rng.random() < 0.5)
    if limits.only or rng.random() < 0.3:
        limits.keys = rng.sample(keys, rng.randrange(len(keys) + 1)) + rng.choice([[], [], [(rng.randrange(256), rng.randrange(256))]])
    return limits


def chord_question(rng: random.Random, wiring: Wiring) -> Question:
    """Returns a question about a program that drives some rows and stores a number in a register after it reads a certain value. Some of these
    programs also test the TEST pin. The value can require several keys, so that limits on the inputs can exclude it."""
    register, number = rng.randrange(12), rng.randrange(1, 16)
    program = [" FIM P7, 0", " SRC P7"]
    for _bit in range(rng.randrange(1, wiring.first + wiring.rows + 1)):
        data = rng.choice([0, 2, 2])
        program += [f" LDM {data}", " WRR", f" LDM {data + 1}", " WRR"]
    program += [" FIM P6, 0x10", " SRC P6", "loop: RDR"]
    if rng.random() < 0.4:
        # KBP converts a value with more than one line at 1 to 15.
        program += [" KBP", " IAC", " JCN 12, loop"]
    else:
        lines = {int(line[-1]) for line in rng.sample(wiring.columns, rng.randrange(1, len(wiring.columns) + 1))}
        fixed_bits = sum(1 << k for k in range(4) if wiring.ports[1][3 - k] == "1")
        program += [" XCH R12", f" LDM {sum(1 << line for line in lines) | fixed_bits}", " CLC", " SUB R12", " JCN 12, loop"]
    program += rng.choice([[], [], [" JCN 1, loop"], [" JCN 9, loop"]])
    nevers: list[Row] = [[("in", "register", register, "whole", number, number)]]
    return Question(wiring.text(), [*program, f" LDM {number}", f" XCH R{register}", " JUN loop"], nevers)


def without_limits(question: Question) -> Question:
    """Returns the question without limits on the inputs."""
    return dataclasses.replace(question, limits=InputLimits())


def random_limited_question(rng: random.Random, max_states: int) -> Question:
    """Returns a random question with limits on the inputs. Half of these questions are about keys that are down together."""
    if rng.random() < 0.5:
        question = chord_question(rng, KeyWiring(rng))
        question.max_states, question.pause = max_states, rng.choice([1, 7, 100])
    else:
        question = seeded_question(rng.randrange(100000), max_states)
    question.limits = random_limits(rng, all_keys(power_on(question)))
    return question


def limited_question(seed: int, max_states: int) -> Question:
    """Returns a random question with limits on the inputs. Makes a few attempts to find one for which the limits change the result of a short
    search."""
    rng = random.Random(f"limits {seed}")
    for _attempt in range(MAX_ATTEMPTS):
        question = random_limited_question(rng, max_states)
        few_states_question = dataclasses.replace(question, max_states=30)
        if search(few_states_question) != search(without_limits(few_states_question)):
            break
    return question


def lines_in_random_order(question: Question, rng: random.Random) -> list[str]:
    """Returns the lines of a question, with the lines of its limits at random positions outside the texts. Repeats a `press`, `only` or `test` line.
    Before each `together`, `wait` or `held` line, inserts another such line with another number, because only the last one counts."""
    limits = question.limits.lines()
    numbered_lines = [line for line in limits if line.startswith(("together", "wait", "held"))]
    other_lines = [line for line in limits if line not in numbered_lines]
    parts = without_limits(question).parts()
    for line in [*other_lines, *rng.sample(other_lines, min(len(other_lines), 1))]:
        parts.insert(rng.randrange(len(parts)), [line])
    for line in numbered_lines:
        position = rng.randrange(len(parts))
        parts.insert(position, [line])
        parts.insert(rng.randrange(position + 1), [f"{line.split()[0]} {rng.randrange(2, 256)}"])
    return [line for part in parts for line in part]
