"""A second implementation of mcs4-prove, which runs the board of board4004.py and shares no code with the program. It searches breadth-first through
all states that a machine can reach with any keys and any level of TEST that the question allows. It tests the question's conditions in each cycle.

A state is everything in a machine except its inputs. It includes the number of cycles that the stopwatch shows, if the question has a stopwatch, and
the number of marks that were seen, if the question has marks. (A mark is a key that the program must read as up or as down.)

The search saves a state at power-on, before each cycle that reads an input (RDR, or JCN with TEST), and after a fixed number of cycles without such a
read. From each state it continues once for each value that the next cycle can read, with keys and TEST that produce this value. It stops at the next
state, or when the machine repeats an earlier state. It tests the conditions after each cycle.
"""

from __future__ import annotations

import itertools
import random
from collections.abc import Callable, Iterable
from dataclasses import dataclass, field

import bench4004
from board4004 import ADDRESS_COUNT, CODES, TWO_WORDS, Board

# A comparison, in the words of a question: `in` or `out`, the list, the index, the part, the minimum and the maximum.
Comparison = tuple[str, str, int, str, int, int]
# The condition that the next cycle makes one of these mistakes: the word `mistake`, and the names of the mistakes.
Mistakes = tuple[str, ...]
# A row of conditions, which is met when all its conditions are met.
Row = list[Comparison | Mistakes]
# A mark: `up` or `down`, and the row and the column of a key. The program sees the mark when it reads a value that shows that the key is up or down.
Mark = tuple[str, int, int]
# The row and the column of a key.
Key = tuple[int, int]
# The keys that are down, and the level of TEST.
Levels = tuple[frozenset[Key], int]
Condition = Callable[["QuestionBoard"], bool]
# The levels of the inputs at power-on.
LEVELS_AT_POWER_ON: Levels = (frozenset(), 1)


def condition_lines(word: str, rows: list[Row]) -> list[str]:
    """Returns the lines of a question for rows of conditions. Each row begins with a line that contains only `word`."""
    return [line for row in rows for line in (word, *(" ".join(map(str, condition)) for condition in row))]


@dataclass
class InputLimits:
    """The inputs that a question allows. At most `together` keys are down at a time, or any number if it is None. If `only` is true, a key can be
    pressed only if it is one of `keys`, and TEST can be 1 only if `test` is true. Otherwise all keys can be pressed, and TEST can be 0 or 1. Two
    changes of the levels are at least `wait` cycles apart. With `held`, no key is down for more than `held` cycles in succession. Only the searches
    in second_waits.py use `wait` and `held`; `search` ignores them. Without `wait`, the program ignores `held`, too."""

    together: int | None = None
    only: bool = False
    keys: list[Key] = field(default_factory=list)
    test: bool = False
    wait: int = 0
    held: int = 0

    def lines(self) -> list[str]:
        """Returns the lines that state these limits in a question."""
        return [*([] if self.together is None else [f"together {self.together}"]), *(["only"] if self.only else []),
                *(f"press {row} {column}" for row, column in self.keys), *(["test"] if self.test else []),
                *([f"wait {self.wait}"] if self.wait else []), *([f"held {self.held}"] if self.held else [])]

    def allows(self, levels: Levels) -> bool:
        """Returns true if the limits allow these levels of keys and TEST."""
        if self.together is not None and len(levels[0]) > self.together:
            return False
        return not self.only or levels[0] <= set(self.keys) and levels[1] <= int(self.test)


@dataclass
class Question:
    """A question about a board and a program. A row is met when all its conditions are true. No row of `nevers` may ever be met. `max_states` is the
    maximum number of states, and `pause` the maximum number of cycles from one state to the next. If `within` is not None, there is a stopwatch,
    which must never show more than `within` cycles. It starts when a row of `begins` is met, and stops when a row of `ends` is met. A row of `opens`
    may only be met after all `marks` were seen in order since the last time that such a row was met. The answer is about the inputs that `limits`
    allows."""

    board: list[str]
    program: list[str]
    nevers: list[Row] = field(default_factory=list)
    max_states: int = 1000000
    pause: int = 1000000
    begins: list[Row] = field(default_factory=list)
    ends: list[Row] = field(default_factory=list)
    within: int | None = None
    opens: list[Row] = field(default_factory=list)
    marks: list[Mark] = field(default_factory=list)
    limits: InputLimits = field(default_factory=InputLimits)

    def parts(self) -> list[list[str]]:
        """Returns the question in the form that the program reads: single lines, and the texts with the lines that enclose them."""
        time_limit = [] if self.within is None else [f"within {self.within}"]
        conditions = [line for word, rows in (("never", self.nevers), ("begin", self.begins), ("end", self.ends), ("open", self.opens))
                      for line in condition_lines(word, rows)]
        marks = [" ".join(map(str, mark)) for mark in self.marks]
        return [[f"most {self.max_states}"], [f"pause {self.pause}"], *([line] for line in time_limit), *self.texts(),
                *([line] for line in (*conditions, *marks, *self.limits.lines(), "prove"))]

    def texts(self) -> list[list[str]]:
        """Returns the lines of the board and of the program, with the lines that enclose them in a question and in a session."""
        return [["wire", *self.board, "."], ["asm", *self.program, "."]]

    def lines(self) -> list[str]:
        """Returns the lines of the question."""
        return [line for part in self.parts() for line in part]


@dataclass
class SearchResult:
    """The result of a search: a verdict (`holds`, `may fail` or `too many`), the number of states found, and the values that the program reads before
    the failure."""

    verdict: str
    states: int
    path: list[int] = field(default_factory=list)

    def answer(self) -> str:
        """Returns the program's answer."""
        return {"holds": f"holds {self.states}", "may fail": " ".join(["may fail", *map(str, self.path)])}.get(self.verdict, self.verdict)


# ---- the values that conditions compare

# The readers of the numbers in the list `counter`. A program counter, a return address and the stopwatch have several numbers, the highest first.
COUNTER_READERS: list[Callable[[QuestionBoard], int]] = [
    lambda board: board.acc, lambda board: board.cy, lambda board: board.dcl, lambda board: board.owed,
    *(lambda board, shift=shift: board.pc >> shift & 255 for shift in (8, 0)),
    *(lambda board, n=n, shift=shift: board.ret[n] >> shift & 255 for n in range(3) for shift in (8, 0)),
    lambda board: board.chips.rom_src, lambda board: board.call_count,
    *(lambda board, shift=shift: board.elapsed >> shift & 255 for shift in (16, 8, 0)),
    lambda board: board.seen_count]


def chain_bit(board: QuestionBoard, n: int, index: int) -> int:
    """Returns a bit of a chain, or 0 if the board does not have it."""
    chain = board.chips.chains[n] if n < len(board.chips.chains) else []
    return chain[index] if index < len(chain) else 0


# For each list of cells, the function that reads the cell with an index.
CELL_READERS: dict[str, Callable[[QuestionBoard, int], int]] = {
    "character": lambda board, index: board.chips.ram[index // 256][index % 256],
    "status": lambda board, index: board.chips.status[index // 64][index // 4 % 16][index % 4],
    "ramport": lambda board, index: board.chips.ram_latch.get((index // 4, index % 4), 0),
    "romport": lambda board, index: board.chips.rom_latch.get(index, 0),
    "banksrc": lambda board, index: board.chips.bank_src[index],
    "register": lambda board, index: board.r[index],
    "counter": lambda board, index: COUNTER_READERS[index](board),
    **{f"chain{n}": lambda board, index, n=n: chain_bit(board, n, index) for n in range(4)},
}


def cell_value(board: QuestionBoard, name: str, index: int) -> int:
    """Returns the value of a cell, or 0 if the board does not have it."""
    return CELL_READERS[name](board, index)


# ---- mistakes, by the instruction table of the manual

# The maximum number of open calls, which is the number of the processor's return addresses.
MAX_OPEN_CALLS = 3
# The instructions that access a RAM chip: its nibbles, its status nibbles and its port.
RAM_INSTRUCTIONS = {"WRM", "RDM", "ADM", "SBM", "WMP", *(f"{prefix}{k}" for prefix in ("WR", "RD") for k in range(4))}
MISTAKES = ("code", "call", "return", "ram", "rom", "rdr", "wrr")


@dataclass
class Stopwatch:
    """A stopwatch that counts cycles from the time at which `begins` becomes true until `ends` becomes true."""

    begins: Condition
    ends: Condition


def elapsed_after(board: QuestionBoard) -> int:
    """Returns the reading of the stopwatch after the next cycle."""
    if not board.stopwatch:
        return 0
    return board.elapsed + 1 if board.elapsed and not board.stopwatch.ends(board) else int(board.stopwatch.begins(board))


# ---- marks

@dataclass
class MarkSequence:
    """The marks that must be seen, in order, between two times at which the condition `opens` is true."""

    opens: Condition
    marks: list[Mark]


class QuestionBoard(Board):
    """The board of a question, with state that the search needs. `elapsed` is the number of cycles that the stopwatch shows, or 0 if it does not run.
    `seen_count` is the number of marks seen. While the condition `opens` is true, and in the cycle after that, `seen_count` is the number of all
    marks plus 1. A question need not have a stopwatch or marks."""

    def __init__(self, limits: InputLimits) -> None:
        super().__init__()
        self.limits = limits
        self.call_count = self.elapsed = self.seen_count = 0
        self.stopwatch: Stopwatch | None = None
        self.mark_sequence: MarkSequence | None = None


def value_with_keys(board: QuestionBoard, keys_down: Iterable[Key]) -> int:
    """Returns the value of the selected port with these keys down."""
    chips = board.chips
    previous_keys, chips.pressed_keys = chips.pressed_keys, set(keys_down)
    port_value = chips.read_port(chips.rom_src >> 4)
    chips.pressed_keys = previous_keys
    return port_value


def all_keys(board: QuestionBoard) -> list[Key]:
    """Returns the keys of a board."""
    return [(row, column) for row in range(board.chips.keys["rows"]) for column in range(len(board.chips.columns))]


def is_mark_shown(board: QuestionBoard, mark: Mark) -> bool:
    """Returns true if the next cycle sees a mark: it reads a port, and the value that it reads proves that the mark's key is down or up. The key is
    down if the line of its column is 1 although no other key can pull it to 1. It is up if the line is 0 although this key would pull it to 1."""
    level, *key_position = mark
    key, chips = (key_position[0], key_position[1]), board.chips
    if next_instruction(board)[0] != "RDR" or key not in all_keys(board):
        return False
    kind, (chip, line) = chips.columns[key[1]]
    if kind != "rom" or chip != chips.rom_src >> 4:
        return False
    line_levels = [value >> line & 1 for value in (
        chips.read_port(chip), value_with_keys(board, [key]), value_with_keys(board, [other_key for other_key in all_keys(board) if other_key != key]))]
    return line_levels[0] == 1 and line_levels[2] == 0 if level == "down" else line_levels[0] == 0 and line_levels[1] == 1


def marks_seen_after(board: QuestionBoard) -> int:
    """Returns the number of marks that will have been seen after the next cycle, as `seen_count` counts them."""
    sequence = board.mark_sequence
    if not sequence:
        return 0
    if sequence.opens(board):
        return len(sequence.marks) + 1
    seen = board.seen_count if board.seen_count <= len(sequence.marks) else 0
    return seen + int(seen < len(sequence.marks) and is_mark_shown(board, sequence.marks[seen]))


def is_early(board: QuestionBoard) -> bool:
    """Returns true if the condition is true although not all marks were seen."""
    sequence = board.mark_sequence
    return sequence is not None and board.seen_count < len(sequence.marks) and sequence.opens(board)


def addresses_read(board: QuestionBoard, name: str) -> list[int]:
    """Returns the addresses of the ROM words that the instruction at the counter reads: its own words, and for FIN the word that it loads."""
    next_address = (board.pc + 1) % ADDRESS_COUNT
    return [board.pc] + ([next_address] if name in TWO_WORDS else []) + ([next_address & 0xF00 | board.pair(0)] if name == "FIN" else [])


def mistakes_of_next_cycle(board: QuestionBoard) -> set[str]:
    """Returns the names of the mistakes that the next cycle makes. There are none in the second cycle of an instruction."""
    if board.owed:
        return set()
    if board.is_at_invalid_code():
        return {"code"}
    name, chips = CODES[board.rom[board.pc]][0], board.chips
    mistakes = {"rom"} if any(address >> 8 not in chips.masks for address in addresses_read(board, name)) else set()
    if name == "JMS" and board.call_count == MAX_OPEN_CALLS:
        mistakes.add("call")
    elif name == "BBL" and board.call_count == 0:
        mistakes.add("return")
    elif name in RAM_INSTRUCTIONS and not chips.has_ram(board.dcl, chips.bank_src[board.dcl]):
        mistakes.add("ram")
    elif name == "RDR" and "i" not in chips.masks.get(chips.rom_src >> 4, ""):
        mistakes.add("rdr")
    elif name == "WRR" and chips.masks.get(chips.rom_src >> 4, "").strip("i") == "":
        mistakes.add("wrr")
    return mistakes


def run_cycle(board: QuestionBoard) -> None:
    """Executes one cycle, which can open or close a call. A fourth nested call replaces the first one. At a code that is not an instruction, only the
    stopwatch and the number of marks can change."""
    elapsed, seen_count = elapsed_after(board), marks_seen_after(board)
    if board.owed:
        board.cycle()
    elif not board.is_at_invalid_code():
        name = CODES[board.rom[board.pc]][0]
        if name == "JMS":
            board.call_count = min(board.call_count + 1, MAX_OPEN_CALLS)
        elif name == "BBL":
            board.call_count = max(board.call_count - 1, 0)
        board.cycle()
    board.elapsed, board.seen_count = elapsed, seen_count


# ---- conditions

def is_met(board: QuestionBoard, condition: Comparison | Mistakes) -> bool:
    """Returns true if a condition is met."""
    if condition[0] == "mistake":
        return not mistakes_of_next_cycle(board).isdisjoint(condition[1:])
    operator, name, index, part, low, high = condition
    number = CELL_READERS[name](board, index)
    if part != "whole":
        number = number >> int(part[4:]) & 1
    return (low <= number <= high) == (operator == "in")


def condition_of(rows: list[Row]) -> Condition:
    """Returns a function that returns true if all conditions of at least one row are met."""
    def is_any_row_met(board: QuestionBoard) -> bool:
        # Loops are much faster than `any` and `all` here.
        for row in rows:
            for condition in row:
                if not is_met(board, condition):
                    break
            else:
                return True
        return False

    return is_any_row_met


def is_late(board: QuestionBoard, within: int | None) -> bool:
    """Returns true if the stopwatch shows more than its limit."""
    return within is not None and board.elapsed > within


def failure_condition(question: Question) -> Condition:
    """Returns a function that returns true if the question's property fails. It fails if a row of `nevers` is met, the stopwatch exceeds its limit, or
    a row of `opens` is met before its marks were seen."""
    is_failure = condition_of(question.nevers)
    return lambda board: is_failure(board) or is_late(board, question.within) or is_early(board)


# ---- the inputs that a question allows

def allowed_keys(board: QuestionBoard) -> list[Key]:
    """Returns the keys of a board that can be pressed."""
    limits = board.limits
    return [key for key in all_keys(board) if key in limits.keys] if limits.only else all_keys(board)


def allowed_test_levels(board: QuestionBoard) -> list[int]:
    """Returns the levels that TEST can have."""
    limits = board.limits
    return [0] if limits.only and not limits.test else [0, 1]


def max_keys_down(board: QuestionBoard) -> int:
    """Returns the maximum number of keys that can be down at a time."""
    together = board.limits.together
    return len(all_keys(board)) if together is None else together


# ---- what a machine reads

# The result of `next_instruction` if no instruction takes effect in the next cycle.
NO_INSTRUCTION = ("", 0)


def next_instruction(board: QuestionBoard) -> tuple[str, int]:
    """Returns the mnemonic of the instruction that takes effect in the next cycle, and the lower half of its code. Returns NO_INSTRUCTION if there is
    none."""
    return NO_INSTRUCTION if board.owed else CODES.get(board.rom[board.pc], NO_INSTRUCTION)


def is_reading(board: QuestionBoard) -> bool:
    """Returns true if the next cycle reads an input."""
    name, low = next_instruction(board)
    return name == "RDR" or (name == "JCN" and low % 2 == 1)


def port_values(board: QuestionBoard) -> dict[int, Levels]:
    """Returns the values that RDR can read, each with allowed levels that produce it. Tries all sets of allowed keys up to the maximum number of
    keys. Keys that pull the same lines to 1 are interchangeable, so the sets contain only one of them. Keys that pull no line are omitted."""
    test, value_without_keys = allowed_test_levels(board)[-1], value_with_keys(board, [])
    keys_by_value = {value_with_keys(board, [key]): key for key in allowed_keys(board)}
    keys = [key for value, key in keys_by_value.items() if value != value_without_keys]
    values: dict[int, Levels] = {}
    for count in range(min(len(keys), max_keys_down(board)) + 1):
        for keys_down in itertools.combinations(keys, count):
            values.setdefault(value_with_keys(board, keys_down), (frozenset(keys_down), test))
    return values


def values_read(board: QuestionBoard) -> dict[int, Levels]:
    """Returns the values that the next cycle can read, each with allowed levels that produce it. If the cycle reads no input, the only value is 0."""
    name, low = next_instruction(board)
    if name == "RDR":
        return port_values(board)
    levels = allowed_test_levels(board)
    return {level: (frozenset(), level) for level in levels} if name == "JCN" and low % 2 == 1 else {0: (frozenset(), levels[-1])}


def values_by_enumeration(board: QuestionBoard, max_keys: int) -> set[int] | None:
    """Returns the values that the next cycle can read (0 if it reads no input). Tries all levels of keys and TEST that the limits allow. Returns
    None if the board has more than `max_keys` keys."""
    keys, (name, low) = all_keys(board), next_instruction(board)
    if len(keys) > max_keys:
        return None
    all_levels = [(frozenset(itertools.compress(keys, pattern)), test) for pattern in itertools.product((0, 1), repeat=len(keys)) for test in (0, 1)]
    allowed = [levels for levels in all_levels if board.limits.allows(levels)]
    if name == "RDR":
        return {value_with_keys(board, keys_down) for keys_down, _test in allowed}
    return {test for _keys_down, test in allowed} if name == "JCN" and low % 2 == 1 else {0}


# ---- from state to state

def state_of(board: QuestionBoard) -> tuple:
    """Returns the state of a machine: everything except its inputs, and also the number of open calls, the cycles that the stopwatch shows, and the
    number of marks seen."""
    chips = board.chips
    return (board.acc, board.cy, board.pc, board.dcl, board.owed, tuple(board.r), tuple(board.ret), chips.rom_src, tuple(chips.bank_src),
            tuple(chips.rom_latch.values()), tuple(chips.ram_latch.values()), tuple(map(tuple, chips.chains)),
            tuple((bytes(chips.ram[bank]), *map(bytes, chips.status[bank])) for bank in sorted(chips.chips)), board.call_count, board.elapsed,
            board.seen_count)


def load_state(board: QuestionBoard, state: tuple) -> None:
    """Loads a state into a machine."""
    chips = board.chips
    board.acc, board.cy, board.pc, board.dcl, board.owed, r, ret, chips.rom_src, srcs, roms, rams, chains, banks, *added = state
    board.call_count, board.elapsed, board.seen_count = added
    board.r, board.ret, chips.bank_src, chips.chains = list(r), list(ret), list(srcs), [list(chain) for chain in chains]
    chips.rom_latch, chips.ram_latch = dict(zip(chips.rom_latch, roms)), dict(zip(chips.ram_latch, rams))
    for bank, (characters, *status) in zip(sorted(chips.chips), banks):
        chips.ram[bank], chips.status[bank] = bytearray(characters), list(map(bytearray, status))


def set_levels(board: QuestionBoard, levels: Levels) -> None:
    """Sets the levels of the keys and TEST."""
    board.chips.pressed_keys, board.test = set(levels[0]), levels[1]


def run_to_next_state(board: QuestionBoard, levels: Levels, is_failure: Condition, pause: int, counts_idle_cycles: bool = False) -> tuple[int, bool]:
    """Executes one cycle with these levels of keys and TEST, and then continues to the next state, or until the property fails. Returns the number
    of cycles, and true if the property failed after the last one. The cycles at a code that is not an instruction count only if something else
    changes in them, or if `counts_idle_cycles` is true."""
    set_levels(board, levels)
    start_address, start_state = board.pc, state_of(board)
    counts_idle_cycles = counts_idle_cycles or bool(board.stopwatch or board.mark_sequence)
    for cycles in range(1, pause + 2):
        if not counts_idle_cycles and not board.owed and board.is_at_invalid_code():
            # The state repeats, so nothing changes any more.
            return cycles - 1, False
        run_cycle(board)
        if is_failure(board):
            return cycles, True
        if is_reading(board) or board.pc == start_address and state_of(board) == start_state:
            return cycles, False
    return pause + 1, False


def power_on(question: Question) -> QuestionBoard:
    """Returns the machine of a question at power-on."""
    board = QuestionBoard(question.limits)
    board.wire("\n".join(question.board))
    bench4004.load(board, question.program)
    board.power_on()
    if question.within is not None:
        board.stopwatch = Stopwatch(condition_of(question.begins), condition_of(question.ends))
    if question.marks:
        board.mark_sequence = MarkSequence(condition_of(question.opens), question.marks)
    return board


def search(question: Question) -> SearchResult:
    """Searches for a failure of the question's property, and returns the result."""
    board, is_failure = power_on(question), failure_condition(question)
    if is_failure(board):
        return SearchResult("may fail", 1)
    if question.max_states < 1:
        return SearchResult("too many", 1)
    states, origins, known_states = [state_of(board)], [(0, 0)], {state_of(board)}
    for index, state in enumerate(states):
        load_state(board, state)
        for value, levels in sorted(values_read(board).items()):
            load_state(board, state)
            if run_to_next_state(board, levels, is_failure, question.pause)[1]:
                return SearchResult("may fail", len(states), [*values_leading_to(origins, index), value])
            new_state = state_of(board)
            if new_state not in known_states:
                if len(states) == question.max_states:
                    return SearchResult("too many", len(states) + 1)
                known_states.add(new_state)
                states.append(new_state)
                origins.append((index, value))
    return SearchResult("holds", len(states))


def values_leading_to(origins: list[tuple[int, int]], index: int) -> list[int]:
    """Returns the values that the program reads before it reaches the state with this index. `origins` has, for each state, the index of its
    predecessor, and the value that was read there."""
    values = []
    while index:
        index, value = origins[index]
        values.append(value)
    return values[::-1]


def is_met_when_driven(question: Question, rng: random.Random, cycles: int) -> bool:
    """Returns true if the property fails within a number of cycles when keys and TEST are set to random allowed levels before each cycle."""
    board, is_failure = power_on(question), failure_condition(question)
    keys, test_levels = allowed_keys(board), allowed_test_levels(board)
    for _cycle in range(cycles):
        if is_failure(board):
            return True
        keys_down = [key for key in keys if rng.random() < 0.1]
        board.chips.pressed_keys = set(rng.sample(keys_down, min(len(keys_down), max_keys_down(board))))
        board.test = rng.choice(test_levels)
        run_cycle(board)
    return is_failure(board)


# ---- replaying a counterexample

def level_commands(levels: Levels, previous: Levels) -> list[str]:
    """Returns the session lines that change keys and TEST from the previous levels to new ones."""
    lines = [f"release {row} {column}" for row, column in sorted(previous[0] - levels[0])]
    lines += [f"press {row} {column}" for row, column in sorted(levels[0] - previous[0])]
    return lines + ([f"test {levels[1]}"] if levels[1] != previous[1] else [])


def replay_lines(question: Question, path: list[int]) -> tuple[list[str], str]:
    """Returns the session lines that replay a counterexample up to the cycle in which the property fails. Also returns a description of the error in
    the counterexample, or "" if it has none."""
    board, is_failure, levels_before = power_on(question), failure_condition(question), LEVELS_AT_POWER_ON
    lines, has_failed = [*itertools.chain(*question.texts()), "reset"], is_failure(board)
    for index, value in enumerate(path):
        readable_values = values_read(board)
        if has_failed or value not in readable_values:
            return lines, f"value {index + 1} of the way {path}: " + ("it is met before" if has_failed else f"only {sorted(readable_values)} can be read at {board.pc:03X}")
        levels = readable_values[value]
        cycles, has_failed = run_to_next_state(board, levels, is_failure, question.pause)
        lines += level_commands(levels, levels_before) + [f"run {part}" for part in run_lengths(cycles)]
        levels_before = levels
    return lines, "" if has_failed else f"nothing is met on the way {path}"


def excluded_input(limits: InputLimits, lines: list[str]) -> str:
    """Finds the first `run` in session lines at which the limits do not allow the inputs. Returns a description of these inputs, or "" if there is no
    such `run`."""
    keys_down, test = LEVELS_AT_POWER_ON
    for line in lines:
        command, *words = line.split() or [""]
        if command in ("press", "release"):
            key = int(words[0]), int(words[1])
            keys_down = keys_down | {key} if command == "press" else keys_down - {key}
        elif command == "test":
            test = int(words[0])
        elif command == "run" and not limits.allows((keys_down, test)):
            return f"the limits exclude the keys {sorted(keys_down)} with TEST at {test}"
    return ""


def run_lengths(cycles: int, max_cycles: int = 100000) -> list[int]:
    """Splits a number of cycles into runs that a session accepts."""
    return [min(max_cycles, cycles - done_cycles) for done_cycles in range(0, cycles, max_cycles)]
