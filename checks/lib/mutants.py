"""Mutants that checks/time and checks/prove must detect: copies of the second implementation, each with one error that a program could have,
and answers with one wrong line. The docstring of a mutant's function says what the mutant does wrong.
"""

from __future__ import annotations

import re
from collections.abc import Callable
from contextlib import AbstractContextManager
from dataclasses import replace
from typing import Any
from unittest import mock

import board4004
import second_search
import second_waits
import expected_tool_output
from board4004 import Board, Chips
from second_search import Comparison, Condition, InputLimits, Levels, Mark, QuestionBoard
from second_waits import Spacing


def replace_instruction(name: str, execute: Callable[[Board, int, int], None]) -> Callable[[], AbstractContextManager]:
    """Returns a mutant with another implementation of an instruction. A mutant is a function that returns a context manager."""
    return lambda: mock.patch.dict(board4004.OPERATIONS, {name: execute})


def replace_function(owner: Any, name: str, replacement: Callable[..., Any]) -> Callable[[], AbstractContextManager]:
    """Returns a mutant with another implementation of a method or a function. `owner` is its class or its module."""
    return lambda: mock.patch.object(owner, name, replacement)


def daa_without_carry(board: Board, _low: int, _second_byte: int) -> None:
    """Executes DAA, but clears the carry if the accumulator does not overflow."""
    board.cy, board.acc = divmod(board.acc + (6 if board.cy or board.acc > 9 else 0), 16)


def isz_on_own_page(board: Board, k: int, second_byte: int) -> None:
    """Executes ISZ, but jumps within the page of the instruction's first word."""
    board.r[k] = (board.r[k] + 1) % 16
    if board.r[k]:
        board.pc = (board.pc - 2) % 4096 & 0xF00 | second_byte


def bbl_without_address(board: Board, value: int, _second_byte: int) -> None:
    """Executes BBL, but leaves 0 in the freed stack entry."""
    board.acc, board.pc, board.ret = value, board.ret[0], [*board.ret[1:], 0]


def send_src_to_all_banks(chips: Chips, _bank: int, byte: int) -> None:
    """Executes SRC, but lets all banks store the byte."""
    chips.rom_src = byte
    for bank in chips.chips:
        chips.bank_src[bank] = byte


def write_latch_with(is_edge: Callable[[int, int], bool], uses_new_data: bool) -> Callable[[Chips, dict, object, int], None]:
    """Returns a replacement for `write_latch` that clocks chains at the wrong edge, or shifts in the old level of the data line."""
    def write(chips: Chips, latches: dict, port: object, value: int) -> None:
        levels_before = [(chips.level(clock), chips.level(data)) for clock, data in chips.clocks]
        latches[port] = value
        for n, (clock, data) in enumerate(chips.clocks):
            if is_edge(levels_before[n][0], chips.level(clock)):
                chips.chains[n] = [chips.level(data) if uses_new_data else levels_before[n][1], *chips.chains[n][:-1]]
    return write


def stop_at_first_instruction(board: Board, cycles: int, max_cycles: int, is_watch_hit: bool) -> str:
    """Also stops a run at a breakpoint at the run's first instruction."""
    return "break" if not board.owed and not board.is_at_invalid_code() and board.pc in board.breaks else CORRECT_STOP_REASON(board, cycles, max_cycles, is_watch_hit)


def stop_inside_instruction(board: Board, cycles: int, max_cycles: int, is_watch_hit: bool) -> str:
    """Also stops a run at a breakpoint before a pending second cycle."""
    return "break" if cycles and board.pc in board.breaks else CORRECT_STOP_REASON(board, cycles, max_cycles, is_watch_hit)


def end_before_other_reasons(board: Board, cycles: int, max_cycles: int, is_watch_hit: bool) -> str:
    """Reports the end of a run even if the run has another reason to stop in the same cycle, which has precedence."""
    return "end" if cycles == max_cycles else CORRECT_STOP_REASON(board, cycles, max_cycles, is_watch_hit)


# The instructions that the mutants skip, one per mutant.
SKIPPED_INSTRUCTIONS = ("JCN", "FIM", "SRC", "FIN", "JIN", "JUN", "JMS", "INC", "ISZ", "ADD", "SUB", "LD", "XCH", "BBL", "LDM", "WRM", "WMP", "WRR", "SBM", "RDM",
           "RDR", "ADM", "DCL")
CORRECT_STOP_REASON = Board.stop_reason
BOARD_MUTANTS: dict[str, Callable[[], AbstractContextManager]] = {
    "DAA clears the carry": replace_instruction("DAA", daa_without_carry),
    "ISZ jumps on its own page": replace_instruction("ISZ", isz_on_own_page),
    "BBL leaves nothing": replace_instruction("BBL", bbl_without_address),
    "DCL designates four banks": replace_instruction("DCL", lambda board, _low, _second_byte: setattr(board, "dcl", board.acc % 4)),
    "all banks take SRC": replace_function(Chips, "send_src", send_src_to_all_banks),
    "the other edge clocks": replace_function(Chips, "write_latch", write_latch_with(lambda old, new: old == 1 and new == 0, True)),
    "a level clocks": replace_function(Chips, "write_latch", write_latch_with(lambda _old, new: new == 1, True)),
    "data of before the edge": replace_function(Chips, "write_latch", write_latch_with(lambda old, new: old == 0 and new == 1, False)),
    "a breakpoint stops at once": replace_function(Board, "stop_reason", stop_at_first_instruction),
    "a breakpoint stops inside an instruction": replace_function(Board, "stop_reason", stop_inside_instruction),
    "the end comes first": replace_function(Board, "stop_reason", end_before_other_reasons),
    "no watch stops": replace_function(Board, "watched_values", lambda _board: []),
    **{f"{name} does nothing": replace_instruction(name, board4004.nop) for name in SKIPPED_INSTRUCTIONS},
}


# ---- tools that compare strings as numbers if the strings look like numbers

def as_number(text: str) -> object:
    """Converts a string to a number if it looks like one. Otherwise returns it unchanged."""
    return float(text) if re.fullmatch(r"[0-9]+(E[0-9]+)?", text) else text


def changes_compared_as_numbers(before: Board, after: Board) -> list[str]:
    """Returns the changes by an instruction, except changes of chains whose strings are equal as numbers."""
    chains = ["".join(str(bit) for bit in chain) for chain in before.chips.chains]
    return [change for change in CORRECT_CHANGES_BETWEEN(before, after)
            if not change.startswith("chain") or as_number(change.split()[1]) != as_number(chains[int(change[5])])]


def levels_with_numeric_counter(board: Board, source: expected_tool_output.Source) -> dict[str, str]:
    """Returns the levels with the program counter as a number, so that addresses that are equal as numbers do not differ."""
    return CORRECT_LEVELS(board, source) | {"pc": str(as_number(f"{board.pc:03X}"))}


CORRECT_CHANGES_BETWEEN, CORRECT_LEVELS = expected_tool_output.changes_between, expected_tool_output.levels
TOOL_MUTANTS: dict[str, Callable[[], AbstractContextManager]] = {
    "trace compares chains as numbers": replace_function(expected_tool_output, "changes_between", changes_compared_as_numbers),
    "wave compares addresses as numbers": replace_function(expected_tool_output, "levels", levels_with_numeric_counter),
}


# ---- answers with one wrong line

def with_incremented_number(words: list[str], index: int) -> str:
    """Returns a line in which one number is one too large."""
    return " ".join([*words[:index], str(int(words[index]) + 1), *words[index + 1:]])


ANSWER_MUTANTS: dict[str, tuple[str, Callable[[list[str]], list[str]]]] = {
    "a cycle too many": ("run", lambda lines: [with_incremented_number(lines[0].split(), 3)]),
    "a count too many": ("count", lambda lines: [*lines[:-1], with_incremented_number(lines[-1].split(), 1)]),
    "a count that is left out": ("count", lambda lines: lines[:-1]),
    "a head of one line more": ("trace", lambda lines: [with_incremented_number(lines[0].split(), 5), *lines[1:]]),
    "a line that is left out": ("trace", lambda lines: [lines[0], *lines[2:]]),
    "a row that is out of date": ("trace", lambda lines: [*lines[:-1], " ".join(lines[-1].split()[:2] + lines[-2].split()[2:])]),
    "a time too late": ("trace", lambda lines: [*lines[:-1], with_incremented_number(lines[-1].split(), 0)]),
}


# ---- searches

def zeros_like(value: Any) -> Any:
    """Replaces all numbers in a structure with 0."""
    return type(value)(map(zeros_like, value)) if isinstance(value, (tuple, bytes)) else 0


def save_state_without(index: int) -> Callable[[QuestionBoard], tuple]:
    """Returns a function that saves a machine's state without one of its parts."""
    def save_state(board: QuestionBoard) -> tuple:
        state = CORRECT_STATE_OF(board)
        return (*state[:index], zeros_like(state[index]), *state[index + 1:])
    return save_state


def values_without_largest(board: QuestionBoard) -> dict[int, Levels]:
    """Omits the largest value that the next cycle can read, unless it is the only value."""
    values = CORRECT_VALUES_READ(board)
    return {value: values[value] for value in sorted(values)[:max(len(values) - 1, 1)]}


def values_at_constant_test(board: QuestionBoard) -> dict[int, Levels]:
    """Keeps TEST at 1, so that JCN never reads a 0 there."""
    return {value: levels for value, levels in CORRECT_VALUES_READ(board).items() if second_search.next_instruction(board)[0] != "JCN" or levels[1] == 1}


def test_only_at_next_state(board: QuestionBoard, levels: Levels, is_failure: Condition, pause: int) -> tuple[int, bool]:
    """Tests conditions only when the search reaches a state, not in the cycles between two states."""
    cycle_count, _bad = CORRECT_RUN_TO_NEXT_STATE(board, levels, lambda _board: False, pause)
    return cycle_count, is_failure(board)


def condition_between_instructions(conditions: list[list[Comparison]]) -> Condition:
    """Does not test conditions between the two cycles of an instruction."""
    is_failure = CORRECT_CONDITION(conditions)
    return lambda board: not board.owed and is_failure(board)


def is_met_with_reversed_bits(board: QuestionBoard, comparison: Comparison) -> bool:
    """Reverses the bits of a number, so that line 0 is the highest bit."""
    if comparison[0] == "mistake":
        return CORRECT_IS_MET(board, comparison)
    operator, name, index, part, low, high = comparison
    return CORRECT_IS_MET(board, (operator, name, index, part if part == "whole" else f"line{3 - int(part[4:])}", low, high))


def cycle_without_closing(board: QuestionBoard) -> None:
    """Opens calls but never closes any."""
    count_before = board.call_count
    CORRECT_RUN_CYCLE(board)
    board.call_count = max(count_before, board.call_count)


def elapsed_with_restart(board: QuestionBoard) -> int:
    """Restarts a stopwatch that is already running."""
    stopwatch = board.stopwatch
    return 1 if stopwatch and stopwatch.begins(board) else CORRECT_ELAPSED_AFTER(board)


def elapsed_without_restart(board: QuestionBoard) -> int:
    """Does not restart a stopwatch in the cycle in which it stops."""
    stopwatch = board.stopwatch
    return 0 if stopwatch and board.elapsed and stopwatch.ends(board) else CORRECT_ELAPSED_AFTER(board)


CORRECT_STATE_OF, CORRECT_VALUES_READ, CORRECT_RUN_TO_NEXT_STATE = second_search.state_of, second_search.values_read, second_search.run_to_next_state
CORRECT_CONDITION, CORRECT_IS_MET, CORRECT_NEXT_INSTRUCTION = second_search.condition_of, second_search.is_met, second_search.next_instruction
CORRECT_RUN_CYCLE, CORRECT_MISTAKES = second_search.run_cycle, second_search.mistakes_of_next_cycle
def marks_seen_without_reset(board: QuestionBoard) -> int:
    """Does not reset the number of seen marks when the condition becomes true."""
    sequence = board.mark_sequence
    return board.seen_count if sequence and sequence.opens(board) else CORRECT_MARKS_SEEN_AFTER(board)


def marks_seen_while_condition_true(board: QuestionBoard) -> int:
    """Counts marks while the condition is true, instead of starting after it."""
    sequence = board.mark_sequence
    return int(second_search.is_mark_shown(board, sequence.marks[0])) if sequence and sequence.opens(board) else CORRECT_MARKS_SEEN_AFTER(board)


def is_shown_by_line(level: str) -> Callable[[QuestionBoard, Mark], bool]:
    """Decides only from the level of the key's column line whether the key is down or up. Ignores other keys on that line, and whether the key's row
    is driven."""
    def is_shown(board: QuestionBoard, mark: Mark) -> bool:
        chips = board.chips
        if mark[0] != level or second_search.next_instruction(board)[0] != "RDR" or mark[1:] not in second_search.all_keys(board):
            return CORRECT_IS_MARK_SHOWN(board, mark)
        kind, numbers = chips.columns[mark[2]]
        return kind == "rom" and numbers[0] == chips.rom_src >> 4 and chips.read_port(numbers[0]) >> numbers[1] & 1 == (level == "down")
    return is_shown


CORRECT_ELAPSED_AFTER, CORRECT_IS_LATE = second_search.elapsed_after, second_search.is_late
CORRECT_MARKS_SEEN_AFTER, CORRECT_IS_MARK_SHOWN, CORRECT_IS_EARLY = second_search.marks_seen_after, second_search.is_mark_shown, second_search.is_early
STATE_PARTS = ("accumulator", "carry", "counter", "DCL", "owed cycle", "registers", "return addresses", "SRC of the ROMs", "SRC of the banks",
         "ports of ROMs", "ports of RAM", "chains", "RAM", "open calls", "elapsed cycles", "marks")
SEARCH_MUTANTS: dict[str, Callable[[], AbstractContextManager]] = {
    **{f"a state without its {part}": replace_function(second_search, "state_of", save_state_without(index))
       for index, part in enumerate(STATE_PARTS)},
    "a value is left out": replace_function(second_search, "values_read", values_without_largest),
    "TEST is constant": replace_function(second_search, "values_read", values_at_constant_test),
    "JCN 9 reads nothing": replace_function(second_search, "next_instruction", lambda board: ("", 0) if CORRECT_NEXT_INSTRUCTION(board) == ("JCN", 9) else CORRECT_NEXT_INSTRUCTION(board)),
    "RDR reads nothing": replace_function(second_search, "next_instruction", lambda board: ("", 0) if CORRECT_NEXT_INSTRUCTION(board)[0] == "RDR" else CORRECT_NEXT_INSTRUCTION(board)),
    "an owed cycle reads": replace_function(second_search, "next_instruction", lambda board: ("", 0) if board.is_at_invalid_code() else board4004.CODES[board.rom[board.pc]]),
    "each row is driven": replace_function(Chips, "is_pulled", lambda chips, line: int(any(chips.columns[column] == line for _row, column in chips.pressed_keys))),
    "a stretch is cut a cycle late": replace_function(second_search, "run_to_next_state", lambda board, levels, bad, pause: CORRECT_RUN_TO_NEXT_STATE(board, levels, bad, pause + 1)),
    "looked at where states stand": replace_function(second_search, "run_to_next_state", test_only_at_next_state),
    "not looked at between two cycles": replace_function(second_search, "condition_of", condition_between_instructions),
    "one comparison of a row is enough": replace_function(second_search, "condition_of", lambda nevers: CORRECT_CONDITION([[each] for row in nevers for each in row])),
    "lines count from the left": replace_function(second_search, "is_met", is_met_with_reversed_bits),
    "out is in": replace_function(second_search, "is_met", lambda board, words: CORRECT_IS_MET(board, words if words[0] == "mistake" else ("in", *words[1:]))),
    "mistakes are looked at at reads": replace_function(second_search, "mistakes_of_next_cycle", lambda board: CORRECT_MISTAKES(board) if second_search.is_reading(board) else set()),
    "four calls may be open": replace_function(second_search, "MAX_OPEN_CALLS", 4),
    "a BBL leaves calls open": replace_function(second_search, "run_cycle", cycle_without_closing),
    "a stopwatch begins while it runs": replace_function(second_search, "elapsed_after", elapsed_with_restart),
    "a stopwatch that ends does not begin": replace_function(second_search, "elapsed_after", elapsed_without_restart),
    "a stopwatch stands while a cycle reads": replace_function(second_search, "elapsed_after", lambda board: (
        board.elapsed if second_search.is_reading(board) else CORRECT_ELAPSED_AFTER(board))),
    "a limit is a cycle longer": replace_function(second_search, "is_late", lambda board, within: within is not None and CORRECT_IS_LATE(board, within + 1)),
    "a limit is a cycle shorter": replace_function(second_search, "is_late", lambda board, within: within is not None and CORRECT_IS_LATE(board, within - 1)),
    "marks are kept when the condition holds": replace_function(second_search, "marks_seen_after", marks_seen_without_reset),
    "a mark is seen while the condition holds": replace_function(second_search, "marks_seen_after", marks_seen_while_condition_true),
    "a key is up if its line is 0": replace_function(second_search, "is_mark_shown", is_shown_by_line("up")),
    "a key is down if its line is 1": replace_function(second_search, "is_mark_shown", is_shown_by_line("down")),
    "up is down": replace_function(second_search, "is_mark_shown", lambda board, mark: CORRECT_IS_MARK_SHOWN(board, ("down" if mark[0] == "up" else "up", *mark[1:]))),
    "the last mark need not be seen": replace_function(second_search, "is_early", lambda board: (
        CORRECT_IS_EARLY(board) and board.seen_count < len(board.mark_sequence.marks) - 1)),
    **{f"no mistake {kind}": replace_function(second_search, "mistakes_of_next_cycle", lambda board, kind=kind: CORRECT_MISTAKES(board) - {kind}) for kind in second_search.MISTAKES},
}


# ---- limits on the inputs

def values_with_few_lines(board: QuestionBoard) -> dict[int, Levels]:
    """Limits the number of lines that read 1, instead of the number of keys. A port can have lines that always read 1."""
    values = CORRECT_VALUES_READ(board)
    is_port_read = second_search.next_instruction(board)[0] == "RDR"
    return {value: levels for value, levels in values.items() if not is_port_read or value.bit_count() <= second_search.max_keys_down(board)}


CORRECT_ALLOWED_KEYS, CORRECT_TEST_LEVELS, CORRECT_MAX_KEYS_DOWN = second_search.allowed_keys, second_search.allowed_test_levels, second_search.max_keys_down
LIMIT_MUTANTS: dict[str, Callable[[], AbstractContextManager]] = {
    "together is ignored": replace_function(second_search, "max_keys_down", lambda board: len(second_search.all_keys(board))),
    "one more key is down": replace_function(second_search, "max_keys_down", lambda board: CORRECT_MAX_KEYS_DOWN(board) + 1),
    "one key less is down": replace_function(second_search, "max_keys_down", lambda board: max(CORRECT_MAX_KEYS_DOWN(board) - 1, 0)),
    "together counts lines that read 1": replace_function(second_search, "values_read", values_with_few_lines),
    "only allows all keys": replace_function(second_search, "allowed_keys", second_search.all_keys),
    "only excludes all keys": replace_function(second_search, "allowed_keys", lambda board: (
        [] if board.limits.only else CORRECT_ALLOWED_KEYS(board))),
    "press limits keys without only": replace_function(second_search, "allowed_keys", lambda board: [
        key for key in second_search.all_keys(board) if key in board.limits.keys]),
    "press has the column first": replace_function(second_search, "allowed_keys", lambda board: [
        key for key in second_search.all_keys(board) if not board.limits.only or key[::-1] in board.limits.keys]),
    "TEST is free": replace_function(second_search, "allowed_test_levels", lambda _board: [0, 1]),
    "TEST is 0 with only": replace_function(second_search, "allowed_test_levels", lambda board: (
        [0] if board.limits.only else CORRECT_TEST_LEVELS(board))),
    "TEST is 0 without test": replace_function(second_search, "allowed_test_levels", lambda board: (
        [0, 1] if board.limits.test else [0])),
    "TEST stays at 1": replace_function(second_search, "allowed_test_levels", lambda board: (
        [1] if CORRECT_TEST_LEVELS(board) == [0] else [0, 1])),
}


# ---- the minimum time between changes

def begins_with_free_change(part: int) -> Callable[[int, Spacing, Levels], bool]:
    """Lets TEST (part 1) or the keys (part 0) change at any time, if the other levels do not change."""
    return lambda wait, spacing, levels: (
        CORRECT_CAN_BEGIN_AT(wait, spacing, levels) or spacing.last is not None and spacing.last[1 - part] == levels[1 - part])


def age_of_late_change(wait: int, spacing: Spacing, levels: Levels) -> int:
    """Makes a change at the beginning of the step, and not as early as possible."""
    return CORRECT_AGE_AT_BEGIN(wait, spacing, levels) if spacing.last in (None, levels) else 0


def age_of_free_change(wait: int, spacing: Spacing, levels: Levels) -> int:
    """Ignores a change when it calculates the age, so that the change does not delay the next one."""
    return CORRECT_AGE_AT_BEGIN(wait, spacing, levels if spacing.last is None else spacing.last)


def age_without_maximum(is_same: bool) -> Callable[[int, Spacing, Levels], int]:
    """Does not limit the age at the beginning of a step to `wait` - 1, so that the next change can be too early. If `is_same` is true, this happens
    only if the last step had the same levels, otherwise only if it had other levels."""
    def age(wait: int, spacing: Spacing, levels: Levels) -> int:
        if spacing.last is None or is_same != (spacing.last == levels):
            return CORRECT_AGE_AT_BEGIN(wait, spacing, levels)
        return spacing.age if is_same else spacing.age - wait
    return age


CORRECT_CAN_BEGIN_AT, CORRECT_AGE_AT_BEGIN, CORRECT_AGE_AFTER = second_waits.can_begin_at, second_waits.age_at_begin, second_waits.age_after
WAIT_MUTANTS: dict[str, Callable[[], AbstractContextManager]] = {
    "a change is a cycle early": replace_function(second_waits, "can_begin_at", lambda wait, spacing, levels: (
        CORRECT_CAN_BEGIN_AT(wait - 1, spacing, levels))),
    "a change is a cycle late": replace_function(second_waits, "can_begin_at", lambda wait, spacing, levels: (
        CORRECT_CAN_BEGIN_AT(wait + 1, spacing, levels))),
    "keys change at any time": replace_function(second_waits, "can_begin_at", begins_with_free_change(0)),
    "TEST changes at any time": replace_function(second_waits, "can_begin_at", begins_with_free_change(1)),
    "the first levels are a change": replace_function(second_waits, "age_at_begin", lambda wait, spacing, levels: (
        0 if spacing.last is None else CORRECT_AGE_AT_BEGIN(wait, spacing, levels))),
    "a change is made as late as possible": replace_function(second_waits, "age_at_begin", age_of_late_change),
    "a change does not delay the next one": replace_function(second_waits, "age_at_begin", age_of_free_change),
    "a change is made before a step at the same levels": replace_function(second_waits, "age_at_begin", age_without_maximum(True)),
    "a change is made before a step at other levels": replace_function(second_waits, "age_at_begin", age_without_maximum(False)),
    "a step takes one cycle": replace_function(second_waits, "age_after", lambda wait, age, _cycles: CORRECT_AGE_AFTER(wait, age, 1)),
    "the first cycle of a step is not counted": replace_function(second_waits, "age_after", lambda wait, age, cycles: (
        CORRECT_AGE_AFTER(wait, age, cycles - 1))),
    "an age is at most `wait`": replace_function(second_waits, "age_after", lambda wait, age, cycles: (
        min(CORRECT_AGE_AFTER(wait, age, cycles), wait))),
}


# ---- keys that are down for a limited time

def down_without_long_steps(limits: InputLimits, down: int, levels: Levels, cycles: int) -> int:
    """Continues to count the time for which a key is down after a step of more than `wait` cycles, instead of starting again at 0."""
    return min(down + cycles, limits.held) if levels[0] else 0


def down_with_limited(are_limited: Callable[[Levels], bool]) -> Callable[[InputLimits, int, Levels, int], int]:
    """Limits the time for which the levels stay the same, but only levels that `are_limited` selects."""
    return lambda limits, down, levels, cycles: min(down + cycles, limits.held) if are_limited(levels) and cycles <= limits.wait else 0


def down_with_longer_wait(cycle_count: int) -> Callable[[InputLimits, int, Levels, int], int]:
    """Lets the levels change twice only during steps that are longer than `wait` plus `cycle_count` cycles."""
    return lambda limits, down, levels, cycles: CORRECT_DOWN_AFTER(replace(limits, wait=limits.wait + cycle_count), down, levels, cycles)


CORRECT_DOWN_AFTER, CORRECT_DOWN_AT_BEGIN = second_waits.down_after, second_waits.down_at_begin
HELD_MUTANTS: dict[str, Callable[[], AbstractContextManager]] = {
    "`held` is ignored": replace_function(second_waits, "is_held_too_long", lambda _held, _spacing, _levels: False),
    "a key must be up a cycle early": replace_function(second_waits, "is_held_too_long", lambda held, spacing, levels: (
        held > 0 and bool(levels[0]) and CORRECT_DOWN_AT_BEGIN(spacing, levels) + 1 >= held)),
    "levels without keys are limited": replace_function(second_waits, "down_after", down_with_limited(lambda _levels: True)),
    "TEST is limited as a key": replace_function(second_waits, "down_after", down_with_limited(lambda levels: levels != (frozenset(), 0))),
    "the time is kept after a long step": replace_function(second_waits, "down_after", down_without_long_steps),
    "a step of a cycle more than `wait` is not long": replace_function(second_waits, "down_after", down_with_longer_wait(1)),
    "a step of `wait` cycles is long": replace_function(second_waits, "down_after", down_with_longer_wait(-1)),
    "the first cycle of a step does not count": replace_function(second_waits, "down_after", lambda limits, down, levels, cycles: (
        CORRECT_DOWN_AFTER(limits, down, levels, cycles - 1))),
    "a step counts as one cycle": replace_function(second_waits, "down_after", lambda limits, down, levels, _cycles: (
        CORRECT_DOWN_AFTER(limits, down, levels, 1))),
    "only the last step counts": replace_function(second_waits, "down_at_begin", lambda _spacing, _levels: 0),
    "the time is kept when the levels change": replace_function(second_waits, "down_at_begin", lambda spacing, _levels: spacing.down),
    "a change of TEST ends the time": replace_function(second_waits, "down_at_begin", lambda spacing, levels: (
        spacing.down if levels == spacing.last else 0)),
}
