"""Valid and invalid records of session files, written manually from docs/FORMAT.md ("Bytes of commands")."""

from session_file import Board, Command, State, load, ram_line, rom_line, run, step, wire
from session_states import LARGEST_BOARD, state_with_chains

NO_ROMS = b"-" * 64
TWO_KEYS_BOARD = Board({0: "0000", 1: "1i0i"}, {}, [(rom_line(0, 0), rom_line(0, 1), 1)], (0, 0, 1, [rom_line(1, 0), rom_line(1, 2)]))
BOARD_WITH_EACH_PART = Board({0: "1i0i"}, {1: 2}, [(rom_line(0, 1), rom_line(0, 3), 3)], (0, 5, 2, [rom_line(0, 2)]), [ram_line(1, 0, 3)])


def part_setter(part, value):
    """Returns a function that sets a part of a state to a value."""
    return lambda state: setattr(state, part, value)


def item_setter(part, index, value):
    """Returns a function that sets an element of a part of a state to a value."""
    return lambda state: getattr(state, part).__setitem__(index, value)


def command_with_record(text, record, apply):
    """Returns a command with this session line, this record, and the function that applies it."""
    return Command(f"{text}\n", bytes(record), apply)


def wire_with_record(board, record):
    """Returns the command that wires a board, with this record."""
    return Command(wire(board.text(), board).text, record, wire("", board).apply)


# Boards with their records. The first board is empty. In the second one, the order of a port's characters matters (lines 3, 2, 1, 0). The third one
# has every kind of part, and the last one has as many of each kind as possible.
BOARDS = [
    wire_with_record(Board(), b"\1" + NO_ROMS + bytes(11)),
    wire_with_record(TWO_KEYS_BOARD, b"\1" + b"0000" + b"1i0i" + NO_ROMS[:56]
          + bytes.fromhex("0000000000000000 01 00000000 00000100 01 01000001 02 00010000 00010200 00")),
    wire_with_record(BOARD_WITH_EACH_PART, b"\1" + b"1i0i" + NO_ROMS[:60]
          + bytes.fromhex("0002000000000000 01 00000100 00000300 03 01000502 01 00000200 01 01010003")),
    wire_with_record(LARGEST_BOARD, b"\1" + b"1i0i" * 16 + bytes.fromhex("0404040404040404 04") + bytes.fromhex("00000100 00000300 08") * 4
          + bytes.fromhex("0103460a 08") + bytes.fromhex("000f0000") * 8 + bytes.fromhex("40") + bytes.fromhex("02034f00") * 64),
]
# The number of bytes in the record of the largest board.
LONGEST_BOARD_RECORD_BYTES = 404
# Commands on the largest board. The first one is a program: bytes at 000, 00A and FFF.
COMMANDS = [
    Command("asm\n DB 0xD1\n ORG 0x00A\n DB 0xD5\n ORG 0xFFF\n DB 0xF2\n.\n", bytes([2, 1, 4, *bytes(509), 0x80, 0xD1, 0xD5, 0xF2]),
            load("", {0: 0xD1, 0x00A: 0xD5, 0xFFF: 0xF2}).apply),
    command_with_record("press 0 0", [3, 0, 0], item_setter("keys", 0, 1)),
    command_with_record("press 9 7", [3, 9, 7], item_setter("keys", 79, 1)),
    command_with_record("release 0 0", [4, 0, 0], item_setter("keys", 0, 0)),
    command_with_record("poke r3 7", [7, 3, 3, 7], item_setter("registers", 3, 7)),
    command_with_record("reset", [9], State.reset),
    Command("run 100000\n", bytes([5, 0, 1, 0x86, 0xA0]), lambda state: state.run(100_000), 100_000),
    Command("step\n", bytes([6]), State.step, 2),
    command_with_record("test 0", [8, 0], part_setter("test", 0)),
    command_with_record("break 0x100", [10, 1, 0], part_setter("breakpoints", [0x100])),
    command_with_record("break 0xFFF", [10, 0x0F, 0xFF], part_setter("breakpoints", [0x100, 0xFFF])),
    command_with_record("unbreak 0xFFF", [11, 0x0F, 0xFF], part_setter("breakpoints", [0x100])),
    command_with_record("watch 5 0x3F", [12, 5, 0x3F], part_setter("watches", [(5, 0x3F)])),
    command_with_record("watch 7 0xFF", [12, 7, 0xFF], part_setter("watches", [(5, 0x3F), (7, 0xFF)])),
    command_with_record("unwatch 7 0xFF", [13, 7, 0xFF], part_setter("watches", [(5, 0x3F)])),
    command_with_record("poke acc 15", [7, 0, 15], part_setter("accumulator", 15)),
    command_with_record("poke cy 1", [7, 1, 1], part_setter("carry", 1)),
    command_with_record("poke pc 0xFFE", [7, 2, 0x0F, 0xFE], part_setter("counter", 0xFFE)),
    command_with_record("poke r5 9", [7, 3, 5, 9], item_setter("registers", 5, 9)),
    command_with_record("poke dcl 7", [7, 4, 7], part_setter("bank", 7)),
    command_with_record("poke rom.0x123 0xD3", [7, 5, 1, 0x23, 0xD3], item_setter("rom", 0x123, 0xD3)),
    command_with_record("poke ram.1.0xFF 3", [7, 6, 1, 0xFF, 3], item_setter("ram", 256 + 0xFF, 3)),
    command_with_record("poke st.7.15.3 8", [7, 7, 7, 15, 3, 8], item_setter("status", 511, 8)),
]
# The record of the empty board, and the record of a program of two bytes.
EMPTY_BOARD_RECORD = b"\1" + Board().bytes()
LOAD_RECORD = bytes([2, 3, *bytes(513)])
# Invalid records. On the largest board, a parser that does not reject them would read a command that the bench accepts.
INVALID_RECORDS = [
    *(bytes(record) for record in (
        [0], [14], [3, 0], [3, 0, 0, 0], [5, 0, 0, 0], [6, 0], [7], [7, 8, 0], [7, 0, 16], [7, 1, 2], [7, 2, 0x10, 0], [7, 3, 16, 0],
        [7, 3, 0, 16], [7, 4, 8], [7, 6, 8, 0, 0], [7, 7, 0, 0, 4, 0], [8, 2], [10, 0x10, 0], [11, 0], [12], [12, 8, 0], [12, 0],
        [13, 0, 0, 0], [13, 8, 0])),
    # An invalid board: a port whose text has one character, a bank of five chips, and a record that is one byte too short.
    EMPTY_BOARD_RECORD[:1] + b"i" + EMPTY_BOARD_RECORD[2:], EMPTY_BOARD_RECORD[:65] + b"\5" + EMPTY_BOARD_RECORD[66:], EMPTY_BOARD_RECORD[:75],
    # `load` with a bitmap that marks two addresses but only one byte, and with one that marks one address but two bytes.
    LOAD_RECORD[:-1], bytes([2, 1]) + LOAD_RECORD[2:],
]
VALID_RECORDS = [bytes([3, 0, 0]), bytes([5, 0, 0, 0, 1]), bytes([7, 0, 15]), EMPTY_BOARD_RECORD, LOAD_RECORD]
# Commands that exist in version 1, and commands that only version 2 has. All records are in the format of version 2.
COMMANDS_OF_BOTH_VERSIONS = [wire(BOARD_WITH_EACH_PART.text(), BOARD_WITH_EACH_PART), wire(state_with_chains(2, 4).board.text(), state_with_chains(2, 4).board), step(),
                  command_with_record("poke pc 1", [7, 2, 0, 1], part_setter("counter", 1)), run(1)]
COMMANDS_OF_VERSION_2 = [wire(state_with_chains(3, 1).board.text(), state_with_chains(3, 1).board), wire(state_with_chains(1, 5).board.text(), state_with_chains(1, 5).board),
                  command_with_record("watch 0 0", [12, 0, 0], part_setter("watches", [(0, 0)])), command_with_record("unwatch 0 0", [13, 0, 0], part_setter("watches", []))]
