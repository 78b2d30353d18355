"""Valid and invalid states of session files, worked out manually from docs/FORMAT.md ("Bytes of a state")."""

from session_file import Board, State, break_at, chain_line, press, ram_line, rom_line, watch, wire

# The board of the manual's first hour, and a board with the maximum number of each kind of part.
WORKED_BOARD = Board({0: "0000", 1: "iiii", 2: "iiii"}, {0: 1, 1: 1}, [(rom_line(0, 0), rom_line(0, 1), 1)],
               (0, 0, 10, [rom_line(chip, line) for chip in (1, 2) for line in range(4)]),
               [chain_line(0, 0), chain_line(0, 1), ram_line(0, 0, 3)])
LARGEST_BOARD = Board(dict.fromkeys(range(16), "1i0i"), dict.fromkeys(range(8), 4), [(rom_line(0, 1), rom_line(0, 3), 8)] * 4,
                (3, 70, 10, [rom_line(15, 0)] * 8), [chain_line(3, 79)] * 64)
# The parts of a state that are lists, each with its first and its last index.
FIRST_AND_LAST_INDEXES = {"rom": (0, 4_095), "ram": (0, 2_047), "status": (0, 511), "ram_ports": (0, 31), "rom_ports": (0, 15), "bank_sources": (0, 7)}


def zeros_except(size, values):
    """Returns `size` bytes that are 0 except at the offsets in `values`."""
    data = bytearray(size)
    for offset, value in values.items():
        data[offset] = value
    return data


def register_values(values):
    """Returns the 16 registers with these values, and 0 in the others."""
    return zeros_except(16, values)


def state_with_chains(count, chips):
    """Returns a state on a board with ROM 0 and `count` chains of `chips` chips each, and nothing else."""
    return State(board=Board({0: "0000"}, {}, [(rom_line(0, 1), rom_line(0, 3), chips)] * count), chains=[bytearray(10 * chips)] * count)


def worked_board_state(**parts):
    """Returns a state on the worked board, with a 1 in the last bit of its chain and its last key down."""
    return State(board=WORKED_BOARD, chains=[zeros_except(10, {9: 1})], keys=zeros_except(80, {79: 1}), **parts)


def state_with_rom_0(port):
    """Returns a state on a board that has only ROM 0, with this port."""
    return State(board=Board({0: port}))


# States that both versions can store. Each has a name, the state, queries to a session in this state, and the answers to the queries.
STATES = [
    ("a new state", State(), "", ""),
    ("a count of commands of four bytes", State(seq=0xFF00_0000), "seq\n", "seq 4278190080\n"),
    ("the maximum count of commands", State(seq=0xFFFF_FFFF), "reset\nrun 0\nseq\n", "no 46\nno 46\nseq 4294967295\n"),
    ("an accumulator of 15, and a carry", State(accumulator=15, carry=1), "", ""),
    ("registers of 15", State(registers=register_values({7: 15, 15: 15})), "", ""),
    ("the last counter", State(counter=0xFFF), "", ""),
    ("a counter on the last page", State(counter=0xF00), "", ""),
    ("return addresses", State(return_addresses=[0xFFF, 0x123, 0xFFE]), "", ""),
    ("bank 7", State(bank=7), "", ""),
    ("an SRC byte of the ROMs", State(rom_source=0xFF), "trace 1 src\n", "trace ran 1 end lines 0 FF\n"),
    ("a pending cycle", State(owed=1), "", ""),
    ("a pending cycle of a jump", State(seq=4, board=Board({0: "0000"}), rom=zeros_except(4_096, {0: 0x41, 1: 0x23}), counter=0x123, owed=1),
     "list 0 1\n", "000 41 23 JUN 0x123\n"),
    ("TEST at 0", State(test=0), "", ""),
    ("two breakpoints", State(breakpoints=[9, 300]), "breaks\n", "breaks 009 12C\n"),
    ("two other breakpoints", State(breakpoints=[3, 0x123]), "breaks\n", "breaks 003 123\n"),
    *((f"a ROM of {port}", state_with_rom_0(port), "board\n", f'board\n[[rom]]\nchip = 0\nport = "{port}"\n') for port in ("iiii", "0000", "1111")),
    ("the worked board", worked_board_state(rom_ports=zeros_except(16, {0: 8})), "", ""),
    ("the worked board, with all its parts set",
     worked_board_state(rom_ports=zeros_except(16, {0: 8}), ram=zeros_except(2_048, {256 + 63: 15}), status=zeros_except(512, {64 + 15: 14}), bank=7,
                     test=0, return_addresses=[0, 0x123, 0]), "state\nram 1\n",
     "state seq 0 acc 0 cy 0 pc 000 owed 0 dcl 7 test 0 r 0000000000000000 ret 000,123,000 src 00 banks 0.00,1.00 roms 0.8.0,1.0.0,2.0.8 "
     "rams 0.0.0,1.0.0 chains 0000000001 keys 9.7 lamps ... breaks - watches -\n"
     "ram 1 chips 1\n1.0.0 0000000000000000 0000\n1.0.1 0000000000000000 0000\n1.0.2 0000000000000000 0000\n"
     "1.0.3 000000000000000F 000E\n1.0 out 0\n"),
    ("two chains of four chips", state_with_chains(2, 4), "", ""),
]
# States that only version 2 can store, in the same form.
STATES_OF_VERSION_2 = [
    ("two watches", State(watches=[(0, 1), (5, 0x3F)]), "watches\n", "watches 0.01 5.3F\n"),
    ("three watches", State(watches=[(0, 1), (5, 0x3F), (7, 0xFF)]), "watches\n", "watches 0.01 5.3F 7.FF\n"),
    ("a watch of bank 7", State(watches=[(7, 0)]), "watches\n", "watches 7.00\n"),
    ("eight watches", State(watches=[(0, source) for source in range(8)]), "watches\n",
     "watches 0.00 0.01 0.02 0.03 0.04 0.05 0.06 0.07\n"),
    ("three chains", state_with_chains(3, 1), "", ""),
    ("a chain of five chips", state_with_chains(1, 5), "", ""),
    ("four chains of eight chips", state_with_chains(4, 8), "", ""),
    ("the largest board", State(board=LARGEST_BOARD, chains=[zeros_except(80, {79: 1})] * 4, keys=zeros_except(80, {79: 1})), "lamps\n",
     f"lamps {64 * '*'}\n"),
]

# Invalid states in both versions, with their names.
INVALID_STATES = [
    ("R0 at 16", State(registers=register_values({0: 16}))),
    ("R7 at 16", State(registers=register_values({7: 16}))),
    ("an accumulator of 16", State(accumulator=16)),
    ("a carry of 2", State(carry=2)),
    ("a counter of 4,096", State(counter=0x1000)),
    ("the newest return address at 4,096", State(return_addresses=[0x1000, 0, 0])),
    ("the oldest return address at 4,096", State(return_addresses=[0, 0, 0x1000])),
    ("bank 8", State(bank=8)),
    ("two pending cycles", State(owed=2)),
    ("TEST at 2", State(test=2)),
    ("a ROM byte without a ROM", State(rom=zeros_except(4_096, {5: 1}))),
    ("an SRC byte of a bank without chips", State(bank_sources=zeros_except(8, {3: 1}))),
    *((f"byte {offset} of {part} without its chip", State(**{part: zeros_except(last + 1, {offset: 1})}))
      for part, (first, last) in FIRST_AND_LAST_INDEXES.items() for offset in (first, last)),
    ("an input line that stores a bit", worked_board_state(rom_ports=zeros_except(16, {1: 8}))),
    ("a breakpoint twice", State(breakpoints=[9, 300, 300])),
    ("a breakpoint of one byte twice", State(breakpoints=[3, 3])),
    ("breakpoints in descending order", State(breakpoints=[3, 2])),
    ("33 breakpoints", State(breakpoints=list(range(33)))),
    ("a bank of five chips", State(board=Board(banks={0: 5}))),
    ("65 lamps", State(board=Board({0: "0000"}, lamps=[rom_line(0, 0)] * 65))),
    ("five chains", state_with_chains(5, 1)),
    ("a chain of nine chips", state_with_chains(1, 9)),
    ("a bit of a chain at 2", State(board=WORKED_BOARD, chains=[zeros_except(10, {9: 2})], keys=bytearray(80))),
    ("a key at 2", State(board=WORKED_BOARD, chains=[bytearray(10)], keys=zeros_except(80, {79: 2}))),
]
# Invalid watches, which only version 2 has.
INVALID_WATCHES = [
    ("a watch twice", [(0, 1), (5, 0x3F), (5, 0x3F)]),
    ("two equal watches", [(5, 0x3F), (5, 0x3F)]),
    ("watches in descending order", [(5, 0x40), (5, 0x3F)]),
    ("banks of watches in descending order", [(8, 0), (5, 0x3F)]),
    ("a watch of bank 8", [(8, 0)]),
    ("a watch of bank 8 after others", [(0, 1), (5, 0x3F), (8, 0)]),
    ("nine watches", [(0, source) for source in range(9)]),
]


def with_byte(snapshot, offset, byte):
    """Returns a snapshot with another byte at an offset."""
    return snapshot[:offset] + bytes([byte]) + snapshot[offset + 1:]


NEW_STATE, NEW_STATE_OF_VERSION_1 = State().bytes(), State().bytes(1)
# Snapshots that are invalid in any version.
INVALID_SNAPSHOTS = [
    ("no bytes", b""),
    ("four bytes of 2", bytes([2] * 4)),
    ("one byte less", NEW_STATE[:-1]),
    ("one byte more", NEW_STATE + bytes(1)),
    ("version 2 without the count of its watches", NEW_STATE[:-1]),
    ("one byte less of version 1", NEW_STATE_OF_VERSION_1[:-1]),
    ("version 1 with a count of watches", NEW_STATE_OF_VERSION_1 + bytes(1)),
    *((f"version {byte:02X}", with_byte(NEW_STATE, 4, byte)) for byte in (0, 1, 3, ord("-"), ord("i"))),
    *((f"version 01 and a ROM of {port}", with_byte(state_with_rom_0(port).bytes(), 4, 1)) for port in ("iiii", "0000", "1111")),
    ("a port of one character", with_byte(NEW_STATE, 5, ord("i"))),
    *((f"{description} without its bytes", with_byte(NEW_STATE, offset, byte)) for description, offset, byte in (
        ("a chain", 77, 1), ("five chains", 77, 5), ("keys", 78, 1), ("keys twice", 78, 2), ("65 lamps", 79, 65),
        ("a breakpoint", 6_822, 1), ("33 breakpoints", 6_822, 33), ("a watch", 6_823, 1), ("nine watches", 6_823, 9))),
]


# The number of bytes in the longest state, and the commands that lead to it: the largest board, the maximum number of breakpoints and watches, and a
# pressed key. The breakpoints stop runs immediately.
LONGEST_STATE_BYTES = 7_632
LONGEST_COMMANDS = [wire(LARGEST_BOARD.text(), LARGEST_BOARD), *map(break_at, range(32)), *(watch(7, source) for source in range(8)), press(9, 7)]
