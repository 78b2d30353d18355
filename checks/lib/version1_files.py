"""Session files of version 1 with their contents. The program of commit a1f6da2, the last one that wrote version 1, wrote these files."""

from session_file import FILE_BYTES, State, poke_register, run, step
from session_states import WORKED_BOARD, zeros_except

# Ranges of bytes that are not zero. Each is an offset, bytes, and how many times these are repeated. All files have the ranges of NEW_BENCH_RANGES,
# which are the snapshot of a new bench.
NEW_BENCH_RANGES = [(0, b"MCS4BEN1", 1), (18, b"\x1A\xA6", 1), (24, b"-", 64), (6_840, b"\x01", 1)]
POKE_RECORD = b"\1\0\4\7\3\5\x09"
# The worked board: three ROMs, two RAM chips, a chain of ten bits, eighty keys, three lamps.
BOARD_RANGES = [(0, b"0000iiiiiiii", 1), (12, b"-", 52), (64, bytes.fromhex(
    "0101000000000000 01 00000000 00000100 01 01 00000a08 00010000 00010100 00010200 00010300 00020000 00020100 00020200 00020300"
    "03 02000000 02000100 01000003"), 1)]
KEYS_PROGRAM = bytes.fromhex("d3e2 d2e2 d3e2 2010 21 ea fc")


def file_with(ranges, boards=()):
    """Returns a file with these ranges. `boards` has the offsets at which the file also has the bytes of the worked board."""
    file = bytearray(FILE_BYTES)
    board_ranges = [(board + offset, data, times) for board in boards for offset, data, times in BOARD_RANGES]
    for offset, data, times in [*NEW_BENCH_RANGES, *board_ranges, *ranges]:
        file[offset:offset + len(data) * times] = data * times
    return file


def worked_state(program, chain=(), down=(), **parts):
    """Returns a state on the worked board with a program at address 0, ones in a chain, and pressed keys."""
    return State(board=WORKED_BOARD, rom=zeros_except(4_096, dict(enumerate(program))), chains=[zeros_except(10, dict.fromkeys(chain, 1))],
                 keys=zeros_except(80, {8 * row + column: 1 for row, column in down}), **parts)


# The parts of the state in which the program has read two pressed keys.
STATE_WITH_READ_KEYS = {"chain": (0, 1), "down": ((0, 1), (1, 2)), "rom_source": 0x10, "bank_sources": zeros_except(8, {0: 0x10}),
             "rom_ports": zeros_except(16, {0: 3})}
# For each file: a description of its commands, the active slot, the file, its state, commands to execute after opening it, and then queries with
# their answers.
FILES = [
    ("poke r5 9", 0, file_with([(16_400, POKE_RECORD, 1)]), State(seq=1, registers=zeros_except(16, {5: 9})),
     [poke_register(5, 3)], "", ""),
    ("an addition: the worked board, ADD R2 and DAA, poke acc 9, poke r2 8, run 2", 0,
     file_with([(16_400, b"\1\0\x85\1", 1), (16_536, b"\1\2\3\2\3", 1),
                (17_052, bytes.fromhex("82fb 010003070009 01000407030208 0100050500000002"), 1)], [16_404]),
     worked_state(b"\x82\xFB", seq=5, accumulator=7, carry=1, counter=2, registers=zeros_except(16, {2: 8})),
     [], "run 1\nregs\n", "ok 6 ran 1 end\nacc 7 cy 1 pc 003 owed 0 dcl 0 test 1 r 0080000000000000 ret 000 000 000\n"),
    ("keys: the worked board, a program that drives two rows and reads their keys, press 0 1, press 1 2, run 10", 0,
     file_with([(16_400, b"\1\0\x85\1", 1), (16_536, b"\1\2\x0C\2\xFF\7", 1),
                (17_052, KEYS_PROGRAM + bytes.fromhex("010003030001 010003030102 010005050000000a"), 1)], [16_404]),
     worked_state(KEYS_PROGRAM, **STATE_WITH_READ_KEYS, seq=5, accumulator=6, counter=0x00A, registers=zeros_except(16, {0: 1})),
     [], "lamps\nrun 1\nregs\n", "lamps **.\nok 6 ran 1 end\nacc F cy 0 pc 00B owed 0 dcl 0 test 1 r 1000000000000000 ret 000 000 000\n"),
    ("a jump with a pending cycle: the worked board, JUN 0x123, run 1", 0,
     file_with([(16_400, b"\1\0\x85\1", 1), (16_536, b"\1\2\3\2\3", 1), (17_052, bytes.fromhex("4123 0100050500000001"), 1)], [16_404]),
     worked_state(b"\x41\x23", seq=3, counter=0x123, owed=1),
     [], "run 1\nregs\n", "ok 4 ran 1 end\nacc 0 cy 0 pc 123 owed 0 dcl 0 test 1 r 0000000000000000 ret 000 000 000\n"),
    ("breakpoints: the worked board, break 0, break 3, run 5, run 1, poke rom.4 0xE3, run 5", 0,
     file_with([(16_400, b"\1\0\x85\1", 1), (16_536, bytes.fromhex(
         "0100030a0000 0100030a0003 0100050500000005 0100050500000001 01000507050004e3 0100050500000005"), 1)], [16_404]),
     worked_state(bytes([0, 0, 0, 0, 0xE3]), seq=7, counter=4, breakpoints=[0, 3]),
     [], "breaks\nstep\nseq\n", "breaks 000 003\nok 8 ran 0 code\nseq 8\n"),
    ("a full log: 9,361 times poke r0 1, run 1, and poke r0 2 after a snapshot in the second slot", 1,
     file_with([(8, b"\1", 1), (16_400, b"\1\0\4\7\3\0\1", 9_361), (81_927, bytes.fromhex("0100050500000001"), 1),
                (81_936, bytes.fromhex("00001aa6 00002492"), 1), (81_944, b"-", 64), (88_725, b"\1", 1), (88_742, b"\1", 1),
                (88_760, b"\1", 1), (98_320, b"\1\0\4\7\3\0\2", 1)]),
     State(seq=9_363, counter=1, registers=zeros_except(16, {0: 2})),
     [poke_register(0, 3)], "", ""),
    ("many cycles: 39 times run 100000, and run 99999", 0,
     file_with([(16_400, bytes.fromhex("01000505000186a0"), 39), (16_712, bytes.fromhex("010005050001869f"), 1)]),
     State(seq=40, counter=0x8FF),
     [step(), run(1)], "", ""),
    # The commands: the worked board; KEYS_PROGRAM followed by WRM and JUN 0x123; press 0 1; press 1 2; break 0x200; test 0; run 13. Then poke r5 9,
    # 9,263 times, and poke r6 4. The last poke of r5 is after a snapshot in the second slot. The queries execute the instruction that reads the keys
    # once more.
    ("all places of a snapshot", 1,
     file_with([(8, b"\1", 1), (16_400, b"\1\0\x85\1", 1), (16_536, b"\1\2\x0F\2\xFF\x3F", 1),
                (17_052, KEYS_PROGRAM + bytes.fromhex("e0 4123 010003030001 010003030102 0100030a0200 0100020800 010005050000000d"), 1),
                (17_097, POKE_RECORD, 9_262), (81_936, bytes.fromhex("00001b3b 00002435"), 1), (82_076, KEYS_PROGRAM + b"\xE0\x41\x23", 1),
                (86_188, b"\x0F", 1), (88_764, b"\3", 1), (88_780, b"\x0F\0\1", 1), (88_787, b"\x09", 1), (88_798, b"\1\x23", 1),
                (88_807, b"\x10\x10", 1), (88_816, b"\1\1\1", 1), (88_828, b"\1", 1), (88_837, b"\1", 1),
                (88_908, b"\1\2", 1), (98_320, POKE_RECORD + bytes.fromhex("01000407030604"), 1)], [16_404, 81_944]),
     worked_state(KEYS_PROGRAM + b"\xE0\x41\x23", **STATE_WITH_READ_KEYS, seq=9_271, accumulator=15, counter=0x123, owed=1, test=0,
                     registers=zeros_except(16, {0: 1, 5: 9, 6: 4}), ram=zeros_except(2_048, {0x10: 15}), breakpoints=[0x200]),
     [], "state\nrun 1\npoke pc 9\nrun 1\nregs\n",
     "state seq 9271 acc F cy 0 pc 123 owed 1 dcl 0 test 0 r 1000094000000000 ret 000,000,000 src 10 banks 0.10,1.00 roms 0.3.0,1.0.6,2.0.0 "
     "rams 0.0.0,1.0.0 chains 1100000000 keys 0.1,1.2 lamps **. breaks 200 watches -\nok 9272 ran 1 end\nok 9273\nok 9274 ran 1 end\n"
     "acc 6 cy 0 pc 00A owed 0 dcl 0 test 0 r 1000094000000000 ret 000 000 000\n"),
]
