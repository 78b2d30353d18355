// Messages and labels of the help and of stories, and the text of the tour with the first program (five steps).

// --- help/guide.js ---
/** @type {(name: string) => string} */
export const noSuchStoryMessage = (name) => `The address names a story, "${name}", that this page does not have.`;
export const PROGRAM_IN_SOURCE = "The program of this step is in Source.";

// --- help/help_view.js ---
/** @type {(count: number) => string} */
export const rowsFound = (count) => `${count} ${count === 1 ? "row matches" : "rows match"}.`;

// --- help/manual.js, commands/key_list.js ---
export const INSTRUCTIONS = "The 45 instructions";
export const KEYBOARD = "The keyboard";
export const CELLS = "What the cells show";
/** The title of the section about JCN's conditions in docs/MANUAL.md. */
export const CONDITIONS_OF_JCN = "The sixteen conditions of JCN";
/** The titles of the sections in docs/MANUAL.md whose table rows begin with a session line. */
export const SECTIONS_OF_LINES = ["Commands", "Queries"];

// --- help/story_actions.js ---
/** @type {(label: string) => string} */
export const noLabelMessage = (label) => `Nothing was done: the source is not the same as ROM, or it has no label ${label}.`;
/** @type {(legend: string) => string} */
export const noKeyMessage = (legend) => `Nothing was done: the board has no key ${legend}.`;

// --- help/tour.js ---
/** The board of the tour with the first program. */
export const TOUR_BOARD = `# My first board: four lamps and two keys.
#
# row 0: left right

# ROM 0 has the program. Lines 0 and 1 of its port shift the chain, lines 2 and 3
# read the keys.
[[rom]]
chip = 0
port = "ii00"

# One RAM chip. Its port lights the lamps.
[[ram]]
bank = 0
chips = 1

# One 4003. Its bit 0 drives the row of the keys.
[[chain]]
clock = "rom0.0"
data = "rom0.1"
chips = 1

[keys]
chain = 0
first = 0
rows = 1
columns = ["rom0.2", "rom0.3"]

[[lamp]]
line = "ram0.0.0"

[[lamp]]
line = "ram0.0.1"

[[lamp]]
line = "ram0.0.2"

[[lamp]]
line = "ram0.0.3"
`;
export const FIRST_PROGRAM = { name: "first program", title: "Five steps to your own program." };
export const LAMP_PROGRAM = `; Lights the first lamp.
        FIM P0, 0x00    ; RAM chip 0 of bank 0
        SRC P0          ; is selected
        LDM 1           ; 1 into the accumulator
        WMP             ; and from there to the chip's port
stop:   JUN stop
`;
export const COUNT_PROGRAM = `; Counts on the four lamps.
        FIM P0, 0x00
        SRC P0
        LDM 0
count:  WMP             ; the lamps show the accumulator
        IAC             ; one more; 15 is followed by 0
wait:   ISZ R2, wait    ; three nested loops let time pass
        ISZ R3, wait
        ISZ R4, wait
        JUN count
`;
export const KEY_PROGRAM = `; Shows on the lamps which keys are down.
        FIM P0, 0x00    ; ROM chip 0 and RAM chip 0
        SRC P0
        LDM 3           ; data and clock up:
        WRR             ; bit 0 of the chain is 1 and drives the keys' row
read:   RDR             ; the keys are lines 2 and 3
show:   WMP
        JUN read
`;
export const REMEMBER_PROGRAM = `; Counts how often a key goes down, in a character of RAM.
        FIM P0, 0x00
        SRC P0
        LDM 3
        WRR
up:     RDR             ; wait until all keys are up
        JCN 12, up      ; 12: the accumulator is not 0
down:   RDR             ; wait until one is down
        JCN 4, down     ; 4: the accumulator is 0
        RDM             ; the character that SRC selects
        IAC
        WRM             ; one more
        WMP             ; and on the lamps
        JUN up
`;
export const STEP_LAMP = {
  title: "A lamp",
  paragraphs: ["A board is wired for you: a processor, one ROM, one RAM chip with four lamps at its port, and two keys.",
    "Type this program into Source, or click Insert. Then click Assemble and run.",
    "Goal: the first lamp is on."],
};
export const STEP_COUNT = {
  title: "A count",
  paragraphs: ["Four lamps show a number from 0 to 15. This program counts, and waits in between.",
    "Try slow motion, too: the list of speeds is next to Reset.",
    "Goal: the lamps have shown four different numbers."],
};
export const STEP_KEY = {
  title: "A key",
  paragraphs: ["The keys are a matrix: a bit of a shift register (a 4003) drives their row, and the ROM's port reads their columns.",
    "Assemble and run it, then hold a key.",
    "Goal: a lamp is on while a key is down."],
};
export const STEP_BREAKPOINT = {
  title: "A breakpoint",
  paragraphs: ["The program pauses before a line with a breakpoint. Click next to the line show: in Source, or on the line in Disassembly.",
    "Then press Continue.",
    "Step into (F11) runs one more instruction. A second click removes the breakpoint.",
    "Goal: the program pauses at a breakpoint."],
};
export const STEP_WATCH = {
  title: "A watch",
  paragraphs: ["This program keeps its count in RAM. Remove the breakpoint, assemble and run it.",
    "Click the first nibble of RAM: the program pauses when it changes. Then press Continue, and a key.",
    "Goal: the program pauses after that nibble has changed."],
};

// --- help/tour_view.js ---
export const LAST_STEP_DONE = "Done: that was the last step. Help has all instructions and lines.";
/** @type {(number: number, count: number, title: string) => string} */
export const stepOf = (number, count, title) => `${number} of ${count}: ${title}`;
export const FINISH = "Finish";
export const NEXT_STEP = "Next step";
export const DONE = "Done.";
