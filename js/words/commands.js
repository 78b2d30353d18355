// The help of mcs4's commands, from which the manual pages and completions are generated, and their error messages.

import { EYE_PERSISTENCE_CYCLES, EYE_PERSISTENCE_MS } from "../core/time/mcs4_time.js";
import { didYouMean } from "./text.js";

/**
 * The help of a command: a short summary, its text, its options by their long names, examples with their effects, and the meaning of each
 * exit status. Blank lines in the text separate paragraphs; other line breaks are ignored.
 * @typedef {{ summary: string, text: string, options: Record<string, string>, examples: string[][],
 *   status: string[] }} CommandWords
 */

// Sentences that several commands share.
const BOARD_AND_PROGRAM = `
      BOARD and PROGRAM are texts, or scripts of lines that contain such a text (\`wire\`, \`asm\`): the first one is used. Without them,
      the command uses the board and the program that mcs4.toml names in this folder.`;
const PROGRAM_ALONE = `
      PROGRAM is a text, or a script of lines that contains one (\`asm\`): the first one is used. Without it, the command uses the program
      that mcs4.toml names in this folder.`;
const FOLDER_OPTION = "Uses the project in FOLDER: the files that its mcs4.toml names.";
const SESSION_OPTION = "Counts the next cycles of the session in SESSION.";
const COUNTED_RUNS = `
      It counts a run of tests, as \`mcs4 test\` runs them, or the next CYCLES cycles of a copy of a session. CYCLES is 1 to
      100,000,000.`;
const REPORT_OR_ERROR = "1: a test failed (the report is printed), or an error, printed on standard error.";
const WRONG_ARGUMENTS = "2: wrong arguments.";
const SERVES_LINES = `
      Each line of standard input is a command or a question, and has an answer on standard output. An accepted command is on the disk
      before it is answered.

      If all three standard streams are a terminal, there is a prompt: \`help\` shows the lines, Tab completes them, Up recalls earlier
      ones, also of other sessions, \`wire FILE\` and \`asm FILE\` read texts from files, \`source FILE\` serves the lines of a file, and
      errors are explained. The prompt and its messages are on standard error. It needs Node, 18 or later; without Node the program reads
      the lines itself.`;
const STATUS_OF_PROGRAM = [
  "0: input ended, and all of it was served, even if lines were answered `no`.",
  "1: a read, a write or the device failed, or 16,777,216 bytes were read.", WRONG_ARGUMENTS,
  "3: the session was rejected, or there was not enough memory.",
];

/** @satisfies {Record<string, CommandWords>} */
export const COMMAND_WORDS = {
  back: {
    summary: "undoes the last commands of a session",
    text: `
      Undoes the last N accepted commands of SESSION if its log still has them. Prints \`session M\` as \`mcs4 open\` does. Without
      N, it only prints how far back it can go, and changes nothing. N is 1 to 99,999.

      The effects of the N commands are then lost: copy the file first if you want to keep them.

      The log starts again after a snapshot, which is made when the log is full, or after 4,000,000 cycles. A session file that the page
      has saved, or one of version 1, has no commands before that.

      One byte of SESSION is written, so an interruption leaves either the old session or the new one. The result is first tried on a copy.
      During that time SESSION is locked, as mcs4 locks it.`,
    options: {},
    examples: [["mcs4 back s.mcs", "prints how far back it can go"], ["mcs4 back s.mcs 3", "goes back by three commands"]],
    status: [
      "0: the session has gone back, or the command has printed how far it can go back.",
      "1: an error, printed on standard error; nothing was changed.", WRONG_ARGUMENTS,
    ],
  },
  cover: {
    summary: "shows which lines of a program were run, and how often",
    text: `
      Prints each line of the source with the number of times it was run. A conditional jump has two numbers: how often it was taken,
      and how often it was not. Below the source are a summary and the lines that were never run.

      ${COUNTED_RUNS} The last instruction counts even if the last cycle only begins it. Breakpoints and watches of the session are
      ignored.

      ${BOARD_AND_PROGRAM}`,
    options: {
      folder: FOLDER_OPTION,
      lcov: "Also writes the counts to FILE, in LCOV's format, for genhtml and editors. FILE must be new or such a file.",
      session: SESSION_OPTION,
    },
    examples: [
      ["mcs4 cover board.toml program.asm program.test", "counts a run of tests"],
      ["mcs4 cover --session s.mcs 100000 program.asm", "counts the next 100,000 cycles of a session"],
      ["mcs4 cover --lcov cover.info", "counts the tests of the project in this folder, and writes the counts for other programs"],
    ],
    status: ["0: the report is printed.", REPORT_OR_ERROR, WRONG_ARGUMENTS],
  },
  cycles: {
    summary: "prints how long the runs of a session took",
    text: `
      Reads the answers of mcs4, and adds up the cycles in \`ok N ran K ..\` with the microseconds that a 4004 takes for them,
      10.8 each. FIRST and LAST are line numbers of the answers: only these lines and those between them are added up.

      With --source, each run has a line of its own. It shows where the run stopped, with the name and the line of the source, if the answer
      to \`regs\` or \`state\` follows it. PROGRAM must be what is in the ROM of SESSION, byte for byte.`,
    options: { source: "Shows where runs stopped, by the source PROGRAM of SESSION." },
    examples: [
      ["mcs4 cycles < answers.txt", "adds up all runs"],
      ["mcs4 cycles 5 9 < answers.txt", "adds up the runs in lines 5 to 9; `grep -n ran answers.txt` shows the numbers"],
      ["mcs4 cycles --source program.asm s.mcs < answers.txt", "shows each run"],
    ],
    status: ["0: the sum is printed.", "1: a refusal among these lines, no run, or another error.", WRONG_ARGUMENTS],
  },
  dap: {
    summary: "a debug adapter: breakpoints, steps, back, registers in your editor",
    text: `
      An editor starts the debug adapter, and communicates with it over standard input and output. It has breakpoints at lines, addresses
      and labels with conditions, hit counts and log messages; steps over, into, out and back; registers, RAM, ports, lamps and keys,
      which can be set; the disassembly; and in the console the bench's lines and keys by their names. editors/README.md has the settings of
      editors, and the keys of \`launch\` and \`attach\`.

      A launched session file is in use until the debugger ends, and is updated at each stop. Nothing else is written: an attached session
      file stays as it is.`,
    options: { stdio: "Does nothing: some editors pass this option." },
    examples: [["mcs4 dap", "is what an editor starts"]],
    status: [
      "0: the editor ended it by `disconnect`.",
      "1: the editor ended without it, or another error; what was done in a session file is kept.", WRONG_ARGUMENTS,
    ],
  },
  debug: {
    summary: "a debugger at the prompt: breakpoints, steps, back, values, keys",
    text: `
      Debugs a program at a prompt, with the commands of gdb: breakpoints with conditions; steps over, into, out and back; registers, RAM,
      ROM, lamps and keys; and what changed a value last. \`help\` shows the commands.

      Without BOARD and PROGRAM it debugs the project of this folder. Without SESSION it works in memory. A session file is updated at each
      stop. If the source of a session is not known, it is disassembled from ROM.

      If standard input is not a terminal, its lines are commands.`,
    options: { folder: FOLDER_OPTION },
    examples: [
      ["mcs4 debug", "debugs the project of this folder, in memory"],
      ["mcs4 debug board.toml program.asm s.mcs", "debugs a session file with this program, or a new one"],
      ["mcs4 debug board.toml program.asm < commands.txt", "runs commands"],
    ],
    status: ["0: all commands were done.", "1: a command was rejected, or another error.", WRONG_ARGUMENTS],
  },
  display: {
    summary: "prints what a board's display shows, from answers about its lamps",
    text: `
      Reads the answers of mcs4, and prints for each answer \`lamps ..\` the number on the board's display. For each answer to
      \`trace n lamps\`, it prints the number that is perceived in that time: for each digit, what it shows longest.

      Comments of BOARD say which lamps are a display, and which lamps have names. The manual's chapter "The front panel of a board" lists
      them.

      \`# display 3: 8 digits with points\` makes a display that starts at lamp 3: five lamps for each digit (8, 4, 2, 1 and the point),
      the leftmost digit first. \`# display 0: 2 digits of 7 segments\` has seven lamps for each digit, segments a to g. \`# display 0: 4
      digits of 7 segments scanned by 7\` has one set of segments and, from lamp 7, one lamp for each digit: no instant shows the number,
      but \`trace ${EYE_PERSISTENCE_CYCLES} lamps\` does, which is ${
  EYE_PERSISTENCE_MS} ms. \`# lamp 0: minus overflow\` names lamps: a \`minus\` that is on is
      printed before the number, other names after it.

      Leading zeros are dark, and so is a point after the last digit. Lamps that are not a digit are shown as \`?\`. Nothing is printed if
      there is an error.`,
    options: { folder: FOLDER_OPTION },
    examples: [["mcs4 new s.mcs < product.txt | mcs4 display board.toml", "shows the product"]],
    status: ["0: the numbers are printed.", "1: an error, printed on standard error.", WRONG_ARGUMENTS],
  },
  explain: {
    summary: "shows what was rejected in a script, where, and why",
    text: `
      Reads the answers to SCRIPT, and prints each refusal among them: the line of SCRIPT, the line inside a program or the part of a board
      that is wrong, and what the refusal means.

      With --source, an address in a rejected line is also shown with its name and its line of the source. PROGRAM must be what is in the
      ROM of SESSION, byte for byte.`,
    options: { source: "Shows addresses by the source PROGRAM of SESSION." },
    examples: [
      ["mcs4 explain script.txt < answers.txt && echo all was accepted", "explains the answers to a script"],
      ["mcs4 explain --source program.asm s.mcs script.txt < answers.txt", "shows addresses by their names, too"],
    ],
    status: ["0: nothing was rejected.", "1: something was rejected, or another error.", WRONG_ARGUMENTS],
  },
  explore: {
    summary: "searches for keys that break a property of a program",
    text: `
      Searches for key presses, and times for them, that break a property or reach a goal. PROPERTIES says what may be pressed and what
      must hold: the manual's chapter "Looking for what breaks it" lists its lines. A counterexample is minimised, and printed as a test
      that \`mcs4 test\` has seen fail. The output is TAP, a line for each property, and then which parts of the program were run and
      which were not.

      A proof first gets a tenth of the time: "# proved for .." says that a property needs no search.

      Ctrl-C ends the search early, and reports what was found so far. Each job is a separate search, with the seeds SEED, SEED + 1 and so
      on. The same seed gives the same walks.

      \`model COMMAND\` in the properties is a command of your shell. It runs only with --allow-model, which prints it first. Without that
      option it is reported as not run, and the exit status is 1. Read properties that others wrote before you allow it.

      ${BOARD_AND_PROGRAM} The same holds for PROPERTIES, if the project names one text of them.`,
    options: {
      folder: FOLDER_OPTION,
      seconds: "Searches for SECONDS, 1 to 86,400; by default 10.",
      jobs: "Runs JOBS searches at once, 1 to 64; by default 1.",
      seed: "Begins with the seed SEED, 1 to 99,999,999; by default 1.",
      out: "Also writes the counterexamples to FINDS.test.",
      report: "Also writes a report to REPORT, which --merge joins with others.",
      "allow-model": "Allows the command of a model in the properties to run.",
      merge: "Joins reports of searches, also from other machines: the shortest counterexamples, and everything that was run.",
    },
    examples: [
      ["mcs4 explore board.toml program.asm program.props", "searches for ten seconds"],
      ["mcs4 explore board.toml program.asm program.props --seconds 60 --jobs 4 --seed 7 --out finds.test", "searches longer"],
      ["mcs4 explore board.toml program.asm program.props --seed 7 --report 7.json", "does a part of a campaign, on any machine"],
      ["mcs4 explore --merge --out finds.test 7.json 8.json", "joins the parts"],
    ],
    status: [
      "0: no property was broken, and each goal was reached.",
      "1: a property was broken, a goal was not reached, or an error, printed on standard error.", WRONG_ARGUMENTS,
    ],
  },
  import: {
    summary: "converts a program in Intel's or AS's spelling to the bench's",
    text: `
      Prints a program for the 4004 in Intel's spelling, or in that of the macro assembler AS, in the spelling of the bench: a line for
      each line, with its comments. A name is written as in the line that defines it, and changed if the bench does not accept it. An
      expression becomes its number, and is noted in the comment. CPU, TITLE, PAGE, LISTING and the like become comments.

      It accepts labels with a comma, with a colon, or at the first column; comments from \`;\`, from \`*\` at the first column, and from
      \`/\` at the first column or after a blank; EQU, SET, =, ORG, DB, DATA, BYTE, DS, ALIGN, END; numbers as 20H, $20, 0x20, 101B,
      17Q, 'A'; registers as R5, 5 or a name; pairs as 0P, P0, R0R1, RP0, or as 0< and 2<, by their first register; conditions as TZ,
      TN, CZ, CN, AZ, AN, or Z, NZ, C, NC, T, NT; and expressions with + - * & / and brackets, $ or * for the address of the line, < and
      > for the lower and the upper byte.

      It does not accept macros, INCLUDE, IF and instructions of the 4040. The result is tried on the bench: an error of the bench also
      names the line of the source. Nothing is printed if anything is wrong. PROGRAM can be -, standard input.`,
    options: {},
    examples: [
      ["mcs4 import busy.src > busy.asm", "writes the program in the bench's spelling"],
      ["mcs4 import - < busy.src > busy.asm", "reads it from standard input"],
    ],
    status: ["0: the program is printed.", "1: a line that is not accepted, or a file that cannot be read.", WRONG_ARGUMENTS],
  },
  keys: {
    summary: "makes lines that press keys by their names",
    text: `
      Prints lines for mcs4 that press KEYS one after the other, and then ask for the lamps. KEYS is one argument: names of keys separated
      by spaces, or written together if each is one character. A comment \`# row R: NAME NAME ..\` of the board names the keys of a row
      from column 0 up, \`_\` for none. Nothing is printed before all keys are known.

      ${BOARD_AND_PROGRAM}`,
    options: {
      folder: FOLDER_OPTION,
      down: "Keeps each key down for CYCLES cycles, 1 to 100,000; by default 4,000 (43 ms).",
      up: "Waits for CYCLES cycles after each key, 1 to 100,000; by default 16,000.",
      "until-stop": "Presses the keys on SESSION itself, prints the answers, and stops at a breakpoint, a watch, or a code that is not an "
        + "instruction: the key is still down then.",
    },
    examples: [
      ["mcs4 keys board.toml 'C5+7=' | mcs4 open calc.mcs | mcs4 display board.toml", "presses five keys, and shows the result"],
      ["mcs4 keys --down 900 --up 2000 board.toml 12", "presses two keys for a shorter time"],
      ["mcs4 keys --until-stop calc.mcs board.toml '7='", "presses them up to the first stop"],
    ],
    status: ["0: the lines are printed, or the keys were pressed.", "1: an error, printed on standard error.", WRONG_ARGUMENTS],
  },
  listing: {
    summary: "prints a program with addresses and bytes, as assemblers do",
    text: `
      Prints each line of the source with its address and its bytes, and below them the names with their values, all in hexadecimal. The
      bench computes them: it assembles the program on a board with all ROMs.

      ${PROGRAM_ALONE}`,
    options: {
      folder: FOLDER_OPTION,
      names: "Prints only the names, a line `NAME VALUE` for each.",
      labels: "Prints only the names that are labels.",
    },
    examples: [
      ["mcs4 listing program.asm", "prints a listing"],
      ["mcs4 listing --names program.asm", "prints the names with their values"],
    ],
    status: ["0: the listing is printed.", "1: an error, printed on standard error with its line.", WRONG_ARGUMENTS],
  },
  lsp: {
    summary: "a language server: errors, help and names in your editor",
    text: `
      An editor starts the language server, and communicates with it over standard input and output. As you type, it shows all errors of
      programs and boards with their places, what words mean, the values of names, and the bytes and cycles of lines. It goes to
      definitions and references, renames, completes, lists names, offers quick fixes and colours. editors/README.md has the settings of
      editors.

      A program is checked with the board that mcs4.toml names, in its folder or one above it; otherwise with the \`board.toml\` next to
      it, or with a board with all ROMs. Nothing is written.`,
    options: { stdio: "Does nothing: some editors pass this option." },
    examples: [["mcs4 lsp", "is what an editor starts"]],
    status: ["0: the editor ended it by `shutdown` and `exit`.", "1: the editor ended without them, or another error.", WRONG_ARGUMENTS],
  },
  names: {
    summary: "replaces @NAME with addresses in lines",
    text: `
      Reads lines for mcs4, and prints them with numbers instead of names: \`@NAME\` becomes the number that the assembler gives NAME,
      and \`set PLACE = VALUE\` becomes the lines that set the place. Texts after \`wire\`, \`asm\` and \`map\` stay as they are.
      Nothing is printed if there is an error.

      ${PROGRAM_ALONE}`,
    options: { folder: FOLDER_OPTION },
    examples: [["printf 'break @scan\\nrun 100000\\n' | mcs4 names program.asm | mcs4 open s.mcs", "runs up to a label"]],
    status: ["0: the lines are printed.", "1: a name that the program lacks, or another error.", WRONG_ARGUMENTS],
  },
  new: {
    summary: "begins a session in a file, and serves lines",
    text: `
      Creates FILE, or uses one that is empty or blank, and begins a session in it. Any other file stays as it is.
${SERVES_LINES}`,
    options: {},
    examples: [["mcs4 new s.mcs", "begins a session"], ["mcs4 new s.mcs < script.txt", "serves the lines of a file"]],
    status: STATUS_OF_PROGRAM,
  },
  open: {
    summary: "continues the session in a file, and serves lines",
    text: `
      Continues the session in FILE.
${SERVES_LINES}`,
    options: {},
    examples: [["mcs4 open s.mcs", "continues a session"], ["echo lamps | mcs4 open s.mcs", "shows the lamps of a session"]],
    status: STATUS_OF_PROGRAM,
  },
  panel: {
    summary: "shows the front panel of a board, live in the terminal",
    text: `
      Shows the front panel of a board in a terminal of 80 by 24 or more: keys and lamps with their names, colours and places, and the
      number on the display in large digits. Comments of BOARD name them: the manual's chapter "The front panel of a board". Beside it are
      the registers, RAM, and the instructions around the program counter. Below the lamps are the last lines of the printout.

      It runs as fast as the real chip, 92,593 cycles a second. It starts paused if the session is at a breakpoint. Everything that you do
      is stored in SESSION; watching a paused session changes nothing.

      While it is running, lamps and displays are shown as perceived, over 30 ms: \`(*)\` is on, \`(+)\` is on for part of the time,
      \`(:)\` for a small part, \`( )\` is off. Colours are brighter and darker, unless NO_COLOR is set. While it is paused, lamps are
      shown at that instant.

      Type the names of the board's keys to press them. A key with a longer name has its own character, which is shown after the name.
      While it is running, a key goes up by itself after 43 ms, and the next one goes down 22 ms later. While it is paused, a key stays
      down until it is typed again. Other keys:

      \`space\` pauses and continues. \`Enter\` runs one instruction. \`Tab\` sets a breakpoint at the counter, or clears it.
      \`Ctrl-T\` toggles the TEST pin. \`Ctrl-R\` is a power cycle (\`reset\`). \`Left\` and \`Right\` show other RAM chips. \`Ctrl-D\` or
      \`Ctrl-C\` ends the panel: keys that went down here go up, and the terminal is as it was.

      With --source, or if mcs4.toml names the program, the listing has the lines of the program's source, and the next line is above
      it with its name, its number and its comment. PROGRAM must be what is in the ROM of SESSION, byte for byte.`,
    options: {
      folder: FOLDER_OPTION,
      stopped: "Begins paused.",
      source: "Shows the lines of PROGRAM, the text of the program in ROM.",
    },
    examples: [
      ["mcs4 panel examples/calculator/board.toml calc.mcs", "shows the calculator of the session calc.mcs"],
      ["mcs4 panel -C examples/calculator calc.mcs", "shows it with the lines of its program"],
      ["mcs4 panel --stopped board.toml s.mcs", "shows a session, and changes nothing"],
    ],
    status: [
      "0: it was ended by Ctrl-D or Ctrl-C.",
      "1: the session has another board or program, it cannot be opened, there is no terminal or a small one, a signal, or another error.",
      WRONG_ARGUMENTS,
    ],
  },
  profile: {
    summary: "shows where the cycles of a program go",
    text: `
      Prints for each label the cycles of its own instructions, the number of its calls, and the cycles of its calls, including everything
      that they call. For tests that press keys, it also prints how long the lamps took to answer.

      ${COUNTED_RUNS}

      ${BOARD_AND_PROGRAM}`,
    options: { folder: FOLDER_OPTION, session: SESSION_OPTION },
    examples: [
      ["mcs4 profile board.toml program.asm program.test", "counts a run of tests"],
      ["mcs4 profile --session s.mcs 100000 program.asm", "counts the next 100,000 cycles of a session"],
    ],
    status: ["0: the report is printed.", REPORT_OR_ERROR, WRONG_ARGUMENTS],
  },
  project: {
    summary: "splits a project of the page into files, or joins them",
    text: `
      \`split\` splits a project of the page into files in FOLDER: board.toml, program.asm, session.mcs and name; program.test,
      program.props, breakpoints and values if the project has them; and mcs4.toml, which names the texts. FOLDER must be new, or have none
      of these files.

      \`join\` joins the files in FOLDER into the project FILE, byte for byte as the page saves it. FILE must be new, or a project. The
      texts are those that mcs4.toml names; without it, the files named above. Without session.mcs, the project gets a new session
      with the board and the program; without name, the name of the folder. A link that leads out of FOLDER is rejected.

      Nothing is written if anything is wrong. The manual's chapter "A project file" describes the file.`,
    options: {},
    examples: [
      ["mcs4 project split lock.mcsp lock", "writes the parts of a project into the folder `lock`"],
      ["mcs4 project join lock lock.mcsp", "joins them again"],
    ],
    status: [
      "0: the files are written.",
      "1: a file that is not a project, is cut off or damaged, would be lost, or cannot be read or written.",
      WRONG_ARGUMENTS,
    ],
  },
  prove: {
    summary: "proves that properties of a program hold for all inputs",
    text: `
      Searches all states that the program can reach from power-on, whatever its keys and its TEST pin do, at any moments. If no state
      breaks a property, the property is proved: for all inputs, at every moment. If this decides nothing, searches again with only the
      inputs that \`press\`, \`test\` and \`together\` allow. A counterexample is minimised, and printed as a test that \`mcs4 test\` has
      seen fail. The output is TAP, a line for each property. PROPERTIES is a text like that of \`mcs4 explore\`; the manual's chapter
      "Proving it for all inputs" says which of its lines can be proved.

      The search stops at N states. It needs some 100 bytes for each, and more for boards with more chips. Ctrl-C ends it.

      ${BOARD_AND_PROGRAM} The same holds for PROPERTIES, if the project names one text of them.`,
    options: {
      folder: FOLDER_OPTION,
      most: "Searches at most N states, 1 to 999,999,999; by default 1,000,000.",
      memory: "Uses at most MB megabytes of memory for them, 1 to 1,000,000; by default all that there is.",
    },
    examples: [
      ["mcs4 prove board.toml program.asm program.props", "proves what it can"],
      ["mcs4 prove --most 10000000", "searches longer, for the properties of the project in this folder"],
    ],
    status: [
      "0: all properties are proved, and each goal was reached.",
      "1: a property is broken, or a goal is never reached; or an error, printed on standard error.", WRONG_ARGUMENTS,
      "3: none of these, but some property is not decided.",
    ],
  },
  resume: {
    summary: "continues a script that was interrupted",
    text: `
      Sends SESSION the part of SCRIPT that it has not received yet, and prints its answers. The count in \`session N\` shows what it has.
      Questions after the last accepted command are asked again.

      First, the part of SCRIPT up to the N-th accepted command is served to a new session in a temporary folder. If its answers differ from
      those of SESSION, SESSION did not begin with SCRIPT, and nothing is sent. Board, ROM, RAM, registers, ports, chains, keys, lamps,
      breakpoints and watches are compared.`,
    options: {},
    examples: [["mcs4 resume script.txt s.mcs > more.txt", "continues `mcs4 new s.mcs < script.txt`, which was interrupted"]],
    status: ["0: all was sent.", "1: SESSION did not begin with SCRIPT, or another error.", WRONG_ARGUMENTS],
  },
  rom: {
    summary: "imports and exports ROM images: binary, Intel HEX, BNPF, S-records",
    text: `
      \`load\` prints lines \`asm\` .. that put an image into ROM. ADDRESS is added to the addresses in the file; a binary file and
      words of BNPF begin there. \`ask\` prints questions for COUNT bytes, starting at FIRST, and \`save\` prints the bytes in the
      answers as an image: a binary file, Intel HEX, or BNPF, in which Intel took the masks of 4001s (BNNNPNPNNF for each byte). Numbers
      are decimal, or hexadecimal with 0x.

      A file that begins with \`:\`, or whose name ends in .hex, is read as Intel HEX; one that begins with S and a digit as S-records; a
      text with a word of BNPF as BNPF; and a file with bytes that no text has as binary. Any other text is rejected. Characters between
      words of BNPF are ignored. Of Intel HEX, records of type 00 and 01 are used; types 02 and 04 must be zero, and types 03 and 05,
      where a program begins, are ignored.

      An image that needs several texts is loaded whole or not at all: each text has a byte of each of its ROMs, so each one is rejected
      (42) if the board lacks one. Nothing is printed if anything is wrong.`,
    options: {
      hex: "The image is Intel HEX.",
      srec: "The image is S-records.",
      bnpf: "The image is BNPF.",
      binary: "The image is a binary file.",
    },
    examples: [
      ["mcs4 rom load multiply.hex | mcs4 open s.mcs", "puts an image into the ROM of a session"],
      ["mcs4 rom load multiply.bin 0x100 | mcs4 open s.mcs", "puts a binary file there, starting at address 100"],
      ["mcs4 rom ask 0 512 | mcs4 open s.mcs > answers.txt", "asks for the first 512 bytes"],
      ["mcs4 rom save --hex 0 512 < answers.txt > multiply.hex", "saves them as Intel HEX"],
    ],
    status: [
      "0: the lines or the image are printed.",
      "1: a file that is not an image, a bad record, an address past FFF, a refusal among the answers, or a byte that no answer shows.",
      WRONG_ARGUMENTS,
    ],
  },
  script: {
    summary: "makes lines that wire a board, load a program, press keys",
    text: `
      Prints lines for mcs4 that wire BOARD, assemble PROGRAM, run for 2,000 cycles, press KEYS one after the other, and ask for the lamps.
      \`mcs4 help keys\` says how to write keys. Board and program are tried first: nothing is printed if one of them is rejected.

      Comments of the texts stay in the script, unless a text is too long with them for the bench.

      ${BOARD_AND_PROGRAM}`,
    options: { folder: FOLDER_OPTION },
    examples: [["mcs4 script board.toml calculator.asm '22/7=' > quotient.txt", "makes a script that divides"]],
    status: ["0: the lines are printed.", "1: an error, printed on standard error with its line.", WRONG_ARGUMENTS],
  },
  test: {
    summary: "runs tests of a program, and prints the results as TAP",
    text: `
      Runs the tests in the texts TEST on a board with a program, each test on a separate session in memory. It prints the results as TAP,
      which \`prove\` reads. The manual's chapter "Testing a program" has the language of tests.

      ${BOARD_AND_PROGRAM} Without any TEST, it also runs the tests of the project.

      For each test that failed, standard error has a line with file and line. Below \`not ok\`, the results show the lamps, the registers
      and the last instructions.`,
    options: { folder: FOLDER_OPTION },
    examples: [
      ["mcs4 test board.toml program.asm program.test", "runs the tests of one text"],
      ["mcs4 test -C examples/calculator", "runs the tests of a project"],
      ["prove --exec 'mcs4 test board.toml program.asm' tests/*.test", "runs the tests of many texts by prove"],
    ],
    status: ["0: all tests passed.", "1: a test failed, or an error, printed on standard error with its place.", WRONG_ARGUMENTS],
  },
  trace: {
    summary: "prints what a session does next, one instruction per line",
    text: `
      Prints what a session does next, a line for each instruction: the cycles before it, its address, bytes and text, and the
      accumulator and the carry after it. After them come its changes of registers, the command register, return addresses, RAM, ports,
      chains and lamps, as in \`r0 6\`, \`ram.1.0x65 9\`, \`out 1.1 9\` or \`lamps *..\`.

      The session stays as it is: a copy is run, without its breakpoints and watches. CYCLES is 1 to 100,000.

      With --last, it prints the last N instructions before the session stops: at a breakpoint, after a watched nibble changed,
      before a code that is not an instruction, or at the end of CYCLES, which is then 1 to 100,000,000. N is 1 to 10,000.`,
    options: {
      folder: "Uses the program of the project in FOLDER, as --source does.",
      names: "Prints labels, and names of targets. PROGRAM is the text of the program in ROM.",
      source: "Prints the lines of PROGRAM, with their numbers, instead of the disassembly. PROGRAM is the text of the program in ROM.",
      last: "Prints the last N instructions before the stop.",
    },
    examples: [
      ["mcs4 trace s.mcs 40", "prints the next 40 cycles"],
      ["mcs4 trace --last 10 s.mcs 100000", "prints the last 10 instructions before the session stops"],
      ["mcs4 trace --source program.asm s.mcs 40", "prints the next 40 cycles with the lines of the source"],
    ],
    status: [
      "0: the trace is printed.",
      "1: a session that cannot be read or opened, or a program that is not the one in ROM; standard error names it.",
      WRONG_ARGUMENTS,
    ],
  },
  wave: {
    summary: "records lines over time, as a VCD file",
    text: `
      Prints what the lines of a board do in the next CYCLES cycles, as a VCD file for programs that show waveforms: GTKWave, PulseView,
      Surfer. Each change is exact to the cycle; 108 units of time are a cycle, 10.8 microseconds. CYCLES is 1 to 10,000,000.

      The session stays as it is: a copy is run, without its breakpoints and watches. If it reaches a code that is not an instruction, the
      file ends there, and standard error says so. The same session, board and program make the same file.

      LINE is \`rom0.3\`, \`ram0.1.3\` or \`chain0.5\`, as in a board's text; \`lamp0\` or, if it has a name, \`lamp.NAME\`; \`key2.3\`
      (row and column) or \`key.NAME\`; \`test\`, the TEST pin; \`pc\`, the counter, 12 bits; \`label\`, the label at the counter or
      nearest below it, as text. \`rom0\`, \`ram0.1\`, \`chain0\`, \`lamps\` and \`keys\` are all lines of that part.

      LINE can be a value, too, as a number of some bits: \`acc\`, \`cy\`, \`dcl\`, \`src\`, \`r5\`, \`p2\`, \`ram.0.0x12\` and
      \`st.0.1.2\`, as \`poke\` names them, and \`rom0[3:0]\`, \`ram0.1[3:0]\` and \`chain0[9:0]\`, a port or a chain. Without any LINE,
      all lines are printed, but no values, no \`pc\` and no \`label\`.

      With --wav, it writes a WAV file instead: 16 bits, one channel, a sample for each cycle, 92,593 a second. The buzzer is an output
      line: LINE, or the one that the comment \`# buzzer rom0.3: NAME\` of the board's text names.`,
    options: {
      folder: "Uses the board and the program of the project in FOLDER.",
      board: "Uses the names of lamps and keys in the comments of BOARD, the text of the session's board.",
      names: "Uses the labels of PROGRAM, the text of the program in ROM, for the line `label`.",
      lines: "Prints the names of the lines, and records nothing.",
      wav: "Writes the sound of a buzzer to OUT. OUT must be new or a WAV file.",
    },
    examples: [
      ["mcs4 wave s.mcs 10000 > out.vcd", "records all lines of the board for 10,000 cycles"],
      ["mcs4 wave s.mcs 10000 rom0.0 chain0 test > out.vcd", "records these lines, in this order"],
      ["mcs4 wave --lines s.mcs", "prints the names of the lines"],
      ["mcs4 wave --wav out.wav --board board.toml s.mcs 600000", "writes the sound of the board's buzzer"],
    ],
    status: [
      "0: the file is written.",
      "1: the session cannot be opened, the board lacks a line, the board or program is not the session's, or a file cannot be written.",
      WRONG_ARGUMENTS,
    ],
  },
};

/** @typedef {keyof typeof COMMAND_WORDS} CommandName */

// --- mcs4 itself ---

/** The usage lines of mcs4, each with its effect. */
export const MCS4_USAGE = [
  ["mcs4 new FILE", "begins a session in FILE, and serves lines"],
  ["mcs4 open FILE", "continues the session in FILE"],
  ["mcs4 COMMAND ..", "runs a command of the workbench"],
  ["mcs4 help [COMMAND]", "prints this help, or that of a command"],
  ["mcs4 help refusals", "prints what the number of each refusal, `no NN`, means"],
  ["mcs4 version", "prints the version, and which program is started"],
];
export const MCS4_SUMMARY = "a bench for boards of Intel's MCS-4 chips, and its workbench";
export const MCS4_TEXT = `
      \`mcs4 new\` and \`mcs4 open\` are the proved program, with a prompt at a terminal. Commands need Node, 18 or later; \`new\`,
      \`open\`, \`help\` and \`version\` work without it. \`mcs4 COMMAND --help\` prints the help of a command. Options can be
      anywhere; \`--\` ends them.`;
export const MCS4_ENVIRONMENT = [
  "MCS4 names the program that commands start, if it is not the one of mcs4 itself.",
  "TMPDIR names the folder of temporary files.",
  "XDG_STATE_HOME names the folder of mcs4/history, the lines typed at prompts; without it that is ~/.local/state.",
  "NO_COLOR, if it is not empty, leaves out colours.",
];
export const MCS4_STATUS = [
  "0: all was done.",
  "1: an error, or a test that failed.",
  "2: wrong arguments, including a value that is not a number or is out of range.",
];
export const BUILT_IN_COMPLETIONS = {
  help: "the commands, or the usage of one",
  version: "which program is started",
};
export const ENVIRONMENT_HEADING = "Environment:";
/** @type {(top: string) => string} */
export const manualLocation = (top) => `The manual is ${top}/docs/MANUAL.md, the page ${top}/page/fethsaim.html.`;

// --- help ---

export const GROUPS = { tests: "a program and its tests", session: "a session", texts: "texts of others" };
export const OPTIONS_HEADING = "Options:";
export const EXAMPLES_HEADING = "Examples:";
export const STATUS_HEADING = "Exit status:";
export const HELP_OPTION = "Prints this help.";

// --- wrong arguments ---

/** @type {(lines: string[]) => string} */
export const formatUsage = ([first, ...others]) => [`usage: ${first}`, ...others.map((line) => `       ${line}`)].join("\n");
/** @type {(word: string, similar: string[]) => string} */
export const noCommandMessage = (word, similar) => `there is no command ${word}${didYouMean(similar, "mcs4 help lists the commands")}`;
export const MANUAL_SECTIONS = {
  name: "NAME", synopsis: "SYNOPSIS", description: "DESCRIPTION", options: "OPTIONS", commands: "COMMANDS", examples: "EXAMPLES",
  status: "EXIT STATUS", environment: "ENVIRONMENT", files: "FILES", seeAlso: "SEE ALSO",
};
export const FILES_OF_MCS4 = ["mcs4.toml", "names the files of the project in its folder"];
export const MANUAL_REFERENCE = "The manual, docs/MANUAL.md in the folder that `mcs4 version` shows.";
export const MANUAL_TITLE = "The bench Fethsaim";
/** @type {(word: string, similar: string[]) => string} */
export const noOptionMessage = (word, similar) => `there is no option ${word}${didYouMean(similar, "")}`;
/** @type {(value: string, option: string) => string} */
export const valueMissing = (value, option) => `${value} is missing after ${option}`;
/** @type {(option: string) => string} */
export const noValueMessage = (option) => `${option} takes no value`;
/** @type {(option: string) => string} */
export const optionRepeated = (option) => `${option} is given twice`;
/** @type {(word: string) => string} */
export const extraArgument = (word) => `'${word}' is one argument too many`;
export const WAITS_FOR_EDITOR =
  "it waits for the messages of an editor on standard input; editors/README.md says how an editor starts it; Ctrl-C ends it";
export const EMPTY_ARGUMENT = "an argument is empty; it names a file";
/** @type {(names: string[], hasNoProject: boolean) => string} */
export const argumentsMissing = (names, hasNoProject) => {
  const [last, ...others] = [...names].reverse();
  const list = others.length > 0 ? `${others.reverse().join(", ")} and ${last} are` : `${last} is`;
  return `${list} missing${hasNoProject ? ", and there is no mcs4.toml here" : ""}`;
};
/** @type {(name: string, word: string, maximum: number) => string} */
export const notInRangeMessage = (name, word, maximum) => `${name}: '${word}' is not a decimal number from 1 to ${maximum}`;
/** @type {(file: string, kind: string) => string} */
export const projectLacks = (file, kind) => `${file} names no ${kind}; name some there, or after the command`;
/** @type {(first: string, second: string) => string} */
export const cannotCombine = (first, second) => `${first} and ${second} cannot be combined`;

// --- errors of several commands ---

/** @type {(session: string) => string} */
export const sessionInUseMessage = (session) => (
  `${session} is in use: it changed while it was read; end the program that uses it, or try again`);
/** @type {(name: string) => string} */
export const noNamedProverMessage = (name) => `MCS4_PROVE names ${name}, which is not there; unset it, or name another program`;
/** @type {(error: string) => string} */
export const noProverMessage = (error) => (
  `the program that searches, shipped/mcs4-prove, could not be started: ${error}; tools/build mcs4_prove proves and builds it`);
export const NO_PROGRAM_IN_COPY = "this copy of the bench has no native program";
/** @type {(platform: string, machine: string) => string} */
export const unsupportedSystemMessage = (platform, machine) => `it is for Linux on x86-64, and this is ${platform} on ${machine}`;
/** @type {(error: string) => string} */
export const needsNativeProgramMessage = (error) => (
  `a session file needs the native program, which cannot start: ${error}. Commands without a session file run here`);
/** @type {(error: string) => string} */
export const runsOnModuleMessage = (error) => (
  `commands run on the proved module, more slowly, because the native program cannot start: ${error}. This message appears once`);
/** @type {(session: string, number: number, meaning: string) => string} */
export const sessionRejectedMessage = (session, number, meaning) => `the session ${session} was rejected: no ${number}: ${meaning}`;
/** @type {(program: string, address: string, romByte: string, line: number, sourceByte: string) => string} */
export const programDiffersMessage = (program, address, romByte, line, sourceByte) => (
  `the session's program differs from ${program}: ${address} has ${romByte}, but line ${line} makes ${sourceByte}`);
/** @type {(cycles: number, reason: string) => string} */
export const sessionStopped = (cycles, reason) => `the session stopped after ${cycles} cycles: ${reason}`;

// --- the files of commands ---

export const NOT_AN_LCOV_FILE = "does not begin like an LCOV file (TN:)";
/** @type {(name: string) => string} */
export const fileIsFolderMessage = (name) => `${name} is a folder, not a file`;
/** @type {(name: string) => string} */
export const outputIsInputMessage = (name) => `${name} is an input of this command, so it is not written; name another file`;
/** @type {(name: string, reason: string) => string} */
export const fileOfOtherKindMessage = (name, reason) => `${name} exists, and ${reason}; name another file, or move it away`;
/** @type {(name: string) => string} */
export const folderNotWritableMessage = (name) => `cannot write ${name}: its folder does not exist or cannot be written`;

// --- wave ---

export const SOUND_NEEDS_NO_NAMES = "--wav writes the sound of a line; it needs no --names";
export const NOT_A_WAV_FILE = "is not a WAV file";
/** @type {(board: string) => string} */
export const boardDiffers = (board) => `the session's board differs from ${board}`;
const BUZZER_COMMENT = "a comment `# buzzer rom0.3: NAME`";
export const NO_BUZZER_GIVEN = `no line of a buzzer is given; name it, or give --board BOARD, whose text has ${BUZZER_COMMENT}`;
/** @type {(board: string) => string} */
export const noBuzzerMessage = (board) => `${board} has no buzzer: ${BUZZER_COMMENT} makes one`;
/** @type {(line: string) => string} */
export const noOutputLineMessage = (line) => (
  `the board has no output line ${line}; a buzzer is at one, such as rom0.3, ram0.1.3 or chain0.5`);
/** @type {(board: string, line: number, place: string) => string} */
export const noOutputAtMessage = (board, line, place) => `${board}: line ${line}: the board has no output line ${place}`;
/** @type {(cycles: number) => string} */
export const stoppedAtCode = (cycles) => `the session stopped after ${cycles} cycles, before a code that is not an instruction`;

// --- project ---

export const SPLIT_OR_JOIN_MISSING = "split or join is missing";
/** @type {(word: string) => string} */
export const neitherSplitNorJoinMessage = (word) => `'${word}' is neither split nor join`;
/** @type {(name: string, folder: string) => string} */
export const leadsOutOf = (name, folder) => `${name} is a link that leads out of ${folder}`;
/** @type {(name: string) => string} */
export const containsNulMessage = (name) => `${name} contains NUL bytes, so it is not a text`;
/** @type {(name: string) => string} */
export const notUtf8Message = (name) => `${name} is not a text in UTF-8`;
/** @type {(file: string, count: number, kind: string) => string} */
export const tooManyTextsMessage = (file, count, kind) => `${file} names ${count} texts of ${kind}; a project of the page has one`;
/** @type {(name: string) => string} */
export const notASessionFileMessage = (name) => `${name} is not a session file`;
/** @type {(name: string) => string} */
export const emptySessionNameMessage = (name) => `${name} is empty; it must have the name of the session`;
/** @type {(name: string) => string} */
export const noSessionToDebugMessage = (name) => `there is no file ${name}; mcs4 debug BOARD PROGRAM ${name} begins a session in it`;
/** @type {(folder: string) => string} */
export const noFolderMessage = (folder) => `there is no folder ${folder}`;
export const NOT_A_PROJECT = "is not a project";
/** @type {(folder: string) => string} */
export const notAFolderMessage = (folder) => `${folder} exists and is not a folder`;
/** @type {(name: string) => string} */
export const alreadyExists = (name) => `${name} already exists; name another folder, or move it away`;

// --- rom ---

export const LOAD_ASK_OR_SAVE_MISSING = "load, ask or save is missing";
/** @type {(word: string) => string} */
export const unknownRomActionMessage = (word) => `'${word}' is not load, ask or save`;
/** @type {(action: string, format: string) => string} */
export const unsupportedFormat = (action, format) => `rom ${action} takes no --${format}`;
export const ADDRESS_RANGE = "ADDRESS is 0 to 4095, decimal or with 0x";
export const RANGE_NUMBERS_SYNTAX = "FIRST and COUNT are numbers, decimal or with 0x";
export const BYTE_RANGE_SYNTAX = "FIRST is 0 to 4095, COUNT is at least 1, and 4096 is the address after the last one";
/** @type {(name: string) => string} */
export const textIsNotImageMessage = (name) => (
  `${name} is a text, but not Intel HEX, S-records or BNPF; if its characters are the bytes of an image: rom load --binary`);
export const BINARY_HINT = " (is it a binary file? --binary)";
export const NO_TERMINAL = "an image cannot be shown at a terminal; write it to a file (> IMAGE), or as --hex";
export const NO_ANSWERS = "standard input has no answers; redirect the answers of mcs4 to it, as in: mcs4 rom save FIRST COUNT < ANSWERS";
/** @type {(line: number, text: string) => string} */
export const answerIsRefusalMessage = (line, text) => `line ${line} of the answers is a refusal: ${text}; mcs4 explain says why`;
/** @type {(address: string) => string} */
export const noAnswerShowsMessage = (address) => `no answer shows the byte at ${address}; mcs4 rom ask makes the questions`;

// --- board_file.mjs, keys ---
/** @type {(board: string, key: string) => string} */
export const noKeyOnBoardMessage = (board, key) => `${board} has no key ${key}`;
/** @type {(board: string) => string} */
export const keysWithoutNames = (board) => `${board} has no comments \`# row R: NAME ..\` that name its keys`;
/** @type {(answer: string, meaning: string) => string} */
export const benchRejected = (answer, meaning) => `the bench answered: ${answer}: ${meaning}`;

// --- session_process.mjs ---
/** @type {(output: string) => string} */
export const programEnded = (output) => `the session has ended: ${output || "no answer"}`;
/** @type {(session: string, reason: string) => string} */
export const sessionRejectedForReason = (session, reason) => `the session ${session} was rejected: ${reason}`;

// --- names ---
/** @type {(line: number, message: string) => string} */
export const errorInLine = (line, message) => `line ${line}: ${message.replace(/\.$/, "")}`;

// --- answers on standard input ---
/** @type {(command: string) => string} */
export const noAnswersMessage = (command) => (
  `standard input has no answers; redirect the answers of mcs4 to it, as in: mcs4 ${command} .. < ANSWERS`);

// --- cycles ---
/** @type {(word: string) => string} */
export const notALineNumberMessage = (word) => `FIRST and LAST are line numbers; '${word}' is not a number`;
export const LINE_RANGE_SYNTAX = "FIRST is at least 1, and LAST is not before it";

// --- explain ---
/** @type {(mismatch: string) => string} */
export const answersOfOtherScript = (mismatch) => `these are not the answers to this script: ${mismatch}`;
/** @type {(character: string) => string} */
export const characterHint = (character) => `: \`${character}\``;
/** @type {(digits: string) => string} */
export const byteHint = (digits) => `: the byte ${digits}`;
/** @type {(line: number, refusal: number, textLine: number, meaning: string) => string} */
export const rejectedLine = (line, refusal, textLine, meaning) =>
  `line ${line}: no ${refusal}${textLine > 0 ? `, line ${textLine} of the text` : ""}: ${meaning}`;
/** @type {(number: number, meaning: string) => string} */
export const rejectedWithNumber = (number, meaning) => `the session was rejected: no ${number}: ${meaning}`;
/** @type {(line: number, isLast: boolean) => string} */
export const notAnsweredMessage = (line, isLast) => `line ${line} ${isLast ? "was" : "and those after it were"} not answered`;

// --- resume ---
/** @type {(session: string, script: string, mismatch: string, differences: string[]) => string} */
export const scriptDoesNotMatch = (session, script, mismatch, differences) => [
  `${session} did not begin with ${script}: ${mismatch}${differences.length > 0 ? ` (< ${session}, > what ${script} leads to)` : ""}`,
  ...differences,
].join("\n");
/** @type {(session: string) => string} */
export const changedMeanwhile = (session) => `${session} is in use: it changed in the meantime; end the program that uses it, or try again`;

// --- back ---
export const NO_FLOCK = "the program flock is not found; on Debian: apt-get install util-linux";
/** @type {(session: string) => string} */
export const usedByAnotherProgramMessage = (session) => `${session} is in use by another program; wait until that has ended`;
/** @type {(name: string) => string} */
export const cannotWriteMessage = (name) => `cannot write ${name}`;
/** @type {(commands: number, records: number) => string} */
export const describeRemovableCommands = (commands, records) => {
  if (records === 0) return `session ${commands}: its log has no commands, so it cannot go back`;
  if (records === 1) return `session ${commands}: can go back by 1 command, to session ${commands - 1}`;
  return `session ${commands}: can go back by 1 to ${records} commands, to sessions ${commands - 1} to ${commands - records}`;
};
/** @type {(session: string, records: number, commands: number, steps: number) => string} */
export const logIsShorter = (session, records, commands, steps) => (records === commands
  ? `the log of ${session} has ${commands} commands, so it cannot go back by ${steps}`
  : `the log of ${session} has ${records} of its ${commands} commands, so it cannot go back by ${steps}; `
    + "the earlier ones are in a snapshot");
/** @type {(session: string, expected: number, actual: string) => string} */
export const wouldDiffer = (session, expected, actual) => `${session} would not be session ${expected} but ${actual}; nothing was changed`;

// --- temporary_folders.mjs ---
/** @type {(parent: string) => string} */
export const cannotMakeFolderMessage = (parent) => `cannot make a folder in ${parent}; set TMPDIR to another folder for temporary files`;

// --- debug ---
export const NOT_A_BREAKPOINTS_FILE = "is not a file of breakpoints: it does not begin with `# Breakpoints of mcs4 debug`";

// --- explore ---
export const NOT_COUNTEREXAMPLES = "is not a file of counterexamples: it does not begin with `# Found by mcs4 explore`";
export const NOT_A_REPORT = "is not a report of mcs4 explore";
/** @type {(file: string, names: string[]) => string} */
export const nameOneFile = (file, names) => `${file} names ${names.length} texts of properties; name one of them: ${names.join(" ")}`;
/** @type {(properties: string, line: number, message: string, state: string) => string} */
export const testsMustSave = (properties, line, message, state) => (
  `${properties}:${line}: ${message}; its tests must save the state ${state}`);
/** @type {(status: string, output: string) => string} */
export const modelEnded = (status, output) => `the model has ended with status ${status}${output && `: ${output}`}`;
/** @type {(lines: number, chains: number) => string} */
export const modelPrinted = (lines, chains) => `the model has printed ${lines} lines for ${chains} lines of keys`;
/** @type {(properties: string, line: number, command: string) => string} */
export const runsModelCommand = (properties, line, command) => `${properties}:${line}: --allow-model runs this command: ${command}`;
/** @type {(test: string) => string} */
export const testDoesNotFail = (test) => `mcs4 test does not see this fail, so it is not counted:\n${test}`;
/** @type {(place: string, text: string, isGoal: boolean, steps: string) => string} */
export const foundLine = (place, text, isGoal, steps) => `${place}: ${text}: ${isGoal ? "reached" : "broken"} by ${steps}`;
/** @type {(status: number | null) => string} */
export const jobEnded = (status) => `a job ended with status ${status}`;
/** @type {(name: string) => string} */
export const notAReportMessage = (name) => `${name} is not a report of mcs4 explore (--report)`;
/** @type {(name: string, first: string) => string} */
export const differentTexts = (name, first) => `${name} differs from ${first} in its board, program or properties`;
