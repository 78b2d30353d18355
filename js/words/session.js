// Messages and labels about sessions: saved sessions, files, links, projects, and the texts of a session.

// --- session/trash.js ---
/** @type {(count: number) => string} */
export const sessionCount = (count) => `${count} sessions`;
/** @type {(name: string) => string} */
export const openElsewhere = (name) => `The session "${name}" is open in another tab, so it was not deleted.`;
/** @type {(name: string, reason: string) => string} */
export const notDeletedMessage = (name, reason) => `The session "${name}" was not deleted: ${reason}.`;
/** @type {(name: string, reason: string) => string} */
export const notRestoredMessage = (name, reason) => `The session "${name}" was not restored: ${reason}.`;

// --- session/current_session.js ---
export const PAUSED = "Paused.";
/** @type {(name: string) => string} */
export const titleOfPage = (name) => `${name} - Fethsaim`;
/** @type {(reason: string) => string} */
export const notSavedMessage = (reason) => `This session is not saved: ${reason}. It is still in this page; save it to a file.`;

// --- session/session_summary.js ---
/** The kinds of parts that a session's summary counts, in the singular. */
export const PARTS = ["ROM", "RAM chip", "shift register", "lamp", "key"];
export const NO_CHIP = "no chip yet";

// --- session/export_view.js ---
export const CLOSE = "Close";
export const EXPORT = "Export";
export const FILES = "Files";
export const SOURCE_FILE = "the source, with its comments";
export const BOARD_FILE = "the board's text, with its comments";
export const HEX_FILE = "the contents of ROM in Intel HEX, for an EPROM programmer";
export const BIN_FILE = "the contents of ROM, byte by byte from 000";
/** @type {(ending: string) => string} */
export const saveAs = (ending) => `Save ${ending}`;
/** @type {(file: string) => string} */
export const nothingSavedMessage = (file) => `Nothing was saved: the file would be empty (${file}).`;

// --- session/folder_project.js ---
/** @type {(path: string, kind: string) => string} */
export const noTextMessage = (path, kind) => `${path} has no text of ${kind}`;
/** @type {(paths: string, isOne: boolean) => string} */
export const textsOmitted = (paths, isOne) => `The page has one text of each kind: ${paths} ${isOne ? "is" : "are"} left out.`;
export const NO_PROJECT_FILE = "there is no such file; it names the files of a project";
/** @type {(path: string) => string} */
export const noFileMessage = (path) => `there is no file ${path}`;

// --- session/session_list.js ---
export const DELETE_SELECTED = "Delete selected";
/** @type {(count: number) => string} */
export const deleteSelected = (count) => `Delete ${count} selected`;
export const SHOWN = "Shown";
export const OPEN = "Open";
/** @type {(name: string) => string} */
export const openNamed = (name) => `open ${name}`;
export const COPY = "Copy";
/** @type {(name: string) => string} */
export const copyNamed = (name) => `copy ${name}`;
export const DELETE = "Delete";
/** @type {(name: string) => string} */
export const deleteNamed = (name) => `delete ${name}`;
/** @type {(name: string) => string} */
export const selectNamed = (name) => `select ${name}`;
export const RESTORE = "Restore";
/** @type {(name: string) => string} */
export const restoreNamed = (name) => `restore ${name}`;
/** @type {(cycles: string) => string} */
export const withCycles = (cycles) => `, ${cycles} cycles`;

// --- session/stored_history.js ---
export const NOT_A_HISTORY = "it is not a recorded past";

// --- session/offered_lines.js ---
export const LINES_REPLACED = "Other lines have replaced the lines that you had not sent.";
export const UNDO = "Undo";

// --- session/opened_file.js ---
/** @type {(reason: string) => string} */
export const supportedFiles = (reason) => (
  `${reason}; supported are projects (.mcsp), sessions (.mcs), programs (.asm), boards (.toml), tests (.test), `
  + "properties (.props), lines (.txt) and ROM (.hex, .bin)");
export const PROJECT_FILE_ALONE = "it names files of a project: drop its folder on the page, or choose all of them";
export const UNKNOWN_TEXT_KIND = "not a kind of text that the bench has";
/** @type {(size: string, maximum: string) => string} */
export const tooLongMessage = (size, maximum) => `a text of ${size} characters; at most ${maximum} are accepted`;
export const NOT_A_TEXT = "not a text, a session or a project";
export const EMPTY = "it is empty";

// --- session/project_file.js ---
/** The second line of a project file. */
export const ABOUT_PROJECT =
  "# A board, its program and a session of the bench Fethsaim. Its page opens this file; mcs4 project splits it.";
export const HEADER_LINE = "a header line: `name`, `unended`, `break`, `value`, `#`, or `wire`, which starts the board's text";
export const BOARD_TEXT = "the board's text";
export const THE_SOURCE = "the source";
export const TESTS_TEXT = "the tests' text";
export const PROPERTIES_TEXT = "the properties' text";
/** @type {(text: string, size: string, maximum: string) => string} */
export const textTooLong = (text, size, maximum) => `${text} has ${size} characters; at most ${maximum} are accepted`;
/** @type {(line: number, expected: string) => string} */
export const lineMustBe = (line, expected) => `line ${line} of the project must be ${expected}`;
/** @type {(word: string) => string} */
export const noEndMessage = (word) => `the text after \`${word}\` has no end, a line with only a dot`;
export const NO_PROJECT = "not a project of Fethsaim";
/** @type {(version: string) => string} */
export const otherVersion = (version) => `a project of version ${version}, which is unknown here`;
/** @type {(line: string) => string} */
export const projectCutOff = (line) => `the project is cut off: its last line, \`${line}\`, is missing`;
export const WRONG_CHECKSUM = "the project is damaged or was edited: its checksum is wrong. "
  + "After editing a project, delete its line `cksum`";
/** @type {(line: number) => string} */
export const notOfSessionMessage = (line) => `line ${line} of the project is not a line of a session`;
export const TOO_MANY_BYTES = "the file has more bytes than a project can have";
export const END_OF_FILE = "the end of the file";
export const NOT_UTF8 = "the project is damaged: it is not a text in UTF-8";

export const CONTAINS_NUL = "the project contains NUL bytes, so it is not a text";

// --- session/project_parts.js ---
/** The first line of the `mcs4.toml` file that `mcs4 project split` writes. */
export const ABOUT_PROJECT_FILE = "# The project of this folder: commands, editors and the page use these files unless others are named.";
export const UNNAMED_SESSION = "session";
/** @type {(line: number) => string} */
export const noBreakpointMessage = (line) => `line ${line} is not a breakpoint such as \`break line 14\` or \`break at 0x00F\``;
/** @type {(count: number, maximum: number) => string} */
export const tooManyBreakpointsMessage = (count, maximum) => `it has ${count} breakpoints, more than a project can have (${maximum})`;
/** @type {(line: number) => string} */
export const emptyValue = (line) => `line ${line} is empty; a value is a line such as \`count = R5\``;

// --- session/rom_files.js ---
/** @type {(chip: number, address: string) => string} */
export const lacksRom = (chip, address) => (
  `the board has no ROM ${chip}, where the image has bytes (${address}): wire a [[rom]] with chip = ${chip}`);
/** @type {(bytes: string, name: string, isOne: boolean, first: string) => string} */
export const bytesInRom = (bytes, name, isOne, first) => (
  `${bytes} of ${name} ${isOne ? "is" : "are"} in ROM, from ${first}; nothing was reset.`);

// --- session/session_manager.js ---
export const IN_ANOTHER_TAB = "This session is open in another tab. Continue there, close that tab, or open a copy of it.";
export const OPEN_A_COPY = "Open a copy";
/** @type {(reason: string) => string} */
export const cannotReadSessionsMessage = (reason) => `The saved sessions could not be read: ${reason}.`;
export const NO_LONGER_SAVED = "it is no longer saved here";
/** @type {(reason: string) => string} */
export const notOpenedMessage = (reason) => `Cannot open the session: ${reason}.`;
/** @type {(reason: string) => string} */
export const notCreatedMessage = (reason) => `No session was created: ${reason}.`;
/** @type {(name: string) => string} */
export const nameOfCopy = (name) => `${name}, a copy`;
/** @type {(name: string, reason: string) => string} */
export const fileNotOpened = (name, reason) => `Cannot open ${name}: ${reason}. The session shown is unchanged.`;
export const THE_FOLDER = "the folder";
/** @type {(reason: string) => string} */
export const noProjectSavedMessage = (reason) => (
  `No project was saved: ${reason}. Shorten it first; "Save session for mcs4" saves the session without its texts.`);

// --- session/sessions_controller.js ---
export const SAVED_IN_BROWSER_ONLY = "They are saved in this browser only. Download a copy to be safe. "
  + "Examples are saved once you change something.";
export const STORAGE_IS_PERSISTENT = " The browser has promised to keep them even when space is short.";
export const NOT_SAVED_ANYWHERE = "This browser stores nothing for this page: save a session to a file before you leave.";
/** @type {(name: string, isKept: boolean) => string} */
export const leftSessionMessage = (name, isKept) => (
  `"${name}" ${isKept ? "is saved" : "stays until this page is closed"}.`);
export const REOPEN = "Reopen";
/** @type {(name: string) => string} */
export const noSuchExampleMessage = (name) => `The address names an example, "${name}", that this page does not have.`;
/** @type {(hash: string) => string} */
export const addressNamesNothing = (hash) => (
  `The address ends with ${hash}, which names nothing here. It can end with #example= and a name, or with a link that Share has made.`);
/** @type {(names: string) => string} */
export const sessionsDeleted = (names) => `Deleted ${names}.`;
/** @type {(name: string) => string} */
export const notOpenedAutomaticallyMessage = (name) => (
  `The session "${name}" was not opened automatically: the last time, opening it did not finish.`);
export const OPEN_IT = "Open it";
export const DELETE_IT = "Delete it";

// --- session/sessions_view.js ---
/** @type {(name: string) => string} */
export const newSession = (name) => `new session: ${name}`;
/** @type {(name: string) => string} */
export const newStory = (name) => `new session with its story: ${name}`;
export const WITH_STORY = "with its story";

// --- session/share_link.js ---
export const DAMAGED = "it is cut off or was changed";
export const TEXTS_TOO_LONG = "its texts are longer than the page accepts";
export const CANNOT_DECOMPRESS = "this browser cannot read compressed texts (it has no DecompressionStream); it needs Chrome "
  + "103, Firefox 113 or Safari 16.4 or later, or a project file instead of the link";
export const NEWER_PAGE = "it was made by a newer page than this one";

// --- session/link_sharing.js ---
export const ALWAYS_SHARED_PARTS = ["the name", "the board", "the source"];
export const THE_TESTS = "the tests";
export const THE_PROPERTIES = "the properties";
/** @type {(parts: string, last: string) => string} */
export const linkContains = (parts, last) => `It holds ${parts} and ${last}, not the state of the machine.`;
export const LINK_FROM_FILE = " This page was opened from a file, so the link works only on this machine. Others append the part that "
  + "begins with # to the address of their own page.";
export const LONG_LINK_WARNING = "Some messaging programs cut a link of more than 8,000 characters; a project file is safer.";
/** @type {(reason: string) => string} */
export const noLinkMessage = (reason) => `No link was made: ${reason}. Shorten it first.`;
/** @type {(count: string) => string} */
export const characterCountText = (count) => `${count} characters`;
/** @type {(size: string, warning: string) => string} */
export const linkCopied = (size, warning) => `A link of ${size} was copied. ${warning}`;
export const TOO_LONG_FOR_LINK = "Too long for a link";
/** @type {(size: string, maximum: string) => string} */
export const linkTooLongMessage = (size, maximum) => (
  `These texts would make a link of ${size}; browsers show at most ${maximum}. A project file has no such limit.`);
export const SAVE_PROJECT = "Save a project";
export const LEAVE_IT = "Leave it";
export const THE_LINK = "The link";
export const COPY_LINK = "Copy this link";
export const COPY_MANUALLY = "The browser does not let the page copy. Copy the link manually.";
/** @type {(name: string) => string} */
export const openFromLinkQuestion = (name) => `Open "${name}" from a link?`;
export const OPEN_AS_NEW = "Open it as a new session";
/** @type {(reason: string) => string} */
export const linkNotOpened = (reason) => `Cannot open the link: ${reason}. Nothing was changed.`;
/** @type {(isBoard: boolean, reason: string) => string} */
export const textRejectedMessage = (isBoard, reason) => (
  `The bench rejects the ${isBoard ? "board" : "source"} (${reason}). The text is opened anyway.`);
/** @type {(board: string, source: string, tests: string, properties: string) => string} */
export const sizesOfTexts = (board, source, tests, properties) => (
  `The board's text has ${board}, the source ${source}${tests && `, the text of tests ${tests}`}${
    properties && `, that of properties ${properties}`}.`);
/** @type {(parts: string) => string} */
export const onTheBoard = (parts) => `On the board: ${parts}.`;
export const BECOMES_SESSION = "It becomes a separate session, and the current one stays. Nothing is sent anywhere.";

// --- session/store.js ---
export const CHANGED_ELSEWHERE = "another tab has changed or deleted this session";
export const STORE_SILENT = "the browser's store does not answer";
export const OLDER_STORE = "another tab uses an older form of the page's store";
export const UNKNOWN_REASON = "for an unknown reason";
export const NO_SPACE = "the browser has no more space for this page";
/** @type {(name: string) => string} */
export const storeFailed = (name) => `the browser's store failed (${name})`;

// --- session/texts_controller.js ---
/** The names of the texts as the subject of a sentence. */
export const TEXT_SUBJECTS = {
  board: "The board's text", program: "The source", tests: "The text of tests", properties: "The text of properties",
};
/** The end of the message about an opened text: its tab and its use. */
export const OPENED_IN = {
  tests: "is in Tests. Run tests runs it on the current Board and Source.",
  properties: "is in Properties. Search looks for counterexamples, on the current Board and Source.",
};
export const SOURCE = "Source";
export const ASSEMBLE_HINT = "Assemble and run puts it into ROM";
export const BOARD = "Board";
export const APPLY_BOARD_HINT = "Apply board puts it on the bench";
export const BOARD_AND_SOURCE = "Board and Source";
/** @type {(name: string, tab: string, action: string, nextAction: string) => string} */
export const textIsIn = (name, tab, action, nextAction) => `${name} is in ${tab}. ${action}${nextAction}.`;
export const THEN_ASSEMBLE = ", then Assemble and run";
export const SAME_AS_ROM = "The source is already the same as ROM.";
export const DISASSEMBLED = "The source was disassembled from ROM.";
export const REPLACE_SOURCE = "Replace the source?";
/** @type {(oldSize: string, newSize: string) => string} */
export const sizesOfSources = (oldSize, newSize) =>
  `The source has ${oldSize}. The disassembly of ROM has ${newSize}, without comments and names.`;
/** @type {(name: string) => string} */
export const replaceByProbableNonProgram = (name) => `Replace the source with ${name}?`;
/** @type {(name: string) => string} */
export const eachLineWrong = (name) => `Each line of ${name} has an error, so it is probably not a program.`;
export const REPLACE_IT = "Replace it";
export const LEAVE_AS_IS = "Leave it unchanged";
/** @type {(text: string) => string} */
export const textRestored = (text) => `${text} is restored.`;
export const TEXTS_RESTORED = "The board's text and the source are restored.";
/** @type {(name: string) => string} */
export const inOtherSession = (name) => `That change was made in the session "${name}". Open the session to undo the change.`;
