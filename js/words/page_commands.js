// The names and groups of the page's commands, and the reasons why a command cannot run now. Also the labels of the command palette and of
// the key list.

/** The groups of commands, in display order. */
export const GROUPS = {
  time: "Time", project: "Project", show: "Show", board: "Board", text: "Text", debug: "Debug", tests: "Tests and properties",
  wiring: "Wiring", waves: "Waves", settings: "Settings", help: "Help", example: "Example", key: "Key of the board",
};

/** The names of the commands, by command id. */
export const COMMANDS = {
  "time.continue": "Continue",
  "time.pause": "Pause",
  "time.over": "Step over",
  "time.into": "Step into",
  "time.out": "Step out",
  "time.stepBack": "Step back",
  "time.lastPause": "Undo to last pause",
  "time.reverse": "Reverse to breakpoint",
  "time.redo": "Redo what was undone",
  "time.count": "Step N instructions",
  "time.toCursor": "Run to the cursor",
  "time.untilChange": "Run until a location changes",
  "time.backToChange": "Reverse to the last change of a location",
  "time.reset": "Reset (power cycle)",
  "time.test": "Toggle the TEST pin",
  "project.open": "Open a file",
  "project.save": "Save project",
  "project.saveSession": "Save session for mcs4",
  "project.all": "Projects",
  "project.rename": "Rename the project",
  "project.examples": "Examples",
  "project.export": "Export",
  "project.print": "Print",
  "project.share": "Share a link",
  "go.to": "Go to a label, an address or a text",
  "go.notices": "Show all notices",
  "board.type": "Use my keyboard for the board's keys: on or off",
  "board.sound": "Sound of the buzzer: on or off",
  "board.tear": "Clear the printer tape",
  "board.first": "Start with a board of four lamps and two keys",
  "board.draw": "Start with a board that you draw",
  "board.apply": "Apply board",
  "text.assembleAndRun": "Assemble and run",
  "text.assemble": "Assemble (do not run)",
  "text.disassemble": "Disassemble ROM into source",
  "text.find": "Find in the text",
  "text.replace": "Replace in the text",
  "text.line": "Go to a line of the text",
  "text.comment": "Comment or uncomment lines",
  "text.complete": "Complete the word",
  "text.define": "Go to the definition of the name",
  "text.uses": "Find all uses of the name",
  "text.rename": "Rename the name",
  "text.fold": "Fold this part",
  "text.unfold": "Unfold this part",
  "text.foldAll": "Fold all parts",
  "text.unfoldAll": "Unfold all parts",
  "text.undo": "Undo an edit",
  "text.redo": "Redo an edit",
  "text.smaller": "Smaller text",
  "text.larger": "Larger text",
  "text.wrap": "Word wrap: on or off",
  "debug.breakpoint": "Toggle breakpoint",
  "debug.condition": "Edit the breakpoint's condition",
  "debug.hitCount": "Edit the breakpoint's hit count",
  "debug.log": "Edit the breakpoint's log message",
  "debug.goTo": "Go to an address in the disassembly",
  "debug.there": "Toggle a breakpoint at that address",
  "debug.follow": "Let the disassembly follow the program counter: on or off",
  "debug.allOn": "Enable all breakpoints",
  "debug.allOff": "Disable all breakpoints",
  "debug.hits": "Reset hit counts",
  "debug.removeAll": "Remove all breakpoints",
  "debug.watch": "Add a watch",
  "debug.heat": "Heat map of RAM",
  "debug.console": "Type a line in the console",
  "tests.run": "Run tests",
  "tests.first": "Insert a sample test",
  "tests.clear": "Clear the results of the tests",
  "properties.search": "Search for a counterexample",
  "properties.prove": "Prove the properties for all inputs",
  "properties.first": "Insert sample properties",
  "properties.clear": "Clear the results of the search",
  "wiring.apply": "Apply the drawn board",
  "wiring.undo": "Undo in the drawing",
  "wiring.redo": "Redo in the drawing",
  "wiring.arrange": "Auto-arrange the parts",
  "wiring.scan": "Insert code that scans the keys",
  "wiring.larger": "Zoom in on the wiring",
  "wiring.smaller": "Zoom out of the wiring",
  "wiring.fit": "Zoom the wiring to fit",
  "waves.record": "Record, or stop recording",
  "waves.save": "Export waves (VCD)",
  "waves.png": "Export the picture of the waves (PNG)",
  "waves.svg": "Export the picture of the waves (SVG)",
  "waves.trigger": "Set a trigger",
  "waves.in": "Zoom in on the waves",
  "waves.out": "Zoom out of the waves",
  "waves.all": "Zoom the waves to fit",
  "waves.before": "Previous edge",
  "waves.after": "Next edge",
  "waves.a": "Move cursor A",
  "waves.b": "Move cursor B",
  "waves.instruction": "Show the instruction at the cursor",
  "waves.search": "Find a value in the waves",
  "waves.findBefore": "Find the value before the cursor",
  "waves.findAfter": "Find the value after the cursor",
  "waves.changing": "Show only rows that change",
  "waves.every": "Show all rows",
  "waves.none": "Hide all rows",
  "settings.palette": "Show all commands",
  "help.open": "Help",
  "help.keys": "List of keys",
  "help.welcome": "First steps: six cards",
  "help.tour": "Light a lamp: your first program",
};
/** @type {(text: string) => string} */
export const showText = (text) => `Show ${text}`;
/** @type {(speed: string) => string} */
export const atSpeed = (speed) => `Speed: ${speed}`;
/** @type {(panel: string) => string} */
export const togglePanel = (panel) => `Close or reopen ${panel}`;
/** @type {(panel: string) => string} */
export const fullPanel = (panel) => `Full size: ${panel}, and back`;
/** The names of the commands that select a theme, by theme id. */
export const THEMES = { system: "Theme: same as the system", light: "Theme: light", dark: "Theme: dark" };
/** @type {(example: string) => string} */
export const openExample = (example) => `Open the example ${example}`;
/** @type {(key: string) => string} */
export const pressKey = (key) => `Press ${key}`;
/** The names of the texts and views, by id. */
export const TEXTS = { program: "Source", board: "Board", tests: "Tests", properties: "Properties", wiring: "Wiring", waves: "Waves" };
/** The names of the machine's panels, by id. */
export const PANELS = {
  front: "Front panel", processor: "Registers", listing: "Disassembly", breakpoints: "Breakpoints", watched: "Watch", memory: "RAM",
  ports: "Ports", talk: "Console",
};

// --- the reasons why a command cannot run now ---
/** @type {(command: string, reason: string) => string} */
export const notDoneMessage = (command, reason) => `${command}: ${reason}.`;
export const NOT_NOW = "not possible now";
export const NOTHING_UNDONE = "nothing was undone";
export const NO_BUZZER = "the board has no buzzer";
export const NO_PRINTER = "the board has no printer";
export const TEST_HAS_OWN_CONTROL = "the front panel has its own TEST control";
export const HAS_BOARD = "the board is not empty";
export const HAS_TEXT = "there is already a text";
export const NO_RESULTS = "there are no results";
export const NO_BREAKPOINTS = "there are no breakpoints";
export const NOTHING_RECORDED = "nothing was recorded yet";
export const NO_KEYS = "the board has no key matrix";
export const NO_NOTICES = "there were no notices";
export const NEEDS_TEXT = "show a text first";
export const NEEDS_SOURCE = "show Source first";

// --- commands/toolbar_view.js ---
export const FILE = "File";
export const THEME = "Theme";
/** @type {Record<string, string>} shorter button labels, by command id */
export const SHORT_LABELS = { "project.share": "Share" };
/** @type {Record<string, string>} the tooltips of command buttons, by command id */
export const TOOLTIPS = {
  "time.over": "Step over: one instruction; a subroutine that it calls runs to its end",
  "time.into": "Step into: one instruction, into a subroutine that it calls",
  "time.out": "Step out: up to the return from this subroutine",
  "time.stepBack": "Step back: to before the last instruction",
};

// --- commands/empty_panels.js ---
/**
 * @type {Record<string, { words: string, button: string }>} the text and the button label of an empty panel, by the id of the panel's list
 */
export const EMPTY_PANELS = {
  "watched-list": { words: "Named values.", button: "Add a watch" },
  "breakpoint-list": { words: "", button: "Set at cursor" },
  "waves": { words: "Lamps, lines and registers over time, as a logic analyser shows them.", button: "Record" },
  "log": { words: "Lines for the bench, and its answers: type help, or poke r5 9.", button: "Type a line" },
};

// --- commands/palette_view.js ---
export const PALETTE = "Commands";
export const TYPE_COMMAND = "Type a command";
export const GO_TO = "Go to";
export const TYPE_DESTINATION = "Type a label, an address, :line or the name of a text; > for commands";
/** @type {(count: number) => string} */
export const commandCountText = (count) => (count === 1 ? "1 command" : `${count} commands`);
/** @type {(count: number) => string} */
export const destinationCountText = (count) => (count === 1 ? "1 place" : `${count} places`);
/** @type {(query: string) => string} */
export const noMatchMessage = (query) => `Nothing is named ${query}`;

// --- commands/palette_destinations.js ---
/** @type {(address: string) => string} */
export const nameOfAddress = (address) => `Address ${address}`;
/** @type {(line: number) => string} */
export const nameOfLine = (line) => `Line ${line} of Source`;
/** @type {(line: number, address: string) => string} */
export const labelAt = (line, address) => `line ${line}, ${address}`;
export const A_TEXT = "text";
export const A_PROJECT = "project";

// --- commands/key_list.js ---
export const KEY_TABLE = "Keys of commands";
export const KEY_HEADING = "Key";
export const EFFECT_HEADING = "Effect";
/** The part of the page in which a key works, by the key's scope. */
export const KEY_SCOPES = {
  everywhere: "", texts: "in the texts", source: "in Source", board: "in Board", tests: "in Tests", properties: "in Properties",
};
