// The help for the commands of `mcs4 debug`: each command's form, effect, and details. Each entry makes sense on its own.

/**
 * The help of a command: its name and abbreviations, its form, its effect, and details ("" if there are none).
 * @typedef {{ names: string, usage: string, effect: string, details: string }} CommandWords
 */

/** @type {(names: string, usage: string, effect: string, details?: string) => CommandWords} */
const command = (names, usage, effect, details = "") => ({ names, usage, effect, details: details.replace(/\s+/g, " ").trim() });

export const COMMAND_WORDS = [
  command("break b br", "break [PLACE] [from N] [if CONDITION] [log \"NOTE\"]", "sets a breakpoint, before the instruction at PLACE", `
    PLACE is a line of the source (12), a label (show, show + 2) or an address (0x00F); without PLACE it is the next instruction.
    CONDITION is
    as in r4 = 7 and (acc > 8 or lamp open on), key 7 down. from N: it stops from the Nth hit on. log: it does not stop, but prints
    NOTE, with
    values in braces: "R4 is {r4}".`),
  command("tbreak tb tbr", "tbreak [PLACE] [from N] [if CONDITION]", "sets a breakpoint that is deleted at its first stop",
    "It has the same form as break."),
  command("condition cond", "condition N [CONDITION]", "changes the condition of breakpoint N",
    "Without CONDITION the breakpoint always stops."),
  command("ignore", "ignore N COUNT", "lets the next COUNT hits of breakpoint N pass", "0 lets none pass."),
  command("commands", "commands [N]", "sets the commands that run when breakpoint N stops", `
    The commands are the next lines, up to a line end; no lines remove them. Without N they are for the breakpoint that was set last. If the
    first one is silent, the stop itself is not printed. After a command that moves, such as continue, the others are skipped.`),
  command("delete d", "delete [N ..]", "deletes breakpoints, or all of them", `
    N is the number that info breakpoints shows; $bpnum is the one that was set last. delete PLACE ends a watch.`),
  command("disable dis disa", "disable N ..", "disables breakpoints, without deleting them"),
  command("enable en", "enable N ..", "makes disabled breakpoints stop again"),
  command("watch wa", "watch PLACE", "stops when the value at PLACE changes", `
    PLACE is a nibble of RAM such as ram.0.0x12 (the session watches at most eight), or one other place: r4, acc, cy, lamps, lamp 3,
    rom1,
    ram0.0, chain0.5, or the name of a lamp.`),
  command("save", "save breakpoints FILE", "writes all breakpoints and watches to FILE, for source", `
    FILE must be new, empty, or such a file.`),
  command("source so", "source FILE", "runs the commands in FILE, up to an error", "Empty lines and lines that begin with # are skipped."),
  command("continue c cont", "continue", "runs up to a breakpoint or a watch", "Ctrl-C stops it."),
  command("run r", "run TIME", "runs for a time, or up to a stop", "TIME is a number of cycles such as 538, or 54 us, 20 ms, 1.5 s."),
  command("next n ni nexti", "next [N]", "runs an instruction, and a subroutine that it calls as one"),
  command("step s si stepi", "step [N]", "runs an instruction, and enters a subroutine that it calls"),
  command("finish fin", "finish", "runs up to the return from this subroutine"),
  command("until u advance", "until PLACE", "runs up to a place in the program, or to a condition", `
    Examples: until show, until r5 > 8 and cy = 1. A condition is reached when it becomes true.`),
  command("reverse-step rs rsi reverse-stepi", "reverse-step [N]", "goes back an instruction"),
  command("reverse-next rn rni reverse-nexti", "reverse-next [N]", "goes back an instruction, or a whole subroutine that it called"),
  command("reverse-continue rc", "reverse-continue", "goes back to the last arrival at a breakpoint", `
    It checks conditions and changes of watched values, but not from N. Without such an arrival it goes back as far as
    the session remembers.`),
  command("back", "back [PLACE]", "goes back to the last change of a place", `
    Examples: back ram.0.0x12, back r4, back lamps; it finds the instruction that wrote the value. back r5 > 8 or lamp open on goes to
    the
    point before the instruction that last made the condition true. Without PLACE it undoes everything since the previous stop.`),
  command("forward", "forward", "returns to where going back started"),
  command("press", "press KEY ..", "presses keys, 43 ms each, while time passes", `
    KEY is a name on the front panel, or row.column; press 12+3= presses five keys.`),
  command("hold", "hold KEY ..", "holds keys down; no time passes"),
  command("release", "release KEY ..", "lets keys go up; no time passes"),
  command("lamps", "lamps", "shows lamps and displays"),
  command("print p", "print[/FORMAT] WHAT", "prints a value", `
    WHAT is a place (r4, P2, acc, ram.0.0x12, rom1, lamp 3), a name of the program, display, a sum of values, or a condition. FORMAT is x
    for
    hexadecimal, d or u for decimal, o for octal, t or b for binary, a for an address with its label.`),
  command("set", "set PLACE = VALUE", "changes the value of a place", `
    PLACE is as for print, or test; VALUE is a number, a name of the program, or a sum: r5 + 1.`),
  command("display", "display[/FORMAT] [WHAT]", "prints a value at each stop",
    "WHAT and FORMAT are as for print. Without WHAT it prints all of them now."),
  command("undisplay und", "undisplay [N ..]", "stops displaying some values, or all"),
  command("x", "x[/N] PLACE", "shows N instructions of ROM, or nibbles of RAM", "Examples: x/8 show, x/16 ram.0.0x10."),
  command("list l", "list [PLACE]", "shows the source around a line", "Without PLACE it shows the next lines."),
  command("frame f", "frame", "shows the next instruction and its subroutine"),
  command("info i inf", "info WHAT", "shows a part of the session", `
    WHAT is registers, ram, ports, keys, breakpoints, watches, display, names, source, session, line [PLACE], symbol PLACE, frame, stack,
    program, or locals; the first letters are enough.`),
  command("backtrace bt where", "backtrace", "shows the open calls"),
  command("view layout tui", "view [on|off]", "shows source, registers and lamps above the commands", `
    Commands and their answers scroll below it, and it is drawn again after each command. It needs a terminal of 40 columns and 12 rows.
    view again, or view off, leaves it.`),
  command("load", "load", "reads the source again, assembles it and puts it into ROM", "Breakpoints move with their lines."),
  command("reset", "reset", "cycles the power"),
  command("bench", "bench LINE", "sends a line to the bench",
    "Examples: bench state, bench count 20. @NAME in it is an address. A run ends at breakpoints."),
  command("help h", "help [COMMAND]", "lists all commands, or explains one"),
  command("quit q exit", "quit", "ends the debugger"),
];
