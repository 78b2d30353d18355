// Drives Kate's language client on a virtual display: `node editors_kate.mjs FOLDER`. FOLDER/home has Kate's settings as the manual describes them.
// FOLDER/bin has a wrapper for `mcs4` that copies everything that Kate sends to FOLDER/sent, and everything that Kate receives to FOLDER/received.
// The script prints a line for each result. It waits until these files or the screen have the expected contents, never for a fixed time.
import { spawn, spawnSync } from "node:child_process";
import { cpSync, existsSync, mkdirSync, readFileSync, rmSync, writeFileSync } from "node:fs";
import { MessageClient } from "./message_client.mjs";

/** The time in milliseconds to wait for each result. */
const TIMEOUT_MS = 90000;
/** The time in milliseconds after which a key that had no effect is pressed again, and after which a display command is ended. */
const RETRY_AFTER_MS = 20000;
/** The window title of Kate's question about starting the server. */
const QUESTION = "LSP server start requested";
const folder = process.argv[2];
/** Functions that end the processes that this script has started. */
const endFunctions = new Set();
const printLine = (line) => process.stdout.write(`${line}\n`);
const shortDelay = () => new Promise((resume) => setTimeout(resume, 100));

/** Calls `find` repeatedly until it returns a truthy value. Resolves to that value. Fails after TIMEOUT_MS, with a message that contains `description`. */
async function waitFor(description, find) {
  for (const end = Date.now() + TIMEOUT_MS; Date.now() < end;) {
    const value = find();
    if (value) return value;
    await shortDelay();
  }
  throw new Error(`${description}: not after ${TIMEOUT_MS} ms`);
}

/** Returns the messages in the file `sent` or `received`. */
function messagesOf(name) {
  const file = `${folder}/${name}`;
  return existsSync(file) ? MessageClient.messagesIn(readFileSync(file)).messages : [];
}

const sent = (method) => messagesOf("sent").filter((message) => message.method === method);
const lastDiagnostics = () => messagesOf("received").filter(({ method }) => method === "textDocument/publishDiagnostics").at(-1)?.params.diagnostics;

// --- the display and its screenshot

/** Starts a virtual display. Its screenshots are in FOLDER. */
async function startDisplay() {
  const server = spawn("Xvfb", ["-displayfd", "3", "-screen", "0", "1280x800x24", "-nolisten", "tcp", "-fbdir", folder],
    { stdio: ["ignore", "ignore", "ignore", "pipe"] });
  endFunctions.add(() => server.kill());
  let number = "";
  server.stdio[3].on("data", (bytes) => {
    number += bytes;
  });
  await waitFor("the display", () => number.endsWith("\n"));
  return `:${number.trim()}`;
}

/**
 * Counts the pixels of a screenshot with the colour that Kate's theme uses for a line with an error: #FFE5E5, or a shade of it at the cursor. The
 * screenshot is an XWD picture: its first word is the length of its header, and its twentieth word is the number of its colours.
 */
function countMarkedPixels() {
  const picture = readFileSync(`${folder}/Xvfb_screen0`);
  const start = picture.readUInt32BE(0) + 12 * picture.readUInt32BE(19 * 4);
  let count = 0;
  for (let offset = start; offset + 3 < picture.length; offset += 4) {
    const [blue, green, red] = picture.subarray(offset, offset + 3);
    if (red >= 240 && red - green >= 20 && green - blue <= 6 && blue - green <= 6 && green > 200) count += 1;
  }
  return count;
}

/** Returns true if Kate marks a line as wrong. A marked line is several hundred pixels wide and several pixels high. */
const isErrorMarked = () => countMarkedPixels() > 2000;

// --- Kate

class Kate {
  constructor(display, file, options = []) {
    this.environment = { ...process.env, HOME: `${folder}/home`, XDG_RUNTIME_DIR: `${folder}/run`, PATH: `${folder}/bin:${process.env.PATH}`,
      DISPLAY: display, QT_QPA_PLATFORM: "xcb", LANG: "C.UTF-8" };
    for (const name of ["XDG_CONFIG_HOME", "XDG_DATA_HOME", "XDG_STATE_HOME", "XDG_CACHE_HOME", "WAYLAND_DISPLAY", "LC_ALL", "LANGUAGE"]) {
      delete this.environment[name];
    }
    for (const name of ["sent", "received"]) rmSync(`${folder}/${name}`, { force: true });
    this.file = file;
    // Kate gets its own process group, so that its child processes can be ended together with it.
    this.child = spawn("dbus-run-session", ["--", "kate", "-n", ...options, file],
      { cwd: `${folder}/lock`, env: this.environment, stdio: "ignore", detached: true });
    this.child.on("error", () => {});
    endFunctions.add(() => this.end());
  }

  xdotool(...args) {
    return spawnSync("xdotool", args, { env: this.environment, encoding: "utf8", timeout: RETRY_AFTER_MS }).stdout ?? "";
  }

  /** Returns the id of a window whose title contains `title`, or "" if there is none. */
  findWindow(title) {
    return this.xdotool("search", "--onlyvisible", "--name", title).trim().split("\n").at(-1);
  }

  /** Sends keys to the window whose title contains `title`. */
  async sendKeys(title, ...keys) {
    const window = await waitFor(`the window ${title}`, () => this.findWindow(title));
    this.xdotool("windowfocus", window, "key", "--delay", "100", ...keys);
  }

  /** Waits for the server's diagnostics, and resolves to them. If Kate asks whether it may start the server, confirms that. */
  async waitForDiagnostics() {
    let askedAt = 0;
    const diagnostics = await waitFor("errors", () => {
      // Send only one key, because a second one would go into the text.
      const window = Date.now() - askedAt > RETRY_AFTER_MS && this.findWindow(QUESTION);
      if (window) {
        askedAt = Date.now();
        this.xdotool("windowfocus", window, "key", "Return");
      }
      return lastDiagnostics();
    });
    printLine(`${this.file}: ${askedAt ? "asked" : "did not ask"} before it started the server`);
    return diagnostics;
  }

  end() {
    try {
      process.kill(-this.child.pid, "SIGKILL");
    } catch {
      // The process has already ended.
    }
  }
}

function printDiagnostics(diagnostics) {
  for (const { range, message } of diagnostics) printLine(`error ${range.start.line + 1}:${range.start.character}-${range.end.character} ${message}`);
  if (diagnostics.length === 0) printLine("no errors");
}

/** Opens a program with an error. Checks that the error is marked, and that the mark disappears after typing corrects the error. */
async function checkProgram(display) {
  const kate = new Kate(display, "wrong.asm", ["-l", "39", "-c", "9"]);
  try {
    await waitFor("the question", () => kate.findWindow(QUESTION));
    printLine(isErrorMarked() ? "a line is marked too early" : "no line is marked");
    const diagnostics = await kate.waitForDiagnostics();
    const [{ params: { textDocument: opened } }] = sent("textDocument/didOpen");
    printLine(`initialize ${sent("initialize").length}, opened ${opened.uri.split("/").at(-1)} as ${opened.languageId}`);
    printDiagnostics(diagnostics);
    await waitFor("a mark", isErrorMarked);
    printLine("a line is marked");
    await kate.sendKeys("wrong.asm", "Delete", "Delete", "Delete", "J", "U", "N");
    printDiagnostics(await waitFor("no errors", () => lastDiagnostics().length === 0 && lastDiagnostics()));
    const changes = sent("textDocument/didChange").at(-1).params.contentChanges;
    printLine(`changed to ${changes.at(-1).text.split("\n")[38].trim()}`);
    await waitFor("no mark", () => !isErrorMarked());
    printLine("no line is marked");
  } finally {
    kate.end();
  }
}

/**
 * Checks that Kate uses the generated grammars. Its settings assign a server only to the file type that a grammar defines. So if Kate asks about the
 * server when it opens a file, it has recognised the grammar.
 */
async function checkGrammar(display, file) {
  const settings = `${folder}/home/.config/kate/lspclient/settings.json`;
  const settingsValue = JSON.parse(readFileSync(settings, "utf8"));
  settingsValue.servers.mcs4.highlightingModeRegex = file === "board.toml" ? "^MCS-4 board$" : "^MCS-4 program$";
  writeFileSync(settings, JSON.stringify(settingsValue));
  const kate = new Kate(display, file);
  try {
    const diagnostics = await kate.waitForDiagnostics();
    printLine(`by the grammar: ${file}`);
    printDiagnostics(diagnostics);
    await kate.sendKeys(file, "ctrl+q");
    await waitFor("the end", () => kate.child.exitCode !== null);
    printLine(`shutdown ${sent("shutdown").length}, exit ${sent("exit").length}`);
  } finally {
    kate.end();
  }
}

async function main() {
  mkdirSync(`${folder}/run`, { mode: 0o700 });
  try {
    const displayName = await startDisplay();
    await checkProgram(displayName);
    cpSync(new URL("../../editors/kate", import.meta.url), `${folder}/home/.local/share/org.kde.syntax-highlighting/syntax`, { recursive: true });
    await checkGrammar(displayName, "lock.asm");
    await checkGrammar(displayName, "board.toml");
    printLine("end");
  } catch (error) {
    printLine(`the check failed: ${error.message}`);
  }
}

for (const signal of ["SIGHUP", "SIGINT", "SIGTERM"]) process.on(signal, () => process.exit(1));
process.on("exit", () => {
  for (const end of endFunctions) end();
});
await main();
process.exit(0);
