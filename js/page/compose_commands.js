// Creates the page's commands, and connects them to the page's components, the palette and the keyboard.

import { formatKey } from "../core/board/key_place.js";
import { COMMANDS, makeLabelledCommand } from "./commands/command_table.js";
import { fillEmptyPanels } from "./commands/empty_panels.js";
import { listenToKeys } from "./commands/keys.js";
import { PaletteView } from "./commands/palette_view.js";
import { listDestinations } from "./commands/palette_destinations.js";
import { isAvailable } from "./commands/availability.js";
import { WelcomeView } from "./session/welcome_view.js";
import { ToolbarView } from "./commands/toolbar_view.js";
import { runToLine } from "./compose_debug.js";
import { insertKeyScan } from "./compose_texts.js";
import { Preferences } from "./ui/preferences.js";
import { block, button, byId, field, isDialogOpen } from "./ui/dom.js";
import { Theme } from "./ui/theme.js";
import { Tooltips } from "./ui/tooltips.js";
import * as say from "../words/page_commands.js";

/**
 * @typedef {import("./commands/command_table.js").Command} Command
 * @typedef {import("./commands/command_table.js").CommandCalls} CommandCalls
 * @typedef {import("./commands/command_table.js").TextName} TextName
 * @typedef {import("./commands/palette_search.js").Entry} Entry
 * @typedef {import("../core/engine/examples.js").Example} Example
 * @typedef {import("./help/guide.js").Guide} Guide
 * @typedef {import("./bench_page.js").Page} Page
 */

/** The key of the stored preference that says whether the welcome cards have been shown. */
const WELCOME_SHOWN_KEY = "welcome";

/** @type {TextName[]} the names of the texts, in the order of the page's `textEditors` */
const EDITOR_NAMES = ["board", "program", "tests", "properties"];

/**
 * Brings a text or a panel to the front.
 * @param {Page} page
 * @param {string} name the name of the text or panel; with "", nothing changes
 */
function showTextOrPanel({ layout }, name) {
  if (name in say.TEXTS) layout.showText(name);
  else if (name) layout.showPanel(name);
}

/**
 * The components that are created before the page: the theme, the tooltips and the toolbar.
 * @typedef {{ theme: Theme, tooltips: Tooltips, toolbar: ToolbarView }} PageFrame
 * @returns {PageFrame}
 */
export function makePageFrame() {
  const theme = new Theme(new Preferences());
  const tooltips = new Tooltips();
  return { theme, tooltips, toolbar: new ToolbarView(tooltips, theme) };
}

/**
 * Returns the callbacks for commands about projects, files and notices.
 * @param {Page} page
 */
function makeProjectCalls({ exportView, notice, recovery, sessionsController, linkSharing }) {
  const { manager, view } = sessionsController;
  return {
    openFile: () => field("file").click(),
    saveProject: () => void manager.save(),
    saveSession: () => void manager.saveSession(),
    exportFiles: () => exportView.open(),
    openProjects: () => void view.open(),
    openExamples: () => void view.openExamples(),
    share: () => {
      linkSharing.share().catch((error) => recovery.reportFailure(error));
    },
    openNotices: () => notice.list.open(),
    hasNotices: () => notice.list.messages.length > 0,
    print: () => print(),
  };
}

/**
 * Returns the callbacks for commands that run, pause and step.
 * @param {Page} page
 */
function makeTimeCalls(page) {
  const { snapshotView, programEditor, runController, lineServer, travel } = page;
  return {
    isRunning: () => runController.clock.isRunning,
    continueOrPause: () => runController.continueOrPause(),
    step: () => void runController.stepOnce(),
    runToGoal: travel.runToGoal.bind(travel),
    goBack: travel.goBack.bind(travel),
    goForward: () => void travel.goForward(),
    canGoForward: () => !button("forward").disabled,
    runToCursor: () => runToLine(page, programEditor.editor.lineEditor.getCursor().line + 1),
    /** @param {string} line */
    sendLine: (line) => void lineServer.serveLines(line),
    toggleTestPin: () => void lineServer.serveLines(`test ${snapshotView.testSwitch.isOn ? 0 : 1}\n`),
    /** @param {string} id */
    setSpeed: (id) => {
      const speedSelect = byId("speed", HTMLSelectElement);
      speedSelect.value = id;
      speedSelect.dispatchEvent(new Event("change"));
    },
  };
}

/**
 * Returns the callbacks for commands about the project's texts.
 * @param {Page} page
 */
function makeTextCalls(page) {
  const { layout, programEditor } = page;
  const findFrontEditor = () => page.textEditors[EDITOR_NAMES.findIndex((name) => name === layout.tabs.shownName)];
  return {
    /** @param {TextName} name */
    sendText: (name) => {
      showTextOrPanel(page, name);
      page.textEditors[EDITOR_NAMES.indexOf(name)].calls.send();
    },
    /** @param {boolean} isSource */
    isTextInFront: (isSource) => findFrontEditor() !== undefined && (!isSource || findFrontEditor() === programEditor),
    /** @param {import("./commands/command_table.js").TextAction} textAction */
    performTextAction: (textAction) => findFrontEditor() && findFrontEditor().performAction(textAction),
    /** @param {import("./machine/breakpoint_form.js").BreakpointField} [fieldName] */
    toggleOrEditBreakpoint: (fieldName) => {
      showTextOrPanel(page, "program");
      if (fieldName) programEditor.editBreakpoint(fieldName);
      else programEditor.toggleBreakpoint();
    },
  };
}

/**
 * Returns the word at the caret of the focused editor, or "" if there is none.
 * @param {Page} page
 */
function wordAtCaret({ textEditors }) {
  const focusedEditor = textEditors.find(({ editor }) => editor.lineEditor.view.hasFocus);
  if (!focusedEditor) return "";
  const { line, ch } = focusedEditor.editor.lineEditor.getCursor();
  const text = focusedEditor.editor.lineEditor.getLine(line) || "";
  const wordStart = (/[A-Za-z]\w*$/.exec(text.slice(0, ch)) || [""])[0];
  return wordStart + (/^\w*/.exec(text.slice(ch)) || [""])[0];
}

/** The page's commands, the palette that lists them, and their keys. */
export class Commands {
  /**
   * @param {Page} page
   * @param {Guide} guide
   * @param {Example[]} examples
   * @param {PageFrame} pageFrame
   */
  constructor(page, guide, examples, { theme, toolbar }) {
    this.page = page;
    this.examples = examples;
    /** @type {{ id: string, name: string }[]} the saved projects, as they were last listed */
    this.projects = [];
    this.calls = this.makeCalls(guide, theme);
    this.welcome = this.makeWelcome(guide);
    this.palette = new PaletteView({
      commands: () => [...COMMANDS, ...this.makeDynamicCommands()].map((command) => this.makeEntry(command)),
      destinations: (query) => listDestinations(query, this.makeDestinationCalls()),
    });
    theme.onChange = () => page.scope.view.requestDrawing();
    listenToKeys((command) => this.execute(command), isDialogOpen);
    toolbar.executeCommand = (command) => this.execute(command);
    fillEmptyPanels(toolbar.executeCommand);
    page.runController.showRunning = (isRunning) => {
      toolbar.showRunning(isRunning);
      page.layout.status.showRunning(isRunning);
    };
  }

  /**
   * @param {Guide} guide
   * @param {Theme} theme
   * @returns {CommandCalls}
   */
  makeCalls(guide, theme) {
    const { page } = this;
    return {
      ...makeTimeCalls(page),
      ...makeTextCalls(page),
      ...makeProjectCalls(page),
      setTheme: (name) => theme.set(name),
      show: (name) => showTextOrPanel(page, name),
      clickButton: (id, containerName) => {
        showTextOrPanel(page, containerName);
        button(id).click();
      },
      isButtonAvailable: (id) => isAvailable(button(id)),
      focusField: (id, containerName) => {
        showTextOrPanel(page, containerName);
        const details = block(id).closest("details");
        if (details) details.open = true;
        block(id).focus();
      },
      toggleCheckBox: (id) => field(id).click(),
      togglePanel: (id) => page.layout.panels.toggle(id),
      toggleMaximisedPanel: (id) => page.layout.panels.toggleMaximised(id),
      insertKeyScan: () => insertKeyScan(page, page.snapshotView.board),
      hasKeys: () => page.snapshotView.board.matrix !== null,
      resetLayout: () => page.layout.panels.reset(),
      openWelcome: () => this.welcome.open(),
      toggleHelp: () => guide.help.toggle(wordAtCaret(page)),
      openHelp: (query) => guide.help.open(query),
      openPalette: (initialText) => this.open(initialText),
    };
  }

  /** @param {Guide} guide */
  makeWelcome(guide) {
    const { layout, sessionsController } = this.page;
    return new WelcomeView(this.examples, {
      startTour: () => void guide.tour.startTour(),
      openExample: (name) => sessionsController.openExampleByName(name),
      showWiring: () => showTextOrPanel(this.page, "wiring"),
      storeWelcomeShown: () => layout.preferences.set(WELCOME_SHOWN_KEY, "yes"),
    });
  }

  /** Shows the welcome cards on the first visit in this browser. */
  showFirstWelcome() {
    if (!this.page.layout.preferences.get(WELCOME_SHOWN_KEY)) this.welcome.open();
  }

  /** @returns {import("./commands/palette_destinations.js").DestinationCalls} */
  makeDestinationCalls() {
    const { page, calls, examples } = this;
    return {
      map: () => page.source.map,
      examples: () => examples.map(({ name }) => name),
      projects: () => this.projects,
      show: calls.show,
      showLine: (line) => {
        showTextOrPanel(page, "program");
        page.programEditor.editor.goTo({ line: line - 1, ch: 0 });
      },
      showAddress: (address) => page.snapshotView.goTo.show(address),
      openExample: (name) => void page.sessionsController.openExampleByName(name),
      openProject: (id) => void page.sessionsController.open(id),
    };
  }

  /**
   * Returns the commands that depend on the examples and on the board's keys.
   * @returns {Command[]}
   */
  makeDynamicCommands() {
    const { snapshotView, keyPresser, sessionsController } = this.page;
    return [
      ...this.examples.map((example) => makeLabelledCommand(`example.${example.name}`, say.openExample(example.name), "example",
        () => void sessionsController.openExample(example), "examples")),
      ...snapshotView.front.keys.map((key) => makeLabelledCommand(`key.${formatKey(key.key)}`,
        say.pressKey(key.legend || formatKey(key.key)), "key", () => {
        keyPresser.pressOrRelease(key, false);
        keyPresser.endPress(key.key);
      })),
    ];
  }

  /**
   * @param {Command} command
   * @returns {Entry}
   */
  makeEntry(command) {
    const { calls } = this;
    const { group, keys, icon, currentLabel } = command;
    const label = currentLabel ? currentLabel(calls) : command.label;
    const disabledReason = command.unavailableReason(calls);
    return { label, hint: say.GROUPS[group], disabledReason, keys, icon, act: () => command.act(calls) };
  }

  /**
   * Executes a command, or shows the reason why it cannot run now.
   * @param {Command} command
   */
  execute(command) {
    const reason = command.unavailableReason(this.calls);
    if (reason) this.page.runController.showMessage(say.notDoneMessage(command.label, reason));
    else command.act(this.calls);
  }

  /**
   * Opens the palette. The saved projects appear once the store has listed them.
   * @param {string} initialText the initial text of the palette's field
   */
  open(initialText) {
    const { recovery, sessionsController } = this.page;
    this.palette.open(initialText);
    sessionsController.manager.savedSessions().then((records) => {
      this.projects = records.map(({ id, name }) => ({ id, name }));
      this.palette.refresh();
    }, (error) => recovery.reportFailure(error));
  }
}
