// The sessions dialog: the saved sessions, the examples, the deleted sessions, the button that opens a file, and the session's name field.

import { drawBoardPicture } from "./gallery_view.js";
import { block, button, byId, element, field, onClick } from "../ui/dom.js";
import { folderFromFiles, getDroppedFolders, readFolder } from "./folder_files.js";
import { SessionList } from "./session_list.js";
import { EXAMPLE_ORDER, FIRST_TRIES, exampleWords } from "../../words/example_notes.js";
import * as say from "../../words/session.js";

/**
 * @typedef {import("../../core/engine/examples.js").Example} Example
 * @typedef {import("../ui/notice.js").Notice} Notice
 * @typedef {import("./store.js").SessionRecord} SessionRecord
 */

/**
 * The callbacks of the sessions dialog. The callbacks that open a session or a file resolve to false after a failure.
 * @typedef {object} SessionsCalls
 * @property {() => Promise<SessionRecord[]>} savedSessions Resolves to the saved sessions.
 * @property {(id: string) => boolean} isCurrent Returns true if the session with this id is the current session.
 * @property {(id: string) => Promise<boolean>} open Opens the session with this id.
 * @property {(id: string) => Promise<boolean>} copy Copies the session with this id, and opens the copy.
 * @property {(records: SessionRecord[]) => Promise<void>} remove Deletes sessions. Deleted sessions can be restored.
 * @property {() => SessionRecord[]} deletedSessions Returns the sessions that can be restored.
 * @property {(records: SessionRecord[]) => Promise<void>} restoreSessions Restores deleted sessions.
 * @property {(example: Example) => Promise<boolean>} openExample Opens a new session from an example.
 * @property {(example: Example) => Promise<boolean>} openStory Opens a new session from an example, and shows the example's story.
 * @property {(file: File) => Promise<boolean>} openFile Opens a file: a project, a session or a text.
 * @property {(read: () => Promise<import("./folder_files.js").Folder>) => Promise<boolean>} openFolder Opens the project in the folder that
 *   `read` reads.
 * @property {(name: string) => void} rename Renames the current session.
 * @property {() => string} describeStorage Returns a description of where the browser stores sessions.
 */

/**
 * Returns the examples in page order: first the empty example, with which the user can build a board, then the others in the order of
 * EXAMPLE_ORDER.
 * @param {Example[]} examples
 */
function orderExamples(examples) {
  /** @type {(example: Example) => boolean} */
  const isEmpty = ({ board, program, lines, project }) => [board, program, lines, project].every((text) => text === "");
  /** @type {(example: Example) => number} */
  const orderIndex = (example) => (isEmpty(example) ? -1 : EXAMPLE_ORDER.indexOf(example.name));
  return [...examples].sort((first, second) => orderIndex(first) - orderIndex(second));
}

export class SessionsView {
  /**
   * @param {Example[]} examples
   * @param {Notice} notice the notices, which move into the dialog while the dialog is open
   * @param {SessionsCalls} calls
   */
  constructor(examples, notice, calls) {
    this.examples = orderExamples(examples);
    this.calls = calls;
    this.notice = notice;
    this.dialog = byId("sessions", HTMLDialogElement);
    /** True if the user last pressed a button of the dialog with the pointer, not with a key. */
    this.usedPointer = false;
    this.sessionList = new SessionList({
      ...calls,
      runAndClose: (action) => this.runAndClose(action),
      remove: (records) => this.performAndRedraw(() => calls.remove(records)),
      restoreSessions: (records) => this.performAndRedraw(() => calls.restoreSessions(records)),
      makeButton: (text, label, action) => this.makeButton(text, label, action),
    });
    onClick(button("first-example"), () => this.openExamples());
    onClick(button("close-sessions"), () => this.close());
    field("file").addEventListener("change", () => this.openChosenFiles(field("file")));
    field("name").addEventListener("change", () => this.calls.rename(field("name").value));
    this.dialog.addEventListener("close", () => this.handleClose());
    this.listenToDrops();
  }

  get isOpen() {
    return this.dialog.open;
  }

  async open() {
    await this.draw();
    if (this.dialog.open) return;
    this.dialog.showModal();
    this.notice.moveTo(this.dialog);
  }

  /** Opens the dialog and scrolls to the examples. */
  async openExamples() {
    await this.open();
    block("examples").scrollIntoView();
  }

  close() {
    if (this.dialog.open) this.dialog.close();
  }

  handleClose() {
    this.notice.moveTo(document.body);
    // The browser returns the focus to the button that opened the dialog. If the user has clicked in the dialog, remove the focus from that
    // button, so that the board receives key presses again.
    if (this.usedPointer && document.activeElement instanceof HTMLElement) document.activeElement.blur();
  }

  async draw() {
    this.drawExamples();
    block("kept-where").textContent = this.calls.describeStorage();
    this.sessionList.draw(await this.calls.savedSessions());
  }

  /** Draws the examples when the dialog first opens. Drawing their pictures earlier would delay the start of the page. */
  drawExamples() {
    const list = block("examples");
    if (list.childElementCount === 0) list.append(...this.examples.map((example) => this.makeExampleEntry(example)));
  }

  /**
   * Changes the saved sessions and draws their list again.
   * @param {() => Promise<void>} action
   */
  async performAndRedraw(action) {
    await action();
    await this.draw();
  }

  /** @param {Example} example */
  makeExampleEntry(example) {
    const open = () => this.runAndClose(() => this.calls.openExample(example));
    const openButton = this.makeButton(example.name, say.newSession(example.name), open);
    openButton.prepend(drawBoardPicture(example.board));
    const [, toDo = ""] = Object.entries(FIRST_TRIES).find(([name]) => name === example.name) || [];
    const title = element("span", { className: "grow" }, toDo ? exampleWords(example.title, toDo) : example.title);
    if (!example.story) return element("li", {}, openButton, title);
    const description = say.newStory(example.name);
    const storyButton = this.makeButton(say.WITH_STORY, description, () => this.runAndClose(() => this.calls.openStory(example)));
    return element("li", {}, openButton, title, storyButton);
  }

  /**
   * @param {string} text
   * @param {string} label
   * @param {() => void} action
   */
  makeButton(text, label, action) {
    const node = element("button", { type: "button" }, text);
    node.setAttribute("aria-label", label);
    node.addEventListener("click", (event) => {
      this.usedPointer = event.detail > 0;
      action();
    });
    return node;
  }

  /**
   * Executes an action. Closes the dialog if the action succeeds, otherwise draws the dialog again.
   * @param {() => Promise<boolean>} action resolves to false after a failure
   */
  async runAndClose(action) {
    if (await action()) this.close();
    else await this.draw();
  }

  /** @param {HTMLInputElement} input */
  async openChosenFiles(input) {
    await this.openAll(input.files ? [...input.files] : []);
    // Clear the field, so that the user can choose the same file again.
    input.value = "";
  }

  /**
   * Opens several files together as a project folder if one of them is a project file. Otherwise opens each file separately, in order.
   * @param {File[]} files
   */
  async openAll(files) {
    const folder = folderFromFiles(files);
    if (folder) return this.openFolder(async () => folder);
    for (const file of files) {
      if (await this.calls.openFile(file)) this.close();
    }
  }

  /** @param {() => Promise<import("./folder_files.js").Folder>} read reads the folder's files */
  async openFolder(read) {
    if (await this.calls.openFolder(read)) this.close();
  }

  /** Opens files and folders that are dropped anywhere on the page. The editors handle dropped text themselves. */
  listenToDrops() {
    /** @type {(event: DragEvent) => boolean} */
    const hasFiles = (event) => event.dataTransfer !== null && event.dataTransfer.types.includes("Files");
    addEventListener("dragover", (event) => hasFiles(event) && event.preventDefault());
    addEventListener("drop", (event) => {
      if (!hasFiles(event)) return;
      event.preventDefault();
      const folders = getDroppedFolders(event.dataTransfer);
      if (folders.length > 0) this.openFolder(() => readFolder(folders[0]));
      else this.openAll(event.dataTransfer ? [...event.dataTransfer.files] : []);
    });
  }
}
