// The dialog that exports the board's text, the source or the contents of ROM as a file.

import { element, onClick } from "../ui/dom.js";
import { download } from "./download.js";
import * as say from "../../words/session.js";

/**
 * A file to export: its extension, its description, and `make`, which returns its contents.
 * @typedef {{ extension: string, description: string, make: () => string | Uint8Array | Promise<string | Uint8Array> }} ExportedFile
 */

/**
 * The callbacks of the export dialog.
 * @typedef {object} ExportCalls
 * @property {() => string} name Returns the session's name, which is used for file names.
 * @property {() => string} board Returns the board's text.
 * @property {() => string} program Returns the source.
 * @property {() => Promise<string>} hex Resolves to the bytes of all ROM chips in Intel HEX format.
 * @property {() => Promise<Uint8Array>} image Resolves to the concatenated bytes of all ROM chips.
 * @property {(error: unknown) => void} reportFailure Reports an error that a call threw.
 */

export class ExportView {
  /** @param {ExportCalls} calls */
  constructor(calls) {
    this.calls = calls;
    this.status = element("p", { className: "status-text", role: "status" });
    const closeButton = element("button", { type: "button" }, say.CLOSE);
    this.dialog = element("dialog", { "id": "export", "aria-labelledby": "export-title" },
      element("div", { className: "bar" }, element("h2", { id: "export-title" }, say.EXPORT), closeButton),
      element("ul", { "aria-label": say.FILES }, ...this.listFiles().map((file) => this.makeRow(file))), this.status);
    document.body.append(this.dialog);
    onClick(closeButton, () => this.dialog.close());
  }

  /** @returns {ExportedFile[]} */
  listFiles() {
    const { calls } = this;
    return [
      { extension: ".asm", description: say.SOURCE_FILE, make: calls.program },
      { extension: ".toml", description: say.BOARD_FILE, make: calls.board },
      { extension: ".hex", description: say.HEX_FILE, make: calls.hex },
      { extension: ".bin", description: say.BIN_FILE, make: calls.image },
    ];
  }

  /** @param {ExportedFile} file */
  makeRow(file) {
    const saveButton = element("button", { type: "button" }, say.saveAs(file.extension));
    onClick(saveButton, () => this.save(file).catch(this.calls.reportFailure));
    return element("li", {}, saveButton, element("span", { className: "grow" }, file.description));
  }

  open() {
    this.status.textContent = "";
    this.dialog.showModal();
  }

  /** @param {ExportedFile} file */
  async save({ extension, description, make }) {
    const contents = await make();
    if (contents.length === 0) {
      this.status.textContent = say.nothingSavedMessage(description);
      return;
    }
    download(this.calls.name(), extension, new Blob([contents], { type: "application/octet-stream" }));
    this.dialog.close();
  }
}
