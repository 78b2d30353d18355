// Links that contain a session's texts. The page sends nothing to a server: the user copies a link, and the recipient opens the link.

import { formatUrlFragment } from "./address.js";
import { readBoard, parseRefusal } from "../../core/bench/answers.js";
import { sessionTitle, describeBoard } from "../../core/session/session_summary.js";
import { element } from "../ui/dom.js";
import { shortenName } from "../../core/session/names.js";
import { tooLongMessage } from "../../core/session/project_file.js";
import { MAX_LINK_LENGTH, MAX_SAFE_LINK_LENGTH, toLink, readLink } from "./share_link.js";
import { formatLineCount } from "./texts_controller.js";
import * as say from "../../words/session.js";

/**
 * @typedef {import("../ui/confirm_dialog.js").ConfirmDialog} ConfirmDialog
 * @typedef {import("../../core/engine/file_requests.js").FileRequests} FileRequests
 * @typedef {import("../../core/bench/bench_client.js").Caller<FileRequests>} Bench
 * @typedef {import("../ui/notice.js").Notice} Notice
 * @typedef {import("./share_link.js").Texts} Texts
 * @typedef {import("../../core/bench/error_messages.js").ErrorMessages} ErrorMessages
 */

/**
 * The callbacks of LinkSharing.
 * @typedef {object} LinkSharingCalls
 * @property {() => Texts | null} currentTexts Returns the name and the texts of the current session, or null if there is none.
 * @property {() => void} showSessionUrl Puts the URL of the current session into the address bar.
 * @property {(texts: Texts, file: Uint8Array, runs: boolean) => Promise<boolean>} openTexts Opens a new session from texts and a file. If
 *   `runs` is true, time starts when the session is opened. Resolves to true if the session was created.
 * @property {() => void} save Saves the project as a file. Called if the link would be too long.
 */

/**
 * Returns a sentence that lists the contents of a link.
 * @param {Texts} texts
 */
function describeContents({ testText, propertiesText }) {
  const optionalParts = [...(testText ? [say.THE_TESTS] : []), ...(propertiesText ? [say.THE_PROPERTIES] : [])];
  const containedParts = [...say.ALWAYS_SHARED_PARTS, ...optionalParts];
  return say.linkContains(containedParts.slice(0, -1).join(", "), containedParts[containedParts.length - 1]);
}

export class LinkSharing {
  /**
   * @param {Bench} bench
   * @param {ConfirmDialog} confirmDialog
   * @param {Notice} notice
   * @param {ErrorMessages} errorMessages
   * @param {LinkSharingCalls} calls
   */
  constructor(bench, confirmDialog, notice, errorMessages, calls) {
    this.bench = bench;
    this.confirmDialog = confirmDialog;
    this.notice = notice;
    this.errorMessages = errorMessages;
    this.calls = calls;
  }

  /**
   * Copies a link to the current session. If the browser cannot copy the link, shows it. If the link is too long, offers a file instead.
   */
  async share() {
    const texts = this.calls.currentTexts();
    if (!texts) return;
    const lengthError = tooLongMessage(texts);
    if (lengthError) {
      this.notice.show(say.noLinkMessage(lengthError), "refusal");
      return;
    }
    const url = location.href.replace(/#.*$/, "") + formatUrlFragment("link", await toLink(texts));
    const lengthText = say.characterCountText(url.length.toLocaleString("en"));
    if (url.length > MAX_LINK_LENGTH) {
      await this.offerFile(lengthText);
      return;
    }
    const messages = [`${describeContents(texts)}${location.protocol === "file:" ? say.LINK_FROM_FILE : ""}`];
    if (url.length > MAX_SAFE_LINK_LENGTH) messages.push(say.LONG_LINK_WARNING);
    try {
      await navigator.clipboard.writeText(url);
      this.notice.show(say.linkCopied(lengthText, messages.join(" ")), "share");
    } catch {
      await this.showLink(url, messages);
    }
  }

  /**
   * Offers to save the project as a file, because the link is too long.
   * @param {string} lengthText the length of the link, formatted for the user
   */
  async offerFile(lengthText) {
    const isAccepted = await this.confirmDialog.ask({
      title: say.TOO_LONG_FOR_LINK,
      paragraphs: [say.linkTooLongMessage(lengthText, MAX_LINK_LENGTH.toLocaleString("en"))],
      acceptLabel: say.SAVE_PROJECT,
      declineLabel: say.LEAVE_IT,
    });
    if (isAccepted) this.calls.save();
  }

  /**
   * Shows the link for the user to copy. Called if the browser cannot copy the link.
   * @param {string} url
   * @param {string[]} messages
   */
  async showLink(url, messages) {
    const textArea = element("textarea", { id: "link", rows: 4, readOnly: true, value: url, autofocus: true });
    textArea.setAttribute("aria-label", say.THE_LINK);
    const answer = this.confirmDialog.ask({
      title: say.COPY_LINK,
      paragraphs: [say.COPY_MANUALLY, textArea, ...messages],
      acceptLabel: "",
      declineLabel: say.CLOSE,
    });
    textArea.focus();
    textArea.select();
    await answer;
  }

  /**
   * Shows the contents of a link. Opens them as a new session if the user agrees.
   * @param {string} link
   */
  async open(link) {
    try {
      const texts = await readLink(link);
      const result = await this.bench.call("dryRun", [texts]);
      const isWanted = await this.confirmDialog.ask({
        title: say.openFromLinkQuestion(texts.name),
        paragraphs: this.describeLink(texts, result),
        acceptLabel: say.OPEN_AS_NEW,
        declineLabel: say.LEAVE_IT,
      });
      if (isWanted) await this.calls.openTexts(texts, result.file, result.rejectedTexts.length === 0 && texts.programText !== "");
    } catch (error) {
      this.notice.show(say.linkNotOpened(this.errorMessages.errorMessage(error)), "session");
    } finally {
      this.calls.showSessionUrl();
    }
  }

  /**
   * @param {Texts} texts
   * @param {import("../../core/engine/dry_run.js").DryRunResult} result
   */
  describeLink({ boardText, programText, testText = "", propertiesText = "" }, { board, rejectedTexts }) {
    const title = shortenName(sessionTitle(boardText, programText));
    const lines = rejectedTexts.map(({ word, answer }) => {
      const refusal = parseRefusal(answer);
      const reason = refusal ? `${answer}: ${this.errorMessages.refusalMeaning(refusal.number)}` : answer;
      return say.textRejectedMessage(word === "wire", reason);
    });
    return [
      ...(title ? [title] : []),
      say.sizesOfTexts(formatLineCount(boardText), formatLineCount(programText), testText && formatLineCount(testText),
        propertiesText && formatLineCount(propertiesText)),
      say.onTheBoard(describeBoard(readBoard(board))),
      ...lines,
      say.BECOMES_SESSION,
    ];
  }
}
