// The base class for the connections of the language server and the debug adapter. The class splits the stream into messages, and reports
// stream errors to the client. Subclasses handle the messages.

import { MessageReader, StreamError, frameMessage } from "./framing.js";
import { messageNotRead } from "../../words/server.js";

export class MessageStream {
  /** @param {(bytes: Uint8Array) => void} write */
  constructor(write) {
    this.write = write;
    this.reader = new MessageReader();
  }

  /**
   * Reads bytes of the stream and handles the completed messages. If the stream is malformed, reports the error to the client and throws
   * StreamError.
   * @param {Uint8Array} bytes
   */
  receive(bytes) {
    try {
      for (const message of this.reader.readMessages(bytes)) {
        if ("text" in message) this.serveMessage(message.text);
        else this.reportStreamError(messageNotRead(message.skippedSize));
      }
    } catch (error) {
      if (error instanceof StreamError) this.reportStreamError(error.message);
      throw error;
    }
  }

  /**
   * Called at the end of the stream. If the last message is incomplete, reports this error to the client. Returns the error message, or ""
   * if there is none.
   * @returns {string}
   */
  reportIncomplete() {
    const { incompleteMessage } = this.reader;
    if (incompleteMessage !== "") this.reportStreamError(incompleteMessage);
    return incompleteMessage;
  }

  /**
   * Writes a message with its header.
   * @param {object} message
   */
  writeMessage(message) {
    this.write(frameMessage(message));
  }

  /**
   * Handles a message. Subclasses override this method.
   * @param {string} text
   */
  serveMessage(text) {
    throw new Error(text);
  }

  /**
   * Sends an error that does not belong to a request. Subclasses override this method.
   * @param {string} message
   */
  reportStreamError(message) {
    throw new Error(message);
  }
}
