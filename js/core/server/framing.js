// Reads and writes messages in a stream of bytes. A message is a header with the length of the body in bytes, followed by the JSON body.

import * as say from "../../words/server.js";

/** The maximum length of a message body in bytes. The reader skips a longer message. */
export const MAX_MESSAGE_BYTES = 16777216;
/** The maximum length, in bytes, of a message body that the reader skips. A longer message ends the stream with an error. */
export const MAX_SKIPPED_BYTES = 16 * MAX_MESSAGE_BYTES;
/** The maximum header length in bytes. */
const MAX_HEADER_BYTES = 4096;
/** Matches the header line with the body length. */
const CONTENT_LENGTH = /^content-length[ \t]*:[ \t]*(\d{1,12})[ \t]*$/i;

/**
 * The text of a received message; or the size, in bytes, of a message that was skipped because it was too long.
 * @typedef {{ text: string } | { skippedSize: number }} ReceivedMessage
 */

/** The error that is thrown for a malformed stream, in which the reader cannot find the next message. */
export class StreamError extends Error {}

/**
 * Returns the length of the body in bytes; throws StreamError if the header does not contain exactly one length.
 * @param {string} header
 */
function parseContentLength(header) {
  const sizes = header.split("\r\n").map((line) => CONTENT_LENGTH.exec(line)).filter((match) => match !== null);
  if (sizes.length !== 1) throw new StreamError(say.HEADER_SYNTAX);
  const size = Number(/** @type {RegExpExecArray} */ (sizes[0])[1]);
  if (size > MAX_SKIPPED_BYTES) throw new StreamError(say.sizeTooLarge(size, MAX_SKIPPED_BYTES));
  return size;
}

/** Splits a stream of bytes into messages. */
export class MessageReader {
  constructor() {
    this.decoder = new TextDecoder();
    this.header = "";
    /** The number of bytes of the body that are still missing; -1 while the reader reads a header. */
    this.missingBytes = -1;
    /** @type {Uint8Array | null} the buffer for the body; null while the reader skips a body or reads a header */
    this.body = null;
    this.size = 0;
  }

  /** An error message if the received bytes end within a message; "" if they end after a message. */
  get incompleteMessage() {
    if (this.missingBytes > 0) return say.messageIncomplete(this.size - this.missingBytes, this.size);
    return this.header === "" ? "" : say.HEADER_INCOMPLETE;
  }

  /**
   * Reads bytes and yields the completed messages. Throws StreamError at bytes that violate the protocol.
   * @param {Uint8Array} bytes
   * @returns {Generator<ReceivedMessage, void>}
   */
  * readMessages(bytes) {
    for (let index = 0; index < bytes.length;) {
      if (this.missingBytes < 0) index = this.readHeader(bytes, index);
      const count = Math.min(Math.max(this.missingBytes, 0), bytes.length - index);
      if (this.body && count > 0) this.body.set(bytes.subarray(index, index + count), this.size - this.missingBytes);
      index += count;
      if (this.missingBytes < 0) break;
      this.missingBytes -= count;
      if (this.missingBytes === 0) yield this.finishMessage();
    }
  }

  /**
   * Reads header bytes. Returns the index after the header, or after the last byte. Throws StreamError if the header is invalid or too
   * long.
   * @param {Uint8Array} bytes
   * @param {number} start the index of the first byte
   */
  readHeader(bytes, start) {
    for (let index = start; index < bytes.length; index++) {
      this.header += String.fromCharCode(bytes[index]);
      if (this.header.endsWith("\r\n\r\n")) {
        this.size = parseContentLength(this.header);
        this.missingBytes = this.size;
        this.body = this.size <= MAX_MESSAGE_BYTES ? new Uint8Array(this.size) : null;
        this.header = "";
        return index + 1;
      }
      if (this.header.length > MAX_HEADER_BYTES) throw new StreamError(say.headerTooLongMessage(MAX_HEADER_BYTES));
    }
    return bytes.length;
  }

  /**
   * Returns the message whose last byte was read, and prepares the reader for the next header.
   * @returns {ReceivedMessage}
   */
  finishMessage() {
    const { body, size } = this;
    this.missingBytes = -1;
    this.body = null;
    return body ? { text: this.decoder.decode(body) } : { skippedSize: size };
  }
}

/**
 * Returns a message as bytes, with its header.
 * @param {object} message
 */
export function frameMessage(message) {
  const encoder = new TextEncoder();
  const body = encoder.encode(JSON.stringify(message));
  const header = encoder.encode(`Content-Length: ${body.length}\r\n\r\n`);
  const bytes = new Uint8Array(header.length + body.length);
  bytes.set(header);
  bytes.set(body, header.length);
  return bytes;
}

/**
 * Returns a field of an object; undefined if the value is not an object.
 * @param {any} value
 * @param {string} name
 */
export function getField(value, name) {
  return typeof value === "object" && value !== null && !Array.isArray(value) ? value[name] : undefined;
}
