// A link is a URL of the page. The part after `#link=`, which browsers do not send to servers, contains a session's name and texts. It
// begins with the compression method: 1 for deflate, 0 for none. After a dot, the data follow in base64url. The decompressed data are a
// checksum, and the lines with the name and the texts in the format of a project file.

import { fromBase64, toBase64 } from "../../core/session/base64.js";
import { makeStream, readOutput } from "./byte_streams.js";
import { checksum } from "../../core/session/checksum.js";
import { ProjectLineReader, TextTooLong, projectLines, readTexts } from "../../core/session/project_file.js";
import * as say from "../../words/session.js";

/** @typedef {import("../../core/session/project_file.js").Texts} Texts */

/**
 * The maximum length of a link. Users copy and paste links in the address bar, which Chromium leaves empty if a URL has more than 32,768
 * characters. Any program that fits into ROM fits into a link, unless its text compresses very badly.
 */
export const MAX_LINK_LENGTH = 32000;
/** The length of a URL that all software should accept (RFC 9110, 4.1). Some software truncates longer URLs. */
export const MAX_SAFE_LINK_LENGTH = 8000;
/** The maximum number of bytes after decompression. */
const MAX_BYTES = 1 << 20;

/** The error that is thrown if a link cannot be opened. Its message is meant for the user. */
export class LinkError extends Error {}

/** @param {Uint8Array} bytes */
function encodeBase64(bytes) {
  return toBase64(bytes).replace(/\+/g, "-").replace(/\//g, "_").replace(/=+$/, "");
}

/**
 * Returns the bytes in the base64 letters of a link. Throws a LinkError if the letters are damaged.
 * @param {string} letters
 */
function decodeBase64(letters) {
  if (!/^[\w-]*$/.test(letters)) throw new LinkError(say.DAMAGED);
  try {
    return fromBase64(letters.replace(/-/g, "+").replace(/_/g, "/"));
  } catch {
    throw new LinkError(say.DAMAGED);
  }
}

/**
 * Resolves to the part of a session's link after `#link=`.
 * @param {Texts} texts
 */
export async function toLink({ name, boardText, programText, testText, propertiesText }) {
  const encoder = new TextEncoder();
  const body = `${projectLines({ name, boardText, programText, testText, propertiesText }).join("\n")}\n`;
  const bytes = encoder.encode(`${checksum(encoder.encode(body))}\n${body}`);
  const stream = makeStream("CompressionStream");
  return stream ? `1.${encodeBase64(await readOutput(bytes, stream))}` : `0.${encodeBase64(bytes)}`;
}

/**
 * Resolves to the decompressed bytes of a link. Rejects with a LinkError if the bytes are damaged or too many, or if the browser cannot
 * decompress.
 * @param {Uint8Array} bytes
 */
async function decompress(bytes) {
  const stream = makeStream("DecompressionStream");
  if (!stream) {
    throw new LinkError(say.CANNOT_DECOMPRESS);
  }
  try {
    return await readOutput(bytes, stream, MAX_BYTES, new LinkError(say.TEXTS_TOO_LONG));
  } catch (error) {
    throw error instanceof LinkError ? error : new LinkError(say.DAMAGED);
  }
}

/**
 * Resolves to the name and the texts in a link. Rejects with a LinkError if the link cannot be opened.
 * @param {string} link
 * @returns {Promise<Texts>}
 */
export async function readLink(link) {
  const [, method, letters] = /^(\d+)\.(.*)$/.exec(link) || [];
  if (method === undefined) throw new LinkError(say.DAMAGED);
  if (method !== "0" && method !== "1") throw new LinkError(say.NEWER_PAGE);
  const linkBytes = decodeBase64(letters);
  const text = new TextDecoder().decode(method === "1" ? await decompress(linkBytes) : linkBytes);
  const [checksumText] = text.split("\n", 1);
  const body = text.slice(checksumText.length + 1);
  if (checksumText !== String(checksum(new TextEncoder().encode(body)))) throw new LinkError(say.DAMAGED);
  try {
    return readTexts(new ProjectLineReader(body));
  } catch (error) {
    throw new LinkError(error instanceof TextTooLong ? error.message : say.DAMAGED);
  }
}
