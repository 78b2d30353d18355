// Stores the semantic tokens that the server last sent for each text, so that an editor can request only the changes.

import { computeTokenEdits, encodeTokens } from "./token_codes.js";

/**
 * @typedef {import("./open_text.js").OpenText} OpenText
 * @typedef {import("./lsp_protocol.js").Range} Range
 * @typedef {import("./token_codes.js").ColouredWord} ColouredWord
 */

/** The maximum number of texts with stored tokens. */
const MAX_TEXTS = 32;

export class TokenMemory {
  constructor() {
    /** @type {Map<string, { resultId: string, data: number[] }>} the last responses, by text URI */
    this.sentTokens = new Map();
    /** The number of responses so far. */
    this.responseCount = 0;
  }

  /**
   * Stores the tokens of a response. Returns the id of the response.
   * @param {string} uri
   * @param {number[]} data
   */
  store(uri, data) {
    this.responseCount += 1;
    const resultId = String(this.responseCount);
    this.sentTokens.delete(uri);
    this.sentTokens.set(uri, { resultId, data });
    if (this.sentTokens.size > MAX_TEXTS) this.sentTokens.delete([...this.sentTokens.keys()][0]);
    return resultId;
  }

  /**
   * Encodes and stores all tokens of a text. Returns the response.
   * @param {OpenText} openText
   * @param {ColouredWord[]} words
   */
  encodeAllTokens({ uri }, words) {
    const encodedTokens = encodeTokens(words);
    return { resultId: this.store(uri, encodedTokens), data: encodedTokens };
  }

  /**
   * Encodes and stores all tokens of a text. Returns the response with the changes since the last response. If `previousId` is not the id
   * of the last response for the text, the response has all tokens.
   * @param {OpenText} openText
   * @param {ColouredWord[]} words
   * @param {unknown} previousId the id of the response that the client has
   */
  encodeChangedTokens(openText, words, previousId) {
    const lastResponse = this.sentTokens.get(openText.uri);
    if (!lastResponse || lastResponse.resultId !== previousId) return this.encodeAllTokens(openText, words);
    const encodedTokens = encodeTokens(words);
    return { resultId: this.store(openText.uri, encodedTokens), edits: computeTokenEdits(lastResponse.data, encodedTokens) };
  }

  /**
   * Returns the response with the tokens of the lines in a range. Does not store them.
   * @param {ColouredWord[]} words
   * @param {Range} range
   */
  encodeTokensInRange(words, { start, end }) {
    return { data: encodeTokens(words.filter(({ line }) => start.line <= line && line <= end.line)) };
  }
}
