// Converts bytes to base64 and back.

/** The maximum number of bytes in one call of String.fromCharCode. */
const PIECE_BYTES = 8192;

/**
 * Encodes bytes as a base64 string.
 * @param {Uint8Array} bytes
 */
export function toBase64(bytes) {
  let letters = "";
  for (let index = 0; index < bytes.length; index += PIECE_BYTES) {
    // `Reflect.apply` is much faster than spread arguments.
    letters += Reflect.apply(String.fromCharCode, null, bytes.subarray(index, index + PIECE_BYTES));
  }
  return btoa(letters);
}

/**
 * Decodes a base64 string to bytes. Throws an error if the string is invalid.
 * @param {string} text
 */
export function fromBase64(text) {
  const letters = atob(text);
  const bytes = new Uint8Array(letters.length);
  // The loop is much faster than `Uint8Array.from` with a function.
  for (let index = 0; index < letters.length; index++) bytes[index] = letters.charCodeAt(index);
  return bytes;
}
