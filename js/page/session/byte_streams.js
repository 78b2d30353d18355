// Compresses and decompresses bytes with the browser's own streams, which older browsers do not have.

/** @typedef {{ readable: ReadableStream<Uint8Array>, writable: WritableStream<BufferSource> }} ByteTransform a transform stream */

/**
 * Returns a deflate-raw compression or decompression stream, or null if this browser does not support it.
 * @param {"CompressionStream" | "DecompressionStream"} name
 * @returns {ByteTransform | null}
 */
export function makeStream(name) {
  const Stream = (/** @type {any} */ (globalThis))[name];
  try {
    return typeof Stream === "function" ? new Stream("deflate-raw") : null;
  } catch {
    // The browser has this stream, but not for deflate-raw.
    return null;
  }
}

/**
 * Resolves to the output of a stream for an input. Rejects with `lengthError` if the output is longer than `limit` bytes.
 * @param {Uint8Array} bytes
 * @param {ByteTransform} stream
 * @param {number} [limit]
 * @param {Error} [lengthError]
 */
export async function readOutput(bytes, { readable, writable }, limit = Infinity, lengthError = undefined) {
  const writer = writable.getWriter();
  // Errors in the input are reported through the reader.
  writer.write(bytes).catch(() => {});
  writer.close().catch(() => {});
  const reader = readable.getReader();
  /** @type {Uint8Array[]} */
  const chunks = [];
  let byteCount = 0;
  for (let result = await reader.read(); !result.done; result = await reader.read()) {
    chunks.push(result.value);
    byteCount += result.value.length;
    if (byteCount > limit) {
      reader.cancel().catch(() => {});
      throw lengthError;
    }
  }
  const output = new Uint8Array(byteCount);
  chunks.reduce((offset, chunk) => {
    output.set(chunk, offset);
    return offset + chunk.length;
  }, 0);
  return output;
}
