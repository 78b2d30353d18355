// The part of pako that the page uses; pako has no types of its own.

/** Returns the bytes that raw DEFLATE has packed; throws an error if they are damaged. */
export function inflateRaw(packed: Uint8Array): Uint8Array;
