// Computes checksums like the POSIX command `cksum`, so that users can verify a file with this command.

const POLYNOMIAL = 0x04c11db7;

/** The CRC remainder of each byte value. */
const REMAINDERS = Uint32Array.from({ length: 256 }, (_, value) => {
  let remainder = value << 24;
  for (let bit = 0; bit < 8; bit++) remainder = remainder < 0 ? (remainder << 1) ^ POLYNOMIAL : remainder << 1;
  return remainder;
});

/**
 * Returns the CRC remainder after one more byte.
 * @param {number} remainder the CRC remainder before the byte
 * @param {number} byte
 */
function addByte(remainder, byte) {
  return (remainder << 8) ^ REMAINDERS[((remainder >>> 24) ^ byte) & 255];
}

/**
 * Returns the checksum of bytes as an unsigned 32-bit number. Like `cksum`, includes the number of bytes.
 * @param {Uint8Array} bytes
 */
export function checksum(bytes) {
  let remainder = 0;
  for (let index = 0; index < bytes.length; index++) remainder = addByte(remainder, bytes[index]);
  for (let length = bytes.length; length > 0; length = Math.floor(length / 256)) remainder = addByte(remainder, length & 255);
  return ~remainder >>> 0;
}
