// Offers a file to the user as a download.

import { element } from "../ui/dom.js";

/** The time in milliseconds after which the URL of a download is revoked. */
const URL_LIFETIME_MS = 10000;

/**
 * @param {string} name
 * @param {string} extension the file extension
 * @param {Blob} blob
 */
export function download(name, extension, blob) {
  const link = element("a", { href: URL.createObjectURL(blob) });
  link.download = `${name.replace(/[^\w .,()-]/g, "_").trim() || "session"}${extension}`;
  link.click();
  setTimeout(() => URL.revokeObjectURL(link.href), URL_LIFETIME_MS);
}
