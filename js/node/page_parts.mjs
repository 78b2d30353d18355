// Reads the parts of the page that the Node tools use: the proved WebAssembly module, and the data that page/build has embedded.
import { readFileSync } from "node:fs";
import { inflateRawSync } from "node:zlib";

const PAGE_URL = new URL("../../page/fethsaim.html", import.meta.url);

/**
 * Returns the text of a script element of the page. Throws an error if the page does not have the element.
 * @param {string} id
 */
function readPagePart(id) {
  const match = new RegExp(`<script type="[a-z/]+" id="${id}">([^<]*)<`).exec(readFileSync(PAGE_URL, "utf8"));
  if (!match) throw new Error("page/fethsaim.html is not the page of the bench");
  return match[1];
}

/** @type {(id: string) => Buffer} returns the decompressed bytes of a script element of the page */
const unpackPart = (id) => inflateRawSync(Buffer.from(readPagePart(id), "base64"));

/** Returns the bytes of the proved module. */
export const readPageModule = () => unpackPart("module");

/**
 * The page's data: the messages of refusals by their numbers, the sections of the manual, and the examples.
 * @typedef {{ refusals: Record<string, string>, manual: import("../core/help/manual.js").ManualSection[],
 *   examples: import("../core/engine/examples.js").Example[] }} PageData
 */

/** @type {() => PageData} */
export const readPageData = () => JSON.parse(unpackPart("data").toString());
