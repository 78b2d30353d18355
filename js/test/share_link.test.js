import assert from "node:assert/strict";
import { readFileSync } from "node:fs";
import { test } from "node:test";
import { deflateRawSync } from "node:zlib";
import { MAX_LINK_LENGTH, LinkError, MAX_SAFE_LINK_LENGTH, toLink, readLink } from "../page/session/share_link.js";
import { MAX_STORED_LENGTH } from "../core/text/sendable_text.js";

const readExample = (name) => readFileSync(new URL(`../../examples/${name}`, import.meta.url), "utf8");
const calculator = {
  name: "calculator", boardText: readExample("calculator/board.toml"), programText: readExample("calculator/calculator.asm"), testText: "",
  propertiesText: "",
};

/** Runs an action as in a browser that lacks the given stream classes. Resolves to its result. */
async function withoutGlobals(names, action) {
  const originalValues = names.map((name) => globalThis[name]);
  names.forEach((name) => { globalThis[name] = undefined; });
  try {
    return await action();
  } finally {
    names.forEach((name, index) => { globalThis[name] = originalValues[index]; });
  }
}

test("the texts in a link are read back unchanged", async () => {
  const shortTexts = { name: "a lock", boardText: "", programText: "; f\u00fcr\n.\nNOP", testText: "", propertiesText: "" };
  for (const texts of [calculator, shortTexts, { name: "x", boardText: "\n", programText: "wire\n.\n", testText: "test one\n.\n run 1",
    propertiesText: "never lamp 0 on\n.." }]) {
    const link = await toLink(texts);
    assert.match(link, /^1\.[\w-]+$/);
    assert.deepEqual(await readLink(link), texts);
  }
});

test("the largest example fits into a link", async () => {
  const { length } = await toLink(calculator);
  assert.ok(length < 10000 && length > 1000, String(length));
  assert.ok(MAX_SAFE_LINK_LENGTH < MAX_LINK_LENGTH);
});

test("a browser that cannot compress makes a longer link, which every browser can read", async () => {
  const link = await withoutGlobals(["CompressionStream"], () => toLink(calculator));
  assert.match(link, /^0\./);
  assert.deepEqual(await withoutGlobals(["DecompressionStream"], () => readLink(link)), calculator);
  const compressedLink = await toLink(calculator);
  await assert.rejects(withoutGlobals(["DecompressionStream"], () => readLink(compressedLink)), /no DecompressionStream.*project file/);
});

test("truncated links, and links with a changed letter, are rejected", async () => {
  const texts = { name: "die", boardText: "# a board\n", programText: "\tNOP\n\tJUN 0\n" };
  for (const link of [await toLink(texts), await withoutGlobals(["CompressionStream"], () => toLink(texts))]) {
    for (let length = 0; length < link.length; length++) await assert.rejects(readLink(link.slice(0, length)), LinkError, `${length}`);
    for (let index = 2; index < link.length - 1; index++) {
      const letter = link[index] === "A" ? "B" : "A";
      await assert.rejects(readLink(link.slice(0, index) + letter + link.slice(index + 1)), LinkError, `${index}`);
    }
  }
});

test("invalid links are rejected", async () => {
  for (const link of ["", "hello", "1.", "0.", "1.%%%", "0.QQ", "1.QUJD", `0.${btoa("0\nname x\n").replace(/=/g, "")}`]) {
    await assert.rejects(readLink(link), { message: "it is cut off or was changed" }, link);
  }
  await assert.rejects(readLink("2.QQ"), /newer page/);
});

test("texts that are too long for the editors are rejected", async () => {
  const textsOfSize = (size) => ({ name: "x", boardText: "", programText: `${";".repeat(size - 1)}\n`, testText: "", propertiesText: "" });
  assert.deepEqual(await readLink(await toLink(textsOfSize(MAX_STORED_LENGTH))), textsOfSize(MAX_STORED_LENGTH));
  const message = /^the source has 65,537 characters; at most 65,536 are accepted$/;
  await assert.rejects(readLink(await toLink(textsOfSize(MAX_STORED_LENGTH + 1))),
    (error) => error instanceof LinkError && message.test(error.message));
  const { programText: boardText } = textsOfSize(900000);
  await assert.rejects(readLink(await toLink({ name: "x", boardText, programText: "" })), {
    message: "the board's text has 900,000 characters; at most 65,536 are accepted",
  });
});

test("the name in a link is shortened, and loses misleading characters", async () => {
  const nameOf = async (name) => (await readLink(await toLink({ name, boardText: "", programText: "" }))).name;
  assert.equal(await nameOf("a".repeat(5000)), `${"a".repeat(59)}\u2026`);
  assert.equal(await nameOf("a".repeat(60)), "a".repeat(60));
  assert.equal(await nameOf("\u202egolf\u2066 \u0007\u200b\u2028 x"), "golf x");
});

test("a link with too much compressed data is rejected", async () => {
  const bytes = deflateRawSync(new Uint8Array(1 << 24));
  await assert.rejects(readLink(`1.${bytes.toString("base64url")}`), /longer than the page accepts/);
});
