// A language server that runs in the test's own process, and a client that sends requests to it.
import { Connection } from "../core/server/connection.js";
import { MessageReader, frameMessage } from "../core/server/framing.js";
import { LanguageServer } from "../core/server/language_server.js";
import { Engine } from "../core/engine/engine.js";
import { readPageData } from "../node/page_parts.mjs";
import { pageModule } from "./page_session.js";

const engine = new Engine(new globalThis.WebAssembly.Module(pageModule));
export const bytesOf = (text) => new TextEncoder().encode(text);

/**
 * Returns a server and its client. `files` contains the text of each file that the server can read, by URI. The server calls `pause`
 * between pieces of work.
 */
export function startServer(files = {}, pause = async () => {}) {
  const reader = new MessageReader();
  const messages = [];
  let exitCode = null;
  const connection = new Connection((bytes) => {
    // Output after the server's end is ignored.
    if (exitCode === null) messages.push(...[...reader.readMessages(bytes)].map(({ text }) => JSON.parse(text)));
  }, (exitStatus) => {
    exitCode = exitStatus;
  });
  const host = { readFile: (uri) => files[uri] || null, pause };
  const server = new LanguageServer(connection, engine, readPageData(), host);
  const getResponse = async (method, params, id = messages.length + 1) => {
    connection.receive(frameMessage({ jsonrpc: "2.0", id, method, params }));
    for (let turn = 0; turn < 200 && !messages.some((message) => message.id === id); turn++) await new Promise(setImmediate);
    return messages.find((message) => message.id === id);
  };
  const request = async (method, params) => (await getResponse(method, params)).result;
  const openText = async (uri, text, languageId = "asm") => {
    const textDocument = { uri, languageId, version: 1, text };
    connection.receive(frameMessage({ jsonrpc: "2.0", method: "textDocument/didOpen", params: { textDocument } }));
    const start = { line: 0, character: 0 };
    await request("textDocument/codeAction", { textDocument: { uri }, range: { start, end: start } });
    return messages.filter((message) => message.method === "textDocument/publishDiagnostics"
      && message.params.uri === uri).pop().params.diagnostics;
  };
  const positionIn = (uri, line, character) => ({ textDocument: { uri }, position: { line, character } });
  const initialize = (params = {}) => request("initialize", params);
  return { server, connection, messages, getResponse, request, openText, positionIn, initialize, getExitStatus: () => exitCode };
}
