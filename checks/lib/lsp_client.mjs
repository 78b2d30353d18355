// A client for the Language Server Protocol, which can also send requests that no editor sends. It starts `mcs4 lsp`, sends requests, and waits for
// notifications.
import { MessageClient } from "./message_client.mjs";

export class Client extends MessageClient {
  /** @param {string} command the command that starts mcs4 */
  constructor(command, folder = ".", args = []) {
    super(command, folder, ["lsp", ...args]);
  }

  send(message) {
    super.send({ jsonrpc: "2.0", ...message });
  }

  /** Sends a notification. */
  notify(method, params) {
    this.send({ method, params });
  }

  /** Sends a request, and resolves to its response, which has a result or an error. */
  fetchResponse(method, params) {
    this.requestCount += 1;
    const id = this.requestCount;
    this.send({ id, method, params });
    return this.waitForMessage((message) => message.id === id && message.method === undefined);
  }

  /** Sends a request, and resolves to its result. Throws an error if the request failed. */
  async request(method, params) {
    const { result, error } = await this.fetchResponse(method, params);
    if (error) throw new Error(`${method}: ${error.message}`);
    return result;
  }

  /** Sends the requests that begin a session, and resolves to the answer to `initialize`. */
  async beginSession() {
    const answer = await this.request("initialize", { processId: process.pid, rootUri: null, capabilities: {} });
    this.notify("initialized", {});
    return answer;
  }

  /** Opens a document, and waits until the server has reported its errors. Resolves to these errors. */
  async openDocument(uri, text, languageId = "asm") {
    this.notify("textDocument/didOpen", { textDocument: { uri, languageId, version: 1, text } });
    return this.waitForErrors(uri);
  }

  /** Waits for the errors in a document, and resolves to them. */
  async waitForErrors(uri) {
    const { params } = await this.waitForMessage((message) => message.method === "textDocument/publishDiagnostics" && message.params.uri === uri);
    return params.diagnostics;
  }

  /** Ends the server, and resolves to its exit status. */
  async endSession() {
    await this.request("shutdown");
    this.notify("exit");
    return this.ended;
  }
}
