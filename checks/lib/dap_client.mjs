// A client for the Debug Adapter Protocol. It starts `mcs4 dap`, sends requests, and waits for events.
import { MessageClient } from "./message_client.mjs";

export class Client extends MessageClient {
  /** @param {string} command mcs4, or a command that starts mcs4 with the arguments `before` and the environment `env` */
  constructor(command, folder = ".", args = [], { before = [], env = process.env } = {}) {
    super(command, folder, [...before, "dap", ...args], env);
    /** The protocol violations in the adapter's messages. */
    this.violations = [];
    /** The sequence number of the adapter's last message. */
    this.lastNumber = 0;
  }

  /** Checks a message from the adapter against the rules of the protocol. */
  check(message) {
    this.lastNumber += 1;
    if (message.seq !== this.lastNumber) this.violations.push(`seq ${message.seq}, not ${this.lastNumber}`);
    const isResponse = message.type === "response" && typeof message.command === "string" && typeof message.request_seq === "number"
      && typeof message.success === "boolean" && (message.success || typeof message.message === "string");
    const isEvent = message.type === "event" && typeof message.event === "string";
    if (!isResponse && !isEvent) this.violations.push(`neither a response nor an event: ${JSON.stringify(message)}`);
  }

  /** Sends a request, and resolves to its response, successful or not. */
  fetchResponse(command, args) {
    this.requestCount += 1;
    const seq = this.requestCount;
    this.send({ seq, type: "request", command, ...(args === undefined ? {} : { arguments: args }) });
    return this.waitForMessage((message) => message.type === "response" && message.request_seq === seq);
  }

  /** Sends a request, and resolves to the body of its response. Throws an error if the request failed. */
  async request(command, args) {
    const response = await this.fetchResponse(command, args);
    if (!response.success) throw new Error(`${command}: ${response.message}`);
    return response.body;
  }

  /** Waits for an event, and resolves to it. */
  waitForEvent(name) {
    return this.waitForMessage((message) => message.type === "event" && message.event === name);
  }

  /**
   * Sends the requests from initialize to configurationDone. `configure` is called before configurationDone and can set breakpoints. Resolves to
   * the adapter's capabilities.
   */
  async beginSession(args, configure = async () => {}) {
    const capabilities = await this.request("initialize", { adapterID: "mcs4", linesStartAt1: true, columnsStartAt1: true, pathFormat: "path" });
    await this.request("launch", args);
    await this.waitForEvent("initialized");
    await configure();
    await this.request("configurationDone");
    return capabilities;
  }

  /** Sends a request that runs the machine, and waits until it stops. Resolves to the body of the event `stopped`. */
  async runUntilStop(command, args = {}) {
    await this.request(command, { threadId: 1, ...args });
    return (await this.waitForEvent("stopped")).body;
  }

  /** Resolves to the stack frames. */
  async fetchFrames() {
    return (await this.request("stackTrace", { threadId: 1 })).stackFrames;
  }

  /** Resolves to a scope's reference, the list of its variables as the adapter sent it, and an object with their values by name. */
  async fetchScope(name) {
    const { scopes } = await this.request("scopes", { frameId: 1 });
    const { variablesReference } = scopes.find((scope) => scope.name === name);
    const { variables } = await this.request("variables", { variablesReference });
    return { variablesReference, variables, values: Object.fromEntries(variables.map((variable) => [variable.name, variable.value])) };
  }

  /** Returns the text of the output events since the last call. */
  takeOutput() {
    const isOutput = (message) => message.type === "event" && message.event === "output";
    const texts = this.received.filter(isOutput).map(({ body }) => body.output);
    this.received = this.received.filter((message) => !isOutput(message));
    return texts.join("");
  }

  /** Ends the session, and resolves to the exit status of the adapter. */
  async endSession() {
    await this.request("disconnect", {});
    return this.ended;
  }
}
