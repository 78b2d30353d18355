// The common class of the clients for the language server and the debug adapter. It starts the server's process, and sends and receives messages,
// each after a header with its length.
import { spawn } from "node:child_process";

/** The time in milliseconds to wait for an answer. */
const TIMEOUT_MS = 60000;

export class MessageClient {
  /** @param {string} command the command that starts the server */
  constructor(command, folder = ".", args = [], env = process.env) {
    this.child = spawn(command, args, { stdio: ["pipe", "pipe", "pipe"], cwd: folder, env });
    this.unparsedBytes = Buffer.alloc(0);
    this.received = [];
    this.stderr = "";
    /** The number of requests so far, which is the number of the last one. */
    this.requestCount = 0;
    this.wake = () => {};
    this.child.stdout.on("data", (bytes) => this.receive(bytes));
    this.child.stderr.on("data", (bytes) => {
      this.stderr += bytes;
    });
    this.child.stdin.on("error", () => {});
    this.ended = new Promise((resume) => {
      this.child.on("close", (status) => resume(status));
    });
  }

  /** Splits received bytes into the complete messages that they begin with, and the bytes after these messages. */
  static messagesIn(bytes) {
    const messages = [];
    let remainingBytes = bytes;
    for (;;) {
      const end = remainingBytes.indexOf("\r\n\r\n");
      if (end < 0) break;
      const size = Number(/^Content-Length: (\d+)$/m.exec(remainingBytes.subarray(0, end).toString())[1]);
      if (remainingBytes.length < end + 4 + size) break;
      messages.push(JSON.parse(remainingBytes.subarray(end + 4, end + 4 + size).toString()));
      remainingBytes = remainingBytes.subarray(end + 4 + size);
    }
    return { messages, remainingBytes };
  }

  /** Adds received bytes, and checks and stores the messages that are complete. */
  receive(bytes) {
    const { messages, remainingBytes } = MessageClient.messagesIn(this.unparsedBytes.length === 0 ? bytes : Buffer.concat([this.unparsedBytes, bytes]));
    this.unparsedBytes = remainingBytes;
    for (const message of messages) {
      this.check(message);
      this.received.push(message);
    }
    this.wake();
  }

  /** Does nothing here. Subclasses override this method to check a message from the server against the rules of the protocol. */
  check() {}

  /** Sends bytes unchanged. */
  sendBytes(bytes) {
    this.child.stdin.write(bytes);
  }

  /** Sends a message with its header. */
  send(message) {
    const body = Buffer.from(JSON.stringify(message));
    this.sendBytes(`Content-Length: ${body.length}\r\n\r\n`);
    this.sendBytes(body);
  }

  /** Waits for the first message that matches, removes it from the list, and resolves to it. Throws an error after TIMEOUT_MS. */
  async waitForMessage(matches) {
    const deadline = Date.now() + TIMEOUT_MS;
    for (;;) {
      const index = this.received.findIndex(matches);
      if (index >= 0) return this.received.splice(index, 1)[0];
      if (Date.now() > deadline) throw new Error(`no answer after ${TIMEOUT_MS} ms; on standard error: ${this.stderr}`);
      await new Promise((resume) => {
        const timer = setTimeout(resume, 1000);
        this.wake = () => {
          clearTimeout(timer);
          resume();
        };
      });
    }
  }
}
