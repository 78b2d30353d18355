// Delivers worker replies to the page faster. After a key press, Chromium delivers a worker's messages only at the next frame, but
// broadcast channel messages at once. A broadcast message can be lost, for example while the page is frozen, so each reply is also sent as
// an ordinary message.

/**
 * @typedef {import("../../core/bench/bench_client.js").WorkerLike} WorkerLike
 * @typedef {import("../../core/bench/protocol.js").EarlyReply} EarlyReply
 */

/** Returns a random channel name that no other page can guess. */
function makeSecretName() {
  return crypto.getRandomValues(new Uint32Array(4)).join("-");
}

/**
 * Returns the broadcast channel with this name. Returns null if the name is empty, if the browser has no broadcast channels, or if Firefox
 * blocks site data.
 * @param {string} name
 */
function openChannel(name) {
  if (name === "" || typeof BroadcastChannel !== "function") return null;
  try {
    return new BroadcastChannel(name);
  } catch {
    return null;
  }
}

/**
 * Starts a worker. Its early replies reach the same listeners as its ordinary messages.
 * @param {string} scriptUrl
 * @returns {WorkerLike}
 */
export function startWorker(scriptUrl) {
  const name = makeSecretName();
  const worker = new Worker(scriptUrl, { name });
  const channel = openChannel(name);
  return {
    postMessage: (message, transfer) => worker.postMessage(message, transfer),
    addEventListener: (kind, listen) => {
      worker.addEventListener(kind, listen);
      if (channel && kind === "message") channel.addEventListener("message", listen);
    },
    terminate: () => {
      worker.terminate();
      if (channel) channel.close();
    },
  };
}

/**
 * Returns the function that sends early replies from the worker. Sending copies the reply, so the caller can still transfer the original.
 * @param {string} name the worker's name, which is also the channel name
 * @returns {(early: EarlyReply) => void}
 */
export function makeEarlySender(name) {
  const channel = openChannel(name);
  return (early) => channel && channel.postMessage(early);
}
