"""Copies the built page and adds scripts before the page's own scripts. The added scripts remove a browser feature, or make the module or the worker
fail on request. The copy's content security policy allows them."""

import base64
import hashlib
import re

from page_module import with_worker_code

# Stores the worker in a variable, so that checks can send messages to the code of INSTALL_FAILURES.
EXPOSE_WORKER = """
const OriginalWorker = Worker;
window.Worker = function (...args) {
  window.benchWorker = new OriginalWorker(...args);
  return window.benchWorker;
};"""

# Code for the worker. A message selects a failure, which occurs at the next call of the module. The failures "die" and "hang" occur at once.
INSTALL_FAILURES = """
(() => {
  const OriginalInstance = WebAssembly.Instance;
  const NO_MEMORY = 90;
  let failure = "";
  addEventListener("message", (event) => {
    if (!event.data.failure) return;
    event.stopImmediatePropagation();
    failure = event.data.failure;
    if (failure === "die") close();
    while (failure === "hang");
  });
  const failing = (exports, name) => (...args) => {
    const current = failure;
    // After a trap without memory, there is no memory for another instance either.
    if (current !== "trap without memory") failure = "";
    if (current.startsWith("trap")) throw new WebAssembly.RuntimeError("unreachable");
    if (current !== "no memory") return exports[name](...args);
    new DataView(exports.memory.buffer).setUint32(Number(args[args.length - 1]), NO_MEMORY, true);
    return 0;
  };
  WebAssembly.Instance = function (...args) {
    if (failure === "trap without memory") {
      failure = "";
      throw new RangeError("out of memory");
    }
    const { exports } = new OriginalInstance(...args);
    const calls = ["bench_serve_and_settle", "bench_ask"].map((name) => [name, failing(exports, name)]);
    return { exports: { ...exports, ...Object.fromEntries(calls) } };
  };
})();"""

REQUEST_FAILURE = "window.benchWorker.postMessage({ failure: arguments[0] })"


def hash_of(script):
    """Returns the hash of a script in the form in which a content security policy allows the script."""
    return "'sha256-" + base64.b64encode(hashlib.sha256(script.encode()).digest()).decode() + "'"


def write_altered_page(page, folder, page_code="", worker_code="", replacements=()):
    """Writes a copy of a page, with `page_code` before the page's script and `worker_code` before the worker's script. Each pair in `replacements`
    replaces the first occurrence of a string, which must exist. Returns the copy's path."""
    text = page.read_text()
    if page_code:
        text = text.replace("<body>", f"<body><script>{page_code}</script>", 1)
    if worker_code:
        text = with_worker_code(text, worker_code)
    for old, new in replacements:
        if old not in text:
            raise ValueError(f"the page has no {old}")
        text = text.replace(old, new, 1)
    hashes = " ".join(hash_of(script) for script in re.findall("<script>(.*?)</script>", text, re.S))
    text = re.sub(r"script-src '[^']*'", f"script-src {hashes}", text, count=1)
    altered_page = folder / "altered.html"
    altered_page.write_text(text)
    return altered_page
