"""Scripts that measure a page from outside without changing its own scripts."""

# A script to insert before the page's own scripts. For each real-time frame, it adds a pair to `frames`: the milliseconds of work on the main thread
# and in the worker. A handler's work continues in promises, so the script waits for eight more promises before it stops the clock.
INSTALL_PAGE_METER = """
window.frames = [];
let workTime = 0;
const measured = (handler, done = () => {}) => function (...args) {
  const start = performance.now();
  const result = handler.apply(this, args);
  let promises = Promise.resolve();
  for (let n = 0; n < 8; n++) promises = promises.then(() => {});
  promises.then(() => {
    workTime += performance.now() - start;
    done(...args);
  });
  return result;
};
const request = requestAnimationFrame;
window.requestAnimationFrame = (handler) => request.call(window, measured(handler));
const listen = Worker.prototype.addEventListener;
Worker.prototype.addEventListener = function (kind, handler) {
  listen.call(this, kind, measured(handler, ({ data }) => {
    if (!data || !data.result || !data.result.runEntries) return;
    window.frames.push([workTime, data.requestTime]);
    workTime = 0;
  }));
};"""
GET_FRAMES = "return window.frames"

# A script to insert before the worker's own script. It adds the milliseconds since the request to each reply.
INSTALL_WORKER_METER = """
let start = 0;
addEventListener("message", () => { start = performance.now(); });
const post = postMessage.bind(self);
self.postMessage = (message, transfer) => post({ ...message, requestTime: performance.now() - start }, transfer);
"""

# A script to insert before the worker's own script. At full speed, it reports twice a second to the page what fraction of the time the worker has
# spent in the module.
INSTALL_MODULE_METER = """
(() => {
  const OriginalInstance = WebAssembly.Instance;
  let [moduleTime, since] = [0, performance.now()];
  WebAssembly.Instance = function (...args) {
    const { exports } = new OriginalInstance(...args);
    const bench_serve_and_settle = (...callArgs) => {
      const start = performance.now();
      const result = exports.bench_serve_and_settle(...callArgs);
      const now = performance.now();
      moduleTime += now - start;
      if (now - since > 500) {
        postMessage({ kind: "inModule", fraction: moduleTime / (now - since) });
        [moduleTime, since] = [0, now];
      }
      return result;
    };
    return { exports: { ...exports, bench_serve_and_settle } };
  };
})();"""
# A script to insert before the page's own scripts. It stores the fractions that INSTALL_MODULE_METER reports in `fractions`.
INSTALL_FRACTION_METER = """
window.fractions = [];
const listen = Worker.prototype.addEventListener;
Worker.prototype.addEventListener = function (kind, handler) {
  listen.call(this, kind, (event) => {
    if (event.data && event.data.kind === "inModule") window.fractions.push(event.data.fraction);
    else handler(event);
  });
};"""
GET_MODULE_FRACTIONS = "return window.fractions"

# Starts another worker with the page's module, for RUN_MODULE_ALONE, and lets it make its first long call.
START_SEPARATE_WORKER = """
const work = `
let instance, file, size, input, bufferSize, answers, report;
const serve = (lines) => {
  const bytes = new TextEncoder().encode(lines);
  new Uint8Array(instance.memory.buffer).set(bytes, Number(input));
  return instance.bench_serve_and_settle(file, BigInt(size), input, BigInt(bytes.length), answers, BigInt(bufferSize), report);
};
onmessage = async ({ data: { module, board, runs, cycles } }) => {
  if (module) {
    instance = (await WebAssembly.instantiate(await WebAssembly.compile(module), {})).exports;
    size = Number(instance.bench_file_size());
    bufferSize = 1 << 20;
    [file, input, answers, report] = [size, bufferSize, bufferSize, 16].map((count) => instance.bench_buffer(BigInt(count)));
    instance.bench_begin(file, BigInt(size));
    serve(board);
  }
  const start = performance.now();
  serve(runs);
  postMessage((cycles / (performance.now() - start)) * 1000);
}`;
const unpacked = (id) => {
  const packed = Uint8Array.from(atob(document.getElementById(id).textContent), (letter) => letter.charCodeAt(0));
  return new Response(new Blob([packed]).stream().pipeThrough(new DecompressionStream("deflate-raw")));
};
let module = null;
let calculator = null;
const worker = new Worker(URL.createObjectURL(new Blob([work], { type: "text/javascript" })));
worker.onmessage = ({ data }) => { window.alone = data; };
window.serveAlone = (isFirst) => {
  const { board, program } = calculator;
  window.alone = 0;
  worker.postMessage({ ...(isFirst ? { module, board: `wire\\n${board}.\\nasm\\n${program}.\\n` } : {}),
    runs: "run 100000\\n".repeat(1000), cycles: 1e8 });
};
Promise.all([unpacked("module").arrayBuffer(), unpacked("data").json()]).then(([bytes, { examples }]) => {
  module = bytes;
  calculator = examples.find(({ name }) => name === "calculator");
  window.serveAlone(true);
});"""
# Makes one long call of the module in the worker of START_SEPARATE_WORKER, and stores its cycles per second in `alone`.
RUN_MODULE_ALONE = "window.serveAlone(false)"

# Measures the time from the next key press to the next change of the digits, and stores it in `keyTime`.
MEASURE_KEY = """
window.keyTime = 0;
addEventListener("keydown", () => { window.pressedAt = performance.now(); }, { capture: true, once: true });
new MutationObserver((_, observer) => {
  observer.disconnect();
  window.keyTime = performance.now() - window.pressedAt;
}).observe(document.getElementById("digits"), { childList: true, characterData: true, subtree: true })"""
GET_KEY_TIME = "return window.keyTime"

# Clicks a button that searches for a goal, and stores the cycles per second in `searchSpeed`. The arguments are the button's id and the number of
# cycles of the search. A search for a change watches a value that never changes.
START_SEARCH = """
window.searchSpeed = 0;
document.getElementById("change-place").value = "st.0.3.3";
const status = document.getElementById("status");
status.firstChild.data = "";
const start = performance.now();
const cycles = arguments[1];
new MutationObserver((_, observer) => {
  if (!/Running to a change|Returned to/.test(status.textContent)) return;
  observer.disconnect();
  window.searchSpeed = (cycles / (performance.now() - start)) * 1000;
}).observe(status, { childList: true, characterData: true, subtree: true });
document.getElementById(arguments[0]).click();"""
GET_SEARCH_SPEED = "return window.searchSpeed"
