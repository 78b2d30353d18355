// Sessions on the page's WebAssembly module, for tests.
import * as page from "../node/page_parts.mjs";
import { BenchCalls } from "../core/engine/bench_calls.js";

export const pageModule = page.readPageModule();
const { examples } = page.readPageData();
export const examplesOfPage = examples;

/** Resolves to the calls of a bench with an example's session, after some session lines. */
export async function openExample(name, lines = "") {
  const benchCalls = new BenchCalls(async () => true);
  await benchCalls.load(pageModule, examples);
  benchCalls.open(benchCalls.createFile(examples.find((example) => example.name === name)));
  if (lines) await benchCalls.serve(lines);
  return benchCalls;
}

export const readCounter = (benchCalls) => benchCalls.ask("regs\n")[0].split(" ")[5];
