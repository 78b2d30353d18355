// A stand-in for the bench's module. Its session is one byte, C: the number of commands so far. The answer to `run N` is `ok C ran N end`,
// or an early stop if C reaches `stopAt`. `trap` makes the module fail. The answer to any other command is `ok C`. After `callLimit`
// calls of `serve`, the stand-in throws refusal 90 (out of memory).

import { BenchRefusal, BenchTrap } from "../core/bench/bench_errors.js";
import { readInputs } from "../core/bench/inputs.js";
import { hex } from "../core/bench/numbers.js";

const ANSWERS_BY_QUERY = {
  board: () => ["board", "[[ram]]", "bank = 0", "chips = 1"],
  state: (count) => [`state seq ${count} acc 0 cy 0 pc ${hex(count, 3)} owed 0 dcl 0 test 0 r 0000000000000000 ret 000,000,000 src 00 `
    + `banks 0.00 roms - rams 0.0.0 chains - keys - lamps ${count % 2 ? "*" : "."} breaks - watches -`],
  trace: () => ["trace ran 0 end lines 0"],
  list: () => [],
  ram: () => ["ram 0 chips 1", "0.0.0 0000000000000000 0000"],
};

export class FakeEngine {
  constructor() {
    this.size = 1;
    this.calls = 0;
    this.stopAt = Infinity;
    this.callLimit = Infinity;
  }

  begin(into = new Uint8Array(this.size)) {
    into[0] = 0;
    return into;
  }

  ask(file, lines) {
    return this.answer(file[0], lines);
  }

  serve(file, lines, into) {
    this.calls += 1;
    if (this.calls > this.callLimit) throw new BenchRefusal(90);
    const result = this.answer(file[0], lines);
    into[0] = result.count;
    return result;
  }

  answer(initialCount, lines) {
    let count = initialCount;
    const answers = [];
    for (const { kind, words } of readInputs(lines)) {
      if (kind === "trap") throw new BenchTrap("unreachable");
      if (kind in ANSWERS_BY_QUERY) {
        answers.push(...ANSWERS_BY_QUERY[kind](count));
      } else {
        count += 1;
        const isEarly = count === this.stopAt;
        answers.push(kind === "run" ? `ok ${count} ran ${isEarly ? 1 : words[1]} ${isEarly ? "break" : "end"}` : `ok ${count}`);
      }
    }
    return { status: 0, answers, count };
  }
}
