// Tests of streams.js: where the Canonical ABI traps, and how reads and writes of both ends meet, with core functions of JavaScript. Run
// by tests/run_components.sh.
'use strict';
const { BUILT_INS, ComponentInstance, Store, canonLift } = require('./event_loop.js');
const { Ends, STREAM_BUILT_INS } = require('./streams.js');
const { holds, runAll, traps } = require('./checks.js');

const [EXIT, YIELD] = [0, 1];
const [COMPLETED, DROPPED] = [0, 1];
const BLOCKED = 0xffffffff;
const NOTHING = { params: [], result: null, async: true };
const BYTES = { stream: 'u8' };
const packed = (count, result) => count << 4 | result;

// An instance whose core code is of JavaScript, with the two ends of a stream of bytes. Its memory begins with the numbers from 1 on.
class Instance {
  constructor(type = BYTES) {
    this.store = new Store();
    this.inst = new ComponentInstance(this.store);
    this.memory = new Uint8Array(new WebAssembly.Memory({ initial: 1 }).buffer);
    this.memory.set(Array.from({ length: 32 }, (_, i) => i + 1));
    this.options = { encoding: 'utf8', async: true, memory: { buffer: this.memory.buffer } };
    for (const [name, of] of Object.entries(BUILT_INS)) this[name] = of(this.inst, { slot: 0 });
    for (const [name, of] of Object.entries(STREAM_BUILT_INS)) this[name] = of(this.inst, type, this.options);
  }

  // Runs core code as a part of a task.
  run(code) {
    let answer;
    canonLift(this.inst, () => { answer = code(); return YIELD; }, { ...this.options, callback: () => EXIT }, NOTHING)(() => [], () => {});
    return answer;
  }

  // the readable end, and the writable one
  stream() {
    const ends = this['stream-new']();
    return [Number(ends & 0xffffffffn), Number(ends >> 32n)];
  }
}

// What core code answers that is given an instance and the two ends of a stream.
const answered = (code, type) => {
  const of = new Instance(type);
  return of.run(() => code(of, ...of.stream()));
};
const trap = (what, code, wanted = true) => holds(`traps: ${what}`, traps(() => answered(code)), wanted);

const runTraps = () => {
  trap('a read of a writable end', (of, _, writable) => of['stream-read'](writable, 0, 1));
  trap('a write of a readable end', (of, readable) => of['stream-write'](readable, 0, 1));
  trap('a read of a set', of => of['stream-read'](of['waitable-set-new'](), 0, 1));
  trap('a read of an end that is not there', of => of['stream-read'](9, 0, 1));
  trap('a second read', (of, readable) => { of['stream-read'](readable, 0, 1); of['stream-read'](readable, 0, 1); });
  trap('a read of nothing there', (of, readable) => of['stream-read'](readable, 65536, 0), false);
  trap('a read that is too long to say', (of, readable) => of['stream-read'](readable, 0, 2 ** 28));
  trap('an end is dropped that reads', (of, readable) => { of['stream-read'](readable, 0, 1); of['stream-drop-readable'](readable); });
  trap('a readable end is dropped as a writable one', (of, readable) => of['stream-drop-writable'](readable));
  trap('an end is dropped twice', (of, readable) => { of['stream-drop-readable'](readable); of['stream-drop-readable'](readable); });
  trap('a read behind the end', (of, readable, writable) => {
    of['stream-drop-writable'](writable);
    of['stream-read'](readable, 0, 1);
    of['stream-read'](readable, 0, 1);
  });
  const isRefused = code => {
    try {
      return answered(code) === null;
    } catch {
      return true;
    }
  };
  holds('traps: a read behind memory', isRefused((of, readable) => of['stream-read'](readable, 65536, 1)), true);
  const chars = { stream: 'char' };
  holds('traps: an instance reads characters that it writes', traps(() => answered((of, readable, writable) => {
    of['stream-write'](writable, 0, 1);
    of['stream-read'](readable, 4, 1);
  }, chars)), true);
  const other = STREAM_BUILT_INS['stream-read'];
  trap('a read of an end of another stream', (of, readable) => other(of.inst, chars, of.options)(readable, 0, 1));
};

// Ends that are given away.
const runPassed = () => {
  const taken = (of, index) => new Ends(of.inst).taken(BYTES, index);
  trap('a readable end is given away', (of, readable) => { taken(of, readable); }, false);
  trap('and again', (of, readable) => { taken(of, readable); taken(of, readable); });
  trap('a writable one', (of, _, writable) => { taken(of, writable); });
  trap('one that reads', (of, readable) => { of['stream-read'](readable, 0, 1); taken(of, readable); });
  trap('one at its end', (of, readable, writable) => {
    of['stream-drop-writable'](writable);
    of['stream-read'](readable, 0, 1);
    taken(of, readable);
  });
};

const MEETINGS = {
  'a read waits for a write': (of, readable, writable) =>
    [of['stream-read'](readable, 100, 8), of['stream-write'](writable, 0, 3), of.memory[102], of.memory[103]],
  'a write waits for a read': (of, readable, writable) =>
    [of['stream-write'](writable, 0, 8), of['stream-read'](readable, 100, 3), of.memory[102], of.memory[103]],
  'a read of what is left': (of, readable, writable) =>
    [of['stream-write'](writable, 0, 8), of['stream-read'](readable, 100, 3), of['stream-read'](readable, 100, 9), of.memory[100]],
  'nothing is written': (of, readable, writable) => [of['stream-read'](readable, 100, 3), of['stream-write'](writable, 0, 0), of.memory[100]],
  'nothing is read': (of, readable, writable) => [of['stream-write'](writable, 0, 3), of['stream-read'](readable, 100, 0)],
  'a read that waits for nothing ends with a write': (of, readable, writable) => [of['stream-read'](readable, 100, 0), of['stream-write'](writable, 0, 3)],
  'the other end is gone': (of, readable, writable) => [of['stream-drop-readable'](readable), of['stream-write'](writable, 0, 3)],
};
const ANSWERS = {
  'a read waits for a write': [BLOCKED, packed(3, COMPLETED), 3, 0],
  'a write waits for a read': [BLOCKED, packed(3, COMPLETED), 3, 0],
  'a read of what is left': [BLOCKED, packed(3, COMPLETED), packed(5, COMPLETED), 4],
  'nothing is written': [BLOCKED, packed(0, COMPLETED), 0],
  'nothing is read': [BLOCKED, packed(0, COMPLETED)],
  'a read that waits for nothing ends with a write': [BLOCKED, BLOCKED],
  'the other end is gone': [null, packed(0, DROPPED)],
};
const runMeetings = () => {
  for (const [what, code] of Object.entries(MEETINGS)) holds(`meetings: ${what}`, answered(code), ANSWERS[what]);
};

const RUNS = { traps: runTraps, passed: runPassed, meetings: runMeetings };
runAll(RUNS, Object.keys(RUNS));
