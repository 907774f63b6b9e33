// Tests of event_loop.js: where the Canonical ABI traps and where it doesn't, with core functions of JavaScript. Run by
// tests/run_components.sh.
'use strict';
const { BUILT_INS, ComponentInstance, Store, canonLift, canonLower, canonTaskReturn } = require('./event_loop.js');
const { holds, runAll, traps } = require('./checks.js');

const [EXIT, YIELD, WAIT] = [0, 1, 2];
const [NONE, SUBTASK] = [0, 1];
const [STARTING, STARTED, RETURNED] = [0, 1, 2];
const OPTIONS = { encoding: 'utf8', async: true };
const NOTHING = { params: [], result: null, async: true };

// An instance whose core code is of JavaScript.
class Instance {
  constructor() {
    this.store = new Store();
    this.inst = new ComponentInstance(this.store);
    for (const [name, of] of Object.entries(BUILT_INS)) this[name] = of(this.inst, { slot: 0 });
    this['task-return'] = this.taskReturn(null);
    this.ends = [];
    this.call = canonLower(this.inst, (onStart, onResolve) => {
      onStart();
      this.ends.push(onResolve);
    }, OPTIONS, NOTHING);
  }

  taskReturn(result, options = OPTIONS) {
    return canonTaskReturn(this.inst, result, options);
  }

  // Calls an export of this core function and, if it has one, this callback. The answer is a list of the results.
  task(callee, callback) {
    const results = [];
    canonLift(this.inst, callee, { ...OPTIONS, callback }, NOTHING)(() => [], result => results.push(result));
    return results;
  }

  // A call of an import, which doesn't end by itself: its subtask.
  started() {
    return this.call() >>> 4;
  }
}

// Whether a task of an instance traps whose core code this is. It answers YIELD where the code answers nothing.
const taskTraps = code => {
  const of = new Instance();
  return traps(() => of.task(() => code(of) ?? YIELD, () => EXIT));
};
const trap = (what, code, wanted = true) => holds(`traps: ${what}`, taskTraps(code), wanted);

// What a task answers, and how it returns.
const runAnswers = () => {
  trap('EXIT after a return', of => { of['task-return'](); return EXIT; }, false);
  trap('EXIT without a return', () => EXIT);
  trap('a second return', of => { of['task-return'](); of['task-return'](); return EXIT; });
  trap('a return of another type', of => { of.taskReturn('u32')(1); return EXIT; });
  trap('a return in another encoding', of => { of.taskReturn(null, { ...OPTIONS, encoding: 'utf16' })(); return EXIT; });
  trap('a code that is none', of => 3 | of['waitable-set-new']() << 4);
  trap('another code that is none', of => { of['task-return'](); return 4; });
  trap('a task begins in the middle of another', of => { of.task(() => YIELD, () => EXIT); });
  trap('WAIT for a set', of => WAIT | of['waitable-set-new']() << 4, false);
  trap('WAIT for no set', () => WAIT);
  trap('WAIT for a set that is not there', () => WAIT | 7 << 4);
  trap('WAIT for a subtask', of => WAIT | of.started() << 4);
  trap('WAIT for a set that was dropped', of => {
    const set = of['waitable-set-new']();
    of['waitable-set-drop'](set);
    return WAIT | set << 4;
  });
};

// What a task does with subtasks and sets.
const runHandles = () => {
  trap('a subtask joins a subtask', of => of['waitable-join'](of.started(), of.started()));
  trap('a set joins a set', of => of['waitable-join'](of['waitable-set-new'](), of['waitable-set-new']()));
  trap('a set is dropped that has an element', of => {
    const set = of['waitable-set-new']();
    of['waitable-join'](of.started(), set);
    of['waitable-set-drop'](set);
  });
  trap('a set is dropped that has none any more', of => {
    const [set, subtask] = [of['waitable-set-new'](), of.started()];
    of['waitable-join'](subtask, set);
    of['waitable-join'](subtask, 0);
    of['waitable-set-drop'](set);
  }, false);
  trap('a subtask is dropped that runs', of => of['subtask-drop'](of.started()));
  trap('a subtask is dropped whose end was not delivered', of => {
    const subtask = of.started();
    of.ends[0]();
    of['subtask-drop'](subtask);
  });
  trap('a set is dropped as a subtask', of => of['subtask-drop'](of['waitable-set-new']()));
};

// What traps while a task waits.
const runWaiting = () => {
  const of = new Instance();
  const [empty, set] = [of['waitable-set-new'](), of['waitable-set-new']()];
  of.task(() => WAIT | empty << 4, () => EXIT);
  holds('waiting: a set is dropped for which a task waits', traps(() => of['waitable-set-drop'](empty)), true);
  const begins = [];
  const call = canonLower(of.inst, onStart => { begins.push(onStart); }, OPTIONS, NOTHING);
  const events = [];
  of.task(() => {
    of['waitable-join'](call() >>> 4, set);
    return WAIT | set << 4;
  }, (...event) => {
    events.push(event);
    return YIELD;
  });
  begins[0]();
  of.store.tick();
  holds('waiting: a call that has begun', events, [[SUBTASK, 3, STARTED]]);
  holds('waiting: its subtask is dropped, whose end was not delivered', traps(() => of['subtask-drop'](3)), true);
};

// What a callback is given, and what it does then.
const runCallbacks = () => {
  const of = new Instance();
  const given = [];
  const set = of['waitable-set-new']();
  let subtask;
  const task = of.task(() => {
    subtask = of.started();
    of['waitable-join'](subtask, set);
    return WAIT | set << 4;
  }, (...event) => {
    given.push(event);
    if (event[0] === NONE) return EXIT;
    of['task-return']();
    of['subtask-drop'](subtask);
    return YIELD;
  });
  holds('callbacks: nothing goes on before an event', of.store.tick(), false);
  of.ends[0]();
  holds('callbacks: the host doesn\'t call back by itself', given, []);
  holds('callbacks: an event', [of.store.tick(), given, task.length], [true, [[SUBTASK, subtask, RETURNED]], 1]);
  holds('callbacks: a task goes on after its return', [of.store.tick(), given[1]], [true, [NONE, 0, 0]]);
  holds('callbacks: it has ended', of.store.tick(), false);
  holds('callbacks: a subtask is dropped once', traps(() => of['subtask-drop'](subtask)), true);
};

// A call has at most four parameters, or a pointer to them, and one for its result. It may begin later, or return at once.
const FIVE = { params: [1, 2, 3, 4, 5].map(i => ({ name: `p${i}`, type: 'u32' })), result: 'u32', async: true };
const runCalls = () => {
  const of = new Instance();
  const memory = new WebAssembly.Memory({ initial: 1 });
  const words = new Uint32Array(memory.buffer);
  words.set([10, 20, 30, 40, 50], 1);
  const calls = [];
  let isBusy = false;
  const sum = (onStart, onResolve) => {
    const begin = () => onResolve(onStart().reduce((total, one) => total + one));
    if (isBusy) calls.push(begin);
    else begin();
  };
  const call = canonLower(of.inst, sum, { ...OPTIONS, memory }, FIVE);
  holds('calls: no task', traps(() => call(4, 64)), true);
  const answers = [];
  of.task(() => {
    answers.push(call(4, 64));
    isBusy = true;
    answers.push(call(4, 68));
    return YIELD;
  }, () => EXIT);
  holds('calls: what a call answers that returns at once', [answers[0], words[16]], [RETURNED, 150]);
  holds('calls: what a call answers that doesn\'t begin', answers[1] & 15, STARTING);
  holds('calls: no result before the end', words[17], 0);
  words[1] = 11;
  calls[0]();
  holds('calls: its parameters are read when it begins', words[17], 151);
};

// Tasks without a callback, and the storage of tasks.
const runTasks = () => {
  const of = new Instance();
  holds('tasks: without a callback', of.task(() => { of['task-return'](); }).length, 1);
  holds('tasks: one that doesn\'t return traps', traps(() => of.task(() => {})), true);
  const seen = [];
  const kept = value => of.task(() => {
    seen.push(of['context-get']());
    of['context-set'](value);
    return YIELD;
  }, () => {
    seen.push(of['context-get']());
    of['task-return']();
    return EXIT;
  });
  const both = [kept(1), kept(2)];
  while (of.store.tick());
  holds('tasks: each has storage of its own', seen, [0, 0, 1, 2]);
  holds('tasks: both have returned', both.map(results => results.length), [1, 1]);
  holds('tasks: there is none outside', traps(() => of['context-get']()), true);
};

const RUNS = { answers: runAnswers, handles: runHandles, waiting: runWaiting, callbacks: runCallbacks, calls: runCalls, tasks: runTasks };
runAll(RUNS, Object.keys(RUNS));
