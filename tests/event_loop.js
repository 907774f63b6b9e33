// The asynchronous part of the Canonical ABI, by the names that its definitions have there: the tasks of exported functions, the
// subtasks of imported ones, the sets of subtasks for which a task waits, and the loop that calls callbacks.
//
// A function of a component is called here with two functions: `onStart` answers its parameters, and `onResolve` is given its result,
// now or later. Streams are in streams.js. Not here: what suspends core code in its middle, such as `waitable-set.wait`, and
// cancellation, backpressure and futures.
'use strict';
const { isDeepStrictEqual } = require('util');
const { MOST_PARAMETERS, checkEncoding, liftFlatValues, lowerFlatValues, paramTypes, store: storeValue } = require('./canonical_abi.js');

const MOST_ASYNC_PARAMETERS = 4;
const EventCode = { NONE: 0, SUBTASK: 1, STREAM_READ: 2, STREAM_WRITE: 3 };
const CallbackCode = { EXIT: 0, YIELD: 1, WAIT: 2 };
const State = { STARTING: 0, STARTED: 1, RETURNED: 2 };
const CopyResult = { COMPLETED: 0, DROPPED: 1 };
const nameOf = (names, number) => Object.keys(names)[number];
// what has come of a read or a write of a stream, as one number
const packedCopy = (result, progress) => result | progress << 4;
const saidCopy = packed => `${packed >>> 4} ${nameOf(CopyResult, packed & 15)}`;

const trapIf = (condition, why) => {
  if (condition) throw new WebAssembly.RuntimeError(why);
};

// The loop: what is to go on, each with the question whether it can. `told` is called with a line for each event.
class Store {
  constructor(told = () => {}) {
    this.told = told;
    this.waiting = [];
    this.tasks = 0;
  }

  suspendUntil(ready, resume) {
    this.waiting.push({ ready, resume });
  }

  // One of those that can goes on. The answer is whether there was one.
  tick() {
    const at = this.waiting.findIndex(({ ready }) => ready());
    if (at === -1) return false;
    this.waiting.splice(at, 1)[0].resume();
    return true;
  }
}

// What a component has numbers for: subtasks, sets, and ends of streams. None has the number 0.
class Table {
  constructor() {
    this.array = [null];
    this.free = [];
  }

  get(index, Kind) {
    trapIf(!(this.array[index] instanceof Kind), `${index} is no ${Kind.name}`);
    return this.array[index];
  }

  add(element) {
    const index = this.free.pop() ?? this.array.length;
    this.array[index] = element;
    return index;
  }

  remove(index, Kind) {
    const element = this.get(index, Kind);
    this.array[index] = null;
    this.free.push(index);
    return element;
  }

  // An element is dropped, unless that traps.
  drop(index, Kind) {
    this.get(index, Kind).drop();
    this.remove(index, Kind);
  }
}

// An instance of a component. While its code runs, that is part of a task.
class ComponentInstance {
  constructor(store) {
    this.store = store;
    this.table = new Table();
    this.running = null;
  }

  get task() {
    trapIf(this.running === null, 'no task is running');
    return this.running;
  }
}

class Waitable {
  constructor() {
    this.pendingEvent = null;
    this.wset = null;
  }

  // An event is a function, as what it says is decided when it is delivered.
  setPendingEvent(event) {
    this.pendingEvent = event;
  }

  hasPendingEvent() {
    return this.pendingEvent !== null;
  }

  getPendingEvent() {
    const event = this.pendingEvent;
    this.pendingEvent = null;
    return event();
  }

  join(wset) {
    this.wset?.elems.delete(this);
    this.wset = wset;
    this.wset?.elems.add(this);
  }

  drop() {
    this.join(null);
  }
}

class WaitableSet {
  constructor() {
    this.elems = new Set();
    this.numWaiting = 0;
  }

  hasPendingEvent() {
    return [...this.elems].some(waitable => waitable.hasPendingEvent());
  }

  getPendingEvent() {
    return [...this.elems].find(waitable => waitable.hasPendingEvent()).getPendingEvent();
  }

  drop() {
    trapIf(this.elems.size > 0, 'a set is dropped that has elements');
    trapIf(this.numWaiting > 0, 'a set is dropped for which a task waits');
  }
}

// A call of an import. Its end is delivered by the answer of the call, or by an event.
class Subtask extends Waitable {
  constructor() {
    super();
    this.state = State.STARTING;
    this.delivered = false;
  }

  resolved() {
    return this.state === State.RETURNED;
  }

  deliverResolve() {
    this.delivered = this.resolved();
    return this.state;
  }

  drop() {
    trapIf(!this.delivered, 'a subtask is dropped whose end was not delivered');
    super.drop();
  }
}

// A call of an export.
class Task {
  constructor(inst, type, options, onResolve) {
    Object.assign(this, { inst, type, options, onResolve });
    this.number = ++inst.store.tasks;
    this.resolved = false;
    this.storage = [0, 0];
  }

  told(what) {
    this.inst.store.told(`task ${this.number} ${what}`);
  }

  // Calls core code as a part of this task. No core code is called in the middle of other code of its instance.
  run(code) {
    trapIf(this.inst.running !== null, 'an instance is entered that is running');
    this.inst.running = this;
    try {
      return code();
    } finally {
      this.inst.running = null;
    }
  }

  return_(result) {
    trapIf(this.resolved, 'a task returns twice');
    this.resolved = true;
    this.onResolve(result);
  }

  exit() {
    trapIf(!this.resolved, 'a task ends that has not returned');
  }

  // What the task does after its function or its callback has answered this: it ends, or the callback is called later.
  goOn(packed) {
    const [code, index] = [packed & 15, packed >>> 4];
    trapIf(code > CallbackCode.WAIT, `${code} is no code of a callback`);
    this.told(`answers ${nameOf(CallbackCode, code)}${code === CallbackCode.WAIT ? ` for set ${index}` : ''}`);
    if (code === CallbackCode.EXIT) this.exit();
    else if (code === CallbackCode.YIELD) this.inst.store.suspendUntil(() => true, () => this.callBack([EventCode.NONE, 0, 0]));
    else this.waitFor(this.inst.table.get(index, WaitableSet));
  }

  waitFor(wset) {
    wset.numWaiting++;
    this.inst.store.suspendUntil(() => wset.hasPendingEvent(), () => {
      wset.numWaiting--;
      this.callBack(wset.getPendingEvent());
    });
  }

  callBack([code, index, payload]) {
    const said = code === EventCode.SUBTASK ? nameOf(State, payload) : saidCopy(payload);
    this.told(`is given ${nameOf(EventCode, code)}${code === EventCode.NONE ? '' : ` ${index}: ${said}`}`);
    this.goOn(this.run(() => this.options.callback(code, index, payload)));
  }
}

// `canon lift` of an asynchronous implementation: with a callback, or on a stack of its own, which can't be suspended here.
const canonLift = (inst, callee, options, type) => {
  checkEncoding(options);
  return (onStart, onResolve) => {
    const task = new Task(inst, type, options, onResolve);
    task.told('is called');
    const packed = task.run(() => callee(...lowerFlatValues(options, MOST_PARAMETERS, onStart(), paramTypes(type))));
    if (options.callback === undefined) task.exit();
    else task.goOn(packed);
  };
};

// `canon lower` of an asynchronous call: it answers the state of the call, and the number of a subtask unless it has returned.
const canonLower = (inst, callee, options, type) => {
  checkEncoding(options);
  return (...flatArgs) => {
    const { task } = inst;
    const subtask = new Subtask();
    let onProgress = () => {};
    const onStart = () => {
      subtask.state = State.STARTED;
      onProgress();
      return liftFlatValues(options, MOST_ASYNC_PARAMETERS, flatArgs, paramTypes(type));
    };
    const onResolve = result => {
      if (subtask.state !== State.STARTED) throw new Error('a call returns that has not started, or that has returned');
      subtask.state = State.RETURNED;
      onProgress();
      if (type.result !== null) storeValue(options, type.result, flatArgs.shift(), result);
    };
    callee(onStart, onResolve);
    if (subtask.resolved()) {
      task.told('has called: RETURNED');
      return subtask.deliverResolve();
    }
    const index = inst.table.add(subtask);
    onProgress = () => subtask.setPendingEvent(() => [EventCode.SUBTASK, index, subtask.deliverResolve()]);
    task.told(`has called: ${nameOf(State, subtask.state)}, subtask ${index}`);
    return subtask.state | index << 4;
  };
};

const canonTaskReturn = (inst, result, options) => (...flatArgs) => {
  const { task } = inst;
  const { memory, encoding } = task.options;
  trapIf(!isDeepStrictEqual(result, task.type.result), 'a task returns a result of another type');
  trapIf(memory !== options.memory || encoding !== options.encoding, 'a task returns with other options');
  task.told('returns');
  task.return_(result === null ? undefined : liftFlatValues(options, MOST_PARAMETERS, flatArgs, [result])[0]);
};

// The built-in functions without options, by the names of `read_component.js`, of an instance and what stands in the definition.
const BUILT_INS = {
  'context-get': (inst, { slot }) => () => inst.task.storage[slot],
  'context-set': (inst, { slot }) => value => { inst.task.storage[slot] = value; },
  'subtask-drop': inst => index => {
    inst.table.drop(index, Subtask);
    inst.store.told(`subtask ${index} is dropped`);
  },
  'waitable-set-new': inst => () => inst.table.add(new WaitableSet()),
  'waitable-set-drop': inst => index => inst.table.drop(index, WaitableSet),
  'waitable-join': inst => (index, set) => inst.table.get(index, Waitable).join(set === 0 ? null : inst.table.get(set, WaitableSet)),
};

module.exports = {
  BUILT_INS, ComponentInstance, CopyResult, EventCode, Store, Waitable, canonLift, canonLower, canonTaskReturn, packedCopy, saidCopy, trapIf,
};
