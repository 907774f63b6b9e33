// Runs the component of examples/downloads, and compares what happens in it and to it. Called by run_components.js.
'use strict';
const { Store } = require('./event_loop.js');
const { holds } = require('./checks.js');

// What is outside: an asynchronous `fetch`, and a list of what happens.
class Host {
  constructor() {
    this.isShown = true;
    this.lines = [];
    this.store = new Store(line => this.told(line));
    this.waiting = [];
    this.open = {};
    this.fetch = this.later;
  }

  told(line) {
    if (this.isShown) console.log(`    ${line}`);
    this.lines.push(line);
  }

  begun(onStart) {
    const [page] = onStart();
    this.told(`fetch begins with ${page}`);
    return page;
  }

  ended(page, onResolve) {
    this.told(`fetch ends with ${page}`);
    onResolve(`<${page}>`);
  }

  atOnce(onStart, onResolve) {
    this.ended(this.begun(onStart), onResolve);
  }

  // until `end`
  later(onStart, onResolve) {
    const page = this.begun(onStart);
    this.open[page] = () => this.ended(page, onResolve);
  }

  // it doesn't begin until `begin`
  muchLater(onStart, onResolve) {
    this.waiting.push(() => this.later(onStart, onResolve));
  }

  begin() {
    this.waiting.shift()();
  }

  end(page) {
    this.open[page]();
  }

  // The loop runs until no task can go on. The answer is what happened.
  ran() {
    while (this.store.tick());
    const lines = this.lines;
    this.lines = [];
    return lines;
  }
}

const TWO_CALLS = [
  'task 1 is called',
  'fetch begins with one', 'task 1 has called: STARTED, subtask 2',
  'fetch begins with other', 'task 1 has called: STARTED, subtask 3',
  'task 1 answers WAIT for set 1',
];
const OTHER_ENDED = ['fetch ends with other', 'task 1 is given SUBTASK 3: RETURNED', 'subtask 3 is dropped', 'task 1 answers WAIT for set 1'];
const ONE_ENDED = [
  'fetch ends with one', 'task 1 is given SUBTASK 2: RETURNED', 'subtask 2 is dropped',
  'task 1 returns', 'both: <one><other>', 'task 1 answers EXIT',
];
const AT_ONCE = [
  'task 2 is called',
  'fetch begins with a', 'fetch ends with a', 'task 2 has called: RETURNED',
  'fetch begins with b', 'fetch ends with b', 'task 2 has called: RETURNED',
  'task 2 returns', 'both: <a><b>', 'task 2 answers EXIT',
];
const NOT_BEGUN = [
  'task 3 is called', 'task 3 has called: STARTING, subtask 2', 'task 3 has called: STARTING, subtask 3', 'task 3 answers WAIT for set 1',
  'fetch begins with a', 'task 3 is given SUBTASK 2: STARTED', 'task 3 answers WAIT for set 1',
];
const BESIDE = [
  'task 4 is called', 'task 4 answers YIELD',
  'fetch begins with b', 'fetch ends with b', 'fetch ends with a',
  'task 3 is given SUBTASK 2: RETURNED', 'subtask 2 is dropped', 'task 3 answers WAIT for set 1',
  'task 4 is given NONE', 'task 4 answers YIELD',
  'task 3 is given SUBTASK 3: RETURNED', 'subtask 3 is dropped', 'task 3 returns', 'both: <a><b>', 'task 3 answers EXIT',
  'task 4 is given NONE', 'task 4 returns', 'total: 31375', 'task 4 answers EXIT',
];

// Many tasks at once, and many in turn.
const runMany = (name, host, exports) => {
  host.isShown = false;
  host.fetch = host.later;
  const answers = [];
  const both = (...pages) => exports.both(() => pages, result => answers.push(result));
  const numbers = Array.from({ length: 20 }, (_, i) => i);
  for (const i of numbers) both(`a${i}`, `b${i}`);
  for (const i of numbers) host.end(`b${i}`);
  host.ran();
  holds(`${name}: none of twenty tasks returns before both calls end`, answers, []);
  for (const i of [...numbers].reverse()) {
    host.end(`a${i}`);
    host.ran();
  }
  holds(`${name}: they return as their calls end`, answers, numbers.reverse().map(i => `<a${i}><b${i}>`));
  host.fetch = host.atOnce;
  for (let i = 0; i < 1000; i++) both('x'.repeat(200), `${i}`);
  holds(`${name}: the last of a thousand`, answers.pop(), `<${'x'.repeat(200)}><999>`);
  host.ran();
};

// `component` makes an instance over an outside and a loop.
const runDownloads = (name, component) => {
  const host = new Host();
  const exports = component({ fetch: (...call) => host.fetch(...call) }, host.store);
  const call = (of, ...given) => exports[of](() => given, result => host.told(`${of}: ${result}`));
  const compare = (what, wanted) => holds(`${name}: ${what}`, host.ran(), wanted);
  call('both', 'one', 'other');
  compare('a task waits for two calls', TWO_CALLS);
  host.end('other');
  compare('the second call ends first', OTHER_ENDED);
  host.end('one');
  compare('the first one ends', ONE_ENDED);
  host.fetch = host.atOnce;
  call('both', 'a', 'b');
  compare('calls that end at once', AT_ONCE);
  host.fetch = host.muchLater;
  call('both', 'a', 'b');
  host.begin();
  compare('a call that begins later', NOT_BEGUN);
  call('total', 250);
  host.begin();
  host.end('b');
  host.end('a');
  compare('a task that lets another run', BESIDE);
  runMany(name, host, exports);
};

module.exports = { runDownloads };
