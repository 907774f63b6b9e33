// Makes instances of components in Node, calls what they export, and compares what they answer and what they call of the
// outside. Each argument is NAME=FILE, the component of the example NAME. Run by tests/run_components.sh.
'use strict';
const fs = require('fs');
const { readComponent } = require('./read_component.js');
const { Store } = require('./event_loop.js');
const { linked } = require('./link_component.js');
const { runDownloads } = require('./run_downloads.js');
const { runLetters } = require('./run_letters.js');
const { holds, runAll, traps } = require('./checks.js');

const MAIN = 0;

// The exports of a component, of whose import the core module main is given a shim: an export of another core module, which
// traps until the fixup has filled it.
const withShim = (name, file, outside, module, field, store = new Store()) => {
  let shim = null;
  const { exports, lowerings } = linked(readComponent(fs.readFileSync(file)), outside, (number, imports) => {
    if (number !== MAIN) return;
    shim = imports[module][field];
    holds(`${name}: main's import traps before the fixup`, traps(shim), true);
  }, store);
  holds(`${name}: main's import is not the lowered function`, lowerings.has(shim), false);
  holds(`${name}: one function is lowered`, lowerings.size, 1);
  return exports;
};

const TEXTS = ['world', '', 'Grüße, 世界 🌍', 'x'.repeat(1500)];

const runMain = (name, file) => {
  let calls = 0;
  const { exports } = linked(readComponent(fs.readFileSync(file)), { f: () => { calls++; } });
  holds(`${name}: what it exports`, Object.keys(exports), ['g']);
  exports.g();
  holds(`${name}: calls of f, which g doesn't make`, calls, 0);
};

const runStrings = (name, file) => {
  const lines = [];
  const { greet } = withShim(name, file, { log: line => { lines.push(line); } }, '$root', 'log');
  const wanted = TEXTS.map(text => `Hello, ${text}`);
  holds(`${name}: greetings`, TEXTS.map(text => greet(text)), wanted);
  holds(`${name}: what is logged`, lines, wanted);
};

const runSquares = (name, file) => {
  const lines = [];
  const { square } = withShim(name, file, { log: line => { lines.push(line); } }, '$root', 'log');
  holds(`${name}: what is logged before a call`, lines, ['ready']);
  holds(`${name}: squares`, [0, 3, 7, 8].map(n => square(n)), [0, 9, 49, 0]);
  holds(`${name}: it is initialized once`, lines.length, 1);
};

const runLog = (name, file) => {
  const lines = [];
  const { run } = withShim(name, file, { log: line => { lines.push(line); } }, '$root', 'log');
  const upper = text => text.replace(/[a-z]/g, letter => letter.toUpperCase());
  holds(`${name}: answers`, TEXTS.map(text => run(text)), TEXTS.map(text => `Hello, ${upper(text)}`));
  holds(`${name}: what is logged`, lines, TEXTS);
  // Each call takes more than a third of the heap.
  for (let i = 0; i < 1000; i++) run(TEXTS[3]);
  holds(`${name}: the post-return frees what calls took`, lines.length, 1000 + TEXTS.length);
};

const PEOPLE = [
  { name: 'Ada', age: 36 },
  { name: 'Grace', age: 85 },
  { name: 'Zoë 🌍', age: 4000000000 },
  { name: '', age: 0 },
];
const runPeople = (name, file) => {
  let list = PEOPLE;
  const outside = { 'example:registry/people': { people: () => list } };
  const { oldest, 'from-age': fromAge } = withShim(name, file, outside, 'example:registry/people', 'people');
  holds(`${name}: the oldest of four`, oldest(), 'Zoë 🌍');
  holds(`${name}: those from 36 on`, fromAge(36), PEOPLE.slice(0, 3));
  holds(`${name}: those from 86 on`, fromAge(86), PEOPLE.slice(2, 3));
  holds(`${name}: all`, fromAge(0), PEOPLE);
  list = Array.from({ length: 100 }, (_, i) => ({ name: `number ${i}`, age: i }));
  for (let i = 0; i < 100; i++) fromAge(i);
  holds(`${name}: the last of a hundred`, fromAge(99), list.slice(99));
  list = [];
  holds(`${name}: the oldest of none`, oldest(), '');
  holds(`${name}: all of none`, fromAge(0), []);
};

const runSearch = (name, file) => {
  const outside = { 'example:registry/people': { people: () => PEOPLE } };
  const exports = withShim(name, file, outside, 'example:registry/people', 'people');
  holds(`${name}: what it exports`, Object.keys(exports), ['example:registry/search']);
  const { find, count } = exports['example:registry/search'];
  holds(`${name}: those from 36 to 85`, find({ least: 36, most: 85 }), PEOPLE.slice(0, 2));
  holds(`${name}: those of no age`, find({ least: 1, most: 35 }), []);
  for (let i = 0; i < 1000; i++) find({ least: 0, most: 4000000000 });
  holds(`${name}: how many there are`, count({ least: 0, most: 4000000000 }), 4);
  holds(`${name}: how many are younger than 36`, count({ least: 0, most: 35 }), 1);
};

// a handle outside is dropped
const dropped = handle => {
  handle.of.destroyed(handle.represents);
  handle.represents = null;
};
const runCounters = (name, file) => {
  const { exports } = linked(readComponent(fs.readFileSync(file)), {});
  holds(`${name}: what it exports`, Object.keys(exports), ['example:counters/counters', 'example:counters/ranges']);
  const { count, '[constructor]counter': counter, '[method]counter.next': next, '[static]counter.sum': sum } = exports['example:counters/counters'];
  const { skip } = exports['example:counters/ranges'];
  const [one, other] = [counter(10), counter(5)];
  holds(`${name}: each counts for itself`, [next(one), next(one), next(other), next(one)], [10, 11, 5, 12]);
  holds(`${name}: another interface gets the same resource`, [skip(one, 7), next(one)], [20, 20]);
  holds(`${name}: two are in use`, count(), 2);
  const both = sum(one, other);
  holds(`${name}: the sum of both`, next(both), 27);
  holds(`${name}: the module dropped one`, count(), 1);
  holds(`${name}: no handle is left in the component`, Object.keys(both.of.handles), []);
  dropped(both);
  holds(`${name}: the destructor was called`, count(), 0);
  for (let i = 0; i < 100; i++) dropped(counter(i));
  holds(`${name}: none is left`, count(), 0);
  const eight = Array.from({ length: 8 }, (_, i) => counter(i));
  holds(`${name}: a ninth one traps`, traps(() => counter(8)), true);
  eight.forEach(dropped);
  holds(`${name}: all were destroyed`, count(), 0);
};

const runLines = (name, file) => {
  const lines = [];
  const { run, counted } = withShim(name, file, { log: line => { lines.push(line); } }, 'old', 'write');
  holds(`${name}: how many lines the adapter's function said`, run(), 4);
  holds(`${name}: what the adapter read in main's memory`, lines, ['one', 'two words', '', 'Grüße, 世界']);
  holds(`${name}: how many calls of main's function it made`, counted(), 4);
};

// A module with a WIT package in place of a record.
const runStore = (name, file) => {
  let lines = [];
  const since = () => {
    const before = lines;
    lines = [];
    return before;
  };
  const outside = { 'example:store/log': { log: (level, text) => { lines.push([level, text]); } } };
  const { exports } = linked(readComponent(fs.readFileSync(file)), outside);
  holds(`${name}: what it exports`, Object.keys(exports), ['example:store/store']);
  const { '[constructor]bucket': bucket, '[method]bucket.get': get, '[method]bucket.set': set } = exports['example:store/store'];
  const [one, other] = [bucket('Grüße'), bucket('other')];
  holds(`${name}: what is reported of two buckets`, since(), [['made', 'Grüße'], ['made', 'other']]);
  holds(`${name}: a key that isn't there`, [get(one, 'key'), since()], [null, [['missing', 'key']]]);
  set(one, 'key', [1, 2, 3]);
  set(other, 'key', []);
  holds(`${name}: each bucket has values of its own`, [get(one, 'key'), get(other, 'key')], [[1, 2, 3], []]);
  for (let i = 0; i < 1000; i++) set(one, 'key', [i % 256]);
  holds(`${name}: the last value that was set`, get(one, 'key'), [999 % 256]);
  holds(`${name}: nothing is reported of that`, since(), []);
  dropped(one);
  holds(`${name}: the destructor reports`, since(), [['dropped', 'Grüße']]);
  holds(`${name}: the other bucket is there`, get(other, 'key'), []);
};

const runStreams = (name, file) =>
  runLetters(name, (outside, store) => linked(readComponent(fs.readFileSync(file)), outside, () => {}, store).exports);

const runAsynchronous = (name, file) => runDownloads(name, (outside, store) => withShim(name, file, outside, '$root', 'fetch', store));

const RUNS = {
  main: runMain, strings: runStrings, log: runLog, squares: runSquares, people: runPeople, search: runSearch, counters: runCounters,
  lines: runLines, store: runStore, downloads: runAsynchronous, letters: runStreams,
};
runAll(RUNS, process.argv.slice(2));
