// Runs components of C and Rust programs in Node, over a host of WASI 0.2, and compares what they write and answer. Each argument is
// NAME=FILE, a component of the example NAME. Run by tests/run_programs.sh.
'use strict';
const fs = require('fs');
const { readComponent } = require('./read_component.js');
const { linked } = require('./link_component.js');
const { holds, runAll } = require('./checks.js');
const { Exit, hostOf } = require('./wasi_host.js');

const NOON = 1700049600n;

// A command runs once, in an instance of its own: its exit status, and what it wrote.
const ran = (definitions, args, environment, input) => {
  const host = hostOf({ args: ['program', ...args], environment, input, seconds: NOON });
  const { exports } = linked(definitions, host.outside);
  const [name] = Object.keys(exports).filter(one => one.startsWith('wasi:cli/run@'));
  try {
    const ended = exports[name].run();
    return { status: 'ok' in ended ? 0 : 1, ...host.texts() };
  } catch (fault) {
    if (!(fault instanceof Exit)) throw fault;
    return { status: fault.status, ...host.texts() };
  }
};
const runHello = (name, file) => {
  const definitions = readComponent(fs.readFileSync(file));
  const error = '2023-11-15\n';
  holds(`${name}: neither arguments nor an environment`, ran(definitions, [], {}, ''), { status: 0, output: 'Hello, world!\n0 lines\n', error });
  const two = ran(definitions, ['one', 'Grüße, 世界'], { HOME: '/', NAME: 'Zoë' }, 'a\nb\n');
  holds(`${name}: arguments, an environment and an input`, two, { status: 0, output: 'Hello, Zoë!\n1: one\n2: Grüße, 世界\n2 lines\n', error });
  const { status } = ran(definitions, ['a', 'b', 'c'], {}, '');
  holds(`${name}: an exit status`, status, 1);
  const long = ran(definitions, ['x'.repeat(3000)], {}, 'a line\n'.repeat(1000));
  holds(`${name}: a long argument and a long input`, long.output, `Hello, world!\n1: ${'x'.repeat(3000)}\n1000 lines\n`);
};

const runWords = (name, file) => {
  const definitions = readComponent(fs.readFileSync(file));
  const hamlet = ran(definitions, ['or'], {}, 'To be, or not to be,\nthat is the question\n');
  holds(`${name}: the most frequent first`, hamlet, { status: 0, output: '2 be,\n2 to\n1 is\n1 not\n1 question\n1 that\n1 the\n', error: '' });
  const letters = ran(definitions, [], {}, 'Ärger ärger 世界\n');
  holds(`${name}: letters of other languages`, letters, { status: 0, output: '2 ärger\n1 世界\n', error: '' });
  holds(`${name}: no words`, ran(definitions, ['a'], {}, 'a A\n'), { status: 1, output: '', error: 'no words\n' });
  const told = ran(definitions, [], { NOTHING: 'nichts' }, '');
  holds(`${name}: an environment`, told, { status: 1, output: '', error: 'nichts\n' });
  const long = ran(definitions, [], {}, 'a line of words\n'.repeat(5000));
  holds(`${name}: a long input`, long.output, '5000 a\n5000 line\n5000 of\n5000 words\n');
};

// A reactor has state between calls.
const runVisitors = (name, file) => {
  const host = hostOf({ args: ['visitors'], environment: {}, input: '', seconds: NOON });
  const { exports } = linked(readComponent(fs.readFileSync(file)), host.outside);
  holds(`${name}: it is initialized before the first call`, host.texts(), { output: '', error: 'the book is open\n' });
  const names = ['Ada', 'Zoë', 'Ada', ''];
  holds(`${name}: answers`, names.map(one => exports.visit(one)), ['Welcome, Ada', 'Welcome, Zoë', 'Welcome back, Ada', 'Welcome, ']);
  holds(`${name}: what was written`, host.texts().output, '1: Ada\n2: Zoë\n3: Ada\n4: \n');
  for (let i = 0; i < 1000; i++) exports.visit('x'.repeat(i));
  holds(`${name}: how many came`, exports.count(), 1004);
  holds(`${name}: it is initialized once`, host.texts().error, 'the book is open\n');
};

const RUNS = { hello: runHello, visitors: runVisitors, words: runWords };
runAll(RUNS, process.argv.slice(2));
