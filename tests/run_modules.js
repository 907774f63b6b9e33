// Makes instances of generated core modules, calls them, and compares what they answer and which functions of the
// outside they call. The modules are the lines of crates/generated_modules/stdout: a name, and bytes in hexadecimal.
// Run by tests/run_modules.sh.
'use strict';
const fs = require('fs');
const path = require('path');

const list = path.join(__dirname, '..', 'crates', 'generated_modules', 'stdout');
const bytes = new Map(fs.readFileSync(list, 'utf8').trim().split('\n').map(line => {
  const [name, digits] = line.split(' ');
  return [name, Buffer.from(digits, 'hex')];
}));

// The standard writes the type (ref 0) with the byte 64, and an engine of the older draft with 6b. In these modules a
// mutable global of that type is defined as `64 00 01 d2`, and imported as `03 64 00 01`.
const olderDraft = from => {
  const to = Buffer.from(from);
  for (let i = 0; i + 3 < to.length; i++) {
    const held = to[i] === 0x64 && to[i + 1] === 0x00 && to[i + 2] === 0x01;
    if (held && (to[i + 3] === 0xd2 || to[i - 1] === 0x03)) to[i] = 0x6b;
  }
  return to;
};

const moduleOf = name => {
  const code = bytes.get(name);
  if (code === undefined) throw new Error(`no module ${name}`);
  try {
    return new WebAssembly.Module(code);
  } catch (fault) {
    return new WebAssembly.Module(olderDraft(code));
  }
};
const made = (name, imports = {}) => new WebAssembly.Instance(moduleOf(name), imports).exports;

// The functions of the outside write down their calls.
let calls = [];
const seen = (name, answer) => (...given) => {
  calls.push(`${name}(${given.join(',')})`);
  return typeof answer === 'function' ? answer() : answer;
};
const taken = () => {
  const text = calls.join(' ');
  calls = [];
  return text;
};
const traps = call => {
  try {
    call();
    return false;
  } catch (fault) {
    return fault instanceof WebAssembly.RuntimeError;
  }
};

let failed = 0;
const holds = (what, got, wanted) => {
  const ok = String(got) === String(wanted);
  if (!ok) failed++;
  console.log(ok ? `ok: ${what}` : `FAILED: ${what}: got ${got}, not ${wanted}`);
};

for (const form of ['table', 'ref']) {
  const shim = made(`${form}_shim`);
  holds(`${form}: one shim traps before it is filled`, traps(() => shim['0'](1, 2)), true);
  holds(`${form}: with no event`, taken(), '');
  made(`${form}_fill`, { shim, actual: { 0: seen('f') } });
  holds(`${form}: the fill makes no event`, taken(), '');
  shim['0'](5, 6);
  holds(`${form}: one shim hands on its parameters`, taken(), 'f(5,6)');

  const shims = made(`twelve_${form}_shims`);
  const actual = {};
  for (let i = 0; i < 12; i++) {
    actual[i] = seen(`f${i}`);
    holds(`${form}: shim ${i} of twelve traps before`, traps(() => shims[i](1, 2)), true);
  }
  made(`twelve_${form}_fills`, { shim: shims, actual });
  holds(`${form}: twelve fills make no event`, taken(), '');
  for (let i = 0; i < 12; i++) {
    shims[i](i, 100 + i);
    holds(`${form}: shim ${i} of twelve acts as function ${i}`, taken(), `f${i}(${i},${100 + i})`);
  }
}

{
  let code = 0;
  const main = { h: seen('h'), g: seen('g', () => code), cb: seen('cb', () => code) };
  const wrapped = made('code_wrappers', { main });
  holds('wrappers: nothing runs at first', taken(), '');
  for (const [answer, hook] of [[0, 5], [1, 4], [7, 4]]) {
    code = answer;
    holds(`callback that answers ${answer}: its result`, wrapped.hook1(7, 8, 9), answer);
    holds(`callback that answers ${answer}: hooks 3 and ${hook}`, taken(), `h(3) cb(7,8,9) h(${hook})`);
    holds(`entry that answers ${answer}: its result`, wrapped.hook0(), answer);
    holds(`entry that answers ${answer}: hooks 2 and ${hook}`, taken(), `h(2) g() h(${hook})`);
  }
}

{
  const wrapped = made('sync_wrappers', { main: { h: seen('h'), g: seen('g', 42), post: seen('post') } });
  holds('entry with a post-return: its result', wrapped.hook0(), 42);
  holds('entry with a post-return: hook 0 before', taken(), 'h(0) g()');
  wrapped.hook1(42);
  holds('post-return: hook 1 after', taken(), 'post(42) h(1)');
}

holds('one import: an instance', Object.keys(made('one_import', { main: { f: seen('f') } })).length, 0);
holds('one import: nothing runs', taken(), '');
made('imported_start', { main: { _initialize: seen('initialize') } });
holds('an imported start function runs once', taken(), 'initialize()');
made('hooks_around', { main: { i: seen('i'), h: seen('h') } });
holds('a start function between hooks 6 and 7', taken(), 'h(6) i() h(7)');

{
  const memory = new WebAssembly.Memory({ initial: 1 });
  const text = () => Buffer.from(memory.buffer, 16, 2).toString();
  made('data_and_call', { main: { memory, c: () => calls.push(`c, with ${text()}`) } });
  holds('bytes are placed before the start function', taken(), 'c, with hi');
}

{
  const memory = new WebAssembly.Memory({ initial: 1 });
  const number = value => new WebAssembly.Global({ value: 'i32', mutable: false }, value);
  made('address', { main: { b: number(1024), o: number(16), memory } });
  holds('an address is the sum of two globals', new DataView(memory.buffer).getUint32(64, true), 1040);
  made('address', { main: { b: number(-1), o: number(3), memory } });
  holds('a sum of 32 bits', new DataView(memory.buffer).getUint32(64, true), 2);
}

{
  const memory = made('memory').$memory;
  holds('a memory of one page', memory.buffer.byteLength, 65536);
}

{
  const cell = made('cell');
  holds('a cell is 0 at first', cell['$get-tls-base'](), 0);
  cell['$set-tls-base'](7);
  holds('a cell holds what was set', cell['$get-tls-base'](), 7);
}

console.log(failed === 0 ? 'all hold' : `${failed} failed`);
process.exitCode = failed === 0 ? 0 : 1;
