// A host of WASI 0.2 for programs that have arguments and an environment, read standard input, write standard output and standard
// error, and ask for the time: what a component imports of it, by the names of interfaces without their versions. A function that
// isn't here is an error when it is called.
'use strict';

// What a program throws that ends by `wasi:cli/exit`, with its status.
class Exit extends Error {
  constructor(status) {
    super(`exit ${status}`);
    this.status = status;
  }
}

const MOST_BYTES = 4096;
const SECOND = 1000000000n;

// What a stream of input has left is its `bytes`; a stream of output hands what it gets to `write`.
const streams = {
  'wasi:io/streams': {
    '[method]input-stream.read': (stream, most) => taken(stream, most),
    '[method]input-stream.blocking-read': (stream, most) => taken(stream, most),
    '[method]input-stream.subscribe': () => ({}),
    '[method]output-stream.check-write': () => ({ ok: BigInt(MOST_BYTES) }),
    '[method]output-stream.write': (stream, bytes) => written(stream, bytes),
    '[method]output-stream.blocking-write-and-flush': (stream, bytes) => written(stream, bytes),
    '[method]output-stream.blocking-flush': () => ({ ok: null }),
    '[method]output-stream.subscribe': () => ({}),
  },
  'wasi:io/poll': { '[method]pollable.block': () => {}, poll: pollables => pollables.map((_, i) => i) },
};
const taken = (stream, most) => {
  const count = Math.min(stream.bytes.length, Number(most), MOST_BYTES);
  if (count === 0 && most > 0n) return { err: { closed: null } };
  const bytes = stream.bytes.subarray(0, count);
  stream.bytes = stream.bytes.subarray(count);
  return { ok: bytes };
};
const written = (stream, bytes) => {
  stream.write(Uint8Array.from(bytes));
  return { ok: null };
};

// What depends on the run: its arguments (the first is the program's name), its environment as an object, the text of its standard
// input, and the seconds of its clock. `output` gets the bytes of standard output, and `error` those of standard error.
const commandLine = ({ args, environment, input, seconds }, output, error) => ({
  'wasi:cli/environment': {
    'get-arguments': () => args,
    'get-environment': () => Object.entries(environment),
    'initial-cwd': () => null,
  },
  'wasi:cli/exit': {
    exit: status => {
      throw new Exit('ok' in status ? 0 : 1);
    },
  },
  'wasi:cli/stdin': { 'get-stdin': () => ({ bytes: Buffer.from(input) }) },
  'wasi:cli/stdout': { 'get-stdout': () => ({ write: output }) },
  'wasi:cli/stderr': { 'get-stderr': () => ({ write: error }) },
  'wasi:cli/terminal-stdin': { 'get-terminal-stdin': () => null },
  'wasi:cli/terminal-stdout': { 'get-terminal-stdout': () => null },
  'wasi:cli/terminal-stderr': { 'get-terminal-stderr': () => null },
  'wasi:clocks/wall-clock': { now: () => ({ seconds, nanoseconds: 0 }), resolution: () => ({ seconds: 1n, nanoseconds: 0 }) },
  'wasi:clocks/monotonic-clock': { now: () => seconds * SECOND, resolution: () => SECOND },
  'wasi:filesystem/preopens': { 'get-directories': () => [] },
  'wasi:random/random': { 'get-random-bytes': count => new Uint8Array(Number(count)) },
});

// The host of a run. `outside` has what a component imports; `texts` answers what was written so far.
const hostOf = run => {
  const parts = { output: [], error: [] };
  const known = { ...streams, ...commandLine(run, bytes => parts.output.push(bytes), bytes => parts.error.push(bytes)) };
  const functions = name => new Proxy(known[name.split('@')[0]] ?? {}, {
    get: (its, field) => its[field] ?? (() => { throw new Error(`this host has no ${name} ${field}`); }),
  });
  const text = bytes => Buffer.concat(bytes).toString();
  return {
    outside: new Proxy({}, { get: (_, name) => functions(name) }),
    texts: () => ({ output: text(parts.output), error: text(parts.error) }),
  };
};

module.exports = { Exit, hostOf };
