// Runs the component of examples/letters, and compares what happens in it and to it. Called by run_components.js.
'use strict';
const { CopyResult, Store, packedCopy, saidCopy } = require('./event_loop.js');
const { BufferHostImpl, SharedStreamImpl } = require('./streams.js');
const { holds } = require('./checks.js');

// One end of a stream, outside. What has come of a read or a write is an event, as it is in a component, and is told.
class Outside {
  constructor(host, verb, shared) {
    Object.assign(this, { host, verb, shared, event: null });
    host.ends.push(this);
  }

  // Where all of the buffer is to go on its way, what is left does once a part has.
  copy(buffer, isForAll = false) {
    const told = result => {
      this.host.told(`the host ${this.verb}s ${saidCopy(packedCopy(result, buffer.progress))}`);
      if (isForAll && result === CopyResult.COMPLETED && buffer.remain() > 0) this.copy(buffer, isForAll);
    };
    const onCopy = reclaim => {
      this.event = () => {
        reclaim();
        told(CopyResult.COMPLETED);
      };
    };
    this.shared[this.verb](null, buffer, onCopy, result => { this.event = () => told(result); });
    return buffer.values;
  }

  // Whether there was an event.
  tick() {
    const { event } = this;
    this.event = null;
    event?.();
    return event !== null;
  }

  drop() {
    this.host.told(`the host ${this.verb}s no more`);
    this.shared.drop();
  }
}

class Host {
  constructor() {
    this.isShown = true;
    this.lines = [];
    this.ends = [];
    this.store = new Store(line => this.told(line));
  }

  told(line) {
    if (this.isShown) console.log(`    ${line}`);
    this.lines.push(line);
  }

  // A call: the end that is written outside, and the one that is read there.
  call(exports) {
    const letters = new SharedStreamImpl('u8');
    let capitals = null;
    exports.capitals(() => [letters], result => { capitals = result; });
    return { letters: new Outside(this, 'write', letters), capitals: new Outside(this, 'read', capitals) };
  }

  // The loop runs until no task can go on, and no end. The answer is what happened.
  ran() {
    while (this.ends.some(end => end.tick()) || this.store.tick());
    return this.lines.splice(0);
  }
}

const bytesOf = text => [...Buffer.from(text)];
const write = (call, text) => call.letters.copy(new BufferHostImpl(bytesOf(text)));
const writeAll = (call, text) => call.letters.copy(new BufferHostImpl(bytesOf(text)), true);
const read = (call, length) => call.capitals.copy(new BufferHostImpl([], length));
const readAll = (call, length) => call.capitals.copy(new BufferHostImpl([], length), true);
const textOf = bytes => Buffer.from(bytes).toString();

const BEGUN = [
  'task 1 is called', 'task 1 has made a stream, 2 to 3', 'task 1 returns', 'task 1 reads from 1: BLOCKED', 'task 1 answers WAIT for set 4',
];
const WRITTEN = [
  'the host writes 3 COMPLETED',
  'task 1 is given STREAM_READ 1: 3 COMPLETED', 'task 1 writes to 3: BLOCKED', 'task 1 answers WAIT for set 4',
];
const READ = [
  'the host reads 2 COMPLETED',
  'task 1 is given STREAM_WRITE 3: 2 COMPLETED', 'task 1 writes to 3: BLOCKED', 'task 1 answers WAIT for set 4',
];
const PARTS = [
  'the host reads 1 COMPLETED',
  'task 1 is given STREAM_WRITE 3: 1 COMPLETED', 'task 1 reads from 1: 8 COMPLETED', 'task 1 writes to 3: BLOCKED',
  'task 1 answers WAIT for set 4',
  'the host writes 8 COMPLETED',
];
const ENDED = [
  'the host writes no more', 'the host reads 8 COMPLETED',
  'task 1 is given STREAM_WRITE 3: 8 COMPLETED', 'task 1 reads from 1: 0 DROPPED',
  '1 of a stream is dropped', '3 of a stream is dropped', 'task 1 answers EXIT',
];
const NOT_READ = [
  'task 2 is called', 'task 2 has made a stream, 3 to 1', 'task 2 returns', 'task 2 reads from 4: BLOCKED', 'task 2 answers WAIT for set 2',
  'the host reads no more', 'the host writes 3 COMPLETED',
  'task 2 is given STREAM_READ 4: 3 COMPLETED', 'task 2 writes to 1: 0 DROPPED',
  '4 of a stream is dropped', '1 of a stream is dropped', 'task 2 answers EXIT',
];

// One stream after the other, and several at once.
const runMany = (name, host, exports) => {
  host.isShown = false;
  const text = 'The quick brown fox. '.repeat(50);
  const begun = () => {
    const call = host.call(exports);
    writeAll(call, text);
    return { call, letters: readAll(call, text.length) };
  };
  const ended = ({ call, letters }) => {
    host.ran();
    call.letters.drop();
    host.ran();
    return textOf(letters);
  };
  const several = Array.from({ length: 10 }, begun);
  holds(`${name}: ten streams at once`, several.map(ended), several.map(() => text.toUpperCase()));
  const inTurn = Array.from({ length: 100 }, () => ended(begun()));
  holds(`${name}: a hundred in turn`, inTurn.every(it => it === text.toUpperCase()), true);
};

// `component` makes an instance over an outside and a loop.
const runLetters = (name, component) => {
  const host = new Host();
  const exports = component({}, host.store);
  const compare = (what, wanted) => holds(`${name}: ${what}`, host.ran(), wanted);
  const call = host.call(exports);
  compare('a task waits for letters', BEGUN);
  write(call, 'abc');
  compare('it is given some', WRITTEN);
  const parts = [read(call, 2)];
  compare('two of them are read', READ);
  write(call, 'defghijk');
  parts.push(read(call, 100));
  compare('the last one, and more letters', PARTS);
  call.letters.drop();
  parts.push(read(call, 100));
  compare('there are no more', ENDED);
  holds(`${name}: all that is read`, parts.map(textOf), ['AB', 'C', 'DEFGHIJK']);
  const other = host.call(exports);
  other.capitals.drop();
  write(other, 'abc');
  compare('nobody reads', NOT_READ);
  write(other, 'def');
  compare('nobody writes any more', ['the host writes 0 DROPPED']);
  runMany(name, host, exports);
};

module.exports = { runLetters };
