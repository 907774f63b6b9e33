// Streams, as the Canonical ABI has them, by the names that its definitions have there: what the two ends of a stream share, the ends
// for which a component has indices, and the built-in functions of a stream.
//
// A stream outside a component is a `SharedStreamImpl`, which is read and written by buffers. Not here: cancellation, and reads and
// writes that suspend core code in its middle.
'use strict';
const { isDeepStrictEqual } = require('util');
const { checkedItems, readItems, storeItems } = require('./canonical_abi.js');
const { CopyResult, EventCode, Waitable, packedCopy, saidCopy, trapIf } = require('./event_loop.js');

const CopyState = { IDLE: 0, ASYNC_COPYING: 1, DONE: 2 };
const MAX_LENGTH = 2 ** 28 - 1;
const BLOCKED = 0xffffffff;
const NUMBERS = ['bool', 'u8', 's8', 'u16', 's16', 'u32', 's32', 'u64', 's64', 'f32', 'f64'];
const isNoneOrNumber = type => type === null || NUMBERS.includes(type);

// A place for values, or the values, in the memory of a component.
class BufferGuestImpl {
  constructor(type, options, address, length) {
    trapIf(length > MAX_LENGTH, 'a buffer is longer than a stream can say');
    const start = type === null || length === 0 ? 0 : checkedItems(options, type, address, length);
    Object.assign(this, { type, options, start, length, progress: 0 });
  }

  remain() {
    return this.length - this.progress;
  }

  read(count) {
    const first = this.progress;
    this.progress += count;
    return this.type === null ? Array(count).fill(undefined) : readItems(this.options, this.type, this.start, first, count);
  }

  write(values) {
    if (this.type !== null) storeItems(this.options, this.type, this.start, this.progress, values);
    this.progress += values.length;
  }
}

// The same outside: a list of values, which grows to a length where it is written.
class BufferHostImpl {
  constructor(values, length = values.length) {
    Object.assign(this, { values, length, progress: 0 });
  }

  remain() {
    return this.length - this.progress;
  }

  read(count) {
    this.progress += count;
    return this.values.slice(this.progress - count, this.progress);
  }

  write(values) {
    this.values.push(...values);
    this.progress += values.length;
  }
}

// What both ends have: whether one of them was dropped, and the read or the write that waits for the other end. Where that goes on,
// `onCopy` is called with a function that ends its waiting, and `onCopyDone` with how it ended.
class SharedStreamImpl {
  constructor(t) {
    this.t = t;
    this.dropped = false;
    this.resetPending();
  }

  resetPending() {
    this.pending = null;
  }

  setPending(inst, buffer, onCopy, onCopyDone) {
    this.pending = { inst, buffer, onCopy, onCopyDone };
  }

  resetAndNotifyPending(result) {
    const { onCopyDone } = this.pending;
    this.resetPending();
    onCopyDone(result);
  }

  drop() {
    if (this.dropped) return;
    this.dropped = true;
    if (this.pending !== null) this.resetAndNotifyPending(CopyResult.DROPPED);
  }

  // Values go from the one buffer to the other, as many as fit.
  copied(from, to) {
    to.write(from.read(Math.min(from.remain(), to.remain())));
    this.pending.onCopy(() => this.resetPending());
  }

  // Whether a read or a write meets one that waits. Else it waits itself, or is over.
  meets(inst, buffer, onCopy, onCopyDone) {
    if (this.dropped) onCopyDone(CopyResult.DROPPED);
    else if (this.pending === null) this.setPending(inst, buffer, onCopy, onCopyDone);
    else {
      trapIf(inst !== null && inst === this.pending.inst && !isNoneOrNumber(this.t), 'an instance reads what it writes');
      return true;
    }
    return false;
  }

  // It ends the one that waits, and waits in its place.
  takesTurn(inst, buffer, onCopy, onCopyDone) {
    this.resetAndNotifyPending(CopyResult.COMPLETED);
    this.setPending(inst, buffer, onCopy, onCopyDone);
  }

  read(inst, buffer, onCopy, onCopyDone) {
    if (!this.meets(inst, buffer, onCopy, onCopyDone)) return;
    if (this.pending.buffer.remain() === 0) this.takesTurn(inst, buffer, onCopy, onCopyDone);
    else {
      if (buffer.remain() > 0) this.copied(this.pending.buffer, buffer);
      onCopyDone(CopyResult.COMPLETED);
    }
  }

  write(inst, buffer, onCopy, onCopyDone) {
    if (!this.meets(inst, buffer, onCopy, onCopyDone)) return;
    if (this.pending.buffer.remain() > 0) {
      if (buffer.remain() > 0) this.copied(buffer, this.pending.buffer);
      onCopyDone(CopyResult.COMPLETED);
    } else if (buffer.length === 0 && this.pending.buffer.length === 0) onCopyDone(CopyResult.COMPLETED);
    else this.takesTurn(inst, buffer, onCopy, onCopyDone);
  }
}

class StreamEnd extends Waitable {
  constructor(shared) {
    super();
    this.shared = shared;
    this.state = CopyState.IDLE;
  }

  drop() {
    trapIf(this.state === CopyState.ASYNC_COPYING, 'an end of a stream is dropped that is copying');
    this.shared.drop();
    super.drop();
  }
}

class ReadableStreamEnd extends StreamEnd {
  copy(...of) {
    this.shared.read(...of);
  }
}

class WritableStreamEnd extends StreamEnd {
  copy(...of) {
    this.shared.write(...of);
  }
}

const endOf = (inst, Kind, type, index) => {
  const end = inst.table.get(index, Kind);
  trapIf(!isDeepStrictEqual(end.shared.t, type.stream), `${index} is an end of another stream`);
  return end;
};

// How streams are passed: a component has the readable end of each that it was given.
class Ends {
  constructor(inst) {
    this.inst = inst;
  }

  given(type, shared) {
    if (!isDeepStrictEqual(shared.t, type.stream)) throw new Error('a stream of another type');
    return this.inst.table.add(new ReadableStreamEnd(shared));
  }

  taken(type, index) {
    const end = endOf(this.inst, ReadableStreamEnd, type, index);
    trapIf(end.state !== CopyState.IDLE, 'an end of a stream is given away that is copying, or at its end');
    end.join(null);
    return this.inst.table.remove(index, ReadableStreamEnd).shared;
  }
}

// `canon stream.new`: the index of the readable end, and in the upper half that of the writable one.
const canonStreamNew = (inst, type) => () => {
  const shared = new SharedStreamImpl(type.stream);
  const readable = inst.table.add(new ReadableStreamEnd(shared));
  const writable = inst.table.add(new WritableStreamEnd(shared));
  inst.task.told(`has made a stream, ${readable} to ${writable}`);
  return BigInt(readable) | BigInt(writable) << 32n;
};

// `canon stream.read` and `canon stream.write`, asynchronous ones: what has come of it, unless it is BLOCKED.
const canonStreamCopy = (Kind, code, verb) => (inst, type, options) => {
  if (!options.async) throw new Error('a stream is read and written asynchronously here');
  return (index, address, length) => {
    const end = endOf(inst, Kind, type, index);
    trapIf(end.state !== CopyState.IDLE, `${index} is copying, or at its end`);
    const buffer = new BufferGuestImpl(type.stream, options, address, length >>> 0);
    const setPending = (result, reclaim) => end.setPendingEvent(() => {
      reclaim();
      end.state = result === CopyResult.DROPPED ? CopyState.DONE : CopyState.IDLE;
      return [code, index, packedCopy(result, buffer.progress)];
    });
    const onCopy = reclaim => setPending(CopyResult.COMPLETED, reclaim);
    const onCopyDone = result => setPending(result, () => {});
    end.copy(inst, buffer, onCopy, onCopyDone);
    if (!end.hasPendingEvent()) {
      end.state = CopyState.ASYNC_COPYING;
      inst.task.told(`${verb} ${index}: BLOCKED`);
      return BLOCKED;
    }
    const [, , packed] = end.getPendingEvent();
    inst.task.told(`${verb} ${index}: ${saidCopy(packed)}`);
    return packed;
  };
};

const canonStreamDrop = Kind => (inst, type) => index => {
  endOf(inst, Kind, type, index);
  inst.table.drop(index, Kind);
  inst.store.told(`${index} of a stream is dropped`);
};

// By the names of `read_component.js`: of an instance, a type and, where there are any, options.
const STREAM_BUILT_INS = {
  'stream-new': canonStreamNew,
  'stream-read': canonStreamCopy(ReadableStreamEnd, EventCode.STREAM_READ, 'reads from'),
  'stream-write': canonStreamCopy(WritableStreamEnd, EventCode.STREAM_WRITE, 'writes to'),
  'stream-drop-readable': canonStreamDrop(ReadableStreamEnd),
  'stream-drop-writable': canonStreamDrop(WritableStreamEnd),
};

module.exports = { BufferHostImpl, Ends, STREAM_BUILT_INS, SharedStreamImpl };
