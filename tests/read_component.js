// Reads a component, as far as the components of the tests need it: a list of definitions in their order. It
// follows the component model's binary format; what it doesn't know is an error.
'use strict';

const TYPES = new Map([
  [0x7f, 'bool'], [0x7e, 's8'], [0x7d, 'u8'], [0x7c, 's16'], [0x7b, 'u16'], [0x7a, 's32'], [0x79, 'u32'], [0x78, 's64'],
  [0x77, 'u64'], [0x76, 'f32'], [0x75, 'f64'], [0x74, 'char'], [0x73, 'string'], [0x64, 'error-context'],
]);
const CORE_SORTS = ['func', 'table', 'memory', 'global'];
const SORTS = { 1: 'func', 3: 'type', 4: 'component', 5: 'instance' };

class Reader {
  constructor(bytes) {
    this.bytes = bytes;
    this.at = 0;
  }

  ended() {
    return this.at === this.bytes.length;
  }

  take(length) {
    if (length > this.bytes.length - this.at) throw new Error('the component ends early');
    this.at += length;
    return this.bytes.subarray(this.at - length, this.at);
  }

  byte() {
    return this.take(1)[0];
  }

  expect(...wanted) {
    for (const byte of wanted) {
      const got = this.byte();
      if (got !== byte) throw new Error(`byte ${got} at ${this.at - 1}, not ${byte}`);
    }
  }

  number() {
    let value = 0;
    for (let scale = 1; ; scale *= 128) {
      const byte = this.byte();
      value += (byte & 127) * scale;
      if (byte < 128) return value;
    }
  }

  name() {
    return Buffer.from(this.take(this.number())).toString('utf8');
  }

  list(read) {
    return Array.from({ length: this.number() }, () => read(this));
  }

  among(names, what) {
    const byte = this.byte();
    if (names[byte] === undefined) throw new Error(`no ${what} has the byte ${byte}`);
    return names[byte];
  }
}

const externName = from => {
  const suffixed = from.byte() === 1;
  const name = from.name();
  if (suffixed) from.name();
  return name;
};

// A type is the name of a primitive one, an index, or for a definition an object with one member.
const valueType = from => {
  const primitive = TYPES.get(from.bytes[from.at]);
  if (primitive === undefined) return from.number();
  from.byte();
  return primitive;
};
const field = from => ({ name: from.name(), type: valueType(from) });
const optionalType = from => (from.byte() === 0 ? null : valueType(from));
const variantCase = from => {
  const read = { name: from.name(), type: optionalType(from) };
  from.expect(0);
  return read;
};
const resultType = from => {
  if (from.byte() === 0) return valueType(from);
  from.expect(0);
  return null;
};
// A resource that the component defines: it is represented by an i32, and may have a destructor.
const resourceType = from => {
  from.expect(0x7f);
  return { destructor: from.byte() === 0 ? null : from.number() };
};
const definedType = from => {
  const form = from.byte();
  if (TYPES.has(form)) return TYPES.get(form);
  if (form === 0x72) return { record: from.list(field) };
  if (form === 0x69) return { own: from.number() };
  if (form === 0x68) return { borrow: from.number() };
  if (form === 0x66) return { stream: optionalType(from) };
  if (form === 0x70) return { list: valueType(from) };
  if (form === 0x6f) return { tuple: from.list(valueType) };
  if (form === 0x6e) return { flags: from.list(() => from.name()) };
  if (form === 0x6d) return { enum: from.list(() => from.name()) };
  if (form === 0x6b) return { option: valueType(from) };
  if (form === 0x71) return { variant: from.list(variantCase) };
  if (form === 0x6a) return { result: { ok: optionalType(from), err: optionalType(from) } };
  if (form === 0x40 || form === 0x43) return { params: from.list(field), result: resultType(from), async: form === 0x43 };
  if (form === 0x42) return { members: from.list(member) };
  if (form === 0x3f) return resourceType(from);
  throw new Error(`a type of the form ${form} isn't read`);
};

const alias = from => {
  const kind = from.byte();
  const core = kind === 0 ? from.among(CORE_SORTS, 'core sort') : null;
  const target = from.byte();
  if (core !== null && target === 1) return { define: 'core-alias', sort: core, instance: from.number(), name: from.name() };
  if (target === 0) return { define: 'alias', sort: SORTS[kind], instance: from.number(), name: from.name() };
  if (target === 2 && kind === 3) return { define: 'outer', count: from.number(), index: from.number() };
  throw new Error(`an alias of sort ${kind} and target ${target} isn't read`);
};
const description = from => {
  const sort = from.among(SORTS, 'sort');
  // a type is equal to another one, or a new resource
  if (sort === 'type' && from.byte() === 1) return { sort, index: null };
  return { sort, index: from.number() };
};
const member = from => {
  const form = from.byte();
  if (form === 1) return { define: 'type', type: definedType(from) };
  if (form === 2) return alias(from);
  if (form !== 4) throw new Error(`a member of the form ${form} isn't read`);
  return { define: 'export', name: externName(from), ...description(from) };
};

const coreInstance = from => {
  if (from.byte() === 1) {
    const entry = () => ({ name: from.name(), sort: from.among(CORE_SORTS, 'core sort'), index: from.number() });
    return { define: 'core-exports', entries: from.list(entry) };
  }
  const argument = () => {
    const name = from.name();
    from.expect(0x12);
    return { name, instance: from.number() };
  };
  return { define: 'core-instantiate', module: from.number(), args: from.list(argument) };
};

const instance = from => {
  from.expect(0);
  const argument = () => ({ name: from.name(), sort: from.among(SORTS, 'sort'), index: from.number() });
  return { define: 'instantiate', component: from.number(), args: from.list(argument) };
};

const OPTIONS = ['utf8', 'utf16', 'compact', 'memory', 'realloc', 'postReturn', 'async', 'callback'];
const options = from => {
  const read = { encoding: 'utf8', async: false };
  from.list(() => {
    const option = from.among(OPTIONS, 'option');
    if (OPTIONS.indexOf(option) < 3) read.encoding = option;
    else read[option] = option === 'async' ? true : from.number();
  });
  return read;
};
const CANONICAL = {
  0x00: 'lift', 0x01: 'lower', 0x02: 'resource-new', 0x03: 'resource-drop', 0x04: 'resource-rep', 0x09: 'task-return',
  0x0a: 'context-get', 0x0b: 'context-set', 0x0d: 'subtask-drop', 0x0e: 'stream-new', 0x0f: 'stream-read', 0x10: 'stream-write',
  0x13: 'stream-drop-readable', 0x14: 'stream-drop-writable', 0x1f: 'waitable-set-new', 0x22: 'waitable-set-drop',
  0x23: 'waitable-join',
};
const slot = from => {
  from.expect(0x7f);
  return { slot: from.number() };
};
const ofType = from => ({ type: from.number() });
const ofTypeWithOptions = from => ({ type: from.number(), options: options(from) });
// what a canonical function has behind its byte, where it has anything
const OPERANDS = {
  'resource-new': ofType,
  'resource-drop': ofType,
  'resource-rep': ofType,
  'stream-new': ofType,
  'stream-read': ofTypeWithOptions,
  'stream-write': ofTypeWithOptions,
  'stream-drop-readable': ofType,
  'stream-drop-writable': ofType,
  'task-return': from => ({ result: resultType(from), options: options(from) }),
  'context-get': slot,
  'context-set': slot,
};
const canonical = from => {
  const define = from.among(CANONICAL, 'canonical function');
  if (define !== 'lift' && define !== 'lower') return { define, ...OPERANDS[define]?.(from) };
  from.expect(0);
  const func = from.number();
  const read = { define, func, options: options(from) };
  return define === 'lift' ? { ...read, type: from.number() } : read;
};

const imported = from => ({ define: 'import', name: externName(from), ...description(from) });
const exported = from => {
  const read = { define: 'export', name: externName(from), sort: from.among(SORTS, 'sort'), index: from.number() };
  if (from.byte() === 1) description(from);
  return read;
};
const SECTIONS = {
  2: coreInstance,
  5: instance,
  6: alias,
  7: from => ({ define: 'type', type: definedType(from) }),
  8: canonical,
  10: imported,
  11: exported,
};

const readComponent = bytes => {
  const from = new Reader(bytes);
  from.expect(0x00, 0x61, 0x73, 0x6d, 0x0d, 0x00, 0x01, 0x00);
  const definitions = [];
  while (!from.ended()) {
    const id = from.byte();
    const section = new Reader(from.take(from.number()));
    if (id === 1) definitions.push({ define: 'core-module', bytes: section.bytes });
    else if (id === 4) definitions.push({ define: 'component', definitions: readComponent(section.bytes) });
    else if (SECTIONS[id] !== undefined) definitions.push(...section.list(SECTIONS[id]));
    else if (id !== 0) throw new Error(`a section ${id} isn't read`);
    if (SECTIONS[id] !== undefined && !section.ended()) throw new Error(`a section ${id} has bytes after its definitions`);
  }
  return definitions;
};

module.exports = { readComponent };
