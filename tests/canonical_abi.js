// Calls between JavaScript and core functions, by the Canonical ABI: synchronous ones, and what event_loop.js has in common with them. A
// type is the name of a primitive one, or an object with one member that says its form: `list`, `option`, `own` and `borrow`
// have one type or resource, `tuple` a list of types, `record` and `variant` a list of `{ name, type }`, `enum` and `flags` a
// list of labels, `stream` a type or null, and `result` has `{ ok, err }`, each a type or null. The type of a function is
// `{ params: [{ name, type }], result: type or null }`.
//
// In JavaScript an option that is none is null, an enum is its label, flags are the list of those that are set, and a variant or
// a result is an object with one member, its case. `options` are those of one call: `memory`, `realloc`, `postReturn`, and `ends`,
// by which a stream gets an index in a component and loses it.
'use strict';

// the accessor of a view that reads or writes a primitive value
const NUMBERS = {
  bool: 'Uint8', s8: 'Int8', u8: 'Uint8', s16: 'Int16', u16: 'Uint16', s32: 'Int32', u32: 'Uint32', char: 'Uint32',
  s64: 'BigInt64', u64: 'BigUint64', f32: 'Float32', f64: 'Float64',
};
const CORE = { i32: 'Int32', i64: 'BigInt64', f32: 'Float32', f64: 'Float64' };
const FROM_NUMBER = { bool: number => number !== 0, char: number => String.fromCodePoint(number) };
const TO_NUMBER = { bool: value => (value ? 1 : 0), char: value => value.codePointAt(0) };
const MOST_PARAMETERS = 16;
const MOST_RESULTS = 1;
const MOST_FLAGS = 32;
const roundUp = (at, alignment) => Math.ceil(at / alignment) * alignment;
const bytesOf = accessor => Number(accessor.match(/\d+$/)[0]) / 8;
const isIndex = type => type.own !== undefined || type.borrow !== undefined || type.stream !== undefined;

// What a type is a shorter form of (Canonical ABI: despecialize): the fields of a record, and the cases of a variant.
const fieldsOf = type => type.record ?? type.tuple?.map((of, i) => ({ name: i, type: of }));
const casesOf = type => {
  if (type.enum !== undefined) return type.enum.map(name => ({ name, type: null }));
  if (type.option !== undefined) return [{ name: 'none', type: null }, { name: 'some', type: type.option }];
  if (type.result !== undefined) return [{ name: 'ok', type: type.result.ok }, { name: 'err', type: type.result.err }];
  return type.variant;
};
const payloadsOf = type => casesOf(type).flatMap(({ type: of }) => (of === null ? [] : [of]));

// ---- values in memory

const caseAccessor = type => {
  const count = casesOf(type).length;
  return count <= 256 ? 'Uint8' : count <= 65536 ? 'Uint16' : 'Uint32';
};
const flagsAccessor = type => {
  const count = type.flags.length;
  if (count > MOST_FLAGS) throw new Error('no flags have so many labels');
  return count <= 8 ? 'Uint8' : count <= 16 ? 'Uint16' : 'Uint32';
};
// how a value is in memory that is one number there, apart from handles
const accessorOf = type => NUMBERS[type] ?? (type.flags === undefined ? undefined : flagsAccessor(type));
const alignmentOf = type => {
  if (accessorOf(type) !== undefined) return bytesOf(accessorOf(type));
  if (type === 'string' || type.list !== undefined || isIndex(type)) return 4;
  if (fieldsOf(type) !== undefined) return Math.max(1, ...fieldsOf(type).map(field => alignmentOf(field.type)));
  if (casesOf(type) === undefined) throw new Error(`no values of the type ${JSON.stringify(type)} are passed here`);
  return Math.max(bytesOf(caseAccessor(type)), ...payloadsOf(type).map(alignmentOf));
};
// how far behind its beginning a variant has what its case holds
const payloadOffset = type => roundUp(bytesOf(caseAccessor(type)), Math.max(1, ...payloadsOf(type).map(alignmentOf)));
const sizeOf = type => {
  if (accessorOf(type) !== undefined || isIndex(type)) return alignmentOf(type);
  if (type === 'string' || type.list !== undefined) return 8;
  const end = fieldsOf(type) === undefined
    ? payloadOffset(type) + Math.max(0, ...payloadsOf(type).map(sizeOf))
    : fieldsOf(type).reduce((at, field) => roundUp(at, alignmentOf(field.type)) + sizeOf(field.type), 0);
  return roundUp(end, alignmentOf(type));
};
// the fields of a record in memory, each with its address
const placed = (type, start) => {
  let at = start;
  return fieldsOf(type).map(field => {
    const begin = roundUp(at, alignmentOf(field.type));
    at = begin + sizeOf(field.type);
    return { ...field, at: begin };
  });
};

// An address that was answered or passed: it is aligned, and the bytes are in memory.
const checked = (options, address, alignment, length) => {
  const at = address >>> 0;
  if (at % alignment !== 0) throw new Error(`address ${at} is not aligned to ${alignment}`);
  if (at + length > options.memory.buffer.byteLength) throw new Error(`${length} bytes at ${at} are not in memory`);
  return at;
};
const allocated = (options, alignment, length) =>
  checked(options, options.realloc(0, 0, alignment, length), alignment, length);
const viewOf = options => new DataView(options.memory.buffer);

// ---- values in core values

// the core types of a value outside memory; what the cases of a variant hold shares core values
const joined = (one, other) => {
  if (one === undefined || one === other) return other;
  return [one, other].every(core => core === 'i32' || core === 'f32') ? 'i32' : 'i64';
};
const flatTypes = type => {
  if (type === 's64' || type === 'u64') return ['i64'];
  if (type === 'f32' || type === 'f64') return [type];
  if (accessorOf(type) !== undefined || isIndex(type)) return ['i32'];
  if (type === 'string' || type.list !== undefined) return ['i32', 'i32'];
  if (fieldsOf(type) !== undefined) return fieldsOf(type).flatMap(field => flatTypes(field.type));
  const shared = [];
  for (const payload of payloadsOf(type)) flatTypes(payload).forEach((core, i) => { shared[i] = joined(shared[i], core); });
  return ['i32', ...shared];
};
// a core value as one of another type with the same bits
const recast = (value, from, to) => {
  if (from === to) return value;
  const cell = new DataView(new ArrayBuffer(8));
  cell[`set${CORE[from]}`](0, value, true);
  return cell[`get${CORE[to]}`](0, true);
};

// ---- from core values and memory

// a number of memory or of a core value, as the value that it is
const valueOf = (type, number) => {
  if (type.flags !== undefined) return type.flags.filter((_, i) => number >>> i & 1);
  return FROM_NUMBER[type]?.(number) ?? number;
};
const readText = (options, address, length) => {
  const at = checked(options, address, 1, length);
  return new TextDecoder('utf-8', { fatal: true, ignoreBOM: true }).decode(new Uint8Array(options.memory.buffer, at, length));
};
const readList = (options, type, address, length) => {
  const start = checked(options, address, alignmentOf(type), length * sizeOf(type));
  return Array.from({ length }, (_, i) => read(options, type, start + i * sizeOf(type)));
};
// a record, or a tuple, of which `value` answers the value of each field
const recordOf = (type, fields, value) => {
  const entries = fields.map(field => [field.name, value(field)]);
  return type.tuple === undefined ? Object.fromEntries(entries) : entries.map(([, of]) => of);
};
// the case of this number, which holds what `payload` answers
const caseOf = (type, number, payload) => {
  const found = casesOf(type)[number];
  if (found === undefined) throw new Error(`${JSON.stringify(type)} has no case ${number}`);
  const held = found.type === null ? null : payload(found.type);
  if (type.enum !== undefined) return found.name;
  return type.option === undefined ? { [found.name]: held } : held;
};
const read = (options, type, at) => {
  const view = viewOf(options);
  if (accessorOf(type) !== undefined) return valueOf(type, view[`get${accessorOf(type)}`](at, true));
  if (fieldsOf(type) !== undefined) return recordOf(type, placed(type, at), field => read(options, field.type, field.at));
  if (casesOf(type) !== undefined) {
    return caseOf(type, view[`get${caseAccessor(type)}`](at, true), payload => read(options, payload, at + payloadOffset(type)));
  }
  if (isIndex(type)) return lift(options, type, [view.getUint32(at, true)]);
  return lift(options, type, [view.getUint32(at, true), view.getUint32(at + 4, true)]);
};
// a number as one of a type has it, whose other bits don't count
const narrowed = (type, number) => {
  const cell = new DataView(new ArrayBuffer(8));
  cell[`set${NUMBERS[type]}`](0, number, true);
  return cell[`get${NUMBERS[type]}`](0, true);
};
// A value from the first of these core values, which it takes off.
const lift = (options, type, values) => {
  if (NUMBERS[type] !== undefined) return valueOf(type, type === 'bool' ? values.shift() : narrowed(type, values.shift()));
  if (type.flags !== undefined) return valueOf(type, values.shift());
  if (fieldsOf(type) !== undefined) return recordOf(type, fieldsOf(type), field => lift(options, field.type, values));
  if (type.own !== undefined) return type.own.taken(values.shift());
  if (type.borrow !== undefined) return type.borrow.lent(values.shift());
  if (type.stream !== undefined) return options.ends.taken(type, values.shift());
  if (casesOf(type) !== undefined) {
    const [number, ...shared] = values.splice(0, flatTypes(type).length);
    const of = payload => flatTypes(payload).map((core, i) => recast(shared[i], flatTypes(type)[i + 1], core));
    return caseOf(type, number, payload => lift(options, payload, of(payload)));
  }
  const [address, length] = [values.shift() >>> 0, values.shift() >>> 0];
  return type === 'string' ? readText(options, address, length) : readList(options, type.list, address, length);
};

// ---- to core values and memory

const numberOf = (type, value) => {
  if (type.flags !== undefined) return value.reduce((bits, label) => bits | 1 << labelIndex(type.flags, label), 0) >>> 0;
  return TO_NUMBER[type]?.(value) ?? value;
};
const labelIndex = (labels, label) => {
  if (!labels.includes(label)) throw new Error(`there is no label ${label}`);
  return labels.indexOf(label);
};
// the number of a value's case, its type, and what it holds
const takenApart = (type, value) => {
  let name = value;
  let held = null;
  if (type.option !== undefined) [name, held] = [value === null ? 'none' : 'some', value];
  else if (type.enum === undefined) [[name, held]] = Object.entries(value);
  const number = labelIndex(casesOf(type).map(one => one.name), name);
  return { number, payload: casesOf(type)[number].type, held };
};
const writtenText = (options, text) => {
  const bytes = new TextEncoder().encode(text);
  const at = allocated(options, 1, bytes.length);
  new Uint8Array(options.memory.buffer).set(bytes, at);
  return [at, bytes.length];
};
const writeItems = (options, type, start, list) =>
  Array.from(list).forEach((value, i) => write(options, type, start + i * sizeOf(type), value));
const writtenList = (options, type, list) => {
  const start = allocated(options, alignmentOf(type), list.length * sizeOf(type));
  writeItems(options, type, start, list);
  return [start, list.length];
};
const write = (options, type, at, value) => {
  if (accessorOf(type) !== undefined) viewOf(options)[`set${accessorOf(type)}`](at, numberOf(type, value), true);
  else if (fieldsOf(type) !== undefined) {
    placed(type, at).forEach(field => write(options, field.type, field.at, value[field.name]));
  } else if (casesOf(type) !== undefined) {
    const { number, payload, held } = takenApart(type, value);
    viewOf(options)[`set${caseAccessor(type)}`](at, number, true);
    if (payload !== null) write(options, payload, at + payloadOffset(type), held);
  } else lower(options, type, value).forEach((word, i) => viewOf(options).setUint32(at + 4 * i, word, true));
};
// The core values of a value.
const lower = (options, type, value) => {
  if (accessorOf(type) !== undefined) return [numberOf(type, value)];
  if (type === 'string') return writtenText(options, value);
  if (type.list !== undefined) return writtenList(options, type.list, value);
  if (type.own !== undefined) return [type.own.given(value)];
  if (type.borrow !== undefined) return [type.borrow.shown(value)];
  if (type.stream !== undefined) return [options.ends.given(type, value)];
  if (fieldsOf(type) !== undefined) return fieldsOf(type).flatMap(field => lower(options, field.type, value[field.name]));
  const { number, payload, held } = takenApart(type, value);
  const values = payload === null ? [] : lower(options, payload, held);
  const shared = flatTypes(type).slice(1).map((core, i) => {
    if (i >= values.length) return core === 'i64' ? 0n : 0;
    return recast(values[i], flatTypes(payload)[i], core);
  });
  return [number, ...shared];
};

// ---- functions

const flatCount = types => types.reduce((sum, type) => sum + flatTypes(type).length, 0);
const paramTypes = type => type.params.map(param => param.type);
const hasResultInMemory = type => type.result !== null && flatCount([type.result]) > MOST_RESULTS;
const checkEncoding = options => {
  if (options.encoding !== 'utf8') throw new Error('strings are passed in UTF-8 here');
};

// The values of these types that core values say, of which the first ones are taken away. Where they are more than the most, the
// first one is the address of all.
const liftFlatValues = (options, most, values, types) => {
  if (flatCount(types) <= most) return types.map(type => lift(options, type, values));
  const all = { tuple: types };
  return read(options, all, checked(options, values.shift(), alignmentOf(all), sizeOf(all)));
};
const lowerFlatValues = (options, most, given, types) => {
  if (flatCount(types) <= most) return types.flatMap((type, i) => lower(options, type, given[i]));
  const all = { tuple: types };
  const at = allocated(options, alignmentOf(all), sizeOf(all));
  write(options, all, at, given);
  return [at];
};
const store = (options, type, address, value) =>
  write(options, type, checked(options, address, alignmentOf(type), sizeOf(type)), value);

// `canon lift`: the function of JavaScript that calls a core function.
const lifted = (core, options, type) => {
  checkEncoding(options);
  return (...given) => {
    const answer = core(...lowerFlatValues(options, MOST_PARAMETERS, given, paramTypes(type)));
    const answers = type.result === null ? [] : [answer];
    const [result] = type.result === null ? [] : liftFlatValues(options, MOST_RESULTS, [answer], [type.result]);
    if (options.postReturn !== undefined) options.postReturn(...answers);
    return result;
  };
};

// `canon lower`: the core function that calls a function of JavaScript.
const lowered = (call, options, type) => {
  checkEncoding(options);
  return (...values) => {
    const result = call(...liftFlatValues(options, MOST_PARAMETERS, values, paramTypes(type)));
    if (hasResultInMemory(type)) store(options, type.result, values.shift(), result);
    else if (type.result !== null) return lower(options, type.result, result)[0];
    return undefined;
  };
};

// Values of a type in memory, one after the other from an address on.
const checkedItems = (options, type, address, length) => checked(options, address, alignmentOf(type), length * sizeOf(type));
const readItems = (options, type, start, first, count) => readList(options, type, start + first * sizeOf(type), count);
const storeItems = (options, type, start, first, list) => writeItems(options, type, start + first * sizeOf(type), list);

module.exports = {
  MOST_PARAMETERS, checkEncoding, checkedItems, lifted, liftFlatValues, lowered, lowerFlatValues, paramTypes, readItems, store, storeItems,
};
