// Makes an instance of a component: its definitions, in their order, as the component model says.
'use strict';
const { lifted, lowered } = require('./canonical_abi.js');
const { BUILT_INS, ComponentInstance, Store, canonLift, canonLower, canonTaskReturn } = require('./event_loop.js');
const { Ends, STREAM_BUILT_INS } = require('./streams.js');

// The handles of a resource that a component has, by their numbers, each with what it represents. None has the number 0.
class Handles {
  constructor() {
    this.handles = [];
    this.handles.length = 1;
  }

  added(represents) {
    return this.handles.push(represents) - 1;
  }

  represented(number) {
    if (this.handles[number] === undefined) throw new Error(`there is no handle ${number}`);
    return this.handles[number];
  }

  removed(number) {
    const represents = this.represented(number);
    delete this.handles[number];
    return represents;
  }
}

// A resource that a component defines, and its destructor, a core function, if there is one. A handle outside is an object with
// its resource and what represents it. One that is given up gets a number in the component; of one that is lent the component gets
// what represents it, since the resource is its own.
class Resource extends Handles {
  constructor(destructor) {
    super();
    this.destructor = destructor;
  }

  destroyed(represents) {
    if (this.destructor !== null) this.destructor(represents);
  }

  taken(number) {
    return { of: this, represents: this.removed(number) };
  }

  lent(number) {
    return { of: this, represents: this.represented(number) };
  }

  shown(handle) {
    if (handle.of !== this) throw new Error('a handle of another resource');
    if (handle.represents === null) throw new Error('a handle that was given up');
    return handle.represents;
  }

  given(handle) {
    const number = this.added(this.shown(handle));
    handle.represents = null;
    return number;
  }
}

// A resource that a component imports: what a handle represents is the value that stands for it outside.
class Imported extends Handles {
  destroyed() {}

  taken(number) {
    return this.removed(number);
  }

  lent(number) {
    return this.represented(number);
  }

  given(value) {
    return this.added(value);
  }

  shown() {
    throw new Error('no handle of an imported resource is lent to a component here');
  }
}

// The type that a definition or a use of one means, with no indices in it.
const resolved = (type, types) => {
  const fields = list => list.map(field => ({ name: field.name, type: resolved(field.type, types) }));
  if (type === null || typeof type === 'string') return type;
  if (typeof type === 'number') return types[type];
  if (type.list !== undefined) return { list: resolved(type.list, types) };
  if (type.option !== undefined) return { option: resolved(type.option, types) };
  if (type.enum !== undefined || type.flags !== undefined) return type;
  if (type.tuple !== undefined) return { tuple: type.tuple.map(of => resolved(of, types)) };
  if (type.variant !== undefined) return { variant: fields(type.variant) };
  if (type.record !== undefined) return { record: fields(type.record) };
  if (type.own !== undefined) return { own: types[type.own] };
  if (type.borrow !== undefined) return { borrow: types[type.borrow] };
  if (type.stream !== undefined) return { stream: resolved(type.stream, types) };
  if (type.params !== undefined) return { params: fields(type.params), result: resolved(type.result, types), async: type.async };
  if (type.result !== undefined) return { result: { ok: resolved(type.result.ok, types), err: resolved(type.result.err, types) } };
  if (type.members !== undefined) return instanceType(type.members, types);
  throw new Error(`the type ${JSON.stringify(type)} isn't linked here`);
};
// What an instance type exports, by sort and name.
const instanceType = (members, outer) => {
  const types = [];
  const exported = { func: {}, type: {} };
  for (const member of members) {
    if (member.define === 'type') types.push(resolved(member.type, types));
    else if (member.define === 'outer') types.push(outer[member.index]);
    else exported[member.sort][member.name] = member.index === null ? new Imported() : types[member.index];
    if (member.define === 'export' && member.sort === 'type') types.push(exported.type[member.name]);
  }
  return exported;
};

// The steps of definitions that make types, functions and instances, in a component or a nested one, and what they make.
// `importOf` answers what an import is.
const scope = importOf => {
  const items = { func: [], type: [], instance: [], component: [] };
  const exported = { func: {}, type: {}, instance: {} };
  const steps = {
    type: ({ type }) => items.type.push(resolved(type, items.type)),
    alias: ({ sort, instance, name }) => items[sort].push(items.instance[instance][sort][name]),
    import: definition => items[definition.sort].push(importOf(definition, items)),
    component: ({ definitions }) => items.component.push(definitions),
    instantiate: ({ component, args }) => {
      const given = { func: {}, type: {} };
      for (const { name, sort, index } of args) given[sort][name] = items[sort][index];
      items.instance.push(nested(items.component[component], given));
    },
    export: ({ name, sort, index }) => {
      items[sort].push(items[sort][index]);
      exported[sort][name] = items[sort][index];
    },
  };
  return { items, exported, steps };
};

// What an instance of a nested component exports, where this is given for its imports: a type is the one that is given, and a function
// is called as the nested component imports it.
const nested = (definitions, given) => {
  const importOf = ({ name, sort, index }, items) => (sort === 'type' ? given.type[name] : { ...given.func[name], type: items.type[index] });
  const { exported, steps } = scope(importOf);
  for (const definition of definitions) steps[definition.define](definition);
  return exported;
};

// Whether a lift or lowering is asynchronous: as its function is.
const isAsync = (options, type) => {
  if (options.async !== type.async) throw new Error('a function is called, and implemented, here as its type says');
  return type.async;
};

const callsOf = functions => Object.fromEntries(Object.entries(functions).map(([name, { call }]) => [name, call]));

// `outside` has the functions that are imported by name, and an object of such for an imported instance. `seen` is called
// with each core module's number, its imports and its exports, once it is instantiated. The answer is the component's exported
// functions by name, an object of such for an exported instance, and the functions that were lowered. Asynchronous functions, of
// both sides, are called as event_loop.js says, and go on by the ticks of `store`.
const linked = (definitions, outside, seen = () => {}, store = new Store()) => {
  const inst = new ComponentInstance(store);
  const ends = new Ends(inst);
  const modules = [];
  const coreInstances = [];
  const core = { func: [], table: [], memory: [], global: [] };
  const lowerings = new Set();
  const importOf = ({ name, sort, index }, items) => {
    const type = index === null ? new Imported() : items.type[index];
    if (sort === 'func') return { type, call: outside[name] };
    if (sort === 'type') return type;
    const functions = Object.entries(type.func).map(([of, its]) => [of, { type: its, call: outside[name][of] }]);
    return { func: Object.fromEntries(functions), type: type.type };
  };
  const { items, exported, steps } = scope(importOf);

  // the functions and the memory that options name
  const named = ({ memory, realloc, postReturn, callback, ...others }) => {
    const functions = { realloc: core.func[realloc], postReturn: core.func[postReturn], callback: core.func[callback] };
    return { memory: core.memory[memory], ends, ...functions, ...others };
  };

  const coreSteps = {
    'core-module': ({ bytes }) => modules.push(new WebAssembly.Module(bytes)),
    'core-exports': ({ entries }) =>
      coreInstances.push(Object.fromEntries(entries.map(({ name, sort, index }) => [name, core[sort][index]]))),
    'core-instantiate': ({ module, args }) => {
      const imports = Object.fromEntries(args.map(({ name, instance }) => [name, coreInstances[instance]]));
      const { exports } = new WebAssembly.Instance(modules[module], imports);
      coreInstances.push(exports);
      seen(module, imports, exports);
    },
    'core-alias': ({ sort, instance, name }) => core[sort].push(coreInstances[instance][name]),
    lower: ({ func, options }) => {
      const { type, call } = items.func[func];
      core.func.push(isAsync(options, type) ? canonLower(inst, call, named(options), type) : lowered(call, named(options), type));
      lowerings.add(core.func[core.func.length - 1]);
    },
    'resource-new': ({ type }) => core.func.push(represents => items.type[type].added(represents)),
    'resource-rep': ({ type }) => core.func.push(number => items.type[type].represented(number)),
    'resource-drop': ({ type }) => core.func.push(number => items.type[type].destroyed(items.type[type].removed(number))),
    type: definition => {
      const { destructor } = definition.type;
      if (destructor === undefined) steps.type(definition);
      else items.type.push(new Resource(destructor === null ? null : core.func[destructor]));
    },
    'task-return': ({ result, options }) => core.func.push(canonTaskReturn(inst, resolved(result, items.type), named(options))),
    lift: ({ func, options, type: index }) => {
      const [callee, type] = [core.func[func], items.type[index]];
      const call = isAsync(options, type) ? canonLift(inst, callee, named(options), type) : lifted(callee, named(options), type);
      items.func.push({ type, call });
    },
  };
  const plain = Object.entries(BUILT_INS).map(([name, of]) => [name, definition => core.func.push(of(inst, definition))]);
  const ofStreams = Object.entries(STREAM_BUILT_INS).map(([name, of]) =>
    [name, ({ type, options }) => core.func.push(of(inst, items.type[type], options && named(options)))]);
  const all = { ...steps, ...coreSteps, ...Object.fromEntries([...plain, ...ofStreams]) };
  for (const definition of definitions) all[definition.define](definition);
  const instances = Object.entries(exported.instance).map(([name, { func }]) => [name, callsOf(func)]);
  return { exports: { ...callsOf(exported.func), ...Object.fromEntries(instances) }, lowerings };
};

module.exports = { linked };
