// A module that exports an interface with a resource of its own: counters. A handle is a number that the component gives out for what
// represents the resource here, the address of a struct. The module makes handles, asks for what they stand for, and drops them by
// functions that the component offers it. A method gets the address itself, since its resource is this component's.
#include <stddef.h>
#include <stdint.h>

// resource counter
typedef struct {
    uint32_t value;
    uint32_t in_use;
} Counter;

// an own handle of a counter
typedef int32_t Handle;

#define COUNTERS "[export]example:counters/counters"

// `resource.new`: a handle for a counter
__attribute__((import_module(COUNTERS), import_name("[resource-new]counter"))) Handle new_handle(Counter *counter);
// `resource.rep`: the counter that a handle stands for
__attribute__((import_module(COUNTERS), import_name("[resource-rep]counter"))) Counter *counter_of(Handle handle);
// `resource.drop`: the handle is gone, and so is the counter
__attribute__((import_module(COUNTERS), import_name("[resource-drop]counter"))) void drop_handle(Handle handle);

static Counter counters[8];

static uint32_t in_use(void) {
    uint32_t count = 0;
    for (size_t i = 0; i < sizeof counters / sizeof *counters; i++) {
        count += counters[i].in_use;
    }
    return count;
}

// constructor(start: u32). It traps where too many are in use.
__attribute__((export_name("example:counters/counters#[constructor]counter"))) Handle constructor(uint32_t start) {
    for (size_t i = 0; i < sizeof counters / sizeof *counters; i++) {
        if (!counters[i].in_use) {
            counters[i] = (Counter){.value = start, .in_use = 1};
            return new_handle(&counters[i]);
        }
    }
    __builtin_trap();
}

// next: func() -> u32, of a counter
__attribute__((export_name("example:counters/counters#[method]counter.next"))) uint32_t next(Counter *self) {
    return self->value++;
}

// sum: static func(one: counter, other: counter) -> counter. Both are given up: one is kept as the sum.
__attribute__((export_name("example:counters/counters#[static]counter.sum"))) Handle sum(Handle one, Handle other) {
    counter_of(one)->value += counter_of(other)->value;
    drop_handle(other);
    return one;
}

// count: func() -> u32, how many counters are in use
__attribute__((export_name("example:counters/counters#count"))) uint32_t count(void) {
    return in_use();
}

// skip: func(on: borrow<counter>, steps: u32) -> u32, of another interface, which uses the counters of the first
__attribute__((export_name("example:counters/ranges#skip"))) uint32_t skip(Counter *on, uint32_t steps) {
    on->value += steps;
    return on->value;
}

// The destructor: it is called when the last handle of a counter is dropped, by the module or from outside.
__attribute__((export_name("destroy_counter"))) void destroy(Counter *counter) {
    counter->in_use = 0;
}
