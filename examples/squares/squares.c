// A reactor: what it computes beforehand is there once the component is instantiated, before a function of it can be called.
#include <stddef.h>

__attribute__((import_module("$root"), import_name("log")))
void log_line(const char *line, size_t length);

#define COUNT 8
static unsigned squares[COUNT];

// A constructor, as those of the globals of C++: `_initialize` calls all of them.
__attribute__((constructor))
static void fill_squares(void) {
    for (unsigned n = 0; n < COUNT; n++) squares[n] = n * n;
    log_line("ready", 5);
}

void __wasm_call_ctors(void);

__attribute__((export_name("_initialize")))
void initialize(void) { __wasm_call_ctors(); }

__attribute__((export_name("square")))
unsigned square(unsigned n) { return n < COUNT ? squares[n] : 0; }
