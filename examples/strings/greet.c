// A module that imports a function that takes a string, and exports one that takes a string and returns one, with the core
// types that the Canonical ABI gives these functions: a string is passed as its address and its length in bytes, a returned
// string as the address of such a pair.
#include <stddef.h>
#include <stdint.h>

typedef struct {
    uint8_t *start;
    size_t length;
} String;

// log: func(line: string)
__attribute__((import_module("$root"), import_name("log"))) void log_line(const uint8_t *start, size_t length);

// A heap of which nothing is freed. No alignment is asked for that passes 16.
static _Alignas(16) uint8_t heap[1 << 16];
static size_t used;

// The canonical option `realloc`: memory for the strings that are passed in. It traps where none is left.
__attribute__((export_name("cabi_realloc"))) void *cabi_realloc(void *old, size_t old_size, size_t align, size_t new_size) {
    size_t begin = (used + align - 1) & ~(align - 1);
    if (begin > sizeof heap || new_size > sizeof heap - begin) {
        __builtin_trap();
    }
    used = begin + new_size;
    for (size_t i = 0; i < old_size && i < new_size; i++) {
        heap[begin + i] = ((uint8_t *)old)[i];
    }
    return heap + begin;
}

// greet: func(name: string) -> string
__attribute__((export_name("greet"))) String *greet(const uint8_t *name, size_t length) {
    static const char hello[] = "Hello, ";
    static String result;
    size_t front = sizeof hello - 1;
    result.length = front + length;
    result.start = cabi_realloc(NULL, 0, 1, result.length);
    for (size_t i = 0; i < front; i++) {
        result.start[i] = hello[i];
    }
    for (size_t i = 0; i < length; i++) {
        result.start[front + i] = name[i];
    }
    log_line(result.start, result.length);
    return &result;
}
