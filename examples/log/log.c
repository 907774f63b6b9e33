// A module that imports a function that takes a string, and exports one that takes a string and returns one. What it is passed
// and what it returns lives in a heap that the post-return of its function empties.
#include <stddef.h>
#include <stdint.h>

typedef struct {
    uint8_t *start;
    size_t length;
} String;

// log: func(s: string)
__attribute__((import_module("$root"), import_name("log"))) void log_text(const uint8_t *start, size_t length);

// No alignment is asked for that passes 16.
static _Alignas(16) uint8_t heap[1 << 12];
static size_t used;

// The canonical option `realloc`: memory for the strings that are passed in. It traps where none is left.
__attribute__((export_name("cabi_realloc"))) void *cabi_realloc(void *old, size_t old_size, size_t align, size_t new_size) {
    size_t begin = (used + align - 1) & ~(align - 1);
    if (begin > sizeof heap || new_size > sizeof heap - begin) {
        __builtin_trap();
    }
    used = begin + new_size;
    for (size_t i = 0; i < old_size && i < new_size; i++) {
        heap[begin + i] = ((uint8_t *)old)[i];
    }
    return heap + begin;
}

static uint8_t upper(uint8_t byte) {
    return byte >= 'a' && byte <= 'z' ? byte - 'a' + 'A' : byte;
}

// run: func(s: string) -> string
__attribute__((export_name("run"))) String *run(const uint8_t *text, size_t length) {
    static const char greeting[] = "Hello, ";
    static String result;
    size_t front = sizeof greeting - 1;
    log_text(text, length);
    result.length = front + length;
    result.start = cabi_realloc(NULL, 0, 1, result.length);
    for (size_t i = 0; i < front; i++) {
        result.start[i] = greeting[i];
    }
    for (size_t i = 0; i < length; i++) {
        result.start[front + i] = upper(text[i]);
    }
    return &result;
}

// The canonical option `post-return` of `run`: the caller has read the result, and nothing else is in the heap.
__attribute__((export_name("cabi_post_run"))) void run_post_return(String *result) {
    used = 0;
}
