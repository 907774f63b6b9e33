// A guest book: a reactor, which has no `main`. `_initialize`, which wasi-libc makes, opens the book, once; then the functions of
// its world, visitors.wit, are called, in any number. A string is passed as its address and its length in bytes; one that is
// returned is the address of such a pair.
#include <stdint.h>
#include <stdio.h>
#include <stdlib.h>
#include <string.h>

typedef struct {
    char *start;
    size_t length;
} String;

// the names of those who came
static String *names;
static size_t count;

// The canonical option `realloc`: memory for the strings that are passed in.
__attribute__((export_name("cabi_realloc"))) void *cabi_realloc(void *old, size_t old_size, size_t align, size_t new_size) {
    (void)old_size;
    if (new_size == 0) {
        return (void *)align;
    }
    void *block = realloc(old, new_size);
    if (block == NULL) {
        abort();
    }
    return block;
}

__attribute__((constructor)) static void open_book(void) {
    fputs("the book is open\n", stderr);
}

// How often someone of this name came.
static size_t visits_of(const char *name, size_t length) {
    size_t visits = 0;
    for (size_t i = 0; i < count; i++) {
        visits += names[i].length == length && memcmp(names[i].start, name, length) == 0;
    }
    return visits;
}

// visit: func(name: string) -> string
__attribute__((export_name("visit"))) String *visit(char *name, size_t length) {
    static String answer;
    names = cabi_realloc(names, count * sizeof *names, sizeof(size_t), (count + 1) * sizeof *names);
    names[count++] = (String){name, length};
    printf("%zu: %.*s\n", count, (int)length, name);
    fflush(stdout);

    const char *format = visits_of(name, length) > 1 ? "Welcome back, %.*s" : "Welcome, %.*s";
    answer.length = (size_t)snprintf(NULL, 0, format, (int)length, name);
    answer.start = cabi_realloc(NULL, 0, 1, answer.length + 1);
    snprintf(answer.start, answer.length + 1, format, (int)length, name);
    return &answer;
}

// The post-return of `visit`: its caller has read the answer.
__attribute__((export_name("cabi_post_visit"))) void answered(String *answer) {
    free(answer->start);
}

// count: func() -> u32
__attribute__((export_name("count"))) uint32_t visitors(void) {
    return (uint32_t)count;
}
