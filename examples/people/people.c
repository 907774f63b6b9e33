// A module that imports a function of an interface that returns a list of records, and exports one that returns a string and
// one that returns a list of records. A record is in memory as a struct, a list as the address of its first element and their
// number; what isn't one core value is returned in memory. All lists and strings live in a heap that the post-returns empty.
#include <stddef.h>
#include <stdint.h>

typedef struct {
    uint8_t *start;
    size_t length;
} String;

// record person { name: string, age: u32 }
typedef struct {
    String name;
    uint32_t age;
} Person;

typedef struct {
    Person *start;
    size_t length;
} People;

// example:registry/people, people: func() -> list<person>
__attribute__((import_module("example:registry/people"), import_name("people"))) void people(People *result);

// No alignment is asked for that passes 16.
static _Alignas(16) uint8_t heap[1 << 12];
static size_t used;

// The canonical option `realloc`: memory for the lists and strings that an imported function returns. It traps where none is
// left.
__attribute__((export_name("cabi_realloc"))) void *cabi_realloc(void *old, size_t old_size, size_t align, size_t new_size) {
    size_t begin = (used + align - 1) & ~(align - 1);
    if (begin > sizeof heap || new_size > sizeof heap - begin) {
        __builtin_trap();
    }
    used = begin + new_size;
    for (size_t i = 0; i < old_size && i < new_size; i++) {
        heap[begin + i] = ((uint8_t *)old)[i];
    }
    return heap + begin;
}

// oldest: func() -> string, the name of the first of the oldest people, or an empty string
__attribute__((export_name("oldest"))) String *oldest(void) {
    static String result;
    People all;
    uint32_t age = 0;
    people(&all);
    result.start = heap;
    result.length = 0;
    for (size_t i = 0; i < all.length; i++) {
        if (i == 0 || all.start[i].age > age) {
            result = all.start[i].name;
            age = all.start[i].age;
        }
    }
    return &result;
}

// from-age: func(least: u32) -> list<person>, the people of that age or an older one
__attribute__((export_name("from-age"))) People *from_age(uint32_t least) {
    static People result;
    People all;
    people(&all);
    result.start = all.start;
    result.length = 0;
    for (size_t i = 0; i < all.length; i++) {
        if (all.start[i].age >= least) {
            result.start[result.length] = all.start[i];
            result.length++;
        }
    }
    return &result;
}

// The canonical options `post-return`: the caller has read the result, and nothing else is in the heap.
__attribute__((export_name("cabi_post_oldest"))) void oldest_post_return(String *result) {
    used = 0;
}

__attribute__((export_name("cabi_post_from-age"))) void from_age_post_return(People *result) {
    used = 0;
}
