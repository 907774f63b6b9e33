// A module that exports an interface: it searches in the people that an imported interface has. The interface uses a type of that one,
// and has one of its own. A record is in memory as a struct, a list as the address of its first element and their number; what isn't one
// core value is returned in memory. A record of two numbers is passed as two parameters.
#include <stddef.h>
#include <stdint.h>

typedef struct {
    uint8_t *start;
    size_t length;
} String;

// record person { name: string, age: u32 }
typedef struct {
    String name;
    uint32_t age;
} Person;

typedef struct {
    Person *start;
    size_t length;
} People;

// example:registry/people, people: func() -> list<person>
__attribute__((import_module("example:registry/people"), import_name("people"))) void people(People *result);

// No alignment is asked for that passes 16.
static _Alignas(16) uint8_t heap[1 << 12];
static size_t used;

// The canonical option `realloc`: memory for the lists and strings that an imported function returns. It traps where none is
// left.
__attribute__((export_name("cabi_realloc"))) void *cabi_realloc(void *old, size_t old_size, size_t align, size_t new_size) {
    size_t begin = (used + align - 1) & ~(align - 1);
    if (begin > sizeof heap || new_size > sizeof heap - begin) {
        __builtin_trap();
    }
    used = begin + new_size;
    for (size_t i = 0; i < old_size && i < new_size; i++) {
        heap[begin + i] = ((uint8_t *)old)[i];
    }
    return heap + begin;
}

// The people of these ages, which stand where all stood.
static People among(uint32_t least, uint32_t most) {
    People all;
    people(&all);
    size_t found = 0;
    for (size_t i = 0; i < all.length; i++) {
        if (all.start[i].age >= least && all.start[i].age <= most) {
            all.start[found] = all.start[i];
            found++;
        }
    }
    all.length = found;
    return all;
}

// find: func(of: ages) -> list<person>, the people of these ages
__attribute__((export_name("example:registry/search#find"))) People *find(uint32_t least, uint32_t most) {
    static People result;
    result = among(least, most);
    return &result;
}

// count: func(of: ages) -> u32, how many there are
__attribute__((export_name("example:registry/search#count"))) uint32_t count(uint32_t least, uint32_t most) {
    size_t found = among(least, most).length;
    used = 0;
    return found;
}

// The canonical option `post-return`: the caller has read the result, and nothing else is in the heap.
__attribute__((export_name("cabi_post_example:registry/search#find"))) void find_post_return(People *result) {
    used = 0;
}
