// A module as wit-bindgen writes one in C: the names of its imports and exports say their roles, and its world is a WIT package in
// binary form. It exports an interface with a resource, buckets of values by keys, and imports an interface to report to.
#include <stddef.h>
#include <stdint.h>

typedef struct {
    uint8_t *start;
    size_t length;
} Bytes;

// option<list<u8>>
typedef struct {
    uint8_t is_some;
    Bytes value;
} OptionalBytes;

#define LONGEST 32
typedef struct {
    uint8_t bytes[LONGEST];
    size_t length;
} Kept;

typedef struct {
    Kept key;
    Kept value;
} Entry;

// resource bucket
typedef struct {
    Kept name;
    Entry entries[8];
    size_t count;
    uint8_t in_use;
} Bucket;

// enum level
enum { MADE, MISSING, DROPPED };

// log: func(level: level, text: string), of the imported interface
__attribute__((import_module("example:store/log"), import_name("log"))) void report(uint32_t level, const uint8_t *text, size_t length);
// an own handle of a bucket
__attribute__((import_module("[export]example:store/store"), import_name("[resource-new]bucket"))) int32_t new_handle(Bucket *bucket);

// No alignment is asked for that passes 16.
static _Alignas(16) uint8_t heap[1 << 12];
static size_t used;
static Bucket buckets[8];

// Memory for what is passed in. Each call empties it at its end.
__attribute__((export_name("cabi_realloc"))) void *cabi_realloc(void *old, size_t old_size, size_t align, size_t new_size) {
    size_t begin = (used + align - 1) & ~(align - 1);
    if (begin > sizeof heap || new_size > sizeof heap - begin) {
        __builtin_trap();
    }
    used = begin + new_size;
    for (size_t i = 0; i < old_size && i < new_size; i++) {
        heap[begin + i] = ((uint8_t *)old)[i];
    }
    return heap + begin;
}

static Kept kept(const uint8_t *start, size_t length) {
    Kept kept = {.length = length};
    if (length > LONGEST) {
        __builtin_trap();
    }
    for (size_t i = 0; i < length; i++) {
        kept.bytes[i] = start[i];
    }
    return kept;
}

static int is_equal(const Kept *one, const Kept *other) {
    if (one->length != other->length) {
        return 0;
    }
    for (size_t i = 0; i < one->length; i++) {
        if (one->bytes[i] != other->bytes[i]) {
            return 0;
        }
    }
    return 1;
}

static Entry *entry_of(Bucket *bucket, const Kept *key) {
    for (size_t i = 0; i < bucket->count; i++) {
        if (is_equal(&bucket->entries[i].key, key)) {
            return &bucket->entries[i];
        }
    }
    return NULL;
}

// constructor(name: string). It traps where too many are in use.
__attribute__((export_name("example:store/store#[constructor]bucket"))) int32_t constructor(const uint8_t *name, size_t length) {
    for (size_t i = 0; i < sizeof buckets / sizeof *buckets; i++) {
        if (!buckets[i].in_use) {
            buckets[i].name = kept(name, length);
            buckets[i].count = 0;
            buckets[i].in_use = 1;
            used = 0;
            report(MADE, buckets[i].name.bytes, length);
            return new_handle(&buckets[i]);
        }
    }
    __builtin_trap();
}

// get: func(key: string) -> option<list<u8>>, of a bucket
__attribute__((export_name("example:store/store#[method]bucket.get"))) OptionalBytes *get(Bucket *self, const uint8_t *key, size_t length) {
    static OptionalBytes result;
    Kept wanted = kept(key, length);
    Entry *entry = entry_of(self, &wanted);
    result.is_some = entry != NULL;
    if (entry != NULL) {
        result.value = (Bytes){entry->value.bytes, entry->value.length};
    } else {
        report(MISSING, key, length);
    }
    return &result;
}

// The caller has read the result of `get`.
__attribute__((export_name("cabi_post_example:store/store#[method]bucket.get"))) void get_post_return(OptionalBytes *result) {
    used = 0;
}

// set: func(key: string, value: list<u8>), of a bucket. It traps where the bucket is full.
__attribute__((export_name("example:store/store#[method]bucket.set"))) void set(Bucket *self, const uint8_t *key, size_t key_length, const uint8_t *value, size_t length) {
    Kept wanted = kept(key, key_length);
    Entry *entry = entry_of(self, &wanted);
    if (entry == NULL) {
        if (self->count == sizeof self->entries / sizeof *self->entries) {
            __builtin_trap();
        }
        entry = &self->entries[self->count];
        entry->key = wanted;
        self->count++;
    }
    entry->value = kept(value, length);
    used = 0;
}

// The destructor of buckets.
__attribute__((export_name("example:store/store#[dtor]bucket"))) void destroy(Bucket *bucket) {
    bucket->in_use = 0;
    report(DROPPED, bucket->name.bytes, bucket->name.length);
}
