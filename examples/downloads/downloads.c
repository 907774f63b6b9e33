// A module that downloads two pages at once. It calls an asynchronous import, and goes on in a callback once the import is done. What a
// task has to remember between two calls of its callback is in memory, and slot 0 of the task's storage has the address.
#include <stddef.h>
#include <stdint.h>

#define FROM(module, name) __attribute__((import_module(module), import_name(name)))
#define AS(name) __attribute__((export_name(name)))

typedef struct {
    uint8_t *start;
    size_t length;
} String;

// what a task answers: it is done, it lets others run, it waits for a set
enum { EXIT, YIELD, WAIT };
// the events that its callback is given here, and how far a call is
enum { NONE, SUBTASK };
enum { STARTING, STARTED, RETURNED };

// fetch: async func(page: string) -> string
FROM("$root", "fetch") uint32_t fetch(const uint8_t *start, size_t length, String *result);

FROM("$root", "return-both") void return_both(const uint8_t *start, size_t length);
FROM("$root", "return-total") void return_total(uint32_t total);
FROM("task", "context-get") void *get_task(void);
FROM("task", "context-set") void set_task(void *task);
FROM("task", "waitable-set-new") uint32_t new_set(void);
FROM("task", "waitable-set-drop") void drop_set(uint32_t set);
FROM("task", "waitable-join") void join_set(uint32_t waitable, uint32_t set);
FROM("task", "subtask-drop") void drop_subtask(uint32_t subtask);

// A heap for what tasks have; it is emptied when the last of them ends. No alignment is asked for that passes 16.
static _Alignas(16) uint8_t heap[1 << 12];
static size_t used;
static uint32_t tasks;

// The canonical option `realloc`: memory for the strings that are passed in. It traps where none is left.
AS("cabi_realloc") void *cabi_realloc(void *old, size_t old_size, size_t align, size_t new_size) {
    size_t begin = (used + align - 1) & ~(align - 1);
    if (begin > sizeof heap || new_size > sizeof heap - begin) {
        __builtin_trap();
    }
    used = begin + new_size;
    for (size_t i = 0; i < old_size && i < new_size; i++) {
        heap[begin + i] = ((uint8_t *)old)[i];
    }
    return heap + begin;
}

// A task begins, with memory of this size.
static void *begun(size_t size) {
    tasks++;
    return cabi_realloc(NULL, 0, 8, size);
}

// It ends: what the function or the callback answers.
static uint32_t ended(void) {
    tasks--;
    if (tasks == 0) {
        used = 0;
    }
    return EXIT;
}

// ---- two calls at once

typedef struct {
    String pages[2];
    uint32_t set;
    uint32_t running;
} Both;

// Calls `fetch`, which puts its result at `page`: at once, or before the event that its subtask has returned.
static void start_fetch(Both *task, String *page, const uint8_t *name, size_t length) {
    uint32_t answer = fetch(name, length, page);
    if ((answer & 15) != RETURNED) {
        join_set(answer >> 4, task->set);
        task->running++;
    }
}

static uint8_t *copied(uint8_t *to, String page) {
    for (size_t i = 0; i < page.length; i++) {
        to[i] = page.start[i];
    }
    return to + page.length;
}

// What the task does next: it waits for the calls that run, or returns both pages.
static uint32_t both_next(Both *task) {
    if (task->running > 0) {
        return WAIT | task->set << 4;
    }
    drop_set(task->set);
    size_t length = task->pages[0].length + task->pages[1].length;
    uint8_t *start = cabi_realloc(NULL, 0, 1, length);
    copied(copied(start, task->pages[0]), task->pages[1]);
    return_both(start, length);
    return ended();
}

// both: async func(one: string, other: string) -> string
AS("both") uint32_t both(const uint8_t *one, size_t one_length, const uint8_t *other, size_t other_length) {
    Both *task = begun(sizeof(Both));
    task->running = 0;
    task->set = new_set();
    set_task(task);
    start_fetch(task, &task->pages[0], one, one_length);
    start_fetch(task, &task->pages[1], other, other_length);
    return both_next(task);
}

// The canonical option `callback` of `both`: an event, here of a subtask, its index, and its state.
AS("both_more") uint32_t both_more(uint32_t event, uint32_t subtask, uint32_t state) {
    Both *task = get_task();
    if (event == SUBTASK && state == RETURNED) {
        drop_subtask(subtask);
        task->running--;
    }
    return both_next(task);
}

// ---- a long computation that lets other tasks run

enum { PART = 100 };

typedef struct {
    uint32_t next;
    uint32_t last;
    uint32_t sum;
} Total;

// Adds a part of the numbers that are left.
static uint32_t total_next(Total *task) {
    for (uint32_t i = 0; i < PART && task->next <= task->last; i++) {
        task->sum += task->next++;
    }
    if (task->next <= task->last) {
        return YIELD;
    }
    return_total(task->sum);
    return ended();
}

// total: async func(last: u32) -> u32, the sum of the numbers from 1 on
AS("total") uint32_t total(uint32_t last) {
    Total *task = begun(sizeof(Total));
    *task = (Total){1, last, 0};
    set_task(task);
    return total_next(task);
}

// The canonical option `callback` of `total`: after a YIELD there is no event.
AS("total_more") uint32_t total_more(uint32_t event, uint32_t unused, uint32_t unused_too) {
    return total_next(get_task());
}
