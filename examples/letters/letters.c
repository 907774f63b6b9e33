// A module that reads a stream of letters and writes another one, in capitals. What a task has to remember between two calls of its
// callback is in memory, and slot 0 of the task's storage has the address.
#include <stdbool.h>
#include <stdint.h>

#define FROM(module, name) __attribute__((import_module(module), import_name(name)))
#define AS(name) __attribute__((export_name(name)))

// what a task answers: it is done, or it waits for a set
enum { EXIT, WAIT = 2 };
// the events that its callback is given here, and how a read or a write ends
enum { STREAM_READ = 2, STREAM_WRITE };
enum { COMPLETED, DROPPED };
#define BLOCKED 0xffffffff

FROM("$root", "return-capitals") void return_capitals(uint32_t stream);
FROM("letters", "read") uint32_t read_letters(uint32_t end, uint8_t *to, uint32_t most);
FROM("letters", "drop") void drop_letters(uint32_t end);
FROM("capitals", "new") uint64_t new_capitals(void);
FROM("capitals", "write") uint32_t write_capitals(uint32_t end, const uint8_t *from, uint32_t count);
FROM("capitals", "drop") void drop_capitals(uint32_t end);
FROM("task", "context-get") void *get_task(void);
FROM("task", "context-set") void set_task(void *task);
FROM("task", "waitable-set-new") uint32_t new_set(void);
FROM("task", "waitable-set-drop") void drop_set(uint32_t set);
FROM("task", "waitable-join") void join_set(uint32_t waitable, uint32_t set);

// A task: the end that it reads and the one that it writes, and what it has read, of which so much is written.
typedef struct {
    bool runs;
    bool at_end;
    uint32_t set;
    uint32_t in;
    uint32_t out;
    uint32_t count;
    uint32_t written;
    uint8_t part[8];
} Task;

static Task tasks[16];

// A place for one more. It traps where none is left.
static Task *begun(void) {
    for (Task *task = tasks; task < tasks + sizeof tasks / sizeof *tasks; task++) {
        if (!task->runs) {
            *task = (Task){.runs = true};
            return task;
        }
    }
    __builtin_trap();
}

static uint32_t ended(Task *task) {
    drop_letters(task->in);
    drop_capitals(task->out);
    drop_set(task->set);
    task->runs = false;
    return EXIT;
}

// What was read or written, and whether the other end is gone: by the answer of the call, or by an event.
static void has_read(Task *task, uint32_t answer) {
    task->count = answer >> 4;
    task->written = 0;
    task->at_end = (answer & 15) == DROPPED;
    for (uint32_t i = 0; i < task->count; i++) {
        uint8_t letter = task->part[i];
        task->part[i] = letter >= 'a' && letter <= 'z' ? letter - 'a' + 'A' : letter;
    }
}

static void has_written(Task *task, uint32_t answer) {
    task->written += answer >> 4;
    if ((answer & 15) == DROPPED) {
        task->at_end = true;
        task->written = task->count;
    }
}

// What the task does until it has to wait: it writes what it has read, and reads more.
static uint32_t next(Task *task) {
    for (;;) {
        if (task->written < task->count) {
            uint32_t answer = write_capitals(task->out, task->part + task->written, task->count - task->written);
            if (answer == BLOCKED) {
                break;
            }
            has_written(task, answer);
        } else if (task->at_end) {
            return ended(task);
        } else {
            uint32_t answer = read_letters(task->in, task->part, sizeof task->part);
            if (answer == BLOCKED) {
                break;
            }
            has_read(task, answer);
        }
    }
    return WAIT | task->set << 4;
}

// capitals: async func(letters: stream<u8>) -> stream<u8>
AS("capitals") uint32_t capitals(uint32_t letters) {
    Task *task = begun();
    uint64_t ends = new_capitals();
    task->in = letters;
    task->out = ends >> 32;
    task->set = new_set();
    join_set(task->in, task->set);
    join_set(task->out, task->set);
    set_task(task);
    return_capitals((uint32_t)ends);
    return next(task);
}

// The canonical option `callback` of `capitals`: an event, the index of the end, and what was read or written.
AS("capitals_more") uint32_t capitals_more(uint32_t event, uint32_t end, uint32_t answer) {
    Task *task = get_task();
    if (event == STREAM_READ) {
        has_read(task, answer);
    } else if (event == STREAM_WRITE) {
        has_written(task, answer);
    }
    return next(task);
}
