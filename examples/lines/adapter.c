// An adapter: what main calls as `write`, by a function that takes a string, once for each line. It has no data of its own, and reads the
// bytes in main's memory.
#include <stddef.h>
#include <stdint.h>

// log: func(line: string)
__attribute__((import_module("$root"), import_name("log"))) void log_line(const uint8_t *start, size_t length);

// A function that main exports.
__attribute__((import_module("main"), import_name("count_line"))) void count_line(void);

// Logs each line, and a last one that has no end of line; returns how many these are.
__attribute__((export_name("write"))) uint32_t write_lines(const uint8_t *text, size_t length) {
    uint32_t lines = 0;
    size_t begin = 0;
    for (size_t at = 0; at < length; at++) {
        if (text[at] == '\n') {
            log_line(text + begin, at - begin);
            count_line();
            lines++;
            begin = at + 1;
        }
    }
    if (begin < length) {
        log_line(text + begin, length - begin);
        count_line();
        lines++;
    }
    return lines;
}
