// A module that was written for another outside than the component model's: it writes bytes from its memory by `write`, and the rest of
// the component is an adapter's matter.
#include <stddef.h>
#include <stdint.h>

// Writes bytes; returns how many lines they are.
__attribute__((import_module("old"), import_name("write"))) uint32_t old_write(const uint8_t *start, size_t length);

static uint32_t lines;

// Called by the adapter, once for each line.
__attribute__((export_name("count_line"))) void count_line(void) { lines++; }

static uint32_t write_text(const char *text) {
    size_t length = 0;
    while (text[length] != '\0') {
        length++;
    }
    return old_write((const uint8_t *)text, length);
}

// run: func() -> u32. Two texts, of three lines and of one; returns how many lines `write` said.
__attribute__((export_name("run"))) uint32_t run(void) {
    return write_text("one\ntwo words\n\n") + write_text("Grüße, 世界");
}

// counted: func() -> u32
__attribute__((export_name("counted"))) uint32_t counted(void) { return lines; }
