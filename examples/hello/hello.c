// A program as any C is, for wasi-libc: it has arguments, an environment, standard input, output and error, a clock, and an exit
// status. It knows nothing of components.
#include <stdio.h>
#include <stdlib.h>
#include <time.h>

int main(int argc, char **argv) {
    const char *name = getenv("NAME");
    printf("Hello, %s!\n", name != NULL ? name : "world");
    for (int i = 1; i < argc; i++) {
        printf("%d: %s\n", i, argv[i]);
    }

    char line[100];
    int lines = 0;
    while (fgets(line, sizeof line, stdin) != NULL) {
        lines++;
    }
    printf("%d lines\n", lines);

    time_t now = time(NULL);
    char day[sizeof "2026-01-01"];
    strftime(day, sizeof day, "%Y-%m-%d", gmtime(&now));
    fprintf(stderr, "%s\n", day);
    return argc > 3 ? 3 : 0;
}
