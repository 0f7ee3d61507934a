#include "cases.h"

#include <stdio.h>
#include <stdlib.h>
#include <string.h>
#include <txos.h>

int call(const char *function, const char *text, size_t length, char *answer, size_t room, size_t *size) {
    if (strcmp(function, "replay") == 0) return txos_replay(text, length, answer, room, size);
    if (strcmp(function, "debug") == 0) return txos_debug(text, length, answer, room, size);
    if (strcmp(function, "check") == 0) return txos_check(text, length, answer, room, size);
    if (strcmp(function, "json") == 0) return txos_shell(text, length, TXOS_JSON, answer, room, size);
    return txos_shell(text, length, TXOS_TEXT, answer, room, size);
}

/* Ends the program, since a file can't be read. */
static void stop(const char *path) {
    perror(path);
    exit(2);
}

/* The bytes of a file, in a block of just that size, so that a read past its end shows. */
static char *read_file(const char *path, size_t *size) {
    FILE *file = fopen(path, "rb");
    if (!file || fseek(file, 0, SEEK_END) != 0) stop(path);
    long end = ftell(file);
    rewind(file);
    char *bytes = malloc(end > 0 ? (size_t)end : 1);
    if (!bytes || fread(bytes, 1, (size_t)end, file) != (size_t)end) stop(path);
    fclose(file);
    *size = (size_t)end;
    return bytes;
}

struct txos_case *read_plan(const char *path, size_t *count) {
    FILE *plan = fopen(path, "r");
    if (!plan) stop(path);
    struct txos_case *cases = NULL, one;
    char text[256], wanted[256];
    *count = 0;
    while (fscanf(plan, "%15s %255s %d %255s", one.function, text, &one.status, wanted) == 4) {
        one.text = read_file(text, &one.length);
        one.wanted = read_file(wanted, &one.size);
        cases = realloc(cases, (*count + 1) * sizeof *cases);
        if (!cases) stop(path);
        cases[(*count)++] = one;
    }
    fclose(plan);
    return cases;
}

void free_plan(struct txos_case *cases, size_t count) {
    for (size_t i = 0; i < count; i++) {
        free(cases[i].text);
        free(cases[i].wanted);
    }
    free(cases);
}
