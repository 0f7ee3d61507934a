/* The cases of a plan: which function is given which text, and what has to come of it. */
#ifndef CASES_H
#define CASES_H

#include <stddef.h>

/* A case of a plan. */
struct txos_case {
    char function[16];
    char *text;
    size_t length;
    int status;
    char *wanted;
    size_t size;
};

/* Calls the function of that name. A session is answered in text by `shell`, and in JSON by `json`. */
int call(const char *function, const char *text, size_t length, char *answer, size_t room, size_t *size);

/* Reads a plan, a line for each case: function, file of the text, status, file of the answer. The program ends where it
 * can't be read. */
struct txos_case *read_plan(const char *path, size_t *count);

/* Lets go of a plan. */
void free_plan(struct txos_case *cases, size_t count);

#endif
