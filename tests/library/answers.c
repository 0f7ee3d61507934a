/* Calls the library as a plan says, and compares what comes with what has to come: with as much
 * room as the answer wants, with more, with a byte too little and with none; and then on several
 * threads at once.
 *
 * usage: answers PLAN THREADS
 */
#include <pthread.h>
#include <stdatomic.h>
#include <stdio.h>
#include <stdlib.h>
#include <string.h>
#include <txos.h>

#include "cases.h"

/* What is in a buffer that was not written. */
#define UNWRITTEN '\x5a'

/* How much stack a thread has, which txos.h says to be enough. */
#define STACK (256 * 1024)

static struct txos_case *cases;
static size_t count;
static atomic_int failed;

/* Says what is not so. */
static void fail(size_t number, const char *what, int status, size_t size) {
    failed++;
    fprintf(stderr, "FAILED: case %zu, %s: %s: status %d, size %zu\n", number, cases[number].function, what, status, size);
}

/* Whether all bytes from there on are as they were. */
static int is_unwritten(const char *bytes, size_t size) {
    for (size_t i = 0; i < size; i++)
        if (bytes[i] != UNWRITTEN) return 0;
    return 1;
}

/* Calls with that much room, which is too little where the answer is larger. */
static void try_room(size_t number, size_t room) {
    const struct txos_case *it = &cases[number];
    size_t size = (size_t)-1;
    char *answer = room ? malloc(room) : NULL;
    if (room && !answer) exit(2);
    if (room) memset(answer, UNWRITTEN, room);
    int status = call(it->function, it->text, it->length, answer, room, &size);
    size_t whole = it->size <= room ? it->size : 0;
    if (status != (it->size <= room ? it->status : TXOS_TOO_SMALL)) fail(number, "another status", status, size);
    if (size != it->size) fail(number, "another size", status, size);
    if (whole && memcmp(answer, it->wanted, whole) != 0) fail(number, "another answer", status, size);
    if (room && !is_unwritten(answer + whole, room - whole)) fail(number, "written past the answer", status, size);
    free(answer);
}

/* Tries all cases, those from `first` on before the others. */
static void *try_all(void *first) {
    for (size_t i = 0; i < count; i++) {
        size_t number = (i + *(size_t *)first) % count;
        try_room(number, cases[number].size + 16);
    }
    return NULL;
}

/* Tries all cases on so many threads at once, each of which begins with another one. */
static void try_threads(size_t threads) {
    pthread_t *started = malloc(threads * sizeof *started);
    size_t *firsts = malloc(threads * sizeof *firsts);
    pthread_attr_t small;
    if (!started || !firsts || pthread_attr_init(&small) != 0 || pthread_attr_setstacksize(&small, STACK) != 0) exit(2);
    for (size_t i = 0; i < threads; i++) {
        firsts[i] = i * count / threads;
        if (pthread_create(&started[i], &small, try_all, &firsts[i]) != 0) exit(2);
    }
    for (size_t i = 0; i < threads; i++) pthread_join(started[i], NULL);
    pthread_attr_destroy(&small);
    free(firsts);
    free(started);
}

int main(int words, char **word) {
    if (words != 3) return 2;
    cases = read_plan(word[1], &count);
    for (size_t number = 0; number < count; number++) {
        size_t size = cases[number].size;
        try_room(number, size);
        try_room(number, size + 1);
        if (size > 0) try_room(number, size - 1);
        if (size > 1) try_room(number, 0);
    }
    try_threads((size_t)atoi(word[2]));
    free_plan(cases, count);
    printf("library: %zu cases from C, %d failed\n", count, (int)failed);
    return count > 0 && failed == 0 ? 0 : 1;
}
