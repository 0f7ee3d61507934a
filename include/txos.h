/* The library txos: texts in, and their answers out, as the program of that name writes them.
 *
 * Link with libtxos.a, which needs nothing but the C library. docs/LIBRARY.md has examples.
 *
 * Each function reads a whole text of `length` bytes, and puts its answer, without a NUL byte
 * after it, at the front of `answer`, where there is room for `room` bytes. `text` may be NULL
 * where `length` is 0, and `answer` where `room` is 0. `*size` becomes how many bytes the answer
 * has, whatever comes of the call, so a call without room asks how much is wanted. The same text
 * gets the same answer each time.
 *
 * Nothing is kept between calls. Any number of threads may call at once, each with an `answer` and
 * a `size` of its own. No two of a call's text, answer and size may share memory. Memory is taken by
 * malloc and realloc, and given back by free before a call returns; so don't call from a signal
 * handler. A call wants up to 256 KiB of stack.
 */
#ifndef TXOS_H
#define TXOS_H

#include <stddef.h>

#ifdef __cplusplus
extern "C" {
#endif

/* What comes of a call. */
enum txos_status {
    /* The text could be read, and `answer` has what answers it. */
    TXOS_OK = 0,
    /* The text can't be read. `answer` has its fault, such as `F1 line 3`, without a line's end;
     * of txos_check it has what is wrong, a line for each line at fault. */
    TXOS_FAULT = 1,
    /* Memory was refused. Nothing is written, and `*size` is 0. */
    TXOS_NO_MEMORY = 2,
    /* There is too little room. Nothing is written but `*size`, which says how much is wanted. */
    TXOS_TOO_SMALL = 3
};

/* In which form a session is answered. */
enum txos_form {
    /* In lines that a person reads, as by `txos shell`. */
    TXOS_TEXT = 0,
    /* A line of JSON for each line, as by `txos shell --json`. */
    TXOS_JSON = 1
};

/* The replies to the steps of a schedule, and the state that the last one leaves: `txos replay`. */
int txos_replay(const char *text, size_t length, char *answer, size_t room, size_t *size);

/* What the commands after a schedule answer: `txos debug`. */
int txos_debug(const char *text, size_t length, char *answer, size_t room, size_t *size);

/* What is wrong with a text of any kind: `txos check`, without its first line and expectations.
 * Where nothing is wrong, the answer is TXOS_OK, and has no byte. */
int txos_check(const char *text, size_t length, char *answer, size_t room, size_t *size);

/* The answers to the lines of a session, one after another, up to its end or a line `quit`: `txos
 * shell`. Any number but 0 is the form TXOS_JSON. The answer is never TXOS_FAULT: a line that can't
 * be read is answered by what is wrong with it. */
int txos_shell(const char *text, size_t length, int form, char *answer, size_t room, size_t *size);

#ifdef __cplusplus
}
#endif

#endif
