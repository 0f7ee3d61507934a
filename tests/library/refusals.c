/* Refuses each growth of memory in turn while the library is called as a plan says: the call then
 * says that memory was refused and writes nothing, or does without and is answered as ever; and it
 * gives all that it took back. Linked with --wrap for malloc, realloc and free.
 *
 * usage: refusals PLAN
 */
#include <stdio.h>
#include <stdlib.h>
#include <string.h>
#include <txos.h>

#include "cases.h"

/* How many growths come before the one that is refused; none is where it is negative. */
static long left = -1;

/* How many blocks are not given back yet. */
static long held;

void *__real_malloc(size_t size);
void *__real_realloc(void *block, size_t size);
void __real_free(void *block);

/* Whether this growth is the one that is refused. */
static int is_refused(void) {
    if (left < 0) return 0;
    return left-- == 0;
}

void *__wrap_malloc(size_t size) {
    void *block = is_refused() ? NULL : __real_malloc(size);
    if (block) held++;
    return block;
}

void *__wrap_realloc(void *block, size_t size) {
    void *grown = is_refused() ? NULL : __real_realloc(block, size);
    if (grown && !block) held++;
    return grown;
}

void __wrap_free(void *block) {
    if (block) held--;
    __real_free(block);
}

/* Calls with that growth refused, and says whether the call reported it and there was such a growth, by
 * `was_reported` and `was_refused`. Answers whether what came is right. */
static int try_growth(const struct txos_case *it, char *answer, long growth, int *was_reported, int *was_refused) {
    size_t size = 1;
    long before = held;
    answer[0] = '\0';
    left = growth;
    int status = call(it->function, it->text, it->length, answer, it->size, &size);
    *was_refused = left < 0;
    left = -1;
    *was_reported = status == TXOS_NO_MEMORY;
    int is_right = *was_reported ? *was_refused && size == 0 && answer[0] == '\0'
                             : status == it->status && size == it->size && memcmp(answer, it->wanted, size) == 0;
    if (!is_right || held != before)
        fprintf(stderr, "FAILED: %s, growth %ld: status %d, size %zu, %ld blocks held\n", it->function, growth, status, size, held - before);
    return is_right && held == before;
}

/* Refuses each growth of a call in turn, and adds to the growths that the call reported. Answers whether all
 * that came is right. */
static int try_growths(const struct txos_case *it, long *reported) {
    char *answer = malloc(it->size + 1);
    if (!answer) exit(2);
    int is_right = 1, was_reported = 0, was_refused = 1;
    for (long growth = 0; is_right && was_refused; growth++) {
        is_right = try_growth(it, answer, growth, &was_reported, &was_refused);
        *reported += was_reported;
    }
    free(answer);
    return is_right;
}

int main(int words, char **word) {
    if (words != 2) return 2;
    size_t count, failed = 0;
    long reported = 0;
    struct txos_case *cases = read_plan(word[1], &count);
    for (size_t number = 0; number < count; number++)
        if (!try_growths(&cases[number], &reported)) failed++;
    free_plan(cases, count);
    printf("library: %ld growths refused in turn, %zu of %zu cases failed\n", reported, failed, count);
    return reported > 0 && failed == 0 ? 0 : 1;
}
