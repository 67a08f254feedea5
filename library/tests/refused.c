/* Each allocation within the library refused in turn, of the edge and of the program: linked with the static library,
 * and with malloc, realloc, calloc, free, mmap and munmap wrapped. After each the run has ended with want of memory, or
 * as ever, and nothing that it took is left. refused WORD.. <INPUT, for example: refused run < input */
#define _GNU_SOURCE
#include <errno.h>
#include <stdatomic.h>
#include <stdio.h>
#include <stdlib.h>
#include <string.h>
#include <sys/mman.h>

#include "stnu.h"

void *__real_malloc(size_t size);
void *__real_calloc(size_t count, size_t size);
void *__real_realloc(void *at, size_t size);
void __real_free(void *at);
void *__real_mmap(void *at, size_t size, int may, int kind, int file, off_t from);

/* Of the calls within the library: how many allocations come before the one that is refused, from -1 on none; and how
 * many blocks are held. (Of all threads: a run may start some, and gives back what they took.) */
static atomic_long left = -1, held;
static atomic_int is_counted;

static int is_refused(void) {
    if (!is_counted || left < 0 || atomic_fetch_sub(&left, 1) > 0)
        return 0;
    errno = ENOMEM;
    return 1;
}

static void *taken(void *at) {
    held += is_counted && at;
    return at;
}

void *__wrap_malloc(size_t size) { return is_refused() ? NULL : taken(__real_malloc(size)); }
void *__wrap_calloc(size_t count, size_t size) { return is_refused() ? NULL : taken(__real_calloc(count, size)); }
void *__wrap_realloc(void *at, size_t size) {
    if (is_refused())
        return NULL;
    return at ? __real_realloc(at, size) : taken(__real_malloc(size));
}
void __wrap_free(void *at) {
    held -= is_counted && at;
    __real_free(at);
}
void *__wrap_mmap(void *at, size_t size, int may, int kind, int file, off_t from) {
    return is_refused() ? MAP_FAILED : __real_mmap(at, size, may, kind, file, from);
}

static char input[1 << 20];
static size_t size;
static const char *const *words;

/* The three ways of a run: each puts what was answered at `into`, and gives the status. */
static int by_feeding(char *into) {
    stnu run = stnu_open(words);
    if (!run)
        return STNU_MEMORY;
    int status = STNU_RUNNING;
    for (size_t at = 0; at < size && status == STNU_RUNNING;) {
        char *line_end = memchr(input + at, '\n', size - at);
        size_t next = line_end ? (size_t)(line_end + 1 - input) : size;
        status = stnu_feed(run, input + at, next - at);
        strcat(into, stnu_answer(run, NULL));
        at = next;
    }
    if (status == STNU_RUNNING) {
        status = stnu_end(run);
        strcat(into, stnu_answer(run, NULL));
    }
    stnu_close(run);
    return status;
}

static int at_once(char *into) {
    char *answer;
    int status = stnu_run(words, input, size, &answer, NULL);
    if (answer)
        strcat(into, answer);
    stnu_free(answer);
    return status;
}

static size_t taken_so_far;

static ptrdiff_t take(void *context, void *to, size_t most) {
    size_t some = most < size - taken_so_far ? most : size - taken_so_far;
    (void)context;
    memcpy(to, input + taken_so_far, some);
    taken_so_far += some;
    return (ptrdiff_t)some;
}

static ptrdiff_t put(void *context, const void *bytes, size_t most) {
    strncat(context, bytes, most);
    return (ptrdiff_t)most;
}

static int by_serving(char *into) {
    taken_so_far = 0;
    return stnu_serve(words, take, put, into);
}

/* Whether a run without memory ended as it may: with 8 or, where the answer found no room, 6, after a front of the
 * whole answer. */
static int is_right(int status, const char *said, int wanted, const char *whole) {
    if (status == wanted && !strcmp(said, whole))
        return 1;
    return (status == STNU_MEMORY || status == STNU_WRITE) && !strncmp(said, whole, strlen(said));
}

/* Refuses one allocation after the other. Gives how many runs ended otherwise than they may. */
static int try_each(int (*way)(char *), const char *name) {
    static char whole[1 << 21], said[1 << 21];
    int wrong = 0, wanted = way(memset(whole, 0, 1));
    long number = 0;
    for (;; number++) {
        said[0] = 0;
        is_counted = 1;
        held = 0;
        left = number;
        int status = way(said);
        int was_refused = left < 0;
        left = -1;
        is_counted = 0;
        if (!is_right(status, said, wanted, whole) || held != 0) {
            wrong++;
            printf("WRONG: %s, allocation %ld: status %d, %ld blocks left\n", name, number, status, (long)held);
        }
        if (!was_refused)
            break;
    }
    printf("%s %s: %ld allocations refused, %d wrong\n", words[0], name, number, wrong);
    return wrong + (number == 0);
}

int main(int count, char **given) {
    (void)count;
    words = (const char *const *)given + 1;
    size = fread(input, 1, sizeof input, stdin);
    int wrong = try_each(by_feeding, "by feeding") + try_each(at_once, "at once") + try_each(by_serving, "by serving");
    return wrong != 0;
}
