/* Has inputs answered by the program, each in a process of its own, and by the library in this process, cut anyhow, in
 * several threads at once, and compares the bytes and the statuses. replay PROGRAM FILE THREADS SEED FILE has for each
 * input a line `WORDS INPUT`, two numbers, then so many words with a zero byte after each, and the bytes of the input.
 * The library has each four ways: fed line by line, fed in pieces, all at once, and over a source and a sink that take
 * pieces. */
#define _GNU_SOURCE
#include <pthread.h>
#include <spawn.h>
#include <stdatomic.h>
#include <stdio.h>
#include <stdlib.h>
#include <string.h>
#include <sys/mman.h>
#include <sys/wait.h>
#include <unistd.h>

#include "stnu.h"

#define MOST_WORDS 16

extern char **environ;

/* An input, and what the program answers to it. */
struct input {
    const char *words[MOST_WORDS + 1];
    int status;
    const char *bytes;
    char *answer;
    size_t size, answered;
};

struct text {
    char *bytes;
    size_t size, room;
};

static const char *program;
static struct input *inputs;
static size_t count;
static atomic_size_t next, wrong;

static void add(struct text *to, const void *bytes, size_t size) {
    if (to->size + size > to->room) {
        to->room = 2 * (to->size + size);
        to->bytes = realloc(to->bytes, to->room);
        if (!to->bytes)
            abort();
    }
    if (size)
        memcpy(to->bytes + to->size, bytes, size);
    to->size += size;
}

static unsigned below(unsigned *state, unsigned limit) {
    *state = *state * 1103515245u + 12345u;
    return (*state >> 16) % limit;
}

/* How long a piece is: a byte, some, or as much as there is. */
static size_t piece(unsigned *state, size_t left) {
    static const unsigned longest[] = {1, 3, 17, 200, 65536};
    size_t size = 1 + below(state, longest[below(state, 5)]);
    return size < left ? size : left;
}

static void tell(const struct input *it, const char *way, int status, const struct text *said) {
    atomic_fetch_add(&wrong, 1);
    printf("WRONG, %s: %s .. over %.60s..: status %d and not %d, %zu bytes and not %zu\n", way,
           it->words[0] ? it->words[0] : "no words", it->bytes, status, it->status, said->size, it->answered);
}

static void compare(const struct input *it, const char *way, int status, const struct text *said) {
    if (status != it->status || said->size != it->answered ||
        (said->size && memcmp(said->bytes, it->answer, said->size)))
        tell(it, way, status, said);
}

/* A copy of a piece, as long as it is, so that a read beyond it is seen, and changed after the call, so that one that
 * comes late is. */
static int feed(stnu run, const char *bytes, size_t size, struct text *said) {
    char *copy = malloc(size);
    size_t answered;
    if (!copy)
        abort();
    memcpy(copy, bytes, size);
    int status = stnu_feed(run, copy, size);
    memset(copy, '?', size);
    free(copy);
    const char *answer = stnu_answer(run, &answered);
    if (strlen(answer) != answered)
        atomic_fetch_add(&wrong, 1);
    add(said, answer, answered);
    return status;
}

static int end(stnu run, int status, struct text *said) {
    size_t answered;
    if (status == STNU_RUNNING) {
        status = stnu_end(run);
        const char *answer = stnu_answer(run, &answered);
        add(said, answer, answered);
    }
    if (stnu_state(run) != status || stnu_close(run) != status)
        atomic_fetch_add(&wrong, 1);
    return status;
}

/* Line by line; after each line, how long the answer is then. */
static void by_lines(const struct input *it, struct text *said, size_t *answered) {
    stnu run = stnu_open(it->words);
    int status = STNU_RUNNING;
    for (size_t at = 0, line = 0; at < it->size && status == STNU_RUNNING; line++) {
        const char *line_end = memchr(it->bytes + at, '\n', it->size - at);
        size_t size = line_end ? (size_t)(line_end + 1 - it->bytes) - at : it->size - at;
        status = feed(run, it->bytes + at, size, said);
        at += size;
        if (line_end)
            answered[line] = said->size;
    }
    compare(it, "line by line", end(run, status, said), said);
}

/* In pieces; after each, what is answered is the answer to the whole lines. */
static void by_pieces(const struct input *it, struct text *said, const size_t *answered, unsigned *state) {
    stnu run = stnu_open(it->words);
    int status = STNU_RUNNING;
    size_t lines = 0;
    for (size_t at = 0; at < it->size && status == STNU_RUNNING;) {
        size_t size = piece(state, it->size - at);
        status = feed(run, it->bytes + at, size, said);
        for (size_t n = 0; n < size; n++)
            lines += it->bytes[at + n] == '\n';
        at += size;
        if (status == STNU_RUNNING && said->size != (lines ? answered[lines - 1] : 0))
            tell(it, "what is answered to whole lines", status, said);
    }
    compare(it, "in pieces", end(run, status, said), said);
}

static void at_once(const struct input *it, struct text *said) {
    char *answer;
    size_t answered;
    int status = stnu_run(it->words, it->bytes, it->size, &answer, &answered);
    add(said, answer, answered);
    stnu_free(answer);
    compare(it, "at once", status, said);
}

struct talk {
    const struct input *of;
    size_t at;
    struct text *said;
    unsigned *state;
};

static ptrdiff_t take(void *context, void *into, size_t most) {
    struct talk *it = context;
    size_t left = it->of->size - it->at, size = left ? piece(it->state, left) : 0;
    size = size < most ? size : most;
    memcpy(into, it->of->bytes + it->at, size);
    it->at += size;
    return (ptrdiff_t)size;
}

static ptrdiff_t put(void *context, const void *bytes, size_t most) {
    struct talk *it = context;
    size_t size = piece(it->state, most);
    add(it->said, bytes, size);
    return (ptrdiff_t)size;
}

static void by_serving(const struct input *it, struct text *said, unsigned *state) {
    struct talk talk = {it, 0, said, state};
    compare(it, "over a source and a sink", stnu_serve(it->words, take, put, &talk), said);
}

static void demand(int holds) {
    if (!holds) {
        perror("replay");
        abort();
    }
}

/* Has the program answer an input, over two files in memory. */
static void ask_program(struct input *it) {
    const char *words[MOST_WORDS + 2] = {"stnu"};
    int given = memfd_create("given", MFD_CLOEXEC), said = memfd_create("said", MFD_CLOEXEC), status = 0;
    posix_spawn_file_actions_t acts;
    pid_t child;
    memcpy(words + 1, it->words, sizeof it->words);
    for (size_t at = 0; at < it->size;) {
        ssize_t some = write(given, it->bytes + at, it->size - at);
        demand(some > 0);
        at += (size_t)some;
    }
    demand(given >= 0 && said >= 0 && lseek(given, 0, SEEK_SET) == 0);
    posix_spawn_file_actions_init(&acts);
    posix_spawn_file_actions_adddup2(&acts, given, STDIN_FILENO);
    posix_spawn_file_actions_adddup2(&acts, said, STDOUT_FILENO);
    demand(!posix_spawn(&child, program, &acts, NULL, (char **)words, environ) && waitpid(child, &status, 0) == child);
    posix_spawn_file_actions_destroy(&acts);
    it->status = WIFEXITED(status) ? WEXITSTATUS(status) : -1;
    it->answered = (size_t)lseek(said, 0, SEEK_END);
    it->answer = malloc(it->answered + 1);
    demand(it->answer && pread(said, it->answer, it->answered, 0) == (ssize_t)it->answered);
    close(given);
    close(said);
}

static void *replay(void *seed) {
    unsigned state = *(unsigned *)seed;
    struct text said = {0};
    for (size_t number; (number = atomic_fetch_add(&next, 1)) < count;) {
        struct input *it = &inputs[number];
        size_t *answered = calloc(it->size + 1, sizeof *answered);
        demand(answered != NULL);
        ask_program(it);
        by_lines(it, &said, answered);
        said.size = 0;
        by_pieces(it, &said, answered, &state);
        said.size = 0;
        at_once(it, &said);
        said.size = 0;
        by_serving(it, &said, &state);
        said.size = 0;
        free(answered);
        free(it->answer);
    }
    free(said.bytes);
    return NULL;
}

static char *contents(const char *path, size_t *size) {
    FILE *file = fopen(path, "rb");
    if (!file || fseek(file, 0, SEEK_END))
        exit(2);
    *size = (size_t)ftell(file);
    char *bytes = malloc(*size + 1);
    rewind(file);
    if (!bytes || fread(bytes, 1, *size, file) != *size)
        exit(2);
    fclose(file);
    bytes[*size] = 0;
    return bytes;
}

/* Reads the inputs, which stay in these bytes. */
static void list_inputs(char *at, const char *last) {
    while (at < last) {
        int words, taken;
        inputs = realloc(inputs, (count + 1) * sizeof *inputs);
        if (!inputs)
            abort();
        struct input *it = memset(&inputs[count++], 0, sizeof *it);
        if (sscanf(at, "%d %zu%n", &words, &it->size, &taken) != 2 || words > MOST_WORDS)
            exit(2);
        at += taken + 1;
        for (int n = 0; n < words; n++) {
            it->words[n] = at;
            at += strlen(at) + 1;
        }
        it->bytes = at;
        at += it->size;
    }
}

int main(int given, char **words) {
    if (given != 5)
        return 2;
    program = words[1];
    size_t size, threads = strtoul(words[3], NULL, 10);
    char *bytes = contents(words[2], &size);
    list_inputs(bytes, bytes + size);
    pthread_t *started = calloc(threads, sizeof *started);
    unsigned *seeds = calloc(threads, sizeof *seeds);
    if (!started || !seeds)
        return 2;
    for (size_t n = 0; n < threads; n++) {
        seeds[n] = (unsigned)(strtoul(words[4], NULL, 10) + n);
        if (pthread_create(&started[n], NULL, replay, &seeds[n]))
            return 2;
    }
    for (size_t n = 0; n < threads; n++)
        pthread_join(started[n], NULL);
    printf("replay: %zu inputs, each four ways, in %zu threads, %zu wrong\n", count, threads, wrong);
    free(started);
    free(seeds);
    free(inputs);
    free(bytes);
    return count == 0 || wrong != 0;
}
