/* Misuse is answered, and nothing is done: each call with numbers of no run, with pointers to nothing, and from two
 * threads at once; a child after a fork; what a thread has blocked; and a run that is stopped. Prints what is wrong;
 * the status is 0 where nothing is. */
#define _GNU_SOURCE
#include <pthread.h>
#include <signal.h>
#include <stdatomic.h>
#include <stdio.h>
#include <stdlib.h>
#include <string.h>
#include <sys/wait.h>
#include <unistd.h>

#include "stnu.h"

static const char plan[] = "stnu 1\npoint A\npoint C\npoint D\nbound b1 D C 4\nlink A 3 8 C\nend\n";
static const char *const check[] = {"check", NULL}, *const execute[] = {"run", NULL}, *const edit[] = {"session", NULL};
static int wrong, tried;

static void expect(int is_right, const char *what) {
    tried++;
    if (!is_right) {
        wrong++;
        printf("WRONG: %s\n", what);
    }
}

static int answers(stnu run, const char *wanted) {
    size_t size = 1;
    const char *answer = stnu_answer(run, &size);
    return answer && size == strlen(wanted) && strcmp(answer, wanted) == 0;
}

/* Each call with a number that is no open run. */
static void try_number(stnu run, const char *what) {
    size_t size = 1;
    expect(stnu_feed(run, plan, strlen(plan)) == STNU_MISUSE, what);
    expect(stnu_end(run) == STNU_MISUSE, what);
    expect(stnu_answer(run, &size) == NULL && size == 0, what);
    expect(stnu_answer(run, NULL) == NULL, what);
    expect(stnu_state(run) == STNU_MISUSE, what);
    expect(stnu_stop(run) == STNU_MISUSE, what);
    expect(stnu_close(run) == STNU_MISUSE, what);
}

static void try_numbers(void) {
    try_number(0, "no run");
    try_number(1000000, "a number that was not given");
    try_number(UINT64_MAX, "the largest number");
    stnu one = stnu_open(check), other = stnu_open(execute), third = stnu_open(check);
    expect(one && other && third && one != other && other != third, "three runs have three numbers");
    expect(stnu_close(other) == STNU_FORMAT, "a run that is closed before its end");
    try_number(other, "a run that was closed");
    expect(stnu_feed(one, plan, strlen(plan)) == STNU_YES && answers(one, "controllable\n"), "one before it");
    expect(stnu_feed(third, plan, strlen(plan)) == STNU_YES && answers(third, "controllable\n"), "one after it");
    expect(stnu_close(one) == STNU_YES && stnu_close(third) == STNU_YES, "both are closed");
    try_number(one, "the first, closed");
    stnu more = stnu_open(check);
    expect(more != one && more != other && more != third, "a number is not given again");
    stnu_close(more);
}

static void try_ended(void) {
    stnu run = stnu_open(check);
    expect(stnu_state(run) == STNU_RUNNING && answers(run, ""), "before anything is fed");
    expect(stnu_feed(run, plan, strlen(plan)) == STNU_YES && answers(run, "controllable\n"), "the plan");
    expect(stnu_feed(run, plan, strlen(plan)) == STNU_YES && answers(run, ""), "more than the plan");
    expect(stnu_end(run) == STNU_YES && stnu_end(run) == STNU_YES && stnu_state(run) == STNU_YES, "its end, twice");
    stnu_close(run);
    run = stnu_open((const char *const[]){"chek", NULL});
    expect(stnu_feed(run, NULL, 0) == STNU_WORDS && answers(run, "error words\n"), "words of no command");
    stnu_close(run);
}

static ptrdiff_t nothing(void *context, void *into, size_t size) { return (void)context, (void)into, (void)size, 0; }
static ptrdiff_t fails(void *context, void *into, size_t size) { return (void)context, (void)into, (void)size, -1; }
static ptrdiff_t too_much(void *context, void *into, size_t size) {
    return (void)context, (void)into, (ptrdiff_t)size + 1;
}
static ptrdiff_t keeps(void *context, const void *bytes, size_t size) {
    strncat(context, bytes, size);
    return (ptrdiff_t)size;
}
static ptrdiff_t refuses(void *context, const void *bytes, size_t size) {
    return (void)context, (void)bytes, (void)size, -1;
}
static ptrdiff_t takes_none(void *context, const void *bytes, size_t size) {
    return (void)context, (void)bytes, (void)size, 0;
}

static void try_pointers(void) {
    char *answer = (char *)plan, said[256] = "";
    size_t size = 1;
    stnu run = stnu_open(NULL);
    expect(stnu_feed(run, NULL, 1) == STNU_MISUSE, "no bytes, but one");
    expect(stnu_state(run) == STNU_RUNNING, "after that");
    expect(stnu_end(run) == STNU_WORDS, "no words");
    stnu_close(run);
    expect(stnu_run(NULL, NULL, 0, NULL, NULL) == STNU_WORDS, "nothing is wanted of a run");
    expect(stnu_run(check, NULL, 1, &answer, &size) == STNU_MISUSE && !answer && !size, "no input, but a byte");
    expect(stnu_run(check, plan, strlen(plan), NULL, &size) == STNU_YES && size == 13, "the number of bytes alone");
    stnu_free(NULL);
    expect(stnu_serve(check, NULL, keeps, said) == STNU_MISUSE, "no source");
    expect(stnu_serve(check, nothing, NULL, said) == STNU_MISUSE, "no sink");
    expect(stnu_serve(check, nothing, keeps, said) == STNU_FORMAT && !strcmp(said, "error format 1 no-header\n"),
           "no input");
    said[0] = 0;
    expect(stnu_serve(check, fails, keeps, said) == STNU_READ && !strcmp(said, "error read\n"), "a source that fails");
    said[0] = 0;
    expect(stnu_serve(check, too_much, keeps, said) == STNU_READ && !strcmp(said, "error read\n"),
           "a source that gives too much");
    expect(stnu_serve(check, nothing, refuses, said) == STNU_WRITE, "a sink that fails");
    expect(stnu_serve(check, nothing, takes_none, said) == STNU_WRITE, "a sink that takes nothing");
    for (int status = -5; status < 12; status++)
        expect(strlen(stnu_meaning(status)) > 5, "each status has a meaning");
}

/* A source that tells when it is asked for the first time, and then waits. */
struct slow {
    int told[2], goes_on[2];
    stnu other;
};

static ptrdiff_t waits(void *context, void *into, size_t size) {
    struct slow *it = context;
    char byte = 0;
    (void)into, (void)size;
    expect(write(it->told[1], "!", 1) == 1 && read(it->goes_on[0], &byte, 1) == 1, "two threads talk");
    /* A source may use other runs. */
    expect(stnu_feed(it->other, plan, strlen(plan)) == STNU_RUNNING, "a run within a source");
    return 0;
}

static ptrdiff_t drops(void *context, const void *bytes, size_t size) {
    return (void)context, (void)bytes, (ptrdiff_t)size;
}

static void *served(void *context) {
    expect(stnu_serve(check, waits, drops, context) == STNU_FORMAT, "a source that ends after a while");
    return NULL;
}

/* A session that decides again and again in another thread, until it is told enough or stopped. */
struct decided {
    stnu run;
    atomic_int is_enough;
    int status;
};

static void *decides(void *context) {
    struct decided *it = context;
    static const char lines[] = "set bound whole 494\nverdict\n";
    do
        it->status = stnu_feed(it->run, lines, strlen(lines));
    while (it->status == STNU_RUNNING && !atomic_load(&it->is_enough));
    return NULL;
}

static stnu large_session(void) {
    char line[128];
    stnu run = stnu_open(edit);
    stnu_feed(run, "stnu 1\n", 7);
    for (int n = 0; n < 100; n++)
        stnu_feed(run, line, (size_t)sprintf(line, "point p%d\n", n));
    for (int n = 0; n < 99; n++)
        stnu_feed(
            run, line,
            (size_t)sprintf(line, "bound most%d p%d p%d 10\nbound least%d p%d p%d -5\n", n, n, n + 1, n, n + 1, n));
    stnu_feed(run, "bound whole p0 p99 494\nend\n", 27);
    return run;
}

/* While another thread uses a run, each call of this one is answered by misuse; between two of its calls the run is
 * free. */
static void try_threads(void) {
    struct decided it = {.run = large_session()};
    pthread_t thread;
    expect(answers(it.run, "ready\n"), "a large session");
    pthread_create(&thread, NULL, decides, &it);
    while (stnu_state(it.run) != STNU_MISUSE)
        ;
    while (stnu_feed(it.run, NULL, 0) != STNU_MISUSE)
        ;
    while (stnu_answer(it.run, NULL))
        ;
    atomic_store(&it.is_enough, 1);
    int status = stnu_close(it.run);
    pthread_join(thread, NULL);
    if (status == STNU_MISUSE) {
        expect(it.status == STNU_RUNNING && answers(it.run, "ok\nnot controllable\n"),
               "what the other thread is answered");
        status = stnu_close(it.run);
    } else
        expect(it.status == STNU_RUNNING || it.status == STNU_MISUSE,
               "the other thread comes too late, or ended before");
    expect(status == STNU_FORMAT, "it is closed by the first thread");
}

static void try_stop(void) {
    struct decided it = {.run = large_session()};
    pthread_t thread;
    pthread_create(&thread, NULL, decides, &it);
    while (stnu_state(it.run) != STNU_MISUSE)
        ;
    expect(stnu_stop(it.run) == STNU_RUNNING, "it is stopped");
    pthread_join(thread, NULL);
    expect(it.status == STNU_MEMORY && stnu_state(it.run) == STNU_MEMORY, "it ends for want of memory");
    expect(stnu_close(it.run) == STNU_MEMORY, "it is closed");
}

static void try_source(void) {
    struct slow it = {.other = stnu_open(execute)};
    pthread_t thread;
    char byte;
    expect(!pipe(it.told) && !pipe(it.goes_on), "pipes");
    pthread_create(&thread, NULL, served, &it);
    expect(read(it.told[0], &byte, 1) == 1, "a source is asked");
    expect(stnu_run(check, plan, strlen(plan), NULL, NULL) == STNU_YES, "a run beside one that waits");
    expect(write(it.goes_on[1], "!", 1) == 1, "it goes on");
    pthread_join(thread, NULL);
    expect(stnu_feed(it.other, "at 0\n", 5) == STNU_RUNNING && answers(it.other, "act 0 A\ndue 4\n"), "the run within");
    stnu_close(it.other);
    for (int n = 0; n < 2; n++) {
        close(it.told[n]);
        close(it.goes_on[n]);
    }
}

static void try_fork(void) {
    stnu run = stnu_open(execute);
    stnu_feed(run, plan, strlen(plan));
    pid_t child = fork();
    if (child == 0)
        _exit(stnu_feed(run, "at 0\n", 5) == STNU_RUNNING && answers(run, "act 0 A\ndue 4\n") ? 0 : 1);
    int status = 1;
    waitpid(child, &status, 0);
    expect(status == 0, "a child goes on with a run");
    expect(stnu_feed(run, "at 3 C\n", 7) == STNU_RUNNING && answers(run, "act 0 A\nact 3 D\ndue none\n"),
           "and its parent");
    stnu_close(run);
}

static void try_signals(void) {
    sigset_t blocked, now;
    stnu run = stnu_open(execute);
    stnu_feed(run, plan, strlen(plan));
    sigemptyset(&blocked);
    sigaddset(&blocked, SIGUSR1);
    pthread_sigmask(SIG_BLOCK, &blocked, NULL);
    stnu_feed(run, "at 0\n", 5);
    pthread_sigmask(SIG_SETMASK, NULL, &now);
    expect(sigismember(&now, SIGUSR1) == 1, "what a thread has blocked stays so");
    pthread_sigmask(SIG_UNBLOCK, &blocked, NULL);
    stnu_close(run);
    struct sigaction pipe_is;
    sigaction(SIGPIPE, NULL, &pipe_is);
    expect(pipe_is.sa_handler == SIG_DFL, "the signal of a closed pipe is as it was");
}

int main(void) {
    setvbuf(stdout, NULL, _IOLBF, 0);
    try_numbers();
    try_ended();
    try_pointers();
    try_threads();
    try_stop();
    try_source();
    try_fork();
    try_signals();
    printf("misuse: %d of %d right\n", tried - wrong, tried);
    return wrong != 0;
}
