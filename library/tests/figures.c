/* The same work in this process, and by the program over pipes and in a process each, in processor time of both sides:
 * the median of rounds, in which the ways take turns. And the memory of runs.
 *     figures PROGRAM */
#define _GNU_SOURCE
#include <fcntl.h>
#include <spawn.h>
#include <stdio.h>
#include <stdlib.h>
#include <string.h>
#include <sys/resource.h>
#include <sys/wait.h>
#include <unistd.h>

#include "stnu.h"

#define ROUNDS 5
#define MANY 4000
#define FEW 200
#define FEEDS 20000
#define OPEN 500

extern char **environ;

static const char plan[] = "stnu 1\npoint A\npoint C\npoint D\nbound b1 D C 4\nlink A 3 8 C\nend\n";
static const char *program;

/* A run over one of two ways: the library, or the program over two pipes. */
struct way {
    stnu run;
    pid_t child;
    int to, from;
};

static double seconds_of(int who) {
    struct rusage used;
    getrusage(who, &used);
    return (double)(used.ru_utime.tv_sec + used.ru_stime.tv_sec) +
           (double)(used.ru_utime.tv_usec + used.ru_stime.tv_usec) * 1e-6;
}

static double used(void) { return seconds_of(RUSAGE_SELF) + seconds_of(RUSAGE_CHILDREN); }

static void demand(int holds) {
    if (!holds)
        abort();
}

static pid_t begin(const char *word, int in, int out) {
    posix_spawn_file_actions_t acts;
    pid_t child;
    posix_spawn_file_actions_init(&acts);
    posix_spawn_file_actions_adddup2(&acts, in, 0);
    posix_spawn_file_actions_adddup2(&acts, out, 1);
    demand(!posix_spawn(&child, program, &acts, NULL, (char *[]){"stnu", (char *)word, NULL}, environ));
    posix_spawn_file_actions_destroy(&acts);
    return child;
}

static void begin_way(struct way *it, const char *word, int is_library) {
    int given[2], said[2];
    *it = (struct way){0};
    if (is_library) {
        it->run = stnu_open((const char *const[]){word, NULL});
        return;
    }
    demand(!pipe2(given, O_CLOEXEC) && !pipe2(said, O_CLOEXEC));
    it->child = begin(word, given[0], said[1]);
    close(given[0]);
    close(said[1]);
    it->to = given[1];
    it->from = said[0];
}

static void end_way(struct way *it) {
    if (it->run) {
        stnu_close(it->run);
        return;
    }
    close(it->to);
    close(it->from);
    waitpid(it->child, NULL, 0);
}

/* Tells lines, and demands this answer. */
static void talk(struct way *it, const char *lines, size_t size, const char *wanted) {
    char said[256];
    size_t have = 0, length = strlen(wanted);
    if (it->run) {
        stnu_feed(it->run, lines, size);
        demand(!strcmp(stnu_answer(it->run, NULL), wanted));
        return;
    }
    demand(write(it->to, lines, size) == (ssize_t)size);
    while (have < length) {
        ssize_t some = read(it->from, said + have, sizeof said - have);
        demand(some > 0);
        have += (size_t)some;
    }
    demand(have == length && !memcmp(said, wanted, length));
}

static double check_in_process(void) {
    double began = used();
    for (int n = 0; n < MANY; n++) {
        char *answer;
        demand(stnu_run((const char *const[]){"check", NULL}, plan, strlen(plan), &answer, NULL) == STNU_YES);
        demand(!strcmp(answer, "controllable\n"));
        stnu_free(answer);
    }
    return (used() - began) / MANY;
}

static double check_by_process(void) {
    FILE *given = tmpfile();
    int nowhere = open("/dev/null", O_WRONLY), status;
    demand(given && fwrite(plan, 1, strlen(plan), given) == strlen(plan) && !fflush(given));
    double began = used();
    for (int n = 0; n < FEW; n++) {
        lseek(fileno(given), 0, SEEK_SET);
        waitpid(begin("check", fileno(given), nowhere), &status, 0);
        demand(status == 0);
    }
    double took = used() - began;
    fclose(given);
    close(nowhere);
    return took / FEW;
}

/* The same question in a session: the plan is edited, and its verdict asked. */
static double edit(int is_library) {
    struct way it;
    char lines[64];
    double began = used();
    begin_way(&it, "session", is_library);
    talk(&it, plan, strlen(plan), "ready\n");
    for (int n = 0; n < MANY; n++)
        talk(&it, lines, (size_t)sprintf(lines, "set bound b1 %d\nverdict\n", 4 + n % 2), "ok\ncontrollable\n");
    end_way(&it);
    return (used() - began) / MANY;
}

static double tell_line(int is_library) {
    struct way it;
    char line[64];
    double began = used();
    begin_way(&it, "run", is_library);
    talk(&it, plan, strlen(plan), "controllable\ndue 0\n");
    for (int n = 0; n < FEEDS; n++) {
        size_t size = (size_t)sprintf(line, "at %d%s\n", n, n == 8 ? " C" : "");
        talk(&it, line, size,
             n == 0   ? "act 0 A\ndue 4\n"
             : n < 4  ? "due 4\n"
             : n == 4 ? "act 4 D\ndue none\n"
                      : "due none\n");
    }
    talk(&it, "done\n", 5, "complete\n");
    end_way(&it);
    return (used() - began) / FEEDS;
}

/* What this process holds, in KiB. */
static long held(void) {
    FILE *file = fopen("/proc/self/statm", "r");
    long all = 0, held = 0;
    demand(file && fscanf(file, "%ld %ld", &all, &held) == 2);
    fclose(file);
    return held * (sysconf(_SC_PAGESIZE) / 1024);
}

static void memory(void) {
    static stnu runs[OPEN];
    long before = held();
    for (int n = 0; n < OPEN; n++) {
        runs[n] = stnu_open((const char *const[]){"run", NULL});
        demand(stnu_feed(runs[n], plan, strlen(plan)) == STNU_RUNNING);
        demand(stnu_feed(runs[n], "at 0\n", 5) == STNU_RUNNING);
    }
    printf("%-32s %-22s %8.0f KiB\n", "an open execution", "in process", (double)(held() - before) / OPEN);
    for (int n = 0; n < OPEN; n++)
        stnu_close(runs[n]);
}

static double edit_in_process(void) { return edit(1); }
static double edit_over_pipes(void) { return edit(0); }
static double line_in_process(void) { return tell_line(1); }
static double line_over_pipes(void) { return tell_line(0); }

static const struct {
    const char *what, *way;
    double (*measure)(void);
} figures[] = {
    {"check of a small plan", "in process", check_in_process},
    {"check of a small plan", "a process each", check_by_process},
    {"edit and verdict of a session", "in process", edit_in_process},
    {"edit and verdict of a session", "over pipes", edit_over_pipes},
    {"line of an execution", "in process", line_in_process},
    {"line of an execution", "over pipes", line_over_pipes},
};
#define FIGURES (sizeof figures / sizeof *figures)

static int in_order(const void *one, const void *other) {
    double difference = *(const double *)one - *(const double *)other;
    return (difference > 0) - (difference < 0);
}

int main(int count, char **words) {
    static double took[FIGURES][ROUNDS];
    if (count != 2)
        return 2;
    program = words[1];
    printf("%s\n", stnu_made());
    memory();
    for (int round = 0; round < ROUNDS; round++)
        for (size_t n = 0; n < FIGURES; n++)
            took[n][round] = figures[n].measure() * 1e6;
    for (size_t n = 0; n < FIGURES; n++) {
        double *of = took[n];
        qsort(of, ROUNDS, sizeof *of, in_order);
        printf("%-32s %-22s %8.2f us (%.2f to %.2f)\n", figures[n].what, figures[n].way, of[ROUNDS / 2], of[0],
               of[ROUNDS - 1]);
    }
    return 0;
}
