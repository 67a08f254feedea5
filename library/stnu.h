/* stnu.h: the workbench for simple temporal networks with uncertainty, in a process of yours.
 *
 * A run is what the program `stnu` does with the same words and the same input: the same answers, byte for byte, and
 * the same status. Here it reads what you feed it, and its answers are handed to you. It answers each whole line before
 * it takes more, so when stnu_feed returns, stnu_answer gives the whole answer to the lines that were fed.
 * docs/LIBRARY.md tells what is proved of it.
 *
 *     stnu day = stnu_open((const char *const[]){"run", NULL});
 *     int status = stnu_feed(day, plan, strlen(plan));              // STNU_RUNNING
 *     puts(stnu_answer(day, NULL));                                 // controllable, due 0
 *     status = stnu_feed(day, "at 0\n", 5);
 *     ..
 *     stnu_close(day);
 *
 * Errors: what a call gives says all. No function prints, or tells anything by errno. Whatever numbers and pointers to
 * nothing a call is given, misuse is answered by STNU_MISUSE, and then nothing was done. What ends the process: a run
 * that wants more than its stack, and, where the library is checked and not proved, a check that fails.
 *
 * Ownership: what you hand over stays yours, and is not looked at after the call. An answer is the run's until the next
 * call with that run, but for that of stnu_run, which is yours until stnu_free.
 *
 * Threads: any number of runs at the same time, in any threads. One run is used by one thread at a time, and by any one
 * after another. Each run has a stack of its own, so that of your thread may be small. No thread is left when a call
 * returns. After a fork the child has the runs that no thread was using. No call is made from a signal handler.
 *
 * What is kept: the runs that are open, and up to 16 empty stacks for the next ones, whose memory is the system's to
 * take. No file is opened for writing, no signal is handled.
 */
#ifndef STNU_H
#define STNU_H

#include <stddef.h>
#include <stdint.h>

#ifdef __cplusplus
extern "C" {
#endif

/* The version of this header. A program that was made with it runs with each library of the same major number, and no
 * lesser minor one. */
#define STNU_MAJOR 1
#define STNU_MINOR 0

/* How a run stands. From STNU_YES on these are the statuses of the program, with which a run ends. */
enum stnu_status {
    STNU_MISUSE = -2,  /* no open run, one that another thread is using, or a pointer to nothing */
    STNU_RUNNING = -1, /* more lines are wanted: feed them, or end the input */
    STNU_YES = 0,      /* controllable, accepted, executed to the end, shown; the session or the fleet was ended */
    STNU_NO = 1,       /* not controllable, with the refutation, or a certificate is refused, with the line at fault */
    STNU_WORDS = 2,    /* the words are those of no command */
    STNU_FORMAT = 3,   /* a line of the input, or a part of the plan, is at fault: the answer names it */
    STNU_LIMIT = 4,    /* a limit is passed: the answer names it */
    STNU_READ = 5,     /* your `take` failed */
    STNU_WRITE = 6,    /* your `put` failed, or there was no memory to keep the answer */
    STNU_EVENT = 7,    /* an event is refused: the answer names it, and the execution is over */
    STNU_MEMORY = 8    /* there was no memory, or the run was stopped */
};

/* A run goes by a number that is given to no other, so one that was closed is known as such. 0 is no run. */
typedef uint64_t stnu;

/* The version of the library, as "1.0". Never NULL. */
const char *stnu_version(void);

/* How the library was made: "proved" or "checked", and then by which kit and of which sources. Never NULL. */
const char *stnu_made(void);

/* What a status says, in a few words, without a line end. Never NULL, whatever the number. */
const char *stnu_meaning(int status);

/* Begins a run with these words, those of the program without its name, as {"run", "--delay", "3", NULL}; NULL stands
 * for no words. They are copied. Gives 0 where there is no memory. Words that no command has are told by the first feed
 * (STNU_WORDS). Each run is closed in the end. */
stnu stnu_open(const char *const *words);

/* Hands over `size` bytes of input, of any number of lines, whole or not, and has the whole lines among them answered.
 * Gives STNU_RUNNING, or the status with which the run ended; a run that has ended takes no more, and gives its status
 * again. `bytes` may be NULL where `size` is 0. */
int stnu_feed(stnu run, const void *bytes, size_t size);

/* Says that the input ends here. Gives the status with which the run ended, now or before. */
int stnu_end(stnu run);

/* What was answered to the last stnu_feed or stnu_end of this run: its bytes, with a zero byte after them, and their
 * number in *size, which may be NULL. Yours to read until the next call with this run. NULL, and 0 bytes, where no open
 * run has this number or a thread is using it. */
const char *stnu_answer(stnu run, size_t *size);

/* The status: STNU_RUNNING, or that with which the run ended. */
int stnu_state(stnu run);

/* Has a run end soon that works in another thread: from now on it is given no memory, so it ends with STNU_MEMORY where
 * it next asks for some. What was answered before stands. The one call that may be made while another thread is using
 * the run. Gives STNU_RUNNING or STNU_MISUSE. */
int stnu_stop(stnu run);

/* Ends the run where it has not ended, and gives back all that it held; its number is no run from now on. Gives the
 * status with which it ended, or STNU_MISUSE, as where another thread is using it: then it is still open. */
int stnu_close(stnu run);

/* All at once: a run over a whole input. Where they are not NULL, *answer is set to the answer, with a zero byte after
 * it, to be given back by stnu_free, and *answered to the number of its bytes. Where there is no memory for a run they
 * are NULL and 0, and the status is STNU_MEMORY. */
int stnu_run(const char *const *words, const void *input, size_t size, char **answer, size_t *answered);

/* Gives back an answer of stnu_run. NULL is passed over. */
void stnu_free(char *answer);

/* A source: puts at most `size` bytes, at least 1, at `into`, and gives their number, 0 where the input has ended, or
 * less where it failed. */
typedef ptrdiff_t stnu_take(void *context, void *into, size_t size);

/* A sink: takes up to `size` bytes, at least 1, and gives how many it took, at least 1, or less where it failed. */
typedef ptrdiff_t stnu_put(void *context, const void *bytes, size_t size);

/* All at once over a source and a sink of yours, which are called in this thread, on its own stack. They may use other
 * runs. They return: none of them leaves by longjmp or an exception. A count that cannot be is taken for a failure. */
int stnu_serve(const char *const *words, stnu_take *take, stnu_put *put, void *context);

#ifdef __cplusplus
}
#endif
#endif
