/* The edge of the library: what the program takes of the system, here taken of a run.
 *
 * The program is compiled of its Rattle sources, and not a byte of it is changed: `tools/library make` only gives
 * other names to what it calls (main, read, write, the arguments, signal, _exit, memory). It reads standard input,
 * writes standard output, and ends with its status. A run has a stack on which the program works until it wants input;
 * then it gives way to the caller, and goes on when it is fed. */
#define _GNU_SOURCE
#include "stnu.h"

#include <errno.h>
#include <pthread.h>
#include <signal.h>
#include <stdatomic.h>
#include <stdlib.h>
#include <string.h>
#include <sys/mman.h>
#include <ucontext.h>
#include <unistd.h>

#ifndef STNU_MADE
#define STNU_MADE "unknown"
#endif
#define TEXT_OF(number) #number
#define VERSION_OF(major, minor) TEXT_OF(major) "." TEXT_OF(minor)

/* The stack of a run, in bytes, as large as the first thread of a program has it, and what lies unused below it, so
 * that want of stack is seen. */
#define STACK ((size_t)8 << 20)
#define GUARD ((size_t)64 << 10)
/* How many stacks are kept for the next runs. */
#define MOST_KEPT 16
/* The room of an answer to begin with. */
#define ROOM ((size_t)256)

#define HIDDEN __attribute__((visibility("hidden")))
#define PUBLIC __attribute__((visibility("default")))

/* What the program waits for where it gave way. */
enum want { NOTHING, TAKE, PUT };

struct run {
    stnu number;           /* 0 where no caller has it */
    int is_used;           /* by a thread, at this moment: changed by who holds the gate */
    atomic_int is_stopped; /* no more memory is given */
    int status;
    size_t word_count;
    const char **words; /* the places and the texts, in one piece of memory */
    char *answer;       /* `size` bytes and a zero byte, in so much room */
    size_t size, room;
    int is_served; /* what is put is handed on, and not kept */
    enum want want;
    void *at;     /* where and how much the program wants to take or put, */
    size_t asked; /* and how much it was given */
    ptrdiff_t given;
    char *stack;
    ucontext_t caller, program;
};

/* ---- The runs that are open, by their numbers ---- */

static pthread_mutex_t gate = PTHREAD_MUTEX_INITIALIZER;
static struct run **open_runs;
static size_t open_count, open_room;
static stnu last_number;

static void close_gate(void) { pthread_mutex_lock(&gate); }
static void open_gate(void) { pthread_mutex_unlock(&gate); }

/* No other thread is in the gate when the process is copied. */
__attribute__((constructor)) static void guard_forks(void) { pthread_atfork(close_gate, open_gate, open_gate); }

/* The place of the first open run whose number is not below this one; the gate is held. */
static size_t place_of(stnu number) {
    size_t low = 0, high = open_count;
    while (low < high) {
        size_t middle = low + (high - low) / 2;
        if (open_runs[middle]->number < number)
            low = middle + 1;
        else
            high = middle;
    }
    return low;
}

/* The open run of this number, or NULL; the gate is held. */
static struct run *found(stnu number) {
    size_t place = place_of(number);
    return place < open_count && open_runs[place]->number == number ? open_runs[place] : NULL;
}

/* The same, where no thread uses it: the gate is held. */
static struct run *free_run(stnu number) {
    struct run *it = found(number);
    return it && !it->is_used ? it : NULL;
}

/* The same, for this thread alone until `leave`. */
static struct run *enter(stnu number) {
    close_gate();
    struct run *it = free_run(number);
    if (it)
        it->is_used = 1;
    open_gate();
    return it;
}

static void leave(struct run *it) {
    close_gate();
    it->is_used = 0;
    open_gate();
}

/* Lists a run among the open ones and gives its number; 0 where there is no memory. */
static stnu list(struct run *it) {
    close_gate();
    if (open_count == open_room) {
        size_t room = open_room ? 2 * open_room : 8;
        struct run **more = realloc(open_runs, room * sizeof *more);
        if (more) {
            open_runs = more;
            open_room = room;
        }
    }
    if (open_count < open_room) {
        it->number = ++last_number;
        open_runs[open_count++] = it;
    }
    open_gate();
    return it->number;
}

/* Takes a run from the list, which is given back with the last one. */
static void unlist(struct run *it) {
    close_gate();
    size_t place = place_of(it->number);
    open_count--;
    memmove(open_runs + place, open_runs + place + 1, (open_count - place) * sizeof *open_runs);
    if (open_count == 0) {
        free(open_runs);
        open_runs = NULL;
        open_room = 0;
    }
    open_gate();
}

/* ---- What the program calls, on the stack of a run ---- */

/* The run whose program works in this thread; it may go on in another. Its place is fixed when the thread begins, so
 * reading it takes no memory. */
static _Thread_local struct run *current __attribute__((tls_model("initial-exec")));

/* (Not inlined: where a thread keeps `current` and errno must not be remembered over a change of threads.) */
static __attribute__((noinline)) struct run *running(void) { return current; }

static __attribute__((noinline)) ssize_t failed(int why) {
    errno = why;
    return -1;
}

/* Gives way to the caller, until it has given what is wanted. */
static ssize_t ask(struct run *it, enum want want, void *at, size_t size) {
    it->want = want;
    it->at = at;
    it->asked = size;
    swapcontext(&it->program, &it->caller);
    it->want = NOTHING;
    return it->given < 0 ? failed(EIO) : it->given;
}

/* Keeps what is put behind the answer so far. */
static ssize_t keep(struct run *it, const void *bytes, size_t size) {
    if (it->room - it->size <= size) {
        size_t least = it->size + size + 1, room = 2 * it->room > least ? 2 * it->room : least;
        char *answer = realloc(it->answer, room);
        if (!answer)
            return failed(ENOSPC);
        it->answer = answer;
        it->room = room;
    }
    memcpy(it->answer + it->size, bytes, size);
    it->size += size;
    it->answer[it->size] = 0;
    return (ssize_t)size;
}

/* (Of another file than standard input the program reads how many processors there are.) */
HIDDEN ssize_t stnu_program_read(int from, void *into, size_t size) {
    struct run *it = running();
    if (from != STDIN_FILENO)
        return read(from, into, size);
    return it && size ? ask(it, TAKE, into, size) : failed(EBADF);
}

/* (To another file than standard output a program that is checked and not proved writes what failed.) */
HIDDEN ssize_t stnu_program_write(int to, const void *bytes, size_t size) {
    struct run *it = running();
    if (to != STDOUT_FILENO)
        return write(to, bytes, size);
    if (!it || !size)
        return failed(EBADF);
    return it->is_served ? ask(it, PUT, (void *)bytes, size) : keep(it, bytes, size);
}

HIDDEN size_t rattle_arg_count(void) {
    struct run *it = running();
    return it ? it->word_count : 0;
}

/* Copies a word of the run, and gives its length: -1 where there is none, -2 where it has no room. */
HIDDEN ptrdiff_t rattle_arg(size_t index, unsigned char *into, size_t size) {
    struct run *it = running();
    if (!it || index >= it->word_count)
        return -1;
    size_t length = strlen(it->words[index]);
    memcpy(into, it->words[index], length < size ? length : size);
    return length <= size ? (ptrdiff_t)length : -2;
}

/* Memory, as the kit's C code gives it: whether there is some, and where. */
struct tried {
    size_t is_given;
    void *at;
};
HIDDEN struct tried rattle_alloc(size_t size, size_t align);
HIDDEN struct tried rattle_realloc(void *at, size_t kept, size_t size, size_t align);

static char no_memory;

static int is_stopped(void) {
    struct run *it = running();
    return it && atomic_load_explicit(&it->is_stopped, memory_order_relaxed);
}

HIDDEN struct tried stnu_program_alloc(size_t size, size_t align) {
    return is_stopped() ? (struct tried){0, &no_memory} : rattle_alloc(size, align);
}

HIDDEN struct tried stnu_program_realloc(void *at, size_t kept, size_t size, size_t align) {
    return is_stopped() ? (struct tried){0, &no_memory} : rattle_realloc(at, kept, size, align);
}

/* The program has its process ignore a closed pipe. A library leaves the process as it is. */
HIDDEN void (*stnu_program_signal(int number, void (*handler)(int)))(int) {
    (void)number;
    (void)handler;
    return NULL;
}

/* So the program ends, once it has given back all that it took. */
HIDDEN _Noreturn void stnu_program_exit(int status) {
    struct run *it = running();
    if (!it)
        _exit(status);
    it->status = status;
    setcontext(&it->caller);
    abort();
}

/* The program's `main`, which looks at no argument: it asks for them by rattle_arg. */
HIDDEN int stnu_program_main(int count, char **words);

static void work(void) { stnu_program_exit(stnu_program_main(0, NULL)); }

/* ---- Stacks: a new one takes as long as a small plan, so some are kept; their memory is the system's to take ---- */

static char *kept_stacks[MOST_KEPT];
static size_t kept_count;

/* A stack that was kept, or NULL. */
static char *kept_stack(void) {
    close_gate();
    char *stack = kept_count ? kept_stacks[--kept_count] : NULL;
    open_gate();
    return stack;
}

/* Keeps a stack, or gives it back where there are enough. */
static void drop_stack(char *stack) {
    madvise(stack + GUARD, STACK, MADV_FREE);
    close_gate();
    if (kept_count < MOST_KEPT) {
        kept_stacks[kept_count++] = stack;
        stack = NULL;
    }
    open_gate();
    if (stack)
        munmap(stack, GUARD + STACK);
}

/* A stack with the unused pages below it, or NULL. Each of its pages takes memory when it is first used; pages stay
 * small, so that little is. */
static char *new_stack(void) {
    const int kind = MAP_PRIVATE | MAP_ANONYMOUS | MAP_NORESERVE | MAP_STACK;
    char *stack = mmap(NULL, GUARD + STACK, PROT_NONE, kind, -1, 0);
    if (stack == MAP_FAILED)
        return NULL;
    if (mprotect(stack + GUARD, STACK, PROT_READ | PROT_WRITE)) {
        munmap(stack, GUARD + STACK);
        return NULL;
    }
    madvise(stack + GUARD, STACK, MADV_NOHUGEPAGE);
    return stack;
}

/* ---- What goes on between a caller and a run ---- */

static void leave_stack(struct run *it) {
    if (it->stack)
        drop_stack(it->stack);
    it->stack = NULL;
}

static void drop(struct run *it) {
    leave_stack(it);
    free(it->words);
    free(it->answer);
    free(it);
}

/* Copies the words, after the program's name. Gives whether there was memory. */
static int copy_words(struct run *it, const char *const *words) {
    static const char *const none[] = {NULL};
    static const char name[] = "stnu";
    words = words ? words : none;
    size_t count = 1, bytes = sizeof name;
    for (size_t n = 0; words[n]; n++) {
        count++;
        bytes += strlen(words[n]) + 1;
    }
    it->words = malloc(count * sizeof *it->words + bytes);
    if (!it->words)
        return 0;
    char *at = (char *)(it->words + count);
    for (size_t n = 0; n < count; n++) {
        const char *word = n ? words[n - 1] : name;
        size_t size = strlen(word) + 1;
        it->words[n] = memcpy(at, word, size);
        at += size;
    }
    it->word_count = count;
    return 1;
}

/* Has the program begin on the run's stack when it is gone on with. */
static int set_out(struct run *it) {
    if (getcontext(&it->program))
        return 0;
    it->program.uc_stack.ss_sp = it->stack + GUARD;
    it->program.uc_stack.ss_size = STACK;
    it->program.uc_link = NULL;
    makecontext(&it->program, work, 0);
    return 1;
}

/* A run that has not begun, or NULL where there is no memory. */
static struct run *new_run(const char *const *words) {
    struct run *it = calloc(1, sizeof *it);
    if (!it)
        return NULL;
    it->status = STNU_RUNNING;
    it->answer = malloc(ROOM);
    it->stack = kept_stack();
    if (!it->stack)
        it->stack = new_stack();
    if (!it->answer || !it->stack || !copy_words(it, words) || !set_out(it)) {
        drop(it);
        return NULL;
    }
    it->answer[0] = 0;
    it->room = ROOM;
    return it;
}

/* Has the program work until it wants something or ends. It has the signals blocked that this thread has. */
static void go_on(struct run *it) {
    pthread_sigmask(SIG_SETMASK, NULL, &it->program.uc_sigmask);
    current = it;
    swapcontext(&it->caller, &it->program);
    current = NULL;
    if (it->status != STNU_RUNNING)
        leave_stack(it);
}

/* Hands over some input, the last or not, and gives the status. */
static int feed(struct run *it, const char *bytes, size_t size, int is_last) {
    it->size = 0;
    it->answer[0] = 0;
    while (it->status == STNU_RUNNING) {
        if (it->want == TAKE) {
            if (size == 0 && !is_last)
                break;
            size_t some = size < it->asked ? size : it->asked;
            it->given = (ptrdiff_t)some;
            if (some) {
                memcpy(it->at, bytes, some);
                bytes += some;
                size -= some;
            }
        }
        go_on(it);
    }
    return it->status;
}

/* Hands on what the program wants, and gives the status with which it ends. */
static int serve(struct run *it, stnu_take *take, stnu_put *put, void *context) {
    it->is_served = 1;
    while (go_on(it), it->status == STNU_RUNNING) {
        ptrdiff_t least = it->want == PUT, most = (ptrdiff_t)it->asked;
        ptrdiff_t given = it->want == PUT ? put(context, it->at, it->asked) : take(context, it->at, it->asked);
        it->given = given >= least && given <= most ? given : -1;
    }
    return it->status;
}

/* ---- What callers call ---- */

PUBLIC const char *stnu_version(void) { return VERSION_OF(STNU_MAJOR, STNU_MINOR); }

PUBLIC const char *stnu_made(void) { return STNU_MADE; }

PUBLIC const char *stnu_meaning(int status) {
    switch (status) {
    case STNU_MISUSE: return "no open run, or one that another thread uses, or a pointer to nothing";
    case STNU_RUNNING: return "more lines are wanted";
    case STNU_YES: return "controllable, accepted, executed to the end, or shown";
    case STNU_NO: return "not controllable, or refused";
    case STNU_WORDS: return "the words are those of no command";
    case STNU_FORMAT: return "a line of the input, or a part of the plan, is at fault";
    case STNU_LIMIT: return "a limit is passed";
    case STNU_READ: return "reading failed";
    case STNU_WRITE: return "writing failed, or there was no memory for the answer";
    case STNU_EVENT: return "an event is refused";
    case STNU_MEMORY: return "there was no memory, or the run was stopped";
    default: return "no status";
    }
}

PUBLIC stnu stnu_open(const char *const *words) {
    struct run *it = new_run(words);
    stnu number = it ? list(it) : 0;
    if (it && !number)
        drop(it);
    return number;
}

static int enter_and_feed(stnu run, const void *bytes, size_t size, int is_last) {
    struct run *it = !bytes && size ? NULL : enter(run);
    if (!it)
        return STNU_MISUSE;
    int status = feed(it, bytes, size, is_last);
    leave(it);
    return status;
}

PUBLIC int stnu_feed(stnu run, const void *bytes, size_t size) { return enter_and_feed(run, bytes, size, 0); }

PUBLIC int stnu_end(stnu run) { return enter_and_feed(run, NULL, 0, 1); }

PUBLIC const char *stnu_answer(stnu run, size_t *size) {
    close_gate();
    struct run *it = free_run(run);
    const char *answer = it ? it->answer : NULL;
    if (size)
        *size = it ? it->size : 0;
    open_gate();
    return answer;
}

PUBLIC int stnu_state(stnu run) {
    close_gate();
    struct run *it = free_run(run);
    int status = it ? it->status : STNU_MISUSE;
    open_gate();
    return status;
}

PUBLIC int stnu_stop(stnu run) {
    close_gate();
    struct run *it = found(run);
    if (it)
        atomic_store_explicit(&it->is_stopped, 1, memory_order_relaxed);
    open_gate();
    return it ? STNU_RUNNING : STNU_MISUSE;
}

PUBLIC int stnu_close(stnu run) {
    struct run *it = enter(run);
    if (!it)
        return STNU_MISUSE;
    int status = feed(it, NULL, 0, 1);
    unlist(it);
    drop(it);
    return status;
}

PUBLIC int stnu_run(const char *const *words, const void *input, size_t size, char **answer, size_t *answered) {
    struct run *it = !input && size ? NULL : new_run(words);
    int status = !input && size ? STNU_MISUSE : STNU_MEMORY;
    if (answer)
        *answer = NULL;
    if (answered)
        *answered = 0;
    if (!it)
        return status;
    status = feed(it, input, size, 1);
    if (answered)
        *answered = it->size;
    if (answer) {
        *answer = it->answer;
        it->answer = NULL;
    }
    drop(it);
    return status;
}

PUBLIC void stnu_free(char *answer) { free(answer); }

PUBLIC int stnu_serve(const char *const *words, stnu_take *take, stnu_put *put, void *context) {
    if (!take || !put)
        return STNU_MISUSE;
    struct run *it = new_run(words);
    if (!it)
        return STNU_MEMORY;
    int status = serve(it, take, put, context);
    drop(it);
    return status;
}
