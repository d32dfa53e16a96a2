/* Stands before the C library (LD_PRELOAD): one run refuses many of its requests for memory, each in a copy of the process.
 *
 * A copy (fork) has one thread alone, so the program's threads are run as turns of one: a thread hands over where it waits for another
 * one, and at requests for memory by chance (TURNS_SEED), so that each run with that seed has the same requests in the same order.
 *
 * At each request N with N mod TURNS_OF = TURNS_PART the process forks: the copy is refused that request and goes on to its end, and
 * what it wrote is judged: the bytes of the file TURNS_RIGHT and status 0, or out of memory, or something else, which is kept in
 * the folder TURNS_KEEP. TURNS_SECONDS is what a copy may take. At the end the file TURNS_COUNTS has how many requests there were, and
 * how many copies were right, out of memory, something else, and over. Standard output and standard error have to be files.
 */
#define _GNU_SOURCE
#include <errno.h>
#include <fcntl.h>
#include <pthread.h>
#include <stdarg.h>
#include <stdint.h>
#include <stdio.h>
#include <stdlib.h>
#include <string.h>
#include <sys/mman.h>
#include <sys/stat.h>
#include <sys/syscall.h>
#include <sys/wait.h>
#include <ucontext.h>
#include <unistd.h>

enum { MOST_THREADS = 256, STACK = 8 << 20, MOST_KEPT = 10 };
static const char OUT_OF_MEMORY[] = "overlay: 10 out of memory\n";

/* A thread of the program. It can go on where it is begun, not ended, waits for no other one and for no word of memory. */
struct thread {
    ucontext_t place;
    void *(*start)(void *);
    void *argument, *result, *stack;
    const int *word; /* of a futex, or none */
    int is_begun, is_ended, is_left;
    struct thread *joined;
};

static struct thread threads[MOST_THREADS]; /* the first one is the program's own */
static struct thread *now = threads, *behind = threads + 1; /* those that were ever begun */
static uint64_t chance;
static long requests, counts[4];
static long part, every;
static int is_a_copy;
static char *right;
static size_t right_size;

void *__libc_malloc(size_t size);
void *__libc_realloc(void *old, size_t size);

static _Noreturn void fail(const char *why) {
    syscall(SYS_write, 2, why, strlen(why));
    syscall(SYS_exit_group, 99);
    __builtin_unreachable();
}

static uint32_t drawn(void) {
    chance = chance * 6364136223846793005u + 1442695040888963407u;
    return (uint32_t)(chance >> 33);
}

/* Threads. */

static int can_go_on(const struct thread *thread) {
    return thread->is_begun && !thread->is_ended && !thread->word && (!thread->joined || thread->joined->is_ended);
}

/* Hands over to a thread by chance, which may be the same one. */
static void hand_over(void) {
    int able = 0;
    struct thread *before = now, *next = 0;
    for (struct thread *other = threads; other < behind; other++)
        if (can_go_on(other) && drawn() % (uint32_t)++able == 0) next = other;
    if (!next) fail("no thread can go on\n");
    if (next == before) return;
    now = next;
    swapcontext(&before->place, &next->place);
}

static void run(void) {
    now->result = now->start(now->argument);
    now->is_ended = 1;
    hand_over();
    fail("a thread went on after its end\n");
}

int pthread_create(pthread_t *made, const pthread_attr_t *attributes, void *(*start)(void *), void *argument) {
    (void)attributes;
    struct thread *thread = threads + 1;
    while (thread < behind && !(thread->is_ended && thread->is_left)) thread++;
    if (thread == threads + MOST_THREADS) return EAGAIN;
    void *stack = thread->stack;
    if (!stack) stack = mmap(0, STACK, PROT_READ | PROT_WRITE, MAP_PRIVATE | MAP_ANONYMOUS | MAP_NORESERVE, -1, 0);
    if (stack == MAP_FAILED) return EAGAIN;
    *thread = (struct thread){.start = start, .argument = argument, .stack = stack, .is_begun = 1};
    if (thread == behind) behind++;
    getcontext(&thread->place);
    thread->place.uc_stack.ss_sp = stack;
    thread->place.uc_stack.ss_size = STACK;
    thread->place.uc_link = 0;
    makecontext(&thread->place, run, 0);
    *made = (pthread_t)thread;
    return 0;
}

int pthread_join(pthread_t which, void **result) {
    now->joined = (struct thread *)which;
    hand_over();
    if (result) *result = now->joined->result;
    now->joined->is_left = 1;
    now->joined = 0;
    return 0;
}

int pthread_detach(pthread_t which) {
    ((struct thread *)which)->is_left = 1;
    return 0;
}

pthread_t pthread_self(void) { return (pthread_t)now; }

int sched_yield(void) {
    hand_over();
    return 0;
}

/* Waiting for a word of memory, and waking those that do; other calls of the system are passed on. */
long syscall(long number, ...) {
    va_list words;
    va_start(words, number);
    long a[6];
    for (int k = 0; k < 6; k++) a[k] = va_arg(words, long);
    va_end(words);
    int operation = (int)a[1] & 127;
    const int *word = (const int *)a[0];
    if (number == SYS_futex && (operation == 0 || operation == 9)) {
        if (*word != (int)a[2]) {
            errno = EAGAIN;
            return -1;
        }
        now->word = word;
        hand_over();
        return 0;
    }
    if (number == SYS_futex && (operation == 1 || operation == 10)) {
        long woken = 0;
        for (struct thread *other = threads; other < behind && woken < a[2]; other++)
            if (other->is_begun && other->word == word) {
                other->word = 0;
                woken++;
            }
        return woken;
    }
    register long r10 __asm__("r10") = a[3];
    register long r8 __asm__("r8") = a[4];
    register long r9 __asm__("r9") = a[5];
    long answer;
    __asm__ volatile("syscall" : "=a"(answer) : "a"(number), "D"(a[0]), "S"(a[1]), "d"(a[2]), "r"(r10), "r"(r8), "r"(r9) : "rcx", "r11", "memory");
    if (answer < 0 && answer > -4096) {
        errno = (int)-answer;
        return -1;
    }
    return answer;
}

/* Copies. */

static char *whole(int file, size_t *size) {
    struct stat about;
    if (fstat(file, &about) != 0) fail("a file of a copy has no size\n");
    *size = (size_t)about.st_size;
    if (!*size) return 0;
    char *bytes = mmap(0, *size, PROT_READ, MAP_SHARED, file, 0);
    if (bytes == MAP_FAILED) fail("a file of a copy can't be read\n");
    return bytes;
}

static int is_same(const char *bytes, size_t size, const char *other, size_t other_size) {
    return size == other_size && (!size || memcmp(bytes, other, size) == 0);
}

static void keep(const char *name, const char *bytes, size_t size) {
    char path[4096];
    snprintf(path, sizeof path, "%s/%ld.%s", getenv("TURNS_KEEP"), requests, name);
    int file = open(path, O_CREAT | O_WRONLY | O_TRUNC, 0644);
    for (size_t put = 0; file >= 0 && put < size;) {
        ssize_t more = write(file, bytes + put, size - put);
        if (more <= 0) break;
        put += (size_t)more;
    }
    if (file >= 0) close(file);
}

/* 0 where it answered right, 1 by out of memory, 2 otherwise, 3 where it was over. */
static int judged(int status, int out, int err) {
    size_t size, error_size;
    char *bytes = whole(out, &size), *errors = whole(err, &error_size);
    int kind = 2;
    if (WIFSIGNALED(status) && WTERMSIG(status) == SIGALRM)
        kind = 3;
    else if (WIFEXITED(status) && WEXITSTATUS(status) == 0 && is_same(bytes, size, right, right_size) && !error_size)
        kind = 0;
    else if (WIFEXITED(status) && WEXITSTATUS(status) == 1 && !size && is_same(errors, error_size, OUT_OF_MEMORY, sizeof OUT_OF_MEMORY - 1))
        kind = 1;
    if (kind >= 2 && counts[2] + counts[3] < MOST_KEPT) {
        char told[64];
        int length = snprintf(told, sizeof told, "wait status %d\n", status);
        keep("status", told, (size_t)length);
        keep("out", bytes, size);
        keep("err", errors, error_size);
    }
    if (bytes) munmap(bytes, size);
    if (errors) munmap(errors, error_size);
    return kind;
}

/* A file of memory with what was written to a stream so far. */
static int room(int stream) {
    int file = memfd_create("copy", 0);
    size_t size;
    char *bytes = file < 0 ? 0 : whole(stream, &size);
    if (file < 0 || (bytes && write(file, bytes, size) != (ssize_t)size)) fail("no room for a copy\n");
    if (bytes) munmap(bytes, size);
    return file;
}

/* Makes a copy, which alone is told to be refused; what it came to is counted. */
static int is_refused_in_copy(void) {
    int out = room(1), err = room(2), status;
    pid_t copy = fork();
    if (copy < 0) fail("no copy\n");
    if (copy == 0) {
        is_a_copy = 1;
        dup2(out, 1);
        dup2(err, 2);
        close(out);
        close(err);
        alarm((unsigned)atol(getenv("TURNS_SECONDS")));
        return 1;
    }
    while (waitpid(copy, &status, 0) < 0)
        if (errno != EINTR) fail("a copy was lost\n");
    counts[judged(status, out, err)]++;
    close(out);
    close(err);
    return 0;
}

/* Whether a request is refused. */
static int is_refused(void) {
    if (!threads[0].is_begun) return 0;
    if (threads[1].is_begun && drawn() % 4 == 0) hand_over();
    requests++;
    if (is_a_copy || !every || requests % every != part || !is_refused_in_copy()) return 0;
    errno = ENOMEM;
    return 1;
}

void *malloc(size_t size) { return is_refused() ? 0 : __libc_malloc(size); }

void *realloc(void *old, size_t size) { return is_refused() ? 0 : __libc_realloc(old, size); }

__attribute__((constructor)) static void begin(void) {
    int opened = open(getenv("TURNS_RIGHT"), O_RDONLY);
    right = whole(opened, &right_size);
    close(opened);
    part = atol(getenv("TURNS_PART"));
    every = atol(getenv("TURNS_OF"));
    chance = (uint64_t)atol(getenv("TURNS_SEED"));
    threads[0].is_begun = 1;
}

/* The program's way to end. */
_Noreturn void _exit(int status) {
    const char *path = is_a_copy ? 0 : getenv("TURNS_COUNTS");
    int file = path ? open(path, O_CREAT | O_WRONLY | O_TRUNC, 0644) : -1;
    if (file >= 0) {
        char told[200];
        int length = snprintf(told, sizeof told, "%ld %ld %ld %ld %ld\n", requests, counts[0], counts[1], counts[2], counts[3]);
        if (write(file, told, (size_t)length) != length) fail("no counts\n");
        close(file);
    }
    syscall(SYS_exit_group, status);
    __builtin_unreachable();
}
