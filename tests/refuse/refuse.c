// Refuses growths of memory in a program that is run with this library preloaded, or another sort of call.
//
// A growth is a call of malloc, calloc, realloc, reallocarray, aligned_alloc, memalign or
// posix_memalign between the start and the end of main. They count from 1. REFUSE_AT tells the
// first that is refused, REFUSE_ALL, if it is set, that all after it are refused too. REFUSE_TELL
// names a file of 24 or 40 bytes, in which numbers are kept: 1 once main began, the growths asked
// for, those refused, and of marks (if it has room) how many stretches were begun, and in how many
// a call answered rightly although a growth was refused.
//
// With REFUSE_CALL as open, read or write those calls are counted and refused instead of growths: an
// open with EACCES, a read with EIO, a write with ENOSPC. A read is read, readv or pread, a write
// write or writev.
//
// REFUSE_EACH names a file and has the program run once for each number from REFUSE_AT on, each time in a process that is
// forked where main begins, until a run is refused none or REFUSE_MOST runs were made. The file gets a record for each
// stretch of runs that ended alike: the numbers of a struct record, then what a run wrote to its standard output and to
// its standard error, and the bytes of the file that REFUSE_MADE names, which is removed behind each run.
//
// A program may have growths refused itself, by marks: growths of sizes that nothing else asks for
// (crates/spv_samples/src/growths.rt). REFUSE and N bytes begin a stretch in which the Nth growth is
// refused, END bytes end it, and are refused if one was. DONE_WITHOUT bytes tell of a call that
// answered rightly without the growth that was refused.
#define _GNU_SOURCE
#include <dlfcn.h>
#include <errno.h>
#include <fcntl.h>
#include <stddef.h>
#include <stdint.h>
#include <stdarg.h>
#include <stdlib.h>
#include <string.h>
#include <sys/mman.h>
#include <sys/syscall.h>
#include <sys/uio.h>
#include <sys/wait.h>
#include <unistd.h>

// The C library's own, under its names for itself.
void *__libc_malloc(size_t size);
void *__libc_calloc(size_t count, size_t size);
void *__libc_realloc(void *old, size_t size);
void *__libc_memalign(size_t alignment, size_t size);

struct tally {
    uint64_t began;
    uint64_t asked;
    uint64_t refused;
    uint64_t stretches;
    uint64_t done_without;
};

enum { DONE_WITHOUT = 6999998, END = 6999999, REFUSE = 7000000, LAST_REFUSE = 7100000 };

enum call { GROWTH, OPEN, READ, WRITE };

// The sort of call that is counted and refused.
static enum call refuse_call;

static struct tally unread;
static struct tally *tally = &unread;
static uint64_t refuse_at;
static int refuse_all;
static int in_main;
// The number in its stretch of the growth that is refused, or 0; and how many were asked for there.
static uint64_t stretch_at;
static uint64_t stretch_asked;
static uint64_t stretch_refused;
static int (*real_main)(int, char **, char **);

// Whether a growth is a mark; then it tells whether it is refused.
static int is_mark(size_t size, int *refused) {
    *refused = size == END && stretch_refused > 0;
    if (size == DONE_WITHOUT) {
        tally->done_without++;
    } else if (size == END) {
        stretch_at = 0;
    } else if (size > REFUSE && size <= LAST_REFUSE) {
        stretch_at = size - REFUSE;
        stretch_asked = stretch_refused = 0;
        tally->stretches++;
    } else {
        return 0;
    }
    return 1;
}

static int is_chosen(void) {
    if (stretch_at > 0 && ++stretch_asked == stretch_at) {
        stretch_refused++;
        return 1;
    }
    uint64_t number = __atomic_add_fetch(&tally->asked, 1, __ATOMIC_SEQ_CST);
    return refuse_at != 0 && (number == refuse_at || (number > refuse_at && refuse_all));
}

// Whether a call that is no growth is refused.
static int is_refused_call(enum call it, int why) {
    if (!in_main || it != refuse_call || !is_chosen()) return 0;
    __atomic_add_fetch(&tally->refused, 1, __ATOMIC_SEQ_CST);
    errno = why;
    return 1;
}

static int is_refused(size_t size) {
    int refused;
    if (!in_main || refuse_call != GROWTH) return 0;
    if (!is_mark(size, &refused)) {
        refused = is_chosen();
        if (refused) __atomic_add_fetch(&tally->refused, 1, __ATOMIC_SEQ_CST);
    }
    if (refused) errno = ENOMEM;
    return refused;
}

void *malloc(size_t size) { return is_refused(size) ? NULL : __libc_malloc(size); }

void *calloc(size_t count, size_t size) {
    return is_refused(count * size) ? NULL : __libc_calloc(count, size);
}

void *realloc(void *old, size_t size) { return is_refused(size) ? NULL : __libc_realloc(old, size); }

void *reallocarray(void *old, size_t count, size_t size) {
    size_t bytes;
    if (is_refused(count * size)) return NULL;
    if (__builtin_mul_overflow(count, size, &bytes)) {
        errno = ENOMEM;
        return NULL;
    }
    return __libc_realloc(old, bytes);
}

void *aligned_alloc(size_t alignment, size_t size) {
    return is_refused(size) ? NULL : __libc_memalign(alignment, size);
}

void *memalign(size_t alignment, size_t size) {
    return is_refused(size) ? NULL : __libc_memalign(alignment, size);
}

int posix_memalign(void **out, size_t alignment, size_t size) {
    void *memory = is_refused(size) ? NULL : __libc_memalign(alignment, size);
    if (memory == NULL) return ENOMEM;
    *out = memory;
    return 0;
}

static int opened(int folder, const char *path, int flags, va_list more) {
    mode_t mode = flags & (O_CREAT | O_TMPFILE) ? va_arg(more, mode_t) : 0;
    return is_refused_call(OPEN, EACCES) ? -1 : (int)syscall(SYS_openat, folder, path, flags, mode);
}

#define OPENS(name)                                     \
    int name(const char *path, int flags, ...) {        \
        va_list more;                                   \
        va_start(more, flags);                          \
        int file = opened(AT_FDCWD, path, flags, more); \
        va_end(more);                                   \
        return file;                                    \
    }
OPENS(open)
OPENS(open64)

#define OPENS_AT(name)                                    \
    int name(int folder, const char *path, int flags, ...) { \
        va_list more;                                     \
        va_start(more, flags);                            \
        int file = opened(folder, path, flags, more);     \
        va_end(more);                                     \
        return file;                                      \
    }
OPENS_AT(openat)
OPENS_AT(openat64)

ssize_t read(int file, void *to, size_t size) {
    return is_refused_call(READ, EIO) ? -1 : syscall(SYS_read, file, to, size);
}

ssize_t readv(int file, const struct iovec *to, int count) {
    return is_refused_call(READ, EIO) ? -1 : syscall(SYS_readv, file, to, count);
}

ssize_t pread(int file, void *to, size_t size, off_t at) {
    return is_refused_call(READ, EIO) ? -1 : syscall(SYS_pread64, file, to, size, at);
}

ssize_t pread64(int file, void *to, size_t size, off_t at) {
    return is_refused_call(READ, EIO) ? -1 : syscall(SYS_pread64, file, to, size, at);
}

ssize_t write(int file, const void *from, size_t size) {
    return is_refused_call(WRITE, ENOSPC) ? -1 : syscall(SYS_write, file, from, size);
}

ssize_t writev(int file, const struct iovec *from, int count) {
    return is_refused_call(WRITE, ENOSPC) ? -1 : syscall(SYS_writev, file, from, count);
}

// The sort of call that REFUSE_CALL names: a growth where it names none.
static enum call call_named(const char *name) {
    if (name == NULL) return GROWTH;
    return strcmp(name, "open") == 0 ? OPEN : strcmp(name, "read") == 0 ? READ : WRITE;
}

// Opens the file that keeps the numbers, so that they are there however the program ends.
static void open_tally(void) {
    const char *path = getenv("REFUSE_TELL");
    int file = path == NULL ? -1 : open(path, O_RDWR | O_CLOEXEC);
    if (file < 0) return;
    void *shared = mmap(NULL, sizeof *tally, PROT_READ | PROT_WRITE, MAP_SHARED, file, 0);
    if (shared != MAP_FAILED) tally = shared;
    close(file);
}

// How a run ended. `refused` is 1 if a call was refused it; `status` is what waitpid tells; `made` is 0 if it made no file,
// else one more than the bytes of that file.
struct ended {
    uint64_t refused;
    uint64_t status;
    uint64_t out;
    uint64_t err;
    uint64_t made;
};

// The numbers of a stretch of runs that ended alike, the first and the last, and how they ended.
struct record {
    uint64_t first;
    uint64_t last;
    struct ended ended;
};

enum { RUN_SECONDS = 60, MOST_BYTES = 1 << 26 };

// A number that the environment has, or another one.
static uint64_t number_named(const char *name, uint64_t other) {
    const char *text = getenv(name);
    return text == NULL ? other : strtoull(text, NULL, 10);
}

// Ends the program where what it needs itself cannot be had.
static void insist(int is_there) {
    if (!is_there) _exit(99);
}

static void *mapped(size_t size, int flags) {
    void *memory = mmap(NULL, size, PROT_READ | PROT_WRITE, flags | MAP_ANONYMOUS, -1, 0);
    insist(memory != MAP_FAILED);
    return memory;
}

// Reads a file from its beginning on to the end of what was read so far, and answers how many bytes it has.
static uint64_t taken(int file, char *bytes, uint64_t *count) {
    uint64_t before = *count;
    ssize_t more;
    while ((more = pread(file, bytes + *count, MOST_BYTES - *count, (off_t)(*count - before))) > 0) *count += (uint64_t)more;
    insist(more == 0 && *count < MOST_BYTES);
    return *count - before;
}

// Reads the file that REFUSE_MADE names, if it is there, and removes it.
static uint64_t made(char *bytes, uint64_t *count) {
    const char *path = getenv("REFUSE_MADE");
    int file = path == NULL ? -1 : open(path, O_RDONLY | O_CLOEXEC);
    if (file < 0) return 0;
    uint64_t size = taken(file, bytes, count);
    close(file);
    unlink(path);
    return size + 1;
}

static void put(int file, const void *bytes, uint64_t count) {
    const char *from = bytes;
    while (count > 0) {
        ssize_t part = write(file, from, count);
        insist(part > 0);
        from += part;
        count -= (uint64_t)part;
    }
}

// Runs main in a forked process, with this call refused: answers 1 there, and here 0 once that has ended.
static int is_forked(uint64_t number, int out, int err, int *status) {
    memset(tally, 0, sizeof *tally);
    insist(ftruncate(out, 0) == 0 && ftruncate(err, 0) == 0);
    lseek(out, 0, SEEK_SET);
    lseek(err, 0, SEEK_SET);
    lseek(0, 0, SEEK_SET);
    pid_t child = fork();
    insist(child >= 0);
    if (child > 0) {
        insist(waitpid(child, status, 0) == child);
        return 0;
    }
    insist(dup2(out, 1) == 1 && dup2(err, 2) == 2);
    alarm(RUN_SECONDS);
    refuse_at = number;
    return 1;
}

// What is kept of the runs: the stretch that is under way, with the bytes of its runs, and room for the next run's.
static struct {
    struct record last;
    char *bytes;
    uint64_t size;
    char *next;
    int out;
    int err;
    int file;
} runs;

static void open_runs(const char *path) {
    tally = mapped(sizeof *tally, MAP_SHARED);
    runs.bytes = mapped(MOST_BYTES, MAP_PRIVATE | MAP_NORESERVE);
    runs.next = mapped(MOST_BYTES, MAP_PRIVATE | MAP_NORESERVE);
    runs.out = memfd_create("out", MFD_CLOEXEC);
    runs.err = memfd_create("err", MFD_CLOEXEC);
    runs.file = open(path, O_WRONLY | O_CREAT | O_TRUNC | O_CLOEXEC, 0600);
    insist(runs.out >= 0 && runs.err >= 0 && runs.file >= 0);
}

// Writes the stretch that is under way, if one is.
static void end_stretch(int is_under_way) {
    if (!is_under_way) return;
    put(runs.file, &runs.last, sizeof runs.last);
    put(runs.file, runs.bytes, runs.size);
}

// Adds a run that has ended to the stretch that is under way, or begins another with it.
static void note_run(uint64_t number, int status, int is_under_way) {
    uint64_t size = 0;
    struct ended ended = {.refused = tally->refused > 0, .status = (uint64_t)status};
    ended.out = taken(runs.out, runs.next, &size);
    ended.err = taken(runs.err, runs.next, &size);
    ended.made = made(runs.next, &size);
    if (is_under_way && memcmp(&ended, &runs.last.ended, sizeof ended) == 0
        && memcmp(runs.next, runs.bytes, size) == 0) {
        runs.last.last = number;
        return;
    }
    end_stretch(is_under_way);
    char *before = runs.bytes;
    runs.last = (struct record){number, number, ended};
    runs.bytes = runs.next;
    runs.size = size;
    runs.next = before;
}

// Runs main for one number after the other: answers 1 in each process that is to run it, and at last 0.
static int runs_each(const char *path) {
    uint64_t first = refuse_at, most = number_named("REFUSE_MOST", UINT64_MAX);
    int status;
    open_runs(path);
    for (uint64_t number = first; number - first < most; number++) {
        if (is_forked(number, runs.out, runs.err, &status)) return 1;
        note_run(number, status, number > first);
        if (!runs.last.ended.refused) break;
    }
    end_stretch(most > 0);
    return 0;
}

static int counted_main(int count, char **words, char **environment) {
    const char *each = getenv("REFUSE_EACH");
    if (each != NULL && !runs_each(each)) return 0;
    tally->began = 1;
    in_main = 1;
    int status = real_main(count, words, environment);
    in_main = 0;
    return status;
}

// Takes the place of the C library's start of a program, to tell where main begins.
int __libc_start_main(int (*main)(int, char **, char **), int count, char **words, void (*init)(void),
                      void (*finish)(void), void (*loader_finish)(void), void *stack_end) {
    int (*start)(int (*)(int, char **, char **), int, char **, void (*)(void), void (*)(void),
                 void (*)(void), void *) = dlsym(RTLD_NEXT, "__libc_start_main");
    refuse_at = number_named("REFUSE_AT", 0);
    refuse_call = call_named(getenv("REFUSE_CALL"));
    refuse_all = getenv("REFUSE_ALL") != NULL;
    open_tally();
    real_main = main;
    return start(counted_main, count, words, init, finish, loader_finish, stack_end);
}
