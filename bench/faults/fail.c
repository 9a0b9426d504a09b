/* Makes one call of a program fail, and counts its calls. Loaded by LD_PRELOAD; bench/faults/run.py and bench/records/each_call.py set the
   environment.

     FAULT_KIND   memory (malloc, calloc, realloc), read (of standard input), write (to standard output), keep (any call on
                  another file: reads, writes, syncs, cuts, seeks)
     FAULT_AT     the number of the call of that kind that fails, from 1; 0 for none
     FAULT_ON     1: all later calls of that kind fail too
     FAULT_SHORT  1: reads and writes of that kind move one byte in place of failing
     FAULT_KILL   1: the program is killed in place of that call; with FAULT_SHORT a read or write moves one byte before that
     FAULT_COPIES a file: no call fails, and at each call of that kind a copy of the program is made in which it does. For each copy the file has a line
                  of numbers (the call, how the copy ended as `waitpid` tells it, the bytes that were written before, those that the copy wrote to
                  standard output, and to standard error), and then these bytes. The input has to be a file
     FAULT_PIECE  the most bytes that a read of standard input gives
     FAULT_SUMS   a file to which the number of calls of each kind is written when the program ends */
#define _GNU_SOURCE
#include <errno.h>
#include <fcntl.h>
#include <signal.h>
#include <stdio.h>
#include <stdlib.h>
#include <string.h>
#include <sys/mman.h>
#include <sys/syscall.h>
#include <sys/uio.h>
#include <sys/wait.h>
#include <unistd.h>

enum { MEMORY, READ, WRITE, KEEP, KINDS };

/* the most seconds of a copy */
enum { LONGEST = 60 };

static const char *const names[KINDS] = {"memory", "read", "write", "keep"};
static long calls[KINDS];
static long at, piece;
static int kind = KINDS, goes_on, is_short, kills, is_set, is_copy, copies = -1;
static long written;

extern void *__libc_malloc(size_t);
extern void *__libc_calloc(size_t, size_t);
extern void *__libc_realloc(void *, size_t);

static long number(const char *name) {
    const char *text = getenv(name);
    return text ? atol(text) : 0;
}

__attribute__((constructor)) static void set(void) {
    const char *text = getenv("FAULT_KIND");
    for (int i = 0; text && i < KINDS; i++) {
        if (!strcmp(text, names[i])) kind = i;
    }
    at = number("FAULT_AT");
    goes_on = number("FAULT_ON") != 0;
    is_short = number("FAULT_SHORT") != 0;
    kills = number("FAULT_KILL") != 0;
    piece = number("FAULT_PIECE");
    text = getenv("FAULT_COPIES");
    if (text) copies = syscall(SYS_openat, AT_FDCWD, text, O_WRONLY | O_CREAT | O_TRUNC, 0600);
    is_set = 1;
}

__attribute__((destructor)) static void tell(void) {
    const char *name = getenv("FAULT_SUMS");
    char text[128];
    if (!name || is_copy) return;
    int length = snprintf(text, sizeof text, "%ld %ld %ld %ld\n", calls[MEMORY], calls[READ], calls[WRITE], calls[KEEP]);
    int file = syscall(SYS_openat, AT_FDCWD, name, O_WRONLY | O_CREAT | O_TRUNC, 0600);
    if (file >= 0) {
        syscall(SYS_write, file, text, length);
        syscall(SYS_close, file);
    }
}

/* Adds what the copy wrote to that file to the file of the copies. */
static void add(int file, off_t size) {
    char bytes[4096];
    for (off_t done = 0; done < size;) {
        ssize_t got = syscall(SYS_pread64, file, bytes, sizeof bytes, done);
        if (got <= 0) abort();
        syscall(SYS_write, copies, bytes, got);
        done += got;
    }
    syscall(SYS_close, file);
}

/* In the copy: it reads on where the program is, through a file of its own, and writes to these two. */
static void set_apart(int out, int said) {
    is_copy = 1;
    off_t place = syscall(SYS_lseek, 0, 0, SEEK_CUR);
    int in = syscall(SYS_openat, AT_FDCWD, "/proc/self/fd/0", O_RDONLY, 0);
    if (in < 0 || place < 0 || syscall(SYS_lseek, in, place, SEEK_SET) != place) abort();
    dup2(in, 0);
    dup2(out, 1);
    dup2(said, 2);
    syscall(SYS_close, in);
    alarm(LONGEST);
}

/* Makes a copy of the program, and tells of it once it has ended; whether this is the copy. */
static int copied(long now) {
    int out = memfd_create("out", 0), said = memfd_create("said", 0), status = 0;
    pid_t copy = fork();
    if (out < 0 || said < 0 || copy < 0) abort();
    if (!copy) {
        set_apart(out, said);
        return 1;
    }
    waitpid(copy, &status, 0);
    off_t more = syscall(SYS_lseek, out, 0, SEEK_END), words = syscall(SYS_lseek, said, 0, SEEK_END);
    char text[128];
    int length = snprintf(text, sizeof text, "%ld %d %ld %ld %ld\n", now, status, written, (long)more, (long)words);
    syscall(SYS_write, copies, text, length);
    add(out, more);
    add(said, words);
    return 0;
}

/* Counts a call of the program; whether it is one that is to fail. */
static int fails(int which) {
    if (!is_set) return 0;
    if (is_copy) return which == kind && goes_on;
    long now = ++calls[which];
    if (copies >= 0) return which == kind && copied(now);
    int is_chosen = which == kind && at && (now == at || (goes_on && now > at));
    if (is_chosen && kills && !is_short) raise(SIGKILL);
    return is_chosen;
}

void *malloc(size_t size) {
    if (fails(MEMORY)) { errno = ENOMEM; return NULL; }
    return __libc_malloc(size);
}

void *calloc(size_t count, size_t size) {
    if (fails(MEMORY)) { errno = ENOMEM; return NULL; }
    return __libc_calloc(count, size);
}

void *realloc(void *block, size_t size) {
    if (fails(MEMORY)) { errno = ENOMEM; return NULL; }
    return __libc_realloc(block, size);
}

static ssize_t failed(void) {
    errno = EIO;
    return -1;
}

/* A chosen read or write: it moves one byte, where it is to, and then kills the program, where it is to. */
static ssize_t moved(long call, int file, void *bytes, size_t size) {
    if (!is_short) return failed();
    ssize_t done = syscall(call, file, bytes, size > 1 ? 1 : size);
    if (kills) raise(SIGKILL);
    return done;
}

/* The same for a call that moves no bytes one by one: with FAULT_SHORT it is done as ever, or the program is killed. */
static int fails_whole(int which) {
    if (!fails(which)) return 0;
    if (kills) raise(SIGKILL);
    return !is_short;
}

ssize_t read(int file, void *bytes, size_t size) {
    if (file == 0 && piece && size > (size_t)piece) size = piece;
    if (fails(file == 0 ? READ : KEEP)) return moved(SYS_read, file, bytes, size);
    return syscall(SYS_read, file, bytes, size);
}

ssize_t write(int file, const void *bytes, size_t size) {
    if (file != 2 && fails(file == 1 ? WRITE : KEEP)) return moved(SYS_write, file, (void *)bytes, size);
    ssize_t done = syscall(SYS_write, file, bytes, size);
    if (file == 1 && done > 0) written += done;
    return done;
}

/* The C library has a second name for each of these two. */
ssize_t __read(int file, void *bytes, size_t size) { return read(file, bytes, size); }

ssize_t __write(int file, const void *bytes, size_t size) { return write(file, bytes, size); }

ssize_t writev(int file, const struct iovec *parts, int count) {
    if (file != 2 && fails(file == 1 ? WRITE : KEEP)) return failed();
    ssize_t done = syscall(SYS_writev, file, parts, count);
    if (file == 1 && done > 0) written += done;
    return done;
}

int fsync(int file) { return fails_whole(KEEP) ? (int)failed() : (int)syscall(SYS_fsync, file); }

int fdatasync(int file) { return fails_whole(KEEP) ? (int)failed() : (int)syscall(SYS_fdatasync, file); }

int ftruncate(int file, off_t size) { return fails_whole(KEEP) ? (int)failed() : (int)syscall(SYS_ftruncate, file, size); }

off_t lseek(int file, off_t to, int from) { return fails_whole(KEEP) ? failed() : syscall(SYS_lseek, file, to, from); }
