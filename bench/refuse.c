/* Preloaded into the built program, this refuses one of its calls: an allocation, or a read or a write. refusals.py says how.

   REFUSE       `allocations`; `memory`: an allocation and all that follow; `calls`: opens, reads and writes fail; `bytes`: reads and
                writes of more bytes than one move one
   REFUSE_AT    the number of the call that is refused, from 1 on. Without it each of them is, in a process of its own, which is
                forked there: it goes on with the refusal, and its answer is held against the whole output; the parent goes on
                without. Nothing is written to the standard output then, and how the answers are distributed is said on the
                standard error; where there is a number, how many calls there were
   REFUSE_FROM  `listen`: calls are counted from the program's first `listen` on
   REFUSE_WHOLE the file with the whole output, and REFUSE_STATUS the status, where each call is refused in turn

   Only the program's own allocations count, not those of the C library. */
#define _GNU_SOURCE
#include <dlfcn.h>
#include <errno.h>
#include <fcntl.h>
#include <link.h>
#include <stdarg.h>
#include <stdio.h>
#include <stdlib.h>
#include <string.h>
#include <sys/socket.h>
#include <sys/syscall.h>
#include <sys/time.h>
#include <sys/wait.h>
#include <unistd.h>

extern void *__libc_malloc(size_t);
extern void *__libc_realloc(void *, size_t);

enum kind { NOTHING, ALLOCATIONS, CALLS, BYTES };
/* What an answer is, by the exit status of the process that gave it. */
enum answer { OTHER = 1, LINE, FRONT, CUT, READ_FAULT, WHOLE, ANSWERS };
static const char *const names[ANSWERS] = { "", "other", "memory", "front", "cut", "read-fault", "whole" };

enum { MOST = 1 << 24, FILES = 64 };
static enum kind kind;
static long at, calls, tally[ANSWERS], died;
static int counting, is_child, in_turn, lasts;
static unsigned long low, high;         /* where the program's own code lies */
static char said[MOST], whole[MOST];    /* what was written so far, and what is to be */
static size_t said_size, whole_size;
static int whole_status;
static char opened[FILES][256];         /* the name of an open file, and how far it was read */
static off_t place[FILES];
static char refused[256];               /* the name of the file of which a read was refused */

static int of_program(struct dl_phdr_info *info, size_t size, void *none)
{
    (void)size, (void)none;
    for (int i = 0; i < info->dlpi_phnum; i++) {
        const ElfW(Phdr) *part = &info->dlpi_phdr[i];
        if (part->p_type == PT_LOAD && (part->p_flags & PF_X)) {
            low = info->dlpi_addr + part->p_vaddr;
            high = low + part->p_memsz;
        }
    }
    return 1;                           /* the first is the program */
}

static enum answer judge(int status)
{
    int is_front = said_size <= whole_size && memcmp(said, whole, said_size) == 0;
    char line[300];
    int size = snprintf(line, sizeof line, "read fault %s\n", refused);
    if (status == whole_status && is_front && said_size == whole_size)
        return WHOLE;
    if (status == 7 && said_size == 7 && memcmp(said, "memory\n", 7) == 0)
        return LINE;
    if (status == 7 && is_front)
        return FRONT;
    if (status == 8 && is_front)
        return CUT;
    if (status == 5 && refused[0] && said_size == (size_t)size && memcmp(said, line, said_size) == 0)
        return READ_FAULT;
    return OTHER;
}

_Noreturn static void leave(int status)
{
    syscall(SYS_exit_group, status);
    __builtin_unreachable();
}

static void at_exit(int status)
{
    if (!in_turn) {
        dprintf(2, "calls=%ld\n", calls);
        return;
    }
    enum answer answer = judge(status);
    if (is_child) {
        if (answer == OTHER)
            dprintf(2, "call %ld: status %d, %.*s\n", calls, status, (int)(said_size < 200 ? said_size : 200), said);
        leave(answer);
    }
    dprintf(2, "same=%d refused=%ld died=%ld", answer == WHOLE, calls, died);
    for (int i = 1; i < ANSWERS; i++)
        dprintf(2, " %s=%ld", names[i], tally[i]);
    dprintf(2, "\n");
}

/* A program whose `main` returns ends so, one that calls `_exit` by that. */
static void on_return(int status, void *none)
{
    (void)none;
    at_exit(status);
}

__attribute__((constructor)) static void begin(void)
{
    const char *what = getenv("REFUSE"), *number = getenv("REFUSE_AT"), *from = getenv("REFUSE_FROM"), *file = getenv("REFUSE_WHOLE");
    unsetenv("LD_PRELOAD");
    if (!what)
        return;
    dl_iterate_phdr(of_program, NULL);
    counting = from == NULL;
    in_turn = number == NULL;
    at = number ? atol(number) : 0;
    if (in_turn && file) {
        int fd = open(file, O_RDONLY);
        ssize_t got;
        while ((got = read(fd, whole + whole_size, MOST - whole_size)) > 0)
            whole_size += got;
        close(fd);
        whole_status = atoi(getenv("REFUSE_STATUS"));
    }
    on_exit(on_return, NULL);
    lasts = !strcmp(what, "memory");
    kind = lasts || !strcmp(what, "allocations") ? ALLOCATIONS : !strcmp(what, "calls") ? CALLS : BYTES;
}

void _exit(int status)
{
    if (kind)
        at_exit(status);
    leave(status);
}

/* Whether this call is refused here. */
static int due(void)
{
    if (is_child)
        return lasts;
    if (!counting)
        return 0;
    long number = __atomic_add_fetch(&calls, 1, __ATOMIC_SEQ_CST);
    if (!in_turn)
        return at > 0 && (number == at || (lasts && number > at));
    int status;
    pid_t child = fork();
    if (child == 0) {
        is_child = 1;
        struct itimerval most = { { 0, 0 }, { 20, 0 } };
        setitimer(ITIMER_PROF, &most, NULL);
        alarm(600);
        return 1;
    }
    if (child < 0 || waitpid(child, &status, 0) != child) {
        dprintf(2, "call %ld: no process\n", number);
        died++;
    } else if (WIFEXITED(status) && WEXITSTATUS(status) > 0 && WEXITSTATUS(status) < ANSWERS) {
        tally[WEXITSTATUS(status)]++;
    } else {
        dprintf(2, "call %ld: ended with %#x\n", number, (unsigned)status);
        died++;
    }
    return 0;
}

static int is_own(const void *caller)
{
    return (unsigned long)caller >= low && (unsigned long)caller < high;
}

void *malloc(size_t size)
{
    if (kind == ALLOCATIONS && is_own(__builtin_return_address(0)) && due()) {
        errno = ENOMEM;
        return NULL;
    }
    return __libc_malloc(size);
}

void *realloc(void *block, size_t size)
{
    if (kind == ALLOCATIONS && is_own(__builtin_return_address(0)) && due()) {
        errno = ENOMEM;
        return NULL;
    }
    return __libc_realloc(block, size);
}

/* `real` is the C library's function of this name. */
#define REAL(result, name, ...)                                          \
    static result (*real)(__VA_ARGS__);                                  \
    if (!real)                                                           \
        real = (result(*)(__VA_ARGS__))dlsym(RTLD_NEXT, #name)

int open(const char *path, int flags, ...)
{
    REAL(int, open, const char *, int, ...);
    va_list rest;
    va_start(rest, flags);
    mode_t mode = flags & O_CREAT ? va_arg(rest, mode_t) : 0;
    va_end(rest);
    if (kind == CALLS && due()) {
        snprintf(refused, sizeof refused, "%s", path);
        errno = EACCES;
        return -1;
    }
    int fd = real(path, flags, mode);
    if (fd >= 0 && fd < FILES) {
        snprintf(opened[fd], sizeof opened[fd], "%s", path);
        place[fd] = 0;
    }
    return fd;
}

/* Files are read at a place of this process's own: a forked one must not move the parent's. */
ssize_t read(int fd, void *into, size_t size)
{
    REAL(ssize_t, read, int, void *, size_t);
    const char *name = fd >= 0 && fd < FILES ? opened[fd] : "";
    if (kind == CALLS && due()) {
        snprintf(refused, sizeof refused, "%s", name);
        errno = EIO;
        return -1;
    }
    if (kind == BYTES && size > 1 && due())
        size = 1;
    if (!in_turn || !kind || !name[0])
        return real(fd, into, size);
    ssize_t got = pread(fd, into, size, place[fd]);
    if (got > 0)
        place[fd] += got;
    return got;
}

ssize_t write(int fd, const void *from, size_t size)
{
    REAL(ssize_t, write, int, const void *, size_t);
    if (kind == CALLS && due()) {
        errno = EIO;
        return -1;
    }
    if (kind == BYTES && size > 1 && due())
        size = 1;
    if (!in_turn || !kind || fd != 1)
        return real(fd, from, size);
    if (size > MOST - said_size)
        size = MOST - said_size;
    memcpy(said + said_size, from, size);
    said_size += size;
    return size;
}

ssize_t __write(int fd, const void *from, size_t size)
{
    return write(fd, from, size);
}

ssize_t recv(int fd, void *into, size_t size, int flags)
{
    REAL(ssize_t, recv, int, void *, size_t, int);
    if (kind == CALLS && due()) {
        errno = ECONNRESET;
        return -1;
    }
    if (kind == BYTES && size > 1 && due())
        size = 1;
    return real(fd, into, size, flags);
}

ssize_t send(int fd, const void *from, size_t size, int flags)
{
    REAL(ssize_t, send, int, const void *, size_t, int);
    if (kind == CALLS && due()) {
        errno = EPIPE;
        return -1;
    }
    if (kind == BYTES && size > 1 && due())
        size = 1;
    return real(fd, from, size, flags);
}

int accept4(int fd, struct sockaddr *address, socklen_t *length, int flags)
{
    REAL(int, accept4, int, struct sockaddr *, socklen_t *, int);
    if (kind == CALLS && due()) {
        errno = EMFILE;
        return -1;
    }
    return real(fd, address, length, flags);
}

int listen(int fd, int backlog)
{
    REAL(int, listen, int, int);
    if (kind == CALLS && due()) {
        errno = EADDRINUSE;
        return -1;
    }
    counting = 1;
    return real(fd, backlog);
}
