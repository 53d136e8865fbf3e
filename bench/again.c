/* Preloaded into the built program, this calls its `main` again and again in one process, with words and files that fuzz.py lays
   into a shared file, and lays what each call wrote to the standard output and its status behind them. The program ends by `_exit`,
   which leads back here.

   AGAIN   the shared file. Its first half holds the calls, its second half the answers; the sizes are of 32 bits:
           calls:   COUNT; for each: WORDS; for each word: SIZE BYTES; FILES; for each: SIZE BYTES of the name, SIZE BYTES held
           answers: AT, the number of the call under way; for each: STATUS SIZE BYTES, where SIZE 0xffffffff is of more than a
                    call may write

   A byte on descriptor 3 begins a batch, and one on descriptor 4 ends it. A call of more than 10 seconds of the processor, or
   300 of the clock, ends the process by a signal. Every port is taken, so that `run` serves nobody. */
#define _GNU_SOURCE
#include <dlfcn.h>
#include <elf.h>
#include <errno.h>
#include <fcntl.h>
#include <link.h>
#include <setjmp.h>
#include <stdint.h>
#include <stdlib.h>
#include <string.h>
#include <sys/mman.h>
#include <sys/stat.h>
#include <sys/syscall.h>
#include <sys/time.h>
#include <unistd.h>

enum { WORDS = 64, MOST = 1 << 20 };
static int (*program)(int, char **, char **);
static unsigned char *calls, *answers, *end;
static unsigned char *to;               /* where the next answer's bytes go */
static uint32_t written;
static int is_over, runs;
static jmp_buf back;                    /* where a call that ends goes on, with this status */
static int ended_with;
static void (**starts)(int, char **, char **);
static size_t start_count;

static uint32_t number(unsigned char **from)
{
    uint32_t value;
    memcpy(&value, *from, 4);
    *from += 4;
    return value;
}

static void put(unsigned char *at, uint32_t value)
{
    memcpy(at, &value, 4);
}

/* The program keeps the words when it is started, by a function that runs before `main`. */
static int of_program(struct dl_phdr_info *info, size_t size, void *none)
{
    (void)size, (void)none;
    for (int i = 0; i < info->dlpi_phnum; i++) {
        if (info->dlpi_phdr[i].p_type != PT_DYNAMIC)
            continue;
        for (ElfW(Dyn) *it = (void *)(info->dlpi_addr + info->dlpi_phdr[i].p_vaddr); it->d_tag != DT_NULL; it++) {
            if (it->d_tag == DT_INIT_ARRAY)
                starts = (void *)(info->dlpi_addr + it->d_un.d_ptr);
            if (it->d_tag == DT_INIT_ARRAYSZ)
                start_count = it->d_un.d_val / sizeof *starts;
        }
    }
    return 1;                           /* the first is the program */
}

static void lay_file(const char *name, const unsigned char *bytes, uint32_t size)
{
    int fd = open(name, O_WRONLY | O_CREAT | O_TRUNC, 0644);
    for (uint32_t done = 0; done < size;) {
        ssize_t got = write(fd, bytes + done, size - done);
        if (got <= 0)
            abort();
        done += got;
    }
    close(fd);
}

/* The process ends after so many seconds of the processor, or of the clock; 0 is never. */
static void limit(int processor, int clock)
{
    struct itimerval used = { { 0, 0 }, { processor, 0 } }, passed = { { 0, 0 }, { clock, 0 } };
    setitimer(ITIMER_PROF, &used, NULL);
    setitimer(ITIMER_REAL, &passed, NULL);
}

/* One call, whose words and files stand here. */
static void run(unsigned char **from, char **env)
{
    static char text[MOST];
    char *words[WORDS + 1];
    char *next = text;
    uint32_t count = number(from);
    for (uint32_t i = 0; i < count && i < WORDS; i++) {
        uint32_t size = number(from);
        words[i] = next;
        memcpy(next, *from, size);
        next[size] = 0;
        next += size + 1;
        *from += size;
    }
    words[count] = NULL;
    for (uint32_t files = number(from); files > 0; files--) {
        char name[256];
        uint32_t size = number(from);
        memcpy(name, *from, size);
        name[size] = 0;
        *from += size;
        size = number(from);
        lay_file(name, *from, size);
        *from += size;
    }
    for (size_t i = 0; i < start_count; i++)
        starts[i](count, words, env);
    unsigned char *volatile head = to;
    to += 8;
    written = 0;
    is_over = 0;
    runs = 1;
    limit(10, 300);
    if (setjmp(back) == 0)
        ended_with = program(count, words, env);
    limit(0, 0);
    runs = 0;
    put(head, ended_with);
    put(head + 4, is_over ? UINT32_MAX : written);
    if (is_over)
        to = head + 8;
}

static int serve(int argc, char **argv, char **env)
{
    (void)argc, (void)argv;
    char byte;
    dl_iterate_phdr(of_program, NULL);
    while (read(3, &byte, 1) == 1) {
        unsigned char *from = calls;
        uint32_t count = number(&from);
        to = answers + 4;
        for (uint32_t i = 0; i < count; i++) {
            put(answers, i);
            run(&from, env);
        }
        put(answers, count);
        if (write(4, &byte, 1) != 1)
            break;
    }
    return 0;
}

static ssize_t keep(int fd, const void *from, size_t size)
{
    static ssize_t (*real)(int, const void *, size_t);
    if (!real)
        real = (ssize_t(*)(int, const void *, size_t))dlsym(RTLD_NEXT, "write");
    if (!runs || fd != 1)
        return real(fd, from, size);
    if (written + size > MOST || to + size + 16 > end) {
        is_over = 1;
    } else {
        memcpy(to, from, size);
        to += size;
        written += size;
    }
    return size;
}

ssize_t write(int fd, const void *from, size_t size)
{
    return keep(fd, from, size);
}

ssize_t __write(int fd, const void *from, size_t size)
{
    return keep(fd, from, size);
}

void _exit(int status)
{
    if (runs) {
        ended_with = status;
        longjmp(back, 1);
    }
    syscall(SYS_exit_group, status);
    __builtin_unreachable();
}

int listen(int fd, int backlog)
{
    (void)fd, (void)backlog;
    errno = EADDRINUSE;
    return -1;
}

int __libc_start_main(int (*main)(int, char **, char **), int argc, char **argv, void (*init)(void), void (*fini)(void), void (*rtld_fini)(void), void *stack_end)
{
    int (*real)(int (*)(int, char **, char **), int, char **, void (*)(void), void (*)(void), void (*)(void), void *) =
        dlsym(RTLD_NEXT, "__libc_start_main");
    const char *name = getenv("AGAIN");
    struct stat found;
    int fd = name ? open(name, O_RDWR) : -1;
    if (fd < 0 || fstat(fd, &found) != 0)
        return real(main, argc, argv, init, fini, rtld_fini, stack_end);
    calls = mmap(NULL, found.st_size, PROT_READ | PROT_WRITE, MAP_SHARED, fd, 0);
    close(fd);
    answers = calls + found.st_size / 2;
    end = calls + found.st_size;
    unsetenv("LD_PRELOAD");
    program = main;
    return real(serve, argc, argv, init, fini, rtld_fini, stack_end);
}
