// Loaded before the C library (LD_PRELOAD), it refuses one of the calls that the program itself makes:
//   REFUSE_ALLOCATION=N  the Nth malloc or realloc gives no memory
//   REFUSE_FILE=N        the Nth open, read, write, fsync or rename is an error
//   SHORT_FILE=N         the Nth read or write of several bytes moves one
//   REFUSE_THREAD=N      the Nth thread is not started
// N counts from 1. What the C library calls for itself, and what goes to standard error, is neither counted nor
// refused. At the end the numbers of calls of the four kinds are written to the file REFUSE_COUNTS, if one is named.
#define _GNU_SOURCE
#include <dlfcn.h>
#include <errno.h>
#include <fcntl.h>
#include <link.h>
#include <pthread.h>
#include <stdarg.h>
#include <stdatomic.h>
#include <stdint.h>
#include <stdio.h>
#include <stdlib.h>
#include <sys/syscall.h>
#include <unistd.h>

static uintptr_t code_start, code_end;
static long refused_allocation, refused_file, short_file, refused_thread;
static atomic_long allocations, files, shorts, threads;

// The first object that is listed is the program.
static int note_program(struct dl_phdr_info *object, size_t size, void *unused) {
    (void)size, (void)unused;
    for (int i = 0; i < object->dlpi_phnum; i++) {
        const ElfW(Phdr) *part = &object->dlpi_phdr[i];
        if (part->p_type == PT_LOAD && part->p_flags & PF_X) {
            code_start = object->dlpi_addr + part->p_vaddr;
            code_end = code_start + part->p_memsz;
        }
    }
    return 1;
}

static long number(const char *name) {
    const char *text = getenv(name);
    return text ? atol(text) : 0;
}

__attribute__((constructor)) static void begin(void) {
    refused_allocation = number("REFUSE_ALLOCATION");
    refused_file = number("REFUSE_FILE");
    short_file = number("SHORT_FILE");
    refused_thread = number("REFUSE_THREAD");
    dl_iterate_phdr(note_program, NULL);
}

static void write_counts(void) {
    const char *name = getenv("REFUSE_COUNTS");
    FILE *file = name ? fopen(name, "w") : NULL;
    if (file) {
        fprintf(file, "%ld %ld %ld %ld\n", allocations, files, shorts, threads);
        fclose(file);
    }
}

// Whether this is the call with that number, of those that the program makes.
static int is_turn(void *caller, atomic_long *count, long turn) {
    uintptr_t place = (uintptr_t)caller;
    return place >= code_start && place < code_end && atomic_fetch_add(count, 1) + 1 == turn;
}

#define NEXT(name) static __typeof__(name) *next; if (!next) next = (__typeof__(next))dlsym(RTLD_NEXT, #name)
#define REFUSE(count, turn, error, answer) \
    if (is_turn(__builtin_return_address(0), &count, turn)) { errno = error; return answer; }

// The program ends by it.
void _exit(int status) {
    write_counts();
    syscall(SYS_exit_group, status);
    __builtin_unreachable();
}

void *malloc(size_t size) {
    NEXT(malloc);
    REFUSE(allocations, refused_allocation, ENOMEM, NULL);
    return next(size);
}

void *realloc(void *old, size_t size) {
    NEXT(realloc);
    REFUSE(allocations, refused_allocation, ENOMEM, NULL);
    return next(old, size);
}

ssize_t read(int file, void *bytes, size_t size) {
    NEXT(read);
    REFUSE(files, refused_file, EIO, -1);
    if (size > 1 && is_turn(__builtin_return_address(0), &shorts, short_file)) size = 1;
    return next(file, bytes, size);
}

ssize_t write(int file, const void *bytes, size_t size) {
    NEXT(write);
    if (file == STDERR_FILENO) return next(file, bytes, size);
    REFUSE(files, refused_file, EIO, -1);
    if (size > 1 && is_turn(__builtin_return_address(0), &shorts, short_file)) size = 1;
    return next(file, bytes, size);
}

int open(const char *name, int flags, ...) {
    NEXT(open);
    va_list more;
    va_start(more, flags);
    mode_t mode = flags & (O_CREAT | O_TMPFILE) ? va_arg(more, mode_t) : 0;
    va_end(more);
    REFUSE(files, refused_file, EIO, -1);
    return next(name, flags, mode);
}

int fsync(int file) {
    NEXT(fsync);
    REFUSE(files, refused_file, EIO, -1);
    return next(file);
}

int rename(const char *old, const char *new) {
    NEXT(rename);
    REFUSE(files, refused_file, EIO, -1);
    return next(old, new);
}

int pthread_create(pthread_t *thread, const pthread_attr_t *how, void *(*begin)(void *), void *given) {
    NEXT(pthread_create);
    if (is_turn(__builtin_return_address(0), &threads, refused_thread)) return EAGAIN;
    return next(thread, how, begin, given);
}
