/* A preload library for the checks from outside. It makes the Nth allocation, read or write of a program fail.
 *
 *   gcc -shared -fPIC -O2 -o faulty.so faulty.c -ldl
 *   FAULTY_ALLOCATION=3 LD_PRELOAD=./faulty.so PROGRAM ..
 *
 * Environment variables say what fails. N counts from 1; a variable that is not set, or is 0, makes nothing fail.
 *   FAULTY_ALLOCATION=N  the Nth malloc or realloc gets no memory (ENOMEM)
 *   FAULTY_READ=N        the Nth read or pread fails (EIO)
 *   FAULTY_WRITE=N       the Nth write or pwrite fails (EIO); those to standard error neither fail nor count
 *   FAULTY_STOP=N        the program is killed at the Nth such write, before it writes anything
 *   FAULTY_PIECE=N       no read and no such write transfers more than N bytes
 *   FAULTY_REPORT=FILE   at exit or _exit, each count and the peak memory are written to FILE, as a line 'NAME COUNT'
 */
#define _GNU_SOURCE
#include <dlfcn.h>
#include <errno.h>
#include <fcntl.h>
#include <signal.h>
#include <stdatomic.h>
#include <stdio.h>
#include <stdlib.h>
#include <string.h>
#include <unistd.h>

static atomic_long allocations, reads, writes, bytes_read;
static long refused_allocation, failing_read, failing_write, stopping_write, piece;

static void *(*real_malloc)(size_t);
static void *(*real_realloc)(void *, size_t);
static ssize_t (*real_read)(int, void *, size_t);
static ssize_t (*real_write)(int, const void *, size_t);
static ssize_t (*real_pread)(int, void *, size_t, off_t);
static ssize_t (*real_pwrite)(int, const void *, size_t, off_t);

/* The C library may allocate memory before `begin` has run; then this is called by the first allocation. */
static void find_real_calls(void) {
    real_malloc = dlsym(RTLD_NEXT, "malloc");
    real_realloc = dlsym(RTLD_NEXT, "realloc");
    real_read = dlsym(RTLD_NEXT, "read");
    real_write = dlsym(RTLD_NEXT, "write");
    real_pread = dlsym(RTLD_NEXT, "pread");
    real_pwrite = dlsym(RTLD_NEXT, "pwrite");
}

static long number_in(const char *variable) {
    const char *text = getenv(variable);
    return text ? atol(text) : 0;
}

static int is_due(atomic_long *count, long at) {
    return atomic_fetch_add(count, 1) + 1 == at;
}

static int fails_to_write(void) {
    long number = atomic_fetch_add(&writes, 1) + 1;
    if (number == stopping_write) kill(getpid(), SIGKILL);
    return number == failing_write;
}

static size_t cut(size_t size) {
    return piece > 0 && size > (size_t)piece ? (size_t)piece : size;
}

void *malloc(size_t size) {
    if (!real_malloc) find_real_calls();
    if (is_due(&allocations, refused_allocation)) { errno = ENOMEM; return NULL; }
    return real_malloc(size);
}

void *realloc(void *old, size_t size) {
    if (!real_realloc) find_real_calls();
    if (is_due(&allocations, refused_allocation)) { errno = ENOMEM; return NULL; }
    return real_realloc(old, size);
}

ssize_t read(int file, void *into, size_t size) {
    if (!real_read) find_real_calls();
    if (is_due(&reads, failing_read)) { errno = EIO; return -1; }
    ssize_t got = real_read(file, into, cut(size));
    if (got > 0) atomic_fetch_add(&bytes_read, got);
    return got;
}

ssize_t write(int file, const void *from, size_t size) {
    if (!real_write) find_real_calls();
    if (file == STDERR_FILENO) return real_write(file, from, size);
    if (fails_to_write()) { errno = EIO; return -1; }
    return real_write(file, from, cut(size));
}

ssize_t pread(int file, void *into, size_t size, off_t at) {
    if (!real_pread) find_real_calls();
    if (is_due(&reads, failing_read)) { errno = EIO; return -1; }
    ssize_t got = real_pread(file, into, cut(size), at);
    if (got > 0) atomic_fetch_add(&bytes_read, got);
    return got;
}

ssize_t pwrite(int file, const void *from, size_t size, off_t at) {
    if (!real_pwrite) find_real_calls();
    if (fails_to_write()) { errno = EIO; return -1; }
    return real_pwrite(file, from, cut(size), at);
}

/* The most memory that the process has used, in KiB, or 0 if the system does not say. */
static long peak_memory(void) {
    char text[4096];
    int file = open("/proc/self/status", O_RDONLY);
    if (file < 0) return 0;
    ssize_t size = real_read(file, text, sizeof text - 1);
    close(file);
    text[size > 0 ? size : 0] = 0;
    const char *peak = strstr(text, "VmHWM:");
    return peak ? atol(peak + strlen("VmHWM:")) : 0;
}

static void report(void) {
    char text[256];
    int size = snprintf(text, sizeof text, "allocations %ld\nreads %ld\nwrites %ld\nbytes_read %ld\npeak_kib %ld\n",
                        allocations, reads, writes, bytes_read, peak_memory());
    int file = open(getenv("FAULTY_REPORT"), O_CREAT | O_TRUNC | O_WRONLY, 0644);
    if (file < 0) return;
    if (real_write(file, text, size) != size) unlink(getenv("FAULTY_REPORT"));
    close(file);
}

/* A program with threads ends with this call, which does not run what was registered with `atexit`. */
void _exit(int status) {
    if (getenv("FAULTY_REPORT")) report();
    void (*real_exit)(int) __attribute__((noreturn)) = dlsym(RTLD_NEXT, "_exit");
    real_exit(status);
}

__attribute__((constructor)) static void begin(void) {
    find_real_calls();
    refused_allocation = number_in("FAULTY_ALLOCATION");
    failing_read = number_in("FAULTY_READ");
    failing_write = number_in("FAULTY_WRITE");
    stopping_write = number_in("FAULTY_STOP");
    piece = number_in("FAULTY_PIECE");
    if (getenv("FAULTY_REPORT")) atexit(report);
    allocations = 0; /* count only what the program itself allocates */
}
