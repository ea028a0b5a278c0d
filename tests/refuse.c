/* An allocator that refuses requests for memory. When preloaded, it replaces that of the C library.
 *
 * It counts each call of malloc, calloc, realloc, posix_memalign, aligned_alloc and memalign from 1, in all threads together. Requests
 * of the loader before the program begins don't count.
 *
 *   REFUSE_NTH=N      refuses only request N
 *   REFUSE_FROM=N     refuses request N and all later ones
 *   REFUSE_CALL=N     fails the Nth opening or reading of a file with ENOMEM
 *   REFUSE_TOLD=FILE  appends 'ASKED REFUSED' to FILE when the program ends: how many requests there were, and how many were refused
 *   REFUSE_LOG=FILE   appends a line to FILE for each call on a file: 'ASKED MINE THREAD WHAT FD BYTES NAME', with the requests before it,
 *                     those of its own thread, the thread, the number of bytes, and the name of the file if it is opened,
 *                     otherwise '-'
 *   REFUSE_TRAP=1     traps when the first request is refused, so that a debugger shows who made it
 *
 * A program may also set this while it runs, by names that it looks up in its environment:
 *
 *   REFUSE:NTH:N      counts from 0 again, and refuses only request N; has no value
 *   REFUSE:FROM:N     counts from 0 again, and refuses request N and all later ones; has no value
 *   REFUSE:END        refuses nothing any more; its value is 'ASKED REFUSED'
 *
 * This allocator itself requests no memory.
 */
#define _GNU_SOURCE
#include <errno.h>
#include <fcntl.h>
#include <signal.h>
#include <stdarg.h>
#include <stdatomic.h>
#include <stddef.h>
#include <string.h>
#include <sys/syscall.h>
#include <unistd.h>

enum { LONGEST_NAME = 300, ROOM = 512 };

extern void *__libc_malloc(size_t);
extern void *__libc_calloc(size_t, size_t);
extern void *__libc_realloc(void *, size_t);
extern void *__libc_memalign(size_t, size_t);
extern char **environ;

/* The only request to refuse, the first of all requests to refuse, and the call that fails. 0 for none. */
static atomic_long nth, from;
static long failing;
static int report = -1, logged = -1, is_trapped;
/* Whether the program has begun. */
static atomic_int is_running;
static atomic_long asked, refused, calls;
static __thread long mine __attribute__((tls_model("initial-exec")));

/* This code reads and writes by none of the counted calls. */

static long number(const char *text) {
    long n = 0;
    while (text && *text >= '0' && *text <= '9') n = 10 * n + *text++ - '0';
    return n;
}

static const char *variable(const char *name) {
    size_t len = strlen(name);
    for (char **at = environ; at && *at; at++)
        if (!strncmp(*at, name, len) && (*at)[len] == '=') return *at + len + 1;
    return NULL;
}

static int appended(const char *name) {
    return name ? (int)syscall(SYS_openat, AT_FDCWD, name, O_WRONLY | O_CREAT | O_APPEND | O_CLOEXEC, 0666) : -1;
}

static char *put(char *at, const char *text, size_t most) {
    while (*text && most--) *at++ = *text++;
    *at++ = ' ';
    return at;
}

static char *put_number(char *at, long n) {
    char digits[24], *last = digits + sizeof digits;
    unsigned long left = n < 0 ? -(unsigned long)n : (unsigned long)n;
    *--last = 0;
    do *--last = (char)('0' + left % 10); while (left /= 10);
    if (n < 0) *--last = '-';
    return put(at, last, sizeof digits);
}

/* The line ends in place of its last blank. */
static void say(int fd, char *line, char *end) {
    int kept = errno;
    end[-1] = '\n';
    syscall(SYS_write, fd, line, (size_t)(end - line));
    errno = kept;
}

__attribute__((constructor)) static void begin(void) {
    nth = number(variable("REFUSE_NTH"));
    from = number(variable("REFUSE_FROM"));
    failing = number(variable("REFUSE_CALL"));
    report = appended(variable("REFUSE_TOLD"));
    logged = appended(variable("REFUSE_LOG"));
    is_trapped = variable("REFUSE_TRAP") != NULL;
    is_running = 1;
}

/* Reports once. */
__attribute__((destructor)) static void end(void) {
    static atomic_int is_reported;
    char line[ROOM];
    if (report >= 0 && !atomic_exchange(&is_reported, 1)) say(report, line, put_number(put_number(line, asked), refused));
}

/* A program that ends in this way runs no destructor. */
__attribute__((noreturn)) void _exit(int status) {
    end();
    for (;;) syscall(SYS_exit_group, status);
}

/* Memory. */

static int is_refused(void) {
    if (!is_running) return 0;
    long number = atomic_fetch_add(&asked, 1) + 1;
    mine++;
    long first = from;
    if (number != nth && (!first || number < first)) return 0;
    if (!atomic_fetch_add(&refused, 1) && is_trapped) raise(SIGTRAP);
    errno = ENOMEM;
    return 1;
}

void *malloc(size_t bytes) {
    return is_refused() ? NULL : __libc_malloc(bytes);
}

void *calloc(size_t count, size_t bytes) {
    return is_refused() ? NULL : __libc_calloc(count, bytes);
}

void *realloc(void *block, size_t bytes) {
    return is_refused() ? NULL : __libc_realloc(block, bytes);
}

void *memalign(size_t align, size_t bytes) {
    return is_refused() ? NULL : __libc_memalign(align, bytes);
}

void *aligned_alloc(size_t align, size_t bytes) {
    return is_refused() ? NULL : __libc_memalign(align, bytes);
}

int posix_memalign(void **block, size_t align, size_t bytes) {
    if (align % sizeof(void *) || align & (align - 1) || !align) return EINVAL;
    void *found = is_refused() ? NULL : __libc_memalign(align, bytes);
    if (!found) return ENOMEM;
    *block = found;
    return 0;
}

/* What a program sets while it runs. */

static void count_anew(long one, long all) {
    nth = one;
    from = all;
    asked = refused = 0;
}

char *getenv(const char *name) {
    static char counts[64];
    if (!strncmp(name, "REFUSE:NTH:", 11)) return count_anew(number(name + 11), 0), NULL;
    if (!strncmp(name, "REFUSE:FROM:", 12)) return count_anew(0, number(name + 12)), NULL;
    if (strcmp(name, "REFUSE:END")) return (char *)variable(name);
    nth = from = 0;
    put_number(put_number(counts, asked), refused)[-1] = 0;
    return counts;
}

/* Files. */

static void note(const char *what, long fd, size_t bytes, const char *name) {
    if (logged < 0) return;
    char line[ROOM], *at = line;
    at = put_number(at, asked);
    at = put_number(at, mine);
    at = put_number(at, syscall(SYS_gettid));
    at = put(at, what, LONGEST_NAME);
    at = put_number(at, fd);
    at = put_number(at, (long)bytes);
    say(logged, line, put(at, name ? name : "-", LONGEST_NAME));
}

static int fails(void) {
    if (!is_running || atomic_fetch_add(&calls, 1) + 1 != failing) return 0;
    errno = ENOMEM;
    return 1;
}

int fdatasync(int fd) {
    note("fdatasync", fd, 0, NULL);
    return (int)syscall(SYS_fdatasync, fd);
}

int ftruncate(int fd, off_t length) {
    note("ftruncate", fd, 0, NULL);
    return (int)syscall(SYS_ftruncate, fd, length);
}

int ftruncate64(int fd, off64_t length) __attribute__((alias("ftruncate")));

ssize_t pwrite64(int fd, const void *bytes, size_t count, off64_t at) {
    note("pwrite", fd, count, NULL);
    return syscall(SYS_pwrite64, fd, bytes, count, at);
}

ssize_t pwrite(int fd, const void *bytes, size_t count, off_t at) __attribute__((alias("pwrite64")));

ssize_t pread64(int fd, void *bytes, size_t count, off64_t at) {
    note("pread", fd, count, NULL);
    return syscall(SYS_pread64, fd, bytes, count, at);
}

ssize_t pread(int fd, void *bytes, size_t count, off_t at) __attribute__((alias("pread64")));

ssize_t write(int fd, const void *bytes, size_t count) {
    note("write", fd, count, NULL);
    return syscall(SYS_write, fd, bytes, count);
}

ssize_t __write(int fd, const void *bytes, size_t count) __attribute__((alias("write")));

ssize_t read(int fd, void *bytes, size_t count) {
    note("read", fd, count, NULL);
    return fails() ? -1 : syscall(SYS_read, fd, bytes, count);
}

ssize_t __read(int fd, void *bytes, size_t count) __attribute__((alias("read")));

static int opened(int folder, const char *name, int flags, mode_t mode) {
    int fd = fails() ? -1 : (int)syscall(SYS_openat, folder, name, flags, mode);
    note("open", fd, 0, name);
    return fd;
}

/* The mode, an argument after the flags. */
#define MODE(flags)                        \
    mode_t mode = 0;                       \
    if ((flags) & (O_CREAT | O_TMPFILE)) { \
        va_list more;                      \
        va_start(more, flags);             \
        mode = va_arg(more, mode_t);       \
        va_end(more);                      \
    }

int openat(int folder, const char *name, int flags, ...) {
    MODE(flags)
    return opened(folder, name, flags, mode);
}

int openat64(int folder, const char *name, int flags, ...) __attribute__((alias("openat")));

int open(const char *name, int flags, ...) {
    MODE(flags)
    return opened(AT_FDCWD, name, flags, mode);
}

int open64(const char *name, int flags, ...) __attribute__((alias("open")));
