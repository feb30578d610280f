/* A library to be loaded before a program (LD_PRELOAD), which refuses one of the program's calls: the one whose number,
 * from 1, is in REFUSE_NTH, of those that REFUSE names: `memory` (allocations), `read` (of standard input), `write` (to
 * standard output) or `open` (of files). It then writes a byte to the file descriptor 3. All others are passed on to glibc, and where reads or
 * writes are named, each of them goes on with 7 bytes at most. With `wait` none is refused, and standard input is one
 * that doesn't wait for bytes (O_NONBLOCK). With `interrupt` every second write to standard output is interrupted by a
 * signal before it has moved a byte, and a byte goes to the file descriptor 3; the others go on with 7 bytes at most.
 * `interrupt-read` is `read` with a signal in place of the refusal.
 * It is used by tests/refused-memory and tests/failing-streams alone, and is no part of the product. */
typedef unsigned long size_t;

enum { EINTR = 4, EIO = 5, EACCES = 13, AT_FDCWD = -100, F_SETFL = 4, O_NONBLOCK = 04000, PIECE = 7 };

extern void *__libc_malloc(size_t size);
extern void *__libc_realloc(void *old, size_t size);
extern long __read(int from, void *bytes, size_t count);
extern long __write(int to, const void *bytes, size_t count);
extern int __openat_2(int folder, const char *name, int flags);
extern int *__errno_location(void);
extern int fcntl(int file, int command, ...);
extern char *getenv(const char *name);

static unsigned long calls;

/* The number that REFUSE_NTH holds, or 0. */
static unsigned long nth(void)
{
    unsigned long number = 0;
    const char *digit = getenv("REFUSE_NTH");
    for (; digit && *digit >= '0' && *digit <= '9'; digit++)
        number = number * 10 + (unsigned long)(*digit - '0');
    return number;
}

/* Whether REFUSE names these calls. */
static int is_named(const char *kind)
{
    const char *named = getenv("REFUSE");
    for (; named && *named && *named == *kind; named++)
        kind++;
    return named && *named == *kind;
}

/* Whether the next call of the named kind is the one to be refused. */
static int is_refused(void)
{
    calls++;
    if (calls != nth())
        return 0;
    __write(3, "x", 1);
    return 1;
}

/* Whether the next write is to be interrupted: the first, the third and so on. */
static int is_interrupted(void)
{
    calls++;
    if (calls % 2 == 0)
        return 0;
    __write(3, "x", 1);
    return 1;
}

void *malloc(size_t size)
{
    return is_named("memory") && is_refused() ? 0 : __libc_malloc(size);
}

void *realloc(void *old, size_t size)
{
    return is_named("memory") && is_refused() ? 0 : __libc_realloc(old, size);
}

/* glibc ends a program that would make a file by this call. */
int openat(int folder, const char *name, int flags, ...)
{
    if (is_named("open") && is_refused()) {
        *__errno_location() = EACCES;
        return -1;
    }
    return __openat_2(folder, name, flags);
}

int open(const char *name, int flags, ...)
{
    return openat(AT_FDCWD, name, flags);
}

long read(int from, void *bytes, size_t count)
{
    if (from == 0 && is_named("wait"))
        fcntl(from, F_SETFL, O_NONBLOCK);
    int interrupts = is_named("interrupt-read");
    if (from != 0 || (!interrupts && !is_named("read")))
        return __read(from, bytes, count);
    if (is_refused()) {
        *__errno_location() = interrupts ? EINTR : EIO;
        return -1;
    }
    return __read(from, bytes, count < PIECE ? count : PIECE);
}

long write(int to, const void *bytes, size_t count)
{
    int interrupts = is_named("interrupt");
    if (to != 1 || (!interrupts && !is_named("write")))
        return __write(to, bytes, count);
    if (interrupts ? is_interrupted() : is_refused()) {
        *__errno_location() = interrupts ? EINTR : EIO;
        return -1;
    }
    return __write(to, bytes, count < PIECE ? count : PIECE);
}
