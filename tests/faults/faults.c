/* Preloaded into a program, lets some of its calls go wrong, from outside.

   FAULT says which: `memory`, `thread`, `entropy`, `read` or `write`. The calls of that kind count from 1, and those from FIRST to LAST go
   wrong: memory, threads and random numbers are refused, and a read or a write moves MOVES bytes, or fails where that is negative: with EIO at -1, or
   with the error -MOVES. For each one byte is written to the descriptor TOLD. No read or write moves more than MOST bytes, where MOST is given. Where WHOSE is given,
   only calls of the program's first thread count (`first`), or only those of its other threads (`others`).

   It is for Linux on x86-64, and includes nothing, so that a compiler without the C library's headers will do. */

typedef __SIZE_TYPE__ size;
typedef __PTRDIFF_TYPE__ length;

enum { READ = 0, WRITE = 1, GET_PROCESS = 39, SEND_TO = 44, RECEIVE_FROM = 45, GET_THREAD = 186 };
enum { INPUT_OUTPUT = 5, TRY_AGAIN = 11, NO_MEMORY = 12 };

extern void *__libc_malloc(size);
extern void *__libc_calloc(size, size);
extern void *__libc_realloc(void *, size);
extern int *__errno_location(void);
extern char *getenv(const char *);
extern long strtol(const char *, char **, int);
extern long syscall(long, ...);
extern void *dlsym(void *, const char *);

static char kind, whose;
static long made, first, last, moves, most, told;

static long number(const char *name)
{
    const char *value = getenv(name);
    return value ? strtol(value, 0, 10) : 0;
}

__attribute__((constructor)) static void begin(void)
{
    const char *fault = getenv("FAULT"), *threads = getenv("WHOSE");
    first = number("FIRST"), last = number("LAST"), moves = number("MOVES"), most = number("MOST"), told = number("TOLD");
    kind = fault ? *fault : 0, whose = threads ? *threads : 0;
}

/* Whether calls of this thread count. */
static int counts(void)
{
    return !whose || whose == (syscall(GET_THREAD) == syscall(GET_PROCESS) ? 'f' : 'o');
}

/* Whether this call, of the kind with this first letter, goes wrong. */
static int goes_wrong(char letter)
{
    if (letter != kind || !counts())
        return 0;
    long call = __sync_add_and_fetch(&made, 1);
    if (call < first || last < call)
        return 0;
    syscall(WRITE, told, "!", (size)1);
    return 1;
}

static int is_refused(void)
{
    if (!goes_wrong('m'))
        return 0;
    *__errno_location() = NO_MEMORY;
    return 1;
}

void *malloc(size bytes)
{
    return is_refused() ? 0 : __libc_malloc(bytes);
}

void *calloc(size count, size bytes)
{
    return is_refused() ? 0 : __libc_calloc(count, bytes);
}

void *realloc(void *old, size bytes)
{
    return is_refused() ? 0 : __libc_realloc(old, bytes);
}

typedef int creator(void *, const void *, void *(*)(void *), void *);

int pthread_create(void *thread, const void *attributes, void *(*body)(void *), void *argument)
{
    creator *create = (creator *)dlsym((void *)-1, "pthread_create");
    return goes_wrong('t') ? TRY_AGAIN : create(thread, attributes, body, argument);
}

typedef int entropy(void *, size);

int getentropy(void *bytes, size count)
{
    entropy *draw = (entropy *)dlsym((void *)-1, "getentropy");
    if (!goes_wrong('e'))
        return draw(bytes, count);
    *__errno_location() = INPUT_OUTPUT;
    return -1;
}

/* How many of so many bytes the call moves, or -1 where it fails. */
static length allowed(char letter, size bytes)
{
    size limit = most ? (size)most : bytes;
    if (goes_wrong(letter)) {
        if (moves < 0) {
            *__errno_location() = moves == -1 ? INPUT_OUTPUT : (int)-moves;
            return -1;
        }
        limit = moves;
    }
    return limit < bytes ? limit : bytes;
}

length read(int device, void *bytes, size count)
{
    length n = allowed('r', count);
    return n > 0 ? syscall(READ, device, bytes, n) : n;
}

length write(int device, const void *bytes, size count)
{
    length n = allowed('w', count);
    return n > 0 ? syscall(WRITE, device, bytes, n) : n;
}

length recv(int device, void *bytes, size count, int flags)
{
    length n = allowed('r', count);
    return n > 0 ? syscall(RECEIVE_FROM, device, bytes, n, flags, 0, 0) : n;
}

length send(int device, const void *bytes, size count, int flags)
{
    length n = allowed('w', count);
    return n > 0 ? syscall(SEND_TO, device, bytes, n, flags, 0, 0) : n;
}
