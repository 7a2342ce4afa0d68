/* To be loaded before the C library: bends calls of a program, as these words of its environment say.
 *
 * BENT names the calls. `memory`: of the requests for memory, by any thread, number AT is refused, and a byte is written to
 * the open file number TOLD. `read`, of standard input, and `write`, on standard output, are bent as HOW says: `fails` that
 * call number AT of them fails; `none` that it moves nothing; `interrupted` that this one and those after it do, TIMES in
 * all, as by a signal; `one byte` that each moves one byte. `accept`: call number AT for a connection fails with the error
 * number ERROR. It stands without headers, so that any C compiler makes it. */
typedef __SIZE_TYPE__ size;
typedef __PTRDIFF_TYPE__ count;

extern void *__libc_malloc(size);
extern void *__libc_realloc(void *, size);
extern int *__errno_location(void);
extern char *getenv(const char *);
extern int strcmp(const char *, const char *);
extern long strtol(const char *, char **, int);
extern long syscall(long, ...);

enum { INTERRUPTED = 4, INPUT_OUTPUT = 5, NO_MEMORY = 12 };
enum { READ = 0, WRITE = 1, ACCEPT4 = 288 };

static long calls;

static int is(const char *word, const char *wanted) {
    const char *value = getenv(word);
    return value && !strcmp(value, wanted);
}

static long number(const char *word) {
    const char *value = getenv(word);
    return value ? strtol(value, 0, 10) : 0;
}

static int fails(int error) {
    *__errno_location() = error;
    return 1;
}

/* How many calls there were before this one. */
static long counted(void) {
    return __atomic_fetch_add(&calls, 1, __ATOMIC_RELAXED);
}

/* Whether this request for memory is refused. */
static int is_refused(void) {
    if (!is("BENT", "memory") || counted() != number("AT"))
        return 0;
    syscall(WRITE, number("TOLD"), "x", 1L);
    return fails(NO_MEMORY);
}

void *malloc(size bytes) {
    return is_refused() ? 0 : __libc_malloc(bytes);
}

void *realloc(void *block, size bytes) {
    return is_refused() ? 0 : __libc_realloc(block, bytes);
}

/* Makes a call that moves bytes, unless it is bent. */
static count moved(long call, const char *name, int own, int file, void *bytes, size len) {
    if (file == own && is("BENT", name)) {
        long now = counted(), at = number("AT");
        if (now == at && is("HOW", "fails") && fails(INPUT_OUTPUT))
            return -1;
        if (now == at && is("HOW", "none"))
            return 0;
        if (now >= at && now < at + number("TIMES") && is("HOW", "interrupted") && fails(INTERRUPTED))
            return -1;
        if (len > 1 && is("HOW", "one byte"))
            len = 1;
    }
    return syscall(call, (long)file, bytes, len);
}

count read(int file, void *bytes, size len) {
    return moved(READ, "read", 0, file, bytes, len);
}

count write(int file, const void *bytes, size len) {
    return moved(WRITE, "write", 1, file, (void *)bytes, len);
}

int accept4(int file, void *address, void *len, int flags) {
    if (is("BENT", "accept") && counted() == number("AT") && fails((int)number("ERROR")))
        return -1;
    return (int)syscall(ACCEPT4, (long)file, address, len, (long)flags);
}
