// A heap that refuses memory, loaded before the C library's (LD_PRELOAD). It refuses request number
// REFUSE_AT of a program; if REFUSE_ALL is set every later one, too; with REFUSE_COUNT that many in
// all. It passes the others on. If a run makes fewer requests, it prints that at the end.
// It includes no header, as the toolchain's compiler has none.

char *getenv(const char *name);
unsigned long strtoul(const char *text, char **end, int base);
long write(int file, const void *bytes, unsigned long count);
void *__libc_malloc(unsigned long size);
void *__libc_realloc(void *place, unsigned long size);
void _Exit(int status) __attribute__((noreturn));

static unsigned long requests;

// The number of the first request that is refused: 0 where none is.
static unsigned long first_refused(void) {
    const char *text = getenv("REFUSE_AT");
    return text ? strtoul(text, 0, 10) : 0;
}

// How many requests are refused: one, if nothing is said.
static unsigned long count_refused(void) {
    const char *text = getenv("REFUSE_COUNT");
    return text ? strtoul(text, 0, 10) : 1;
}

static int is_refused(void) {
    unsigned long number = __atomic_add_fetch(&requests, 1, __ATOMIC_SEQ_CST);
    unsigned long first = first_refused();
    return first && number >= first && (number - first < count_refused() || getenv("REFUSE_ALL"));
}

void *malloc(unsigned long size) {
    return is_refused() ? 0 : __libc_malloc(size);
}

void *realloc(void *place, unsigned long size) {
    return is_refused() ? 0 : __libc_realloc(place, size);
}

// A program with threads ends by `_exit`, and one without by a return from `main`.
__attribute__((destructor)) static void tell(void) {
    static const char granted[] = "every request was granted\n";
    if (requests < first_refused()) {
        write(2, granted, sizeof granted - 1);
    }
}

__attribute__((noreturn)) void _exit(int status) {
    tell();
    _Exit(status);
}
