/* A library to preload: it counts a program's calls of the allocator, and refuses one of them, or all from one on.
 *
 * The program is asked of through a page of numbers that it shares with the driver: the file that REFUSE_PAGE names.
 * No header is included, so that a compiler without the system's headers builds it. x86-64 Linux with glibc. */

typedef unsigned long size_t;
typedef long ssize_t;
typedef unsigned long word;

/* The page, in words. */
enum {
    COUNTING,        /* 1: calls are counted */
    FROM_ACCEPT,     /* 1: counting begins once a connection was accepted */
    REFUSED_CALL,    /* the number of the call that is refused, counted from 1; 0: none */
    ALL_AFTER,       /* 1: all calls after that one are refused too */
    CALLS,           /* how many calls were counted */
    REFUSALS,        /* how many were refused */
    DIVIDES,         /* 1: the program, a `replay`, stands at the call that would be refused and takes orders; see `divides` */
    SCRIPT_FROM,     /* from which byte on a child reads the script again */
    SCRIPT_SIZE,     /* how many bytes the script has */
    CHILD_STATUS,    /* how the last child ended, as waitpid tells it */
    PAGE_WORDS
};

enum { OUT_OF_MEMORY = 12, READ_WRITE = 2, PROTECT_READ_WRITE = 3, SHARED = 1, READ = 0, ACCEPT4 = 288 };
enum { ORDERS = 0, GO_ON = 'g', DIVIDE = 'd', DIES_WITH_PARENT = 1, KILLED = 9 };

extern void *__libc_malloc(size_t);
extern void *__libc_calloc(size_t, size_t);
extern void *__libc_realloc(void *, size_t);
extern void *__libc_memalign(size_t, size_t);
extern int *__errno_location(void);
extern char *getenv(const char *);
extern int open(const char *, int, ...);
extern int close(int);
extern void *mmap(void *, size_t, int, int, int, long);
extern long syscall(long, ...);
extern void abort(void);
extern void _exit(int);
extern int fork(void);
extern int waitpid(int, int *, int);
extern int prctl(int, ...);
extern ssize_t write(int, const void *, size_t);
extern ssize_t pread(int, void *, size_t, long);

static word *page;

/* The script of `replay`: its file, and where it ends in memory once it was read whole, at the end of the file. */
static int script;
static char *script_end;

__attribute__((constructor)) static void find_page(void) {
    const char *path = getenv("REFUSE_PAGE");
    if (!path) return;
    int file = open(path, READ_WRITE);
    if (file < 0) abort();
    void *mapped = mmap(0, PAGE_WORDS * sizeof(word), PROTECT_READ_WRITE, SHARED, file, 0);
    if (mapped == (void *)-1) abort();
    close(file);
    page = mapped;
}

/* Stands at a call, if it is the one to be refused or behind it and the script was read whole: tells the driver so, through the
 * standard input, a socket, and for each order to divide makes a child in which the call is refused, and waits for its end. So
 * what comes before the call is run once for all of them. A child takes the rest of its script from the file as it is by then,
 * and writes behind what this process has written. Answers whether this is a child. The program has to have one thread. */
static int divides(word number) {
    char order;
    if (number < page[REFUSED_CALL] || !script_end) return 0;
    for (;;) {
        if (write(ORDERS, "", 1) != 1 || syscall(READ, ORDERS, &order, 1) != 1) _exit(0);
        if (order == GO_ON) return 0;
        int status = 0, child = fork();
        if (child == 0) {
            prctl(DIES_WITH_PARENT, KILLED);
            size_t rest = page[SCRIPT_SIZE] - page[SCRIPT_FROM];
            if (pread(script, script_end - rest, rest, page[SCRIPT_FROM]) != (ssize_t)rest) abort();
            page[DIVIDES] = 0;
            return 1;
        }
        if (child < 0 || waitpid(child, &status, 0) != child) abort();
        page[CHILD_STATUS] = status;
        page[DIVIDES] = 1;
        page[CALLS] = number;
    }
}

/* Counts a call, and tells whether it is refused. */
static int is_refused(void) {
    if (!page || !__atomic_load_n(&page[COUNTING], __ATOMIC_SEQ_CST)) return 0;
    word number = __atomic_add_fetch(&page[CALLS], 1, __ATOMIC_SEQ_CST);
    if (page[DIVIDES] && !divides(number)) return 0;
    word refused = page[REFUSED_CALL];
    if (!refused || number < refused || (number > refused && !page[ALL_AFTER])) return 0;
    __atomic_add_fetch(&page[REFUSALS], 1, __ATOMIC_SEQ_CST);
    *__errno_location() = OUT_OF_MEMORY;
    return 1;
}

void *malloc(size_t size) { return is_refused() ? 0 : __libc_malloc(size); }

void *calloc(size_t count, size_t size) { return is_refused() ? 0 : __libc_calloc(count, size); }

void *realloc(void *old, size_t size) { return is_refused() ? 0 : __libc_realloc(old, size); }

void *memalign(size_t alignment, size_t size) { return is_refused() ? 0 : __libc_memalign(alignment, size); }

void *aligned_alloc(size_t alignment, size_t size) { return is_refused() ? 0 : __libc_memalign(alignment, size); }

int posix_memalign(void **result, size_t alignment, size_t size) {
    void *made = is_refused() ? 0 : __libc_memalign(alignment, size);
    if (!made) return OUT_OF_MEMORY;
    *result = made;
    return 0;
}

ssize_t read(int file, void *to, size_t size) {
    ssize_t got = syscall(READ, file, to, size);
    if (got == 0 && page && page[DIVIDES]) {
        script = file;
        script_end = to;
    }
    return got;
}

int accept4(int listener, void *address, unsigned *length, int flags) {
    long accepted = syscall(ACCEPT4, listener, address, length, flags);
    if (accepted >= 0 && page && page[FROM_ACCEPT]) __atomic_store_n(&page[COUNTING], 1, __ATOMIC_SEQ_CST);
    return (int)accepted;
}

int accept(int listener, void *address, unsigned *length) { return accept4(listener, address, length, 0); }
