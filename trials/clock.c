/* A library to preload: it moves the clock of the day, which a program reads, by as many seconds as the first word of a page
 * says that the program shares with the driver: the file that CLOCK_PAGE names. No other clock is moved. No header is included,
 * so that a compiler without the system's headers builds it. x86-64 Linux with glibc. */

typedef unsigned long size_t;
struct timespec { long seconds, nanoseconds; };

enum { READ_ONLY = 0, PROTECT_READ = 1, SHARED = 1, CLOSE = 3, CLOCK_GETTIME = 228, OF_THE_DAY = 0 };

extern char *getenv(const char *);
extern int open(const char *, int, ...);
extern void *mmap(void *, size_t, int, int, int, long);
extern long syscall(long, ...);
extern void abort(void);

static volatile long *page;

__attribute__((constructor)) static void find_page(void) {
    const char *path = getenv("CLOCK_PAGE");
    if (!path) return;
    int file = open(path, READ_ONLY);
    if (file < 0) abort();
    void *mapped = mmap(0, sizeof(long), PROTECT_READ, SHARED, file, 0);
    if (mapped == (void *)-1) abort();
    syscall(CLOSE, file);
    page = mapped;
}

int clock_gettime(int clock, struct timespec *time) {
    int status = (int)syscall(CLOCK_GETTIME, (long)clock, time);
    if (status == 0 && clock == OF_THE_DAY && page) time->seconds += *page;
    return status;
}
