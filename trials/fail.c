/* A library to preload: it counts a program's reads of its connections, or its writes to them, and has one of these calls
 * fail, be interrupted, say that it would wait, or move few bytes; or all calls from one on.
 *
 * The program is told so through a page of numbers that it shares with the driver: the file that FAIL_PAGE names. Its
 * connections are the sockets that it accepts. Where a call would wait, or a write moves less than it could, the socket is put
 * into its epoll once more, which tells again that it is ready, as the system does once it is. Where a call is interrupted, or
 * a read moves less than it could, nothing is told: the program has to make the call once more by itself. No header is included, so that a compiler without
 * the system's headers builds it. x86-64 Linux with glibc. */

typedef unsigned long size_t;
typedef long ssize_t;
typedef unsigned long word;

/* The page, in words. */
enum {
    COUNTED,         /* 1: reads are counted; 2: writes; 0: none */
    FIRST,           /* the number of the first call that is changed, from 1 */
    ALL_AFTER,       /* 1: the calls after that one are changed too; 2: each second one of a connection */
    ERROR,           /* what the call fails with; 0: it moves bytes */
    MOST,            /* so many bytes at most */
    CALLS,           /* how many calls were counted */
    CHANGED,         /* how many were changed */
    PORT,            /* the port of the peer whose connection met the first change */
    MOVED,           /* how many bytes had been read of that connection, or written to it */
    PAGE_WORDS
};

enum { READS = 1, WRITES = 2, READ_WRITE = 2, PROTECT_READ_WRITE = 3, SHARED = 1, MOST_FILES = 4096, INTERRUPTED = 4, WOULD_WAIT = 11 };
enum { READ = 0, WRITE = 1, CLOSE = 3, SEND_TO = 44, RECEIVE_FROM = 45, PEER = 52, EPOLL_CTL = 233, ACCEPT4 = 288 };
enum { ADD = 1, CHANGE = 3, DO_NOT_WAIT = 0x40 };

struct event { unsigned events; unsigned low, high; };

/* A connection: its epoll and what it is waited for there, how many bytes went each way, and whether its next call is to be
 * changed where each second one is. */
struct connection { int is_open, epoll, is_next; struct event event; word moved[3]; };

extern int *__errno_location(void);
extern char *getenv(const char *);
extern int open(const char *, int, ...);
extern void *mmap(void *, size_t, int, int, int, long);
extern long syscall(long, ...);
extern void abort(void);

static word *page;
static struct connection connections[MOST_FILES];

__attribute__((constructor)) static void find_page(void) {
    const char *path = getenv("FAIL_PAGE");
    if (!path) return;
    int file = open(path, READ_WRITE);
    if (file < 0) abort();
    void *mapped = mmap(0, PAGE_WORDS * sizeof(word), PROTECT_READ_WRITE, SHARED, file, 0);
    if (mapped == (void *)-1) abort();
    syscall(CLOSE, file);
    page = mapped;
}

/* The connection of a file, or none. */
static struct connection *of(int file) {
    if (!page || file < 0 || file >= MOST_FILES || !connections[file].is_open) return 0;
    return &connections[file];
}

/* Counts a call, and tells whether it is changed. */
static int is_changed(int file, struct connection *its, word kind) {
    if (__atomic_load_n(&page[COUNTED], __ATOMIC_SEQ_CST) != kind) return 0;
    word number = __atomic_add_fetch(&page[CALLS], 1, __ATOMIC_SEQ_CST);
    if (number < page[FIRST] || (number > page[FIRST] && !page[ALL_AFTER])) return 0;
    its->is_next = !its->is_next;
    if (page[ALL_AFTER] == 2 && !its->is_next) return 0;
    if (__atomic_add_fetch(&page[CHANGED], 1, __ATOMIC_SEQ_CST) == 1) {
        unsigned char address[128];
        unsigned length = sizeof address;
        if (syscall(PEER, file, address, &length) == 0) page[PORT] = address[2] * 256ul + address[3];
        page[MOVED] = its->moved[kind];
    }
    return 1;
}

/* Has the epoll tell again what the socket is ready for. */
static void tell_again(int file, struct connection *its) {
    if (its->epoll >= 0) syscall(EPOLL_CTL, its->epoll, CHANGE, file, &its->event);
}

/* A connection that failed brings none of what waits in it. */
static void drain(int file) {
    char lost[4096];
    while (syscall(RECEIVE_FROM, file, lost, sizeof lost, DO_NOT_WAIT, 0, 0) > 0) {}
}

/* A read or a write of a connection. */
static ssize_t move(int file, struct connection *its, word kind, void *bytes, size_t size, int flags) {
    int changes = is_changed(file, its, kind);
    word error = changes ? page[ERROR] : 0;
    if (error) {
        if (error == WOULD_WAIT) tell_again(file, its);
        else if (error != INTERRUPTED) drain(file);
        *__errno_location() = (int)error;
        return -1;
    }
    if (changes && size > page[MOST]) size = page[MOST];
    ssize_t moved = syscall(kind == READS ? RECEIVE_FROM : SEND_TO, file, bytes, size, flags, 0, 0);
    if (moved > 0) its->moved[kind] += moved;
    if (changes && kind == WRITES) tell_again(file, its);
    return moved;
}

ssize_t recv(int file, void *bytes, size_t size, int flags) {
    struct connection *its = of(file);
    return its ? move(file, its, READS, bytes, size, flags) : syscall(RECEIVE_FROM, file, bytes, size, flags, 0, 0);
}

ssize_t send(int file, const void *bytes, size_t size, int flags) {
    struct connection *its = of(file);
    return its ? move(file, its, WRITES, (void *)bytes, size, flags) : syscall(SEND_TO, file, bytes, size, flags, 0, 0);
}

ssize_t read(int file, void *bytes, size_t size) {
    struct connection *its = of(file);
    return its ? move(file, its, READS, bytes, size, 0) : syscall(READ, file, bytes, size);
}

ssize_t write(int file, const void *bytes, size_t size) {
    struct connection *its = of(file);
    return its ? move(file, its, WRITES, (void *)bytes, size, 0) : syscall(WRITE, file, bytes, size);
}

int accept4(int listener, void *address, unsigned *length, int flags) {
    int file = (int)syscall(ACCEPT4, listener, address, length, flags);
    if (page && file >= 0 && file < MOST_FILES) {
        struct connection opened = {1, -1, 0, {0, 0, 0}, {0, 0, 0}};
        connections[file] = opened;
    }
    return file;
}

int epoll_ctl(int epoll, int what, int file, struct event *event) {
    struct connection *its = of(file);
    if (its && event && (what == ADD || what == CHANGE)) {
        its->epoll = epoll;
        its->event = *event;
    }
    return (int)syscall(EPOLL_CTL, epoll, what, file, event);
}

int close(int file) {
    struct connection *its = of(file);
    if (its) its->is_open = 0;
    return (int)syscall(CLOSE, file);
}
