/* canned ADDRESS PORT THREADS: how fast replies can come over loopback TCP at all: a server of NFS version 3 without files.
 *
 * It reads records (RFC 5531 section 11) and the words of a call that its reply's size depends on, and answers with bytes that
 * were made before, of the size and the form of the filer's (RFC 1813 section 3.3). It checks nothing and keeps nothing. It
 * prints `listening ADDRESS:PORT`, and ends by a signal. For compare_serve alone. */
#define _GNU_SOURCE
#include <arpa/inet.h>
#include <errno.h>
#include <netinet/tcp.h>
#include <pthread.h>
#include <signal.h>
#include <stdint.h>
#include <stdio.h>
#include <stdlib.h>
#include <string.h>
#include <sys/epoll.h>
#include <sys/socket.h>
#include <unistd.h>

enum { MOST_THREADS = 64, RECORD = 131072, BLOCK = 262144, ROOM = 70000, NAMES = 258, DATA = 65536 };

/* A buffer: bytes from an offset on up to an end. */
struct buffer {
    unsigned char *bytes;
    size_t from, end, size;
};

struct connection {
    int socket, is_watched; /* for room to write */
    struct buffer in, out;
};

/* A reply behind its mark and xid, and how many bytes it has. */
struct reply {
    unsigned char bytes[256];
    size_t size;
};

static struct reply replies[22];
static unsigned char page[16384], data[DATA];
static size_t page_size;

static uint32_t word_at(const unsigned char *at) {
    uint32_t word;
    memcpy(&word, at, 4);
    return ntohl(word);
}

static void put_word(unsigned char *at, uint32_t word) {
    word = htonl(word);
    memcpy(at, &word, 4);
}

/* ---- replies that are made before */

static void add(struct reply *reply, uint32_t word) {
    put_word(reply->bytes + reply->size, word);
    reply->size += 4;
}

static void add_zeros(struct reply *reply, int words) {
    while (words-- > 0) add(reply, 0);
}

/* The attributes of a file of mode 0644. */
static void add_attributes(struct reply *reply, int optional) {
    if (optional) add(reply, 1);
    add(reply, 1), add(reply, 0644), add(reply, 1), add_zeros(reply, 18);
}

static void add_change(struct reply *reply) {
    add(reply, 1), add_zeros(reply, 6), add_attributes(reply, 1);
}

static void add_handle(struct reply *reply) {
    add(reply, 12), add_zeros(reply, 2), add(reply, 2);
}

static void make_replies(void) {
    for (int procedure = 0; procedure < 22; procedure++) {
        struct reply *reply = &replies[procedure];
        add(reply, 1), add_zeros(reply, 4); /* a reply, accepted, without a verifier, executed */
        if (procedure) add(reply, 0);
        switch (procedure) {
        case 1: add_attributes(reply, 0); break;
        case 3: add_handle(reply), add_attributes(reply, 1), add_attributes(reply, 1); break;
        case 8: case 9: add(reply, 1), add_handle(reply), add_attributes(reply, 1), add_change(reply); break;
        case 12: case 13: add_change(reply); break;
        case 16: add_attributes(reply, 1), add_zeros(reply, 2); break;
        }
    }
    /* the entries of a directory, as many as 8 KiB have room for: a fileid, a name of 8 letters, a cookie */
    for (uint32_t name = 0; name < NAMES && 104 + page_size + 32 + 8 <= 8192; name++, page_size += 32) {
        unsigned char *at = page + page_size;
        put_word(at, 1), put_word(at + 8, name + 2), put_word(at + 12, 8), memcpy(at + 16, "name-000", 8), put_word(at + 28, name + 1);
    }
    page_size += 8;
    put_word(page + page_size - 4, page_size > 32 * NAMES);
}

/* ---- calls */

/* Room for this many bytes more behind what is there. */
static void reserve(struct buffer *buffer, size_t size) {
    if (buffer->from == buffer->end) buffer->from = buffer->end = 0;
    if (buffer->end + size <= buffer->size) return;
    memmove(buffer->bytes, buffer->bytes + buffer->from, buffer->end - buffer->from);
    buffer->end -= buffer->from, buffer->from = 0;
    if (buffer->end + size <= buffer->size) return;
    buffer->size = 2 * (buffer->end + size);
    if (!(buffer->bytes = realloc(buffer->bytes, buffer->size))) abort();
}

static void put(struct buffer *out, const void *bytes, size_t size) {
    memcpy(out->bytes + out->end, bytes, size), out->end += size;
}

static void put_one(struct buffer *out, uint32_t word) {
    put_word(out->bytes + out->end, word), out->end += 4;
}

/* Where the arguments behind a handle begin, or 0. Credentials are short. */
static size_t arguments_of(const unsigned char *record, size_t size) {
    size_t at = 28;
    for (int part = 0; part < 3; part++) { /* credential, verifier and handle, behind a flavor but for the last */
        if (part == 1) at += 4;
        if (at + 4 > size || word_at(record + at) > 400) return 0;
        at += 4 + (word_at(record + at) + 3) / 4 * 4;
    }
    return at + 12 <= size ? at : 0;
}

static int answer(struct buffer *out, const unsigned char *record, size_t size) {
    if (size < 40) return 0;
    uint32_t procedure = word_at(record + 20);
    if (procedure > 21) return 0;
    reserve(out, ROOM);
    size_t start = out->end;
    out->end += 4;
    put(out, record, 4), put(out, replies[procedure].bytes, replies[procedure].size);
    if (procedure == 6 || procedure == 7) {
        size_t at = arguments_of(record, size);
        uint32_t count = at ? word_at(record + at + 8) : DATA + 1;
        if (count > DATA) return 0;
        if (procedure == 6) put_one(out, 0), put_one(out, count), put_one(out, 0), put_one(out, count), put(out, data, (count + 3) / 4 * 4);
        else put_one(out, 0), put_one(out, 0), put_one(out, count), put_one(out, 2), put(out, "verifier", 8);
    } else if (procedure == 16) put(out, page, page_size);
    put_word(out->bytes + start, 0x80000000u | (uint32_t)(out->end - start - 4));
    return 1;
}

/* ---- connections */

static int write_some(int poll, struct connection *it) {
    struct buffer *out = &it->out;
    while (out->from < out->end) {
        ssize_t sent = send(it->socket, out->bytes + out->from, out->end - out->from, MSG_NOSIGNAL);
        if (sent < 0 && errno == EAGAIN) break;
        if (sent <= 0) return 0;
        out->from += (size_t)sent;
    }
    int is_left = out->from < out->end;
    if (is_left != it->is_watched) {
        struct epoll_event event = {.events = EPOLLIN | (is_left ? EPOLLOUT : 0), .data.ptr = it};
        epoll_ctl(poll, EPOLL_CTL_MOD, it->socket, &event);
        it->is_watched = is_left;
    }
    return 1;
}

static int read_some(int poll, struct connection *it) {
    struct buffer *in = &it->in;
    reserve(in, BLOCK);
    ssize_t came = recv(it->socket, in->bytes + in->end, BLOCK, 0);
    if (came < 0) return errno == EAGAIN;
    if (came == 0) return 0;
    in->end += (size_t)came;
    while (in->end - in->from >= 4) {
        uint32_t mark = word_at(in->bytes + in->from), size = mark & 0x7fffffff;
        if (mark == size || size > RECORD) return 0;
        if (in->end - in->from < 4 + (size_t)size) break;
        if (!answer(&it->out, in->bytes + in->from + 4, size)) return 0;
        in->from += 4 + (size_t)size;
    }
    return write_some(poll, it);
}

static void *serve(void *poll_of) {
    int poll = *(int *)poll_of;
    struct epoll_event events[64];
    for (;;) {
        int count = epoll_wait(poll, events, 64, -1);
        for (int i = 0; i < count; i++) {
            struct connection *it = events[i].data.ptr;
            int goes_on = !(events[i].events & EPOLLOUT) || write_some(poll, it);
            if (goes_on && (events[i].events & ~(uint32_t)EPOLLOUT)) goes_on = read_some(poll, it);
            if (!goes_on) close(it->socket), free(it->in.bytes), free(it->out.bytes), free(it);
        }
    }
    return NULL;
}

static int listen_at(const char *address, int port) {
    struct sockaddr_in name = {.sin_family = AF_INET, .sin_port = htons((uint16_t)port)};
    socklen_t size = sizeof name;
    int listener = socket(AF_INET, SOCK_STREAM, 0), one = 1;
    if (inet_pton(AF_INET, address, &name.sin_addr) != 1) return -1;
    setsockopt(listener, SOL_SOCKET, SO_REUSEADDR, &one, sizeof one);
    if (bind(listener, (struct sockaddr *)&name, size) || listen(listener, 128)) return -1;
    getsockname(listener, (struct sockaddr *)&name, &size);
    printf("listening %s:%d\n", address, ntohs(name.sin_port));
    fflush(stdout);
    return listener;
}

int main(int count, char **words) {
    static int polls[MOST_THREADS];
    int threads = count == 4 ? atoi(words[3]) : 0, one = 1;
    if (threads < 1 || threads > MOST_THREADS) return 2;
    make_replies();
    int listener = listen_at(words[1], atoi(words[2]));
    if (listener < 0) return 1;
    for (int i = 0; i < threads; i++) {
        pthread_t thread;
        polls[i] = epoll_create1(0);
        if (pthread_create(&thread, NULL, serve, &polls[i])) return 1;
    }
    for (int next = 0;; next = (next + 1) % threads) {
        int socket = accept4(listener, NULL, NULL, SOCK_NONBLOCK);
        struct connection *it = calloc(1, sizeof *it);
        if (socket < 0 || !it) return 1;
        setsockopt(socket, IPPROTO_TCP, TCP_NODELAY, &one, sizeof one);
        it->socket = socket;
        struct epoll_event event = {.events = EPOLLIN, .data.ptr = it};
        epoll_ctl(polls[next], EPOLL_CTL_ADD, socket, &event);
    }
}
