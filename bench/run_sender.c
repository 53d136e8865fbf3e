/* What bench/run.sh sends with: `sender PORT SESSIONS WINDOW HOSTS UNIT AMOUNT VANISHING`. Each of so many sessions with the controller at
 * 127.0.0.1:PORT speaks as a switch of OpenFlow 1.0 with a datapath id of its own, from 1 on, and four ports. When all have joined, each
 * sends PACKET_INs with buffers, of packets between so many hosts, and keeps WINDOW of them without an answer; an answer is the first
 * PACKET_OUT or FLOW_MOD with the buffer of the packet. It ends after AMOUNT `seconds`, or AMOUNT `packets` in all, when the last answer
 * has come. VANISHING further sessions begin with the others, and after three answers send half a frame and are gone, every second one with
 * a reset. It prints what was sent and answered, in how many seconds, and the 50th and 99th percentile of the answers' times in
 * microseconds; or why it ended early, with status 1. */
#include <arpa/inet.h>
#include <errno.h>
#include <fcntl.h>
#include <netinet/tcp.h>
#include <stdarg.h>
#include <stdint.h>
#include <stdio.h>
#include <stdlib.h>
#include <string.h>
#include <sys/epoll.h>
#include <sys/socket.h>
#include <time.h>
#include <unistd.h>

enum { RING = 65536, ROOM = 1 << 18, PACKET_IN = 78, PORTS = 4, PATIENCE = 30 };

struct session {
    int fd, has_joined, is_vanishing, is_gone;
    uint64_t datapath;
    uint32_t sent, answered;
    size_t held, from, to;
    int64_t *sent_at; /* when the packet with a buffer was sent; 0 once it is answered */
    unsigned char in[ROOM], out[ROOM];
};

static struct session *sessions;
static int count, vanishing, window, hosts, queue;
static uint64_t limit, answered, sent;
static int64_t begun, deadline, last_answer;
static uint32_t *times;
static size_t times_room, times_held;

static int64_t now(void) {
    struct timespec t;
    clock_gettime(CLOCK_MONOTONIC, &t);
    return t.tv_sec * 1000000000LL + t.tv_nsec;
}

static void fail(const char *form, ...) {
    va_list words;
    va_start(words, form);
    vfprintf(stderr, form, words);
    va_end(words);
    fprintf(stderr, "\n");
    exit(1);
}

static void put(unsigned char *at, uint64_t value, int width) {
    while (width-- > 0) *at++ = (unsigned char)(value >> 8 * width);
}

static uint64_t get(const unsigned char *at, int width) {
    uint64_t value = 0;
    while (width-- > 0) value = value << 8 | *at++;
    return value;
}

static unsigned char *frame(struct session *s, int type, size_t length, uint32_t xid) {
    if (s->to + length > ROOM) {
        memmove(s->out, s->out + s->from, s->to - s->from);
        s->to -= s->from;
        s->from = 0;
        if (s->to + length > ROOM) fail("session %llu: the controller doesn't read", (unsigned long long)s->datapath);
    }
    unsigned char *at = s->out + s->to;
    memset(at, 0, length);
    at[0] = 1;
    at[1] = (unsigned char)type;
    put(at + 2, length, 2);
    put(at + 4, xid, 4);
    s->to += length;
    return at;
}

static void send_features(struct session *s, uint32_t xid) {
    unsigned char *at = frame(s, 6, 32 + 48 * PORTS, xid);
    put(at + 8, s->datapath, 8);
    put(at + 16, RING, 4);
    at[20] = 1;
    put(at + 28, 1, 4); /* OUTPUT alone */
    for (int k = 0; k < PORTS; k++) {
        unsigned char *port = at + 32 + 48 * k;
        put(port, k + 1, 2);
        put(port + 2, 0x020000000000ull | s->datapath << 8 | (unsigned)(k + 1), 6);
        snprintf((char *)port + 8, 16, "port%d", k + 1);
    }
    s->has_joined = 1;
}

/* a packet of a host to the next one; each host is at one port */
static void send_packet(struct session *s) {
    uint32_t n = ++s->sent, buffer = n % RING;
    unsigned from = 1 + n % hosts, to = 1 + (n + 1) % hosts;
    unsigned char *at = frame(s, 10, PACKET_IN, 0);
    put(at + 8, buffer, 4);
    put(at + 12, 60, 2);
    put(at + 14, 1 + from % PORTS, 2);
    put(at + 18, to, 6);
    put(at + 24, from, 6);
    put(at + 30, 0x88b5, 2); /* an Ethernet type for trials */
    s->sent_at[buffer] = now();
}

static void tell(int64_t taken) {
    if (times_held == times_room) {
        times_room = times_room ? 2 * times_room : 1 << 20;
        times = realloc(times, times_room * sizeof *times);
        if (!times) fail("no memory");
    }
    times[times_held++] = (uint32_t)(taken / 100);
}

static void hear_answer(struct session *s, uint32_t buffer) {
    if (buffer >= RING || !s->sent_at[buffer]) return;
    int64_t at = now();
    if (!s->is_vanishing) {
        tell(at - s->sent_at[buffer]);
        answered++;
        last_answer = at;
    }
    s->sent_at[buffer] = 0;
    s->answered++;
}

static void hear(struct session *s, const unsigned char *at, size_t length) {
    uint32_t xid = (uint32_t)get(at + 4, 4);
    switch (at[1]) {
    case 1: fail("session %llu: ERROR", (unsigned long long)s->datapath); break;
    case 2: memcpy(frame(s, 3, length, xid) + 8, at + 8, length - 8); break;
    case 5: send_features(s, xid); break;
    case 7: put(frame(s, 8, 12, xid) + 10, 65535, 2); break;
    case 13: hear_answer(s, (uint32_t)get(at + 8, 4)); break;
    case 14: hear_answer(s, (uint32_t)get(at + 64, 4)); break;
    case 18: frame(s, 19, 8, xid); break;
    default: break;
    }
}

static void hear_all(struct session *s) {
    size_t at = 0;
    while (s->held - at >= 8) {
        size_t length = get(s->in + at + 2, 2);
        if (length < 8) fail("a frame of %zu bytes", length);
        if (s->held - at < length) break;
        hear(s, s->in + at, length);
        at += length;
    }
    memmove(s->in, s->in + at, s->held - at);
    s->held -= at;
}

static void flush(struct session *s) {
    while (s->from < s->to) {
        ssize_t width = write(s->fd, s->out + s->from, s->to - s->from);
        if (width < 0 && (errno == EAGAIN || errno == EINTR)) break;
        if (width < 0) fail("session %llu: %s", (unsigned long long)s->datapath, strerror(errno));
        s->from += (size_t)width;
    }
    if (s->from == s->to) s->from = s->to = 0;
    struct epoll_event wanted = {.events = EPOLLIN | (s->from < s->to ? EPOLLOUT : 0), .data.ptr = s};
    epoll_ctl(queue, EPOLL_CTL_MOD, s->fd, &wanted);
}

static int is_over(void) {
    return limit ? sent >= limit : now() >= deadline;
}

/* gone in the middle of a frame; with a reset where the number is odd */
static void vanish(struct session *s) {
    frame(s, 10, PACKET_IN, 0);
    s->to -= PACKET_IN / 2;
    flush(s);
    if (s->datapath % 2) {
        struct linger none = {1, 0};
        setsockopt(s->fd, SOL_SOCKET, SO_LINGER, &none, sizeof none);
    }
    close(s->fd);
    s->is_gone = 1;
}

static void go_on(struct session *s) {
    if (s->is_gone) return;
    if (begun && s->is_vanishing) {
        if (s->answered >= 3) {
            vanish(s);
            return;
        }
        while (s->sent < 3) send_packet(s);
    } else if (begun) {
        for (; s->sent - s->answered < (uint32_t)window && !is_over(); sent++) send_packet(s);
    }
    flush(s);
}

static void take(struct session *s) {
    ssize_t width = read(s->fd, s->in + s->held, ROOM - s->held);
    if (width < 0 && (errno == EAGAIN || errno == EINTR)) return;
    if (width <= 0) fail("session %llu was closed by the controller after %u answers", (unsigned long long)s->datapath, s->answered);
    s->held += (size_t)width;
    hear_all(s);
}

static void join(struct session *s, int port) {
    struct sockaddr_in to = {.sin_family = AF_INET, .sin_port = htons((uint16_t)port), .sin_addr.s_addr = htonl(INADDR_LOOPBACK)};
    int one = 1;
    s->sent_at = calloc(RING, sizeof *s->sent_at);
    if (!s->sent_at) fail("no memory");
    /* a controller that has just been started may not listen yet */
    for (int64_t patient = now() + PATIENCE * 1000000000LL;; usleep(10000)) {
        s->fd = socket(AF_INET, SOCK_STREAM, 0);
        if (s->fd < 0) fail("no socket");
        if (!connect(s->fd, (struct sockaddr *)&to, sizeof to)) break;
        if (errno != ECONNREFUSED || now() > patient) fail("session %llu: %s", (unsigned long long)s->datapath, strerror(errno));
        close(s->fd);
    }
    setsockopt(s->fd, IPPROTO_TCP, TCP_NODELAY, &one, sizeof one);
    fcntl(s->fd, F_SETFL, O_NONBLOCK);
    struct epoll_event wanted = {.events = EPOLLIN, .data.ptr = s};
    epoll_ctl(queue, EPOLL_CTL_ADD, s->fd, &wanted);
    frame(s, 0, 8, 0);
    flush(s);
}

/* whether all sessions have joined, or all answers have come */
static int is_reached(int is_end) {
    for (int k = 0; k < count + vanishing; k++) {
        struct session *s = sessions + k;
        if (!is_end && (!s->has_joined || s->from < s->to)) return 0;
        if (is_end && (s->is_vanishing ? !s->is_gone : s->answered < s->sent)) return 0;
    }
    return !is_end || is_over();
}

static void wait_until(int is_end) {
    struct epoll_event events[64];
    while (!is_reached(is_end)) {
        int ready = epoll_wait(queue, events, 64, PATIENCE * 1000);
        if (ready < 0 && errno == EINTR) continue;
        if (ready <= 0) fail("nothing came for %d seconds, after %llu answers to %llu packets", PATIENCE, (unsigned long long)answered, (unsigned long long)sent);
        for (int k = 0; k < ready; k++) {
            struct session *s = events[k].data.ptr;
            if (events[k].events & ~EPOLLOUT) take(s);
            go_on(s);
        }
    }
}

/* ends what is written, and reads until the controller has closed */
static void leave(struct session *s) {
    static unsigned char rest[ROOM];
    struct timeval patience = {PATIENCE, 0};
    if (s->is_gone) return;
    fcntl(s->fd, F_SETFL, 0);
    setsockopt(s->fd, SOL_SOCKET, SO_RCVTIMEO, &patience, sizeof patience);
    shutdown(s->fd, SHUT_WR);
    while (read(s->fd, rest, sizeof rest) > 0) {}
    close(s->fd);
}

static int is_less(const void *a, const void *b) {
    uint32_t x = *(const uint32_t *)a, y = *(const uint32_t *)b;
    return (x > y) - (x < y);
}

static double percentile(int part) {
    return times_held ? times[(times_held - 1) * (size_t)part / 100] / 10.0 : 0;
}

int main(int argc, char **argv) {
    if (argc != 8) fail("usage: sender PORT SESSIONS WINDOW HOSTS seconds|packets AMOUNT VANISHING");
    count = atoi(argv[2]);
    window = atoi(argv[3]);
    hosts = atoi(argv[4]);
    vanishing = atoi(argv[7]);
    if (count < 1 || window < 1 || window > 1024 || hosts < 2 || vanishing < 0) fail("out of range");
    sessions = calloc((size_t)(count + vanishing), sizeof *sessions);
    queue = epoll_create1(0);
    if (!sessions || queue < 0) fail("no memory");
    for (int k = 0; k < count + vanishing; k++) {
        sessions[k].datapath = (uint64_t)k + 1;
        sessions[k].is_vanishing = k >= count;
        join(sessions + k, atoi(argv[1]));
    }
    wait_until(0);
    begun = now();
    if (!strcmp(argv[5], "packets")) limit = strtoull(argv[6], 0, 10);
    deadline = begun + (int64_t)(atof(argv[6]) * 1e9);
    for (int k = 0; k < count + vanishing; k++) go_on(sessions + k);
    wait_until(1);
    for (int k = 0; k < count + vanishing; k++) leave(sessions + k);
    double taken = (double)(last_answer - begun) / 1e9;
    qsort(times, times_held, sizeof *times, is_less);
    printf("sent %llu answered %llu seconds %.3f p50 %.1f p99 %.1f\n", (unsigned long long)sent, (unsigned long long)answered, taken, percentile(50), percentile(99));
    return 0;
}
