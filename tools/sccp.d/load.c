/* Makes calls by one or more connections, and compares each octet of each answer.
 *
 *   load plain PORT CALLS OPEN              frames, as without a network
 *   load ipa PORT CALLS OPEN NODE NAME..    UDT from 100/12 to NODE/241 over IPA: a connection for each NAME, all to PORT; the
 *                                           messages go by the first, the answers may come by any
 *
 * OPEN calls are open until all CALLS were made. A call is a Begin with InitialDP for 800123456 and an End with Connect to
 * 302223344. Prints `calls N seconds S half_us N p99_us N us_a_call N`, the last one the processor time of the load. A wrong
 * answer or a connection that ends is printed, and the status is 1. */
#include <arpa/inet.h>
#include <netinet/in.h>
#include <netinet/tcp.h>
#include <poll.h>
#include <stdint.h>
#include <stdio.h>
#include <stdlib.h>
#include <string.h>
#include <sys/resource.h>
#include <sys/socket.h>
#include <time.h>
#include <unistd.h>

enum { MOST = 8, ROOM = 1 << 18, LONGEST = 128, CCM = 0xFE, SCCP = 0xFD };

static const uint8_t BEGIN[] = {
    0x62, 0x2D, 0x48, 4, 0, 0, 0, 0, 0x6C, 0x25, 0xA1, 0x23, 2, 1, 1, 2, 1, 0, 0x30, 0x1B, 0x80, 1, 0x64, 0x82, 7, 0x83, 0x10,
    0x08, 0x10, 0x32, 0x54, 0x06, 0x83, 7, 0x83, 0x13, 0x03, 0x21, 0x43, 0x65, 0x07, 0x85, 1, 0x0A, 0x9C, 1, 3};
static const uint8_t END[] = {0x64, 0x1D, 0x49, 4, 0, 0, 0, 0, 0x6C, 0x15, 0xA1, 0x13, 2, 1, 1, 2, 1, 0x14, 0x30, 0x0B, 0xA0, 9,
    4, 7, 0x83, 0x10, 0x03, 0x22, 0x32, 0x43, 0x04};
enum { IDENTIFIER = 4 };

/* What comes before a Begin and an End: the length of a frame, or IPA and a UDT. */
static uint8_t before_begin[32], before_end[32];
static size_t begin_head, end_head;
enum { NODE_BEGIN = 9, NODE_END = 14 }; /* where a point code of the node is in these */

struct connection { int file; const char *name; int is_up; uint8_t *in; size_t have; };
static struct connection at[MOST];
static int connections, is_ipa;
static long calls, window, begun, answered;
static double *began, *took;

static double now(void) {
    struct timespec time;
    clock_gettime(CLOCK_MONOTONIC, &time);
    return (double)time.tv_sec + (double)time.tv_nsec / 1e9;
}

static void fail(const char *why) {
    fprintf(stderr, "load: %s\n", why);
    exit(1);
}

static void write_all(int file, const uint8_t *octets, size_t length) {
    for (size_t done = 0; done < length;) {
        ssize_t count = write(file, octets + done, length - done);
        if (count <= 0) fail("a write failed");
        done += (size_t)count;
    }
}

static void set_heads(int node) {
    if (!is_ipa) {
        begin_head = end_head = 4;
        memcpy(before_begin, "\0\0\0\57", 4);
        memcpy(before_end, "\0\0\0\37", 4);
        return;
    }
    const uint8_t to[] = {0, 63, SCCP, 9, 0, 3, 7, 11, 4, 0x43, (uint8_t)node, (uint8_t)(node >> 8), 241, 4, 0x43, 100, 0, 12, 47};
    const uint8_t from[] = {0, 47, SCCP, 9, 0, 3, 7, 11, 4, 0x43, 100, 0, 12, 4, 0x43, (uint8_t)node, (uint8_t)(node >> 8), 241, 31};
    memcpy(before_begin, to, begin_head = sizeof to);
    memcpy(before_end, from, end_head = sizeof from);
}

/* Begins calls until `window` are open, and writes their messages at once. */
static void begin_calls(uint8_t *room) {
    size_t length = 0;
    while (begun - answered < window && begun < calls && length < ROOM - LONGEST) {
        memcpy(room + length, before_begin, begin_head);
        memcpy(room + length + begin_head, BEGIN, sizeof BEGIN);
        uint32_t number = htonl((uint32_t)begun);
        memcpy(room + length + begin_head + IDENTIFIER, &number, 4);
        began[begun++] = now();
        length += begin_head + sizeof BEGIN;
    }
    write_all(at[0].file, room, length);
}

/* Follows the handshake of IPA. */
static void follow(struct connection *it, const uint8_t *message) {
    if (message[0] == 4) {
        uint8_t octets[LONGEST];
        size_t length = strlen(it->name) + 1, whole = length + 4;
        memcpy(octets, (uint8_t[]){0, (uint8_t)whole, CCM, 5, 0, (uint8_t)(length + 1), 1}, 7);
        memcpy(octets + 7, it->name, length);
        write_all(it->file, octets, 3 + whole);
    } else if (message[0] == 6 && !it->is_up) {
        it->is_up = 1;
        write_all(it->file, (const uint8_t *)"\0\1\376\6", 4);
    }
}

/* Takes an answer with its head. */
static void take(const uint8_t *octets, size_t length, double when) {
    uint8_t wanted[LONGEST];
    uint32_t number;
    if (length != end_head + sizeof END) fail("an answer has a wrong length");
    memcpy(&number, octets + end_head + IDENTIFIER, 4);
    memcpy(wanted, before_end, end_head);
    memcpy(wanted + end_head, END, sizeof END);
    memcpy(wanted + end_head + IDENTIFIER, &number, 4);
    /* The answer to a call to 200 comes from 201 or 202. */
    if (is_ipa && (octets[NODE_END + 1] == 201 || octets[NODE_END + 1] == 202)) wanted[NODE_END + 1] = octets[NODE_END + 1];
    number = ntohl(number);
    if (number >= begun || took[number] != 0 || memcmp(octets, wanted, length) != 0) fail("a wrong answer");
    took[number] = when - began[number];
    answered++;
}

static void read_from(struct connection *it) {
    ssize_t count = read(it->file, it->in + it->have, ROOM - it->have);
    if (count <= 0) fail("a connection ended");
    it->have += (size_t)count;
    double when = now();
    size_t done = 0, head = is_ipa ? 3 : 4;
    for (;;) {
        const uint8_t *octets = it->in + done;
        if (it->have - done < head) break;
        size_t length = is_ipa ? (size_t)octets[0] << 8 | octets[1] : (size_t)octets[2] << 8 | octets[3];
        if (it->have - done < head + length) break;
        if (is_ipa && octets[2] == CCM) follow(it, octets + 3);
        else take(octets, head + length, when);
        done += head + length;
    }
    memmove(it->in, it->in + done, it->have -= done);
}

static void read_all(void) {
    struct pollfd polled[MOST];
    for (int n = 0; n < connections; n++) polled[n] = (struct pollfd){.fd = at[n].file, .events = POLLIN};
    if (poll(polled, (nfds_t)connections, 20000) <= 0) fail("nothing came for 20 seconds");
    for (int n = 0; n < connections; n++)
        if (polled[n].revents) read_from(&at[n]);
}

static int by_size(const void *one, const void *other) {
    double a = *(const double *)one, b = *(const double *)other;
    return (a > b) - (a < b);
}

int main(int count, char **words) {
    if (count < 5) return fputs("see the head of load.c\n", stderr), 2;
    is_ipa = strcmp(words[1], "ipa") == 0;
    calls = atol(words[3]);
    window = atol(words[4]);
    connections = is_ipa ? count - 6 : 1;
    if (calls < 1 || connections < 1 || connections > MOST) return fputs("load: bad numbers\n", stderr), 2;
    set_heads(is_ipa ? atoi(words[5]) : 0);
    began = calloc((size_t)calls, sizeof *began);
    took = calloc((size_t)calls, sizeof *took);
    struct sockaddr_in address = {.sin_family = AF_INET, .sin_port = htons((uint16_t)atoi(words[2]))};
    address.sin_addr.s_addr = htonl(INADDR_LOOPBACK);
    for (int n = 0, one = 1; n < connections; n++) {
        at[n] = (struct connection){.file = socket(AF_INET, SOCK_STREAM, 0), .name = is_ipa ? words[6 + n] : "", .in = malloc(ROOM)};
        if (connect(at[n].file, (struct sockaddr *)&address, sizeof address) != 0) fail("no connection");
        setsockopt(at[n].file, IPPROTO_TCP, TCP_NODELAY, &one, sizeof one);
        while (is_ipa && !at[n].is_up) read_from(&at[n]);
    }
    if (is_ipa) usleep(300000);
    uint8_t *out = malloc(ROOM);
    double start = now();
    while (answered < calls) {
        begin_calls(out);
        read_all();
    }
    double seconds = now() - start;
    struct rusage used;
    getrusage(RUSAGE_SELF, &used);
    double own = (double)(used.ru_utime.tv_sec + used.ru_stime.tv_sec) * 1e6 + (double)(used.ru_utime.tv_usec + used.ru_stime.tv_usec);
    qsort(took, (size_t)calls, sizeof *took, by_size);
    printf("calls %ld seconds %.3f half_us %.0f p99_us %.0f us_a_call %.2f\n", calls, seconds, took[calls / 2] * 1e6,
           took[calls * 99 / 100] * 1e6, own / (double)calls);
    return 0;
}
