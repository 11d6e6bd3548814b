/* Makes calls over links: load PORT LINKS CALLS OPEN. Each link keeps OPEN calls open until all CALLS are made. A call is
 * a Begin with InitialDP for 800123456, answered by an End with Connect to 302223344; each octet of each answer is
 * compared. Prints calls a second, and within how many microseconds half of the calls, and 99 of 100, were answered. A
 * wrong answer or a connection that ends too soon is printed, and the status is 1. */
#include <arpa/inet.h>
#include <netinet/in.h>
#include <netinet/tcp.h>
#include <pthread.h>
#include <stdint.h>
#include <stdio.h>
#include <stdlib.h>
#include <string.h>
#include <sys/socket.h>
#include <time.h>
#include <unistd.h>

enum { MOST_LINKS = 8, ROOM = 1 << 18, LONGEST = 128 };

/* The two frames: four octets of length, and a message whose transaction identifier differs from call to call. */
static const uint8_t BEGIN[] = {
    0, 0, 0, 47, 0x62, 0x2D, 0x48, 4, 0, 0, 0, 0, 0x6C, 0x25, 0xA1, 0x23, 2, 1, 1, 2, 1, 0, 0x30, 0x1B, 0x80, 1, 0x64,
    0x82, 7, 0x83, 0x10, 0x08, 0x10, 0x32, 0x54, 0x06, 0x83, 7, 0x83, 0x13, 0x03, 0x21, 0x43, 0x65, 0x07, 0x85, 1, 0x0A,
    0x9C, 1, 3};
static const uint8_t END[] = {
    0, 0, 0, 31, 0x64, 0x1D, 0x49, 4, 0, 0, 0, 0, 0x6C, 0x15, 0xA1, 0x13, 2, 1, 1, 2, 1, 0x14, 0x30, 0x0B, 0xA0, 9, 4, 7,
    0x83, 0x10, 0x03, 0x22, 0x32, 0x43, 0x04};
enum { IDENTIFIER = 8 };

struct link {
    int port, window;
    long calls, answered;
    double *began, *took; /* seconds, by the number of the call */
    const char *fault;
};

static double now(void) {
    struct timespec time;
    clock_gettime(CLOCK_MONOTONIC, &time);
    return (double)time.tv_sec + (double)time.tv_nsec / 1e9;
}

static void put_number(uint8_t *frame, uint32_t number) {
    for (int at = 0; at < 4; at++) frame[IDENTIFIER + at] = (uint8_t)(number >> (24 - 8 * at));
}

static uint32_t number_of(const uint8_t *frame) {
    uint32_t number = 0;
    for (int at = 0; at < 4; at++) number = number << 8 | frame[IDENTIFIER + at];
    return number;
}

static const char *write_all(int file, const uint8_t *octets, size_t length) {
    for (size_t done = 0; done < length;) {
        ssize_t count = write(file, octets + done, length - done);
        if (count <= 0) return "a write failed";
        done += (size_t)count;
    }
    return NULL;
}

/* Begins calls until `window` are open, and writes their frames at once. */
static const char *begin_calls(struct link *link, int file, uint8_t *room, long *begun) {
    size_t length = 0;
    while (*begun - link->answered < link->window && *begun < link->calls && length < ROOM - LONGEST) {
        memcpy(room + length, BEGIN, sizeof BEGIN);
        put_number(room + length, (uint32_t)*begun);
        link->began[(*begun)++] = now();
        length += sizeof BEGIN;
    }
    return write_all(file, room, length);
}

/* Compares the answers that are there whole, and gives their octets. */
static size_t compare(struct link *link, const uint8_t *octets, size_t length, long begun) {
    uint8_t wanted[sizeof END];
    size_t at = 0;
    double when = now();
    for (; length - at >= sizeof END; at += sizeof END) {
        uint32_t number = number_of(octets + at);
        memcpy(wanted, END, sizeof END);
        put_number(wanted, number);
        if (number >= begun || link->took[number] != 0 || memcmp(octets + at, wanted, sizeof END) != 0) {
            link->fault = "a wrong answer";
            break;
        }
        link->took[number] = when - link->began[number];
        link->answered++;
    }
    return at;
}

static void *run(void *argument) {
    struct link *link = argument;
    struct sockaddr_in address = {.sin_family = AF_INET, .sin_port = htons((uint16_t)link->port)};
    address.sin_addr.s_addr = htonl(INADDR_LOOPBACK);
    uint8_t *out = malloc(ROOM), *in = malloc(ROOM);
    size_t have = 0;
    long begun = 0;
    int one = 1, file = socket(AF_INET, SOCK_STREAM, 0);
    if (connect(file, (struct sockaddr *)&address, sizeof address) != 0) link->fault = "no connection";
    setsockopt(file, IPPROTO_TCP, TCP_NODELAY, &one, sizeof one);
    while (!link->fault && link->answered < link->calls) {
        link->fault = begin_calls(link, file, out, &begun);
        if (link->fault) break;
        ssize_t count = read(file, in + have, ROOM - have);
        if (count <= 0) {
            link->fault = "the connection ended";
            break;
        }
        have += (size_t)count;
        size_t taken = compare(link, in, have, begun);
        memmove(in, in + taken, have - taken);
        have -= taken;
    }
    close(file);
    free(in);
    free(out);
    return NULL;
}

static int compare_times(const void *one, const void *other) {
    double a = *(const double *)one, b = *(const double *)other;
    return (a > b) - (a < b);
}

int main(int count, char **words) {
    if (count != 5) return fputs("usage: load PORT LINKS CALLS OPEN\n", stderr), 2;
    int links = atoi(words[2]);
    long calls = atol(words[3]);
    if (links < 1 || links > MOST_LINKS || calls < links) return fputs("load: bad numbers\n", stderr), 2;
    struct link link[MOST_LINKS];
    pthread_t thread[MOST_LINKS];
    long each = calls / links;
    double *began = calloc((size_t)(each * links), sizeof *began), *took = calloc((size_t)(each * links), sizeof *took);
    double start = now();
    for (int at = 0; at < links; at++) {
        link[at] = (struct link){.port = atoi(words[1]), .window = atoi(words[4]), .calls = each,
                                 .began = began + each * at, .took = took + each * at};
        pthread_create(&thread[at], NULL, run, &link[at]);
    }
    for (int at = 0; at < links; at++) pthread_join(thread[at], NULL);
    double seconds = now() - start;
    for (int at = 0; at < links; at++)
        if (link[at].fault) return fprintf(stderr, "load: link %d: %s\n", at, link[at].fault), 1;
    qsort(took, (size_t)(each * links), sizeof *took, compare_times);
    printf("%.0f calls a second, half within %.0f microseconds, 99 of 100 within %.0f\n",
           (double)(each * links) / seconds, took[each * links / 2] * 1e6, took[each * links * 99 / 100] * 1e6);
    return 0;
}
