/* How long a call takes beside its work: calls that do next to nothing, a million at a time, the best of nine. */
#define _POSIX_C_SOURCE 200809L
#include "yarntaupe.h"
#include <stdio.h>
#include <time.h>

enum { CALLS = 1000000, MOST = 50 };

static double now(void) {
    struct timespec t;
    clock_gettime(CLOCK_MONOTONIC, &t);
    return (double)t.tv_sec * 1e9 + (double)t.tv_nsec;
}

static yt_frames frames;
static yt_client client;

static uint32_t finish(void) { return yt_frames_finish(&frames); }
static uint32_t bytes(void) {
    uint8_t out[1];
    return yt_client_bytes(&client, out, 0);
}

static int measure(const char *name, uint32_t (*call)(void)) {
    double best = 1e9;
    uint32_t codes = 0;
    for (int round = 0; round < 9; round++) {
        double start = now();
        for (int i = 0; i < CALLS; i++) codes |= call();
        double each = (now() - start) / CALLS;
        if (each < best) best = each;
    }
    printf("%s: %.1f ns a call\n", name, best);
    return codes || best > MOST;
}

int main(void) {
    yt_limits limits;
    yt_limits_usual(&limits);
    if (yt_frames_open(&frames, &limits) || yt_client_open(&client, &limits)) return 1;
    int wrong = measure("yt_frames_finish", finish) + measure("yt_client_bytes", bytes);
    yt_frames_free(&frames);
    yt_client_free(&client);
    return wrong != 0;
}
