/* Framing alone, through the library for C: counts the frames of a file and the bytes of their bodies, as crates/bench_frames
 * does, in pieces of the same size. With --bodies each body is fetched too.
 *
 *     cc -O2 -Iout/c bench/c/frames.c out/c/libyarntaupe.a -o frames_c && ./frames_c [--bodies] FILE
 *
 * scripts/make-c makes out/c; bench/run builds and measures this program. The statuses are those of bench_frames. */
#define _POSIX_C_SOURCE 200809L
#include "yarntaupe.h"
#include <fcntl.h>
#include <inttypes.h>
#include <stdio.h>
#include <stdlib.h>
#include <string.h>
#include <unistd.h>

static yt_frames frames; /* all zero: it holds nothing yet */
static uint64_t count, bytes;

static int fails(int status, const char *why) {
    fprintf(stderr, "frames_c: %s\n", why);
    return status;
}

/* Counts the frames that a piece completes, and fetches their bodies where there is a buffer, which has room for each. */
static uint32_t count_piece(const uint8_t *piece, size_t size, uint8_t *buffer) {
    while (size > 0) {
        yt_fed fed;
        uint32_t code = yt_frames_feed(&frames, piece, size, &fed);
        if (code == YT_READY) {
            count++;
            bytes += fed.body;
            code = buffer ? yt_frames_body(&frames, buffer, fed.body) : YT_OK;
            if (!code) code = yt_frames_release(&frames);
        }
        if (code) return code;
        piece += fed.used;
        size -= fed.used;
    }
    return YT_OK;
}

int main(int argc, char **argv) {
    int fetches = argc == 3 && strcmp(argv[1], "--bodies") == 0;
    if (argc != 2 + fetches) return fails(2, "usage: frames_c [--bodies] FILE");
    int file = open(argv[1 + fetches], O_RDONLY);
    if (file < 0) return fails(5, "the file cannot be opened");
    yt_limits limits;
    yt_limits_usual(&limits);
    uint8_t *buffer = fetches ? malloc(limits.body) : NULL;
    if ((fetches && !buffer) || yt_frames_open(&frames, &limits)) return fails(6, "memory is exhausted");

    static uint8_t piece[65536];
    ssize_t size;
    while ((size = read(file, piece, sizeof piece)) > 0) {
        if (count_piece(piece, (size_t)size, buffer)) return fails(3, "the frames of the file are refused");
    }
    if (size < 0) return fails(5, "a read failed");
    if (yt_frames_finish(&frames)) return fails(3, "the frames of the file are refused");
    yt_frames_free(&frames);
    free(buffer);
    printf("%" PRIu64 " %" PRIu64 "\n", count, bytes);
    return 0;
}
