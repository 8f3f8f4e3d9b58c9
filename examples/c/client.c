/* A client in C that debugs `dap serve`: it starts the adapter, runs to the first stop, looks at threads, frames and
 * variables, makes one step, and ends the session. What it hears is printed, a line a message.
 *
 *     cc client.c libyarntaupe.a -o client && ./client PATH/TO/dap RECORDING.json
 *
 * scripts/try-c builds and runs it. All reading, writing and waiting is in this file; the protocol is the library's. */
#include "yarntaupe.h"
#include <stdio.h>
#include <stdlib.h>
#include <string.h>
#include <sys/wait.h>
#include <unistd.h>

static yt_client client; /* all zero: it holds nothing yet */
static int to_adapter, from_adapter;

static void die(const char *what, uint32_t code) {
    fprintf(stderr, "client: %s: code %u\n", what, code);
    exit(1);
}

/* room for `size` bytes, and for one where none are asked for */
static uint8_t *room(size_t size) {
    uint8_t *bytes = malloc(size ? size : 1);
    if (!bytes) die("no memory", YT_NO_MEMORY);
    return bytes;
}

/* Writes what the library has for the adapter: it has told how much that is. */
static void write_out(size_t size) {
    uint8_t *bytes = room(size);
    uint32_t code = yt_client_bytes(&client, bytes, size);
    if (code) die("bytes", code);
    for (size_t at = 0; at < size;) {
        ssize_t written = write(to_adapter, bytes + at, size - at);
        if (written <= 0) die("write", 0);
        at += (size_t)written;
    }
    free(bytes);
}

/* Sends a request, and tells its number, or 0 where the library refuses it: then nothing is sent and nothing changed. */
static uint64_t ask(const char *command, const char *arguments) {
    yt_sent sent;
    uint32_t code = yt_client_send(&client, (const uint8_t *)command, strlen(command), (const uint8_t *)arguments,
                                   strlen(arguments), &sent);
    if (code) {
        printf("%s is refused: code %u\n", command, code);
        return 0;
    }
    write_out(sent.bytes);
    return sent.seq;
}

static const char *phase_of(void) {
    static const char *const names[] = {"fresh", "initializing", "configuring", "running", "stopped", "resuming", "exited", "ended"};
    yt_client_seen seen;
    uint32_t code = yt_client_state(&client, &seen);
    if (code) die("state", code);
    return names[seen.phase];
}

static int is(const char *name, const uint8_t *bytes, size_t size) { return strlen(name) == size && !memcmp(name, bytes, size); }

/* Prints a frame that came. Tells whether it is the response to the request `seq`, 1, or the event of that name, 2. */
static int show(const uint8_t *frame, size_t size, uint64_t seq, const char *event) {
    size_t block = 0; /* a frame is a header block, an empty line and the body */
    while (memcmp(frame + block, "\r\n\r\n", 4)) block++;
    block += 4;
    yt_heading_found heading;
    uint8_t name[64];
    uint32_t code = yt_heading(frame + block, size - block, &heading, name, sizeof name);
    if (code) die("heading", code);
    static const char *const kinds[] = {"", "request", "response", "event", "other"};
    printf("%2llu %s %.*s%s: %s\n", (unsigned long long)heading.seq, kinds[heading.kind], (int)heading.name, name,
           heading.kind == 2 && !heading.success ? " (failed)" : "", phase_of());
    if (heading.kind == 2 && heading.request_seq == seq) {
        if (is("stackTrace", name, heading.name)) printf("   %.*s\n", (int)(size - block), (const char *)frame + block);
        return 1;
    }
    return heading.kind == 3 && event && is(event, name, heading.name) ? 2 : 0;
}

/* Reads until the response to the request `seq` has come, and the event too, where one is named. */
static void hear(uint64_t seq, const char *event) {
    static uint8_t piece[4096];
    static size_t have, at;
    int wanted = (seq ? 1 : 0) + (event ? 2 : 0);
    while (wanted) {
        if (at == have) {
            ssize_t count = read(from_adapter, piece, sizeof piece);
            if (count <= 0) die("the stream has ended", 0);
            have = (size_t)count;
            at = 0;
        }
        yt_found found;
        uint32_t code = yt_client_take(&client, piece + at, have - at, &found);
        if (code) die("the adapter breaks the protocol", code);
        at += found.used;
        if (found.bytes) write_out(found.bytes);
        if (!found.frame) continue;
        uint8_t *frame = room(found.frame);
        code = yt_client_frame(&client, frame, found.frame);
        if (code) die("frame", code);
        wanted &= ~show(frame, found.frame, seq, event);
        free(frame);
    }
}

static pid_t start(const char *program, const char *recording) {
    int down[2], up[2];
    if (pipe(down) || pipe(up)) die("pipe", 0);
    pid_t child = fork();
    if (child < 0) die("fork", 0);
    if (!child) {
        dup2(down[0], 0);
        dup2(up[1], 1);
        for (int i = 0; i < 2; i++) close(down[i]), close(up[i]);
        execl(program, program, "serve", recording, (char *)NULL);
        _exit(127);
    }
    close(down[0]);
    close(up[1]);
    to_adapter = down[1];
    from_adapter = up[0];
    return child;
}

int main(int argc, char **argv) {
    if (argc != 3) return fprintf(stderr, "usage: client PROGRAM RECORDING\n"), 2;
    pid_t child = start(argv[1], argv[2]);
    yt_limits limits;
    yt_limits_usual(&limits);
    uint32_t code = yt_client_open(&client, &limits);
    if (code) die("open", code);

    ask("threads", ""); /* too early: the library refuses it, and no byte goes out */
    hear(ask("initialize", "{\"adapterID\":\"example\"}"), "initialized");
    uint64_t launch = ask("launch", "{}");
    hear(ask("configurationDone", ""), NULL);
    hear(launch, "stopped");
    hear(ask("threads", ""), NULL);
    hear(ask("stackTrace", "{\"threadId\":1}"), NULL);
    hear(ask("next", "{\"threadId\":1}"), "stopped");
    hear(ask("disconnect", ""), NULL);

    yt_client_free(&client);
    yt_client_seen seen;
    printf("after free: code %u\n", yt_client_state(&client, &seen)); /* the handle holds nothing: YT_NONE, no crash */
    close(to_adapter);
    close(from_adapter);
    int status;
    return waitpid(child, &status, 0) == child && WIFEXITED(status) && WEXITSTATUS(status) == 0 ? 0 : 1;
}
