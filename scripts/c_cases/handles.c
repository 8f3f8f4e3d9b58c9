/* Handles that hold nothing, buffers of the wrong size, bytes of no length: each has its own code, and nothing else happens. */
#include "yarntaupe.h"
#include <stdio.h>
#include <stdlib.h>
#include <string.h>

static int wrong;
#define CHECK(what) ((what) ? (void)0 : (void)(wrong++, printf("line %d: %s\n", __LINE__, #what)))
#define BYTES(text) (const uint8_t *)(text), strlen(text)

static const char INITIALIZE[] = "{\"seq\":1,\"type\":\"response\",\"request_seq\":1,\"success\":true,\"command\":\"initialize\",\"body\":{\"supportsStepBack\":true}}";

static void all_zero_is_none(void) {
    yt_frames frames = {0};
    yt_client client = {0};
    yt_fed fed;
    yt_found found;
    yt_sent sent;
    yt_client_seen seen;
    yt_capabilities flags;
    uint8_t out[8] = "unused.";
    size_t bytes = 77;
    memset(&fed, 0x5a, sizeof fed);
    memset(&found, 0x5a, sizeof found);
    yt_found found_before = found;
    CHECK(yt_frames_feed(&frames, BYTES("x"), &fed) == YT_NONE && fed.cause == 0x5a5a5a5a);
    CHECK(yt_frames_body(&frames, out, 7) == YT_NONE);
    CHECK(yt_frames_release(&frames) == YT_NONE);
    CHECK(yt_frames_finish(&frames) == YT_NONE);
    yt_frames_free(&frames);
    CHECK(yt_client_send(&client, BYTES("threads"), BYTES(""), &sent) == YT_NONE);
    CHECK(yt_client_answer(&client, 1, true, 0, 0, &bytes) == YT_NONE && bytes == 77);
    CHECK(yt_client_take(&client, BYTES("x"), &found) == YT_NONE && !memcmp(&found, &found_before, sizeof found));
    CHECK(yt_client_bytes(&client, out, 7) == YT_NONE);
    CHECK(yt_client_frame(&client, out, 7) == YT_NONE);
    CHECK(yt_client_state(&client, &seen) == YT_NONE);
    CHECK(yt_client_capabilities(&client, &flags) == YT_NONE);
    yt_client_free(&client);
    yt_client_free(&client);
    CHECK(!client.at && !client.full && !memcmp(out, "unused.", 8));
}

static void limits_have_ranges(void) {
    yt_limits limits;
    yt_limits_usual(&limits);
    CHECK(limits.header == 8192 && limits.body == 4194304 && limits.requests == 64 && limits.references == 65536);
    CHECK(limits.breakpoints == 4096 && limits.seq == 9007199254740991 && limits.reference == 2147483647);
    yt_limits bad = limits;
    bad.body = 1023;
    yt_frames frames = {0};
    yt_client client = {0};
    CHECK(yt_frames_open(&frames, &limits) == YT_OK);
    CHECK(yt_frames_open(&frames, &bad) == YT_BAD_LIMITS); /* what it held is let go */
    CHECK(yt_frames_finish(&frames) == YT_NONE);
    CHECK(yt_client_open(&client, &limits) == YT_OK);
    CHECK(yt_client_open(&client, &limits) == YT_OK); /* the first is let go */
    CHECK(yt_client_open(&client, &bad) == YT_BAD_LIMITS && !client.full);
}

static void frames_come_out(void) {
    yt_limits limits;
    yt_limits_usual(&limits);
    yt_frames frames = {0};
    yt_fed fed;
    uint8_t out[64], frame[64];
    size_t size, other;
    CHECK(yt_frame(BYTES("{}"), frame, sizeof frame, &size) == YT_OK && size == 23);
    CHECK(!memcmp(frame, "Content-Length: 2\r\n\r\n{}", 23));
    memset(out, 'x', sizeof out);
    CHECK(yt_frame(BYTES("{}"), out, 22, &other) == YT_SMALL && other == 23 && out[0] == 'x');
    CHECK(yt_frames_open(&frames, &limits) == YT_OK);
    CHECK(yt_frames_finish(&frames) == YT_OK);
    for (size_t at = 0; at < 22; at++) CHECK(yt_frames_feed(&frames, frame + at, 1, &fed) == YT_OK && fed.used == 1 && fed.body == 0);
    CHECK(yt_frames_feed(&frames, frame, 0, &fed) == YT_OK && fed.used == 0);
    CHECK(yt_frames_finish(&frames) == YT_TRUNCATED);
    CHECK(yt_frames_body(&frames, out, sizeof out) == YT_NOTHING && out[0] == 'x');
    CHECK(yt_frames_feed(&frames, frame + 22, 1, &fed) == YT_READY && fed.used == 1 && fed.body == 2);
    CHECK(yt_frames_feed(&frames, frame, 23, &fed) == YT_READY && fed.used == 0 && fed.body == 2); /* it waits */
    CHECK(yt_frames_body(&frames, out, 1) == YT_SMALL && out[0] == 'x');
    CHECK(yt_frames_body(&frames, out, sizeof out) == YT_OK && !memcmp(out, "{}x", 3));
    CHECK(yt_frames_release(&frames) == YT_OK && yt_frames_release(&frames) == YT_OK);
    CHECK(yt_frames_feed(&frames, BYTES("Content-Length: x\r\n\r\n"), &fed) == YT_FRAME && fed.offset == 23 && fed.cause == 5);
    CHECK(yt_frames_feed(&frames, frame, 23, &fed) == YT_FRAME && fed.offset == 23 && fed.cause == 5);
    CHECK(yt_frames_finish(&frames) == YT_FRAME);
    yt_frames_free(&frames);
}

static void headings_are_read(void) {
    yt_heading_found heading;
    uint8_t name[16];
    memset(name, 'x', sizeof name);
    CHECK(yt_heading(BYTES("{\"seq\":7,\"type\":\"event\",\"event\":\"stopped\"}"), &heading, name, sizeof name) == YT_OK);
    CHECK(heading.seq == 7 && heading.kind == 3 && heading.name == 7 && !memcmp(name, "stoppedx", 8));
    CHECK(yt_heading(BYTES(INITIALIZE), &heading, name, 9) == YT_SMALL);
    CHECK(heading.seq == 1 && heading.kind == 2 && heading.request_seq == 1 && heading.success && heading.name == 10 && name[0] == 's');
    CHECK(yt_heading(BYTES("{\"seq\":3,\"type\":\"request\",\"command\":\"next\"}"), &heading, name, sizeof name) == YT_OK);
    CHECK(heading.kind == 1 && heading.name == 4);
    CHECK(yt_heading(BYTES("[]"), &heading, name, sizeof name) == YT_NOTHING && heading.kind == 0);
    CHECK(yt_heading(BYTES("{\"seq\":1.0,\"type\":\"event\",\"event\":\"stopped\"}"), &heading, name, sizeof name) == YT_NOTHING);
}

static void transcripts_are_judged(void) {
    static const char text[] =
        "> {\"seq\":1,\"type\":\"request\",\"command\":\"initialize\",\"arguments\":{\"adapterID\":\"x\"}}\n"
        "< {\"seq\":2,\"type\":\"response\",\"request_seq\":1,\"success\":true,\"command\":\"initialize\"}\n";
    static const char why[] = "seq 1 was due, in the first message of its side";
    yt_verdict verdict;
    uint8_t out[64];
    size_t size;
    memset(out, 'x', sizeof out);
    CHECK(yt_check(BYTES(text), 2, &verdict) == YT_OK && yt_check(BYTES(text), 3, &verdict) == YT_OK);
    CHECK(yt_check(BYTES(text), 0, &verdict) == YT_FINDING && verdict.line == 2 && verdict.rule == 1);
    CHECK(yt_check(BYTES(text), 1, &verdict) == YT_FINDING && verdict.line == 2 && verdict.rule == 1);
    CHECK(yt_check(BYTES(text), 4, &verdict) == YT_BAD_ARGUMENTS);
    CHECK(yt_check(BYTES("\n? {}\n"), 0, &verdict) == YT_BAD_LINE && verdict.line == 2);
    CHECK(yt_check(BYTES("> {}\n"), 0, &verdict) == YT_NO_MESSAGE && verdict.line == 1);
    CHECK(yt_check(BYTES(""), 0, &verdict) == YT_OK);
    CHECK(yt_explain(BYTES(text), 2, 1, out, 0, &size) == YT_SMALL && size == strlen(why) && out[0] == 'x');
    CHECK(yt_explain(BYTES(text), 2, 1, out, size, &size) == YT_OK && !memcmp(out, why, size) && out[size] == 'x');
    CHECK(yt_explain(BYTES(text), 1, 1, out, sizeof out, &size) == YT_NOTHING && size == 0);
    CHECK(yt_explain(BYTES(text), 9, 1, out, sizeof out, &size) == YT_NOTHING);
    CHECK(yt_explain(BYTES(text), 2, 8, out, sizeof out, &size) == YT_BAD_ARGUMENTS);
}

static uint32_t take(yt_client *client, const char *body, yt_found *found) {
    uint8_t frame[512];
    size_t size;
    CHECK(yt_frame(BYTES(body), frame, sizeof frame, &size) == YT_OK);
    return yt_client_take(client, frame, size, found);
}

static void a_client_goes_round(void) {
    yt_limits limits;
    yt_limits_usual(&limits);
    yt_client client = {0};
    yt_sent sent;
    yt_found found;
    yt_client_seen seen;
    yt_capabilities flags;
    uint8_t out[256];
    size_t bytes;
    CHECK(yt_client_open(&client, &limits) == YT_OK);
    CHECK(yt_client_send(&client, BYTES("threads"), BYTES(""), &sent) == YT_WRONG_PHASE);
    CHECK(yt_client_send(&client, BYTES("nosuch"), BYTES(""), &sent) == YT_BAD_COMMAND);
    CHECK(yt_client_send(&client, BYTES("\xff"), BYTES(""), &sent) == YT_BAD_COMMAND);
    CHECK(yt_client_send(&client, BYTES("initialize"), BYTES("{"), &sent) == YT_BAD_ARGUMENTS);
    CHECK(yt_client_send(&client, BYTES("initialize"), BYTES("{\"adapterID\":1}"), &sent) == YT_BAD_ARGUMENTS);
    CHECK(yt_client_send(&client, BYTES("initialize"), BYTES("{\"adapterID\":\"x\",\"supportsRunInTerminalRequest\":true}"), &sent) == YT_OK);
    CHECK(sent.seq == 1 && sent.bytes > 60 && sent.bytes < sizeof out);
    CHECK(yt_client_bytes(&client, out, sent.bytes - 1) == YT_SMALL);
    CHECK(yt_client_bytes(&client, out, sent.bytes) == YT_OK && !memcmp(out, "Content-Length: ", 16));
    CHECK(yt_client_bytes(&client, out, sizeof out) == YT_OK); /* fetched twice: the same */
    CHECK(yt_client_frame(&client, out, sizeof out) == YT_NOTHING);
    CHECK(yt_client_state(&client, &seen) == YT_OK && seen.phase == 1 && seen.outstanding == 1 && !seen.ready);
    CHECK(take(&client, INITIALIZE, &found) == YT_OK && found.frame == found.used && found.bytes == 0);
    CHECK(yt_client_frame(&client, out, found.frame - 1) == YT_SMALL);
    CHECK(yt_client_frame(&client, out, sizeof out) == YT_OK && !memcmp(out + found.frame - strlen(INITIALIZE), INITIALIZE, strlen(INITIALIZE)));
    CHECK(yt_client_capabilities(&client, &flags) == YT_OK && flags.step_back && !flags.restart && !flags.set_variable);
    CHECK(take(&client, "{\"seq\":2,\"type\":\"event\",\"event\":\"initialized\"}", &found) == YT_OK);
    CHECK(take(&client, "{\"seq\":3,\"type\":\"request\",\"command\":\"runInTerminal\",\"arguments\":{\"cwd\":\"/\",\"args\":[\"a\"]}}", &found) == YT_OK && found.bytes == 0);
    CHECK(yt_client_state(&client, &seen) == YT_OK && seen.phase == 2 && seen.ready && seen.incoming == 1 && seen.oldest_incoming == 3);
    CHECK(yt_client_answer(&client, 4, true, 9, 0, &bytes) == YT_NOT_KEPT && bytes == 0);
    CHECK(yt_client_answer(&client, 3, true, 2147483648u, 0, &bytes) == YT_BAD_ARGUMENTS);
    CHECK(yt_client_answer(&client, 3, true, 9, 0, &bytes) == YT_OK && bytes > 60);
    CHECK(bytes < sizeof out && yt_client_bytes(&client, out, bytes) == YT_OK);
    out[bytes] = 0;
    CHECK(strstr((char *)out, "\"processId\":9") && !strstr((char *)out, "shellProcessId"));
    CHECK(take(&client, "{\"seq\":4,\"type\":\"request\",\"command\":\"startDebugging\"}", &found) == YT_OK && found.bytes > 60);
    CHECK(take(&client, "{\"seq\":5,\"type\":\"response\",\"request_seq\":9,\"success\":true,\"command\":\"next\"}", &found) == YT_UNMATCHED && found.at == 9);
    CHECK(take(&client, INITIALIZE, &found) == YT_UNMATCHED);
    CHECK(yt_client_send(&client, BYTES("launch"), BYTES(""), &sent) == YT_ENDED);
    CHECK(yt_client_answer(&client, 3, false, 0, 0, &bytes) == YT_ENDED);
    yt_client_free(&client);
}

static void bad_streams_are_refused(void) {
    yt_limits limits;
    yt_limits_usual(&limits);
    yt_client client = {0};
    yt_found found;
    CHECK(yt_client_open(&client, &limits) == YT_OK);
    CHECK(yt_client_take(&client, BYTES("Content-Length: 2\r\n\r\n[]"), &found) == YT_BODY && found.at == 0 && found.cause == 2);
    CHECK(yt_client_open(&client, &limits) == YT_OK);
    CHECK(yt_client_take(&client, BYTES("Length: 2\r\n\r\n{}"), &found) == YT_FRAME && found.at == 0 && found.cause == 3);
    yt_client_free(&client);
}

int main(void) {
    all_zero_is_none();
    limits_have_ranges();
    frames_come_out();
    headings_are_read();
    transcripts_are_judged();
    a_client_goes_round();
    bad_streams_are_refused();
    if (!wrong) puts("handles: ok");
    return wrong != 0;
}
