/* Each allocation refused in turn at the border to C. Linked with --wrap, so that the library's malloc and realloc are those
 * of refusing.h. Each scenario runs with its first allocation refused, then with its second, until it meets none. Each call comes to
 * what it says or to YT_NO_MEMORY; then the handle is as it was, or the end is closed and says so; and nothing is leaked. */
#include "refusing.h"

static void frames_scenario(void) {
    yt_limits limits;
    yt_limits_usual(&limits);
    yt_frames frames = {0};
    uint32_t code = yt_frames_open(&frames, &limits);
    if (code == YT_NO_MEMORY) {
        CHECK(!frames.full && yt_frames_finish(&frames) == YT_NONE);
        code = yt_frames_open(&frames, &limits);
    }
    CHECK(code == YT_OK);
    long before = met;
    yt_fed fed;
    uint8_t out[8];
    CHECK(yt_frames_feed(&frames, BYTES("Content-Length: 2\r\n\r\n{}"), &fed) == YT_READY && fed.body == 2);
    CHECK(yt_frames_body(&frames, out, sizeof out) == YT_OK && yt_frames_release(&frames) == YT_OK);
    CHECK(yt_frames_finish(&frames) == YT_OK && met == before); /* no call but open takes memory */
    yt_frames_free(&frames);
}

static void texts_scenario(void) {
    static const char text[] =
        "> {\"seq\":1,\"type\":\"request\",\"command\":\"initialize\",\"arguments\":{\"adapterID\":\"x\"}}\n"
        "< {\"seq\":2,\"type\":\"response\",\"request_seq\":1,\"success\":true,\"command\":\"initialize\"}\n";
    yt_verdict verdict;
    uint8_t out[64];
    size_t size;
    long before = met;
    uint32_t code = yt_check(BYTES(text), 0, &verdict);
    CHECK(code == YT_FINDING || (code == YT_NO_MEMORY && met > before));
    before = met;
    code = yt_explain(BYTES(text), 2, 1, out, sizeof out, &size);
    CHECK(code == YT_OK || (code == YT_NO_MEMORY && met > before));
    before = met;
    code = yt_frame(BYTES("{}"), out, sizeof out, &size);
    CHECK(code == YT_OK || (code == YT_NO_MEMORY && met > before));
    before = met;
    yt_heading_found heading;
    code = yt_heading(BYTES("{\"seq\":7,\"type\":\"event\",\"event\":\"st\\u006fpped\"}"), &heading, out, sizeof out);
    CHECK(code == YT_OK || (code == YT_NOTHING && met > before));
}

static int same(const yt_client_seen *a, const yt_client_seen *b) {
    return a->phase == b->phase && a->outstanding == b->outstanding && a->incoming == b->incoming && a->held == b->held &&
           a->references == b->references && a->ready == b->ready;
}

/* A send that is refused memory changes nothing, and the next try goes through. */
static void send(yt_client *client, const char *command, const char *arguments) {
    yt_sent sent;
    yt_client_seen before, after;
    CHECK(yt_client_state(client, &before) == YT_OK);
    uint32_t code = yt_client_send(client, BYTES(command), BYTES(arguments), &sent);
    if (code == YT_NO_MEMORY) {
        CHECK(yt_client_state(client, &after) == YT_OK && same(&before, &after));
        code = yt_client_send(client, BYTES(command), BYTES(arguments), &sent);
    }
    CHECK(code == YT_OK && sent.bytes > 0);
}

/* Takes a body's frame. Tells whether the client goes on: it does not where memory was refused once the body was whole. */
static int take(yt_client *client, const char *body) {
    uint8_t frame[512];
    int head = snprintf((char *)frame, sizeof frame, "Content-Length: %zu\r\n\r\n%s", strlen(body), body);
    yt_found found;
    yt_client_seen before, after;
    yt_sent sent;
    CHECK(yt_client_state(client, &before) == YT_OK);
    uint32_t code = yt_client_take(client, frame, (size_t)head, &found);
    if (code == YT_NO_MEMORY) {
        CHECK(yt_client_state(client, &after) == YT_OK && after.phase == before.phase && after.outstanding == before.outstanding);
        code = yt_client_take(client, frame, (size_t)head, &found);
        if (code == YT_NO_MEMORY) { /* closed: it answers that from now on */
            CHECK(yt_client_take(client, frame, 0, &found) == YT_NO_MEMORY);
            CHECK(yt_client_send(client, BYTES("disconnect"), BYTES(""), &sent) == YT_ENDED);
            return 0;
        }
    }
    CHECK(code == YT_OK && found.frame == (size_t)head);
    uint8_t out[512];
    CHECK(yt_client_frame(client, out, sizeof out) == YT_OK && !memcmp(out, frame, (size_t)head));
    return 1;
}

static void client_scenario(void) {
    yt_limits limits;
    yt_limits_usual(&limits);
    yt_client client = {0};
    size_t bytes;
    uint32_t code = yt_client_open(&client, &limits);
    if (code == YT_NO_MEMORY) {
        CHECK(!client.full);
        code = yt_client_open(&client, &limits);
    }
    CHECK(code == YT_OK);
    send(&client, "initialize", "{\"adapterID\":\"x\",\"supportsRunInTerminalRequest\":true}");
    if (take(&client, "{\"seq\":1,\"type\":\"response\",\"request_seq\":1,\"success\":true,\"command\":\"initialize\"}") &&
        take(&client, "{\"seq\":2,\"type\":\"event\",\"event\":\"initialized\"}") &&
        take(&client, "{\"seq\":3,\"type\":\"request\",\"command\":\"startDebugging\"}") &&
        take(&client, "{\"seq\":4,\"type\":\"request\",\"command\":\"runInTerminal\",\"arguments\":{\"cwd\":\"/\",\"args\":[\"a\"]}}")) {
        code = yt_client_answer(&client, 4, true, 9, 9, &bytes);
        if (code == YT_NO_MEMORY) code = yt_client_answer(&client, 4, true, 9, 9, &bytes);
        CHECK(code == YT_OK && bytes > 0);
        send(&client, "launch", "{\"program\":\"a\"}");
        take(&client, "{\"seq\":6,\"type\":\"response\",\"request_seq\":4,\"success\":true,\"command\":\"launch\"}");
    }
    yt_client_free(&client);
}

int main(void) {
    refuse_each("frames", frames_scenario);
    refuse_each("texts", texts_scenario);
    refuse_each("client", client_scenario);
    return wrong != 0;
}
