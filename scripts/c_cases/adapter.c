/* The adapter's end over a debuggee that this program feeds: a session with breakpoints, a stop, variables that are told later,
 * a value that is set, an exit, events by their names; one with breakpoints that move, a start that is refused, and long output; one
 * with commands that this program answers, and one with requests that it asks; what a host says out of turn; and each allocation
 * refused in turn, as in refused.c. */
#include "refusing.h"

static const char BASE[] = "{\"sources\":[{\"name\":\"a.c\",\"path\":\"/w/a.c\",\"text\":\"1\\n2\\n3\\n4\\n\"}]}";
static const char SHOWS[] =
    "{\"threads\":[{\"id\":7,\"name\":\"main\",\"frames\":[{\"name\":\"f\",\"source\":0,\"line\":3,"
    "\"scopes\":[{\"name\":\"Locals\",\"variables\":[{\"name\":\"x\",\"value\":\"41\"}]},{\"name\":\"Globals\"}]},{\"name\":\"g\"}]}],\"thread\":7}";
static const char PAST[] = "{\"threads\":[{\"id\":7,\"name\":\"main\",\"frames\":[{\"name\":\"f\",\"source\":1,\"line\":1}]}],\"thread\":7}";
static const char RECORDING[] = "{\"exit\":0,\"sources\":[{\"name\":\"a.c\",\"text\":\"1\\n\"}],\"moments\":[{\"threads\":[],\"thread\":7}]}";

static yt_adapter adapter;
static yt_found found;
static char written[8192];

/* What a call answered, where it went through. Where memory was refused and the adapter is closed, the scenario ends. */
static int goes_on(uint32_t code) {
    if (code != YT_NO_MEMORY) return 1;
    CHECK(met > 0);
    return 0;
}

/* Keeps what is to be written, behind what was. */
static void write_out(void) {
    size_t at = strlen(written);
    CHECK(at + found.bytes < sizeof written);
    CHECK(yt_adapter_bytes(&adapter, (uint8_t *)written + at, found.bytes) == YT_OK);
    written[at + found.bytes] = 0;
}

/* Takes a request. */
static int take_in(const char *body) {
    uint8_t frame[512];
    int size = snprintf((char *)frame, sizeof frame, "Content-Length: %zu\r\n\r\n%s", strlen(body), body);
    uint32_t code = yt_adapter_take(&adapter, frame, (size_t)size, &found);
    if (code == YT_NO_MEMORY) code = yt_adapter_take(&adapter, frame, (size_t)size, &found);
    if (!goes_on(code)) return 0;
    CHECK(code == YT_OK && found.used == (size_t)size && found.frame == (size_t)size);
    uint8_t back[512];
    CHECK(yt_adapter_frame(&adapter, back, sizeof back) == YT_OK && !memcmp(back, frame, (size_t)size));
    written[0] = 0;
    write_out();
    return 1;
}

/* Handles all that wait. */
static int handle(void) {
    for (;;) {
        uint32_t code = yt_adapter_turn(&adapter, &found);
        if (code == YT_IDLE) return 1;
        if (!goes_on(code)) return 0;
        CHECK(code == YT_OK);
        if (code != YT_OK) return 0;
        write_out();
    }
}

static int hear(const char *body) { return take_in(body) && handle(); }

static int has(const char *text) { return strstr(written, text) != NULL; }

/* After a call that tells: whether it was heard, with what is to be written. */
static int told(uint32_t code) {
    if (!goes_on(code)) return 0;
    CHECK(code == YT_OK);
    written[0] = 0;
    write_out();
    return 1;
}

static int starts(void) {
    yt_act act;
    uint32_t lines[2];
    uint8_t path[8];
    if (!hear("{\"seq\":1,\"type\":\"request\",\"command\":\"initialize\",\"arguments\":{\"adapterID\":\"x\"}}")) return 0;
    CHECK(has("\"command\":\"initialize\"") && has("\"event\":\"initialized\""));
    CHECK(yt_adapter_act(&adapter, &act) == YT_NOTHING);
    if (!hear("{\"seq\":2,\"type\":\"request\",\"command\":\"setBreakpoints\",\"arguments\":{\"source\":{\"path\":\"/w/a.c\"},\"breakpoints\":[{\"line\":3},{\"line\":9}]}}")) return 0;
    CHECK(has("\"verified\":true") && has("\"verified\":false"));
    CHECK(yt_adapter_act(&adapter, &act) == YT_OK && act.kind == 4 && act.lines == 2 && act.source == 6 && act.reference == 0);
    CHECK(yt_adapter_lines(&adapter, lines, 1) == YT_SMALL && yt_adapter_lines(&adapter, lines, 2) == YT_OK && lines[0] == 3 && lines[1] == 9);
    CHECK(yt_adapter_source(&adapter, path, 8) == YT_OK && !memcmp(path, "/w/a.c", 6) && yt_adapter_name(&adapter, path, 8) == YT_NOTHING);
    CHECK(yt_adapter_act(&adapter, &act) == YT_NOTHING && yt_adapter_lines(&adapter, lines, 2) == YT_NOTHING);
    if (!goes_on(yt_adapter_continued(&adapter, 7, &found))) return 0;
    if (!hear("{\"seq\":3,\"type\":\"request\",\"command\":\"launch\",\"arguments\":{}}")) return 0;
    if (!hear("{\"seq\":4,\"type\":\"request\",\"command\":\"configurationDone\"}")) return 0;
    CHECK(yt_adapter_act(&adapter, &act) == YT_OK && act.kind == 1);
    uint32_t code = yt_adapter_continued(&adapter, 7, &found);
    if (!goes_on(code)) return 0;
    CHECK(code == YT_OUT_OF_TURN && found.bytes == 0); /* it runs already */
    return 1;
}

static int stops(void) {
    yt_adapter_seen seen;
    yt_target target;
    uint32_t code = yt_adapter_stopped(&adapter, BYTES("entry"), 7, BYTES(SHOWS), true, &found);
    if (code == YT_NO_MEMORY && yt_adapter_state(&adapter, &seen) == YT_OK && seen.phase == 5)
        code = yt_adapter_stopped(&adapter, BYTES("entry"), 7, BYTES(SHOWS), true, &found);
    if (!told(code)) return 0;
    CHECK(has("\"event\":\"stopped\"") && has("\"reason\":\"entry\""));
    if (!told(yt_adapter_sources(&adapter, BYTES(BASE), &found))) return 0;
    CHECK(found.bytes == 0);
    CHECK(yt_adapter_state(&adapter, &seen) == YT_OK && seen.phase == 6 && seen.breakpoints == 2 && seen.kept == 0 && seen.asked == 0);
    if (!hear("{\"seq\":5,\"type\":\"request\",\"command\":\"stackTrace\",\"arguments\":{\"threadId\":7}}")) return 0;
    CHECK(has("\"name\":\"f\""));
    CHECK(yt_adapter_target(&adapter, 1, &target) == YT_OK && target.kind == 1);
    CHECK(yt_adapter_target(&adapter, 9, &target) == YT_NOTHING && yt_adapter_target(&adapter, 0, &target) == YT_NOTHING);
    if (!hear("{\"seq\":6,\"type\":\"request\",\"command\":\"scopes\",\"arguments\":{\"frameId\":1}}")) return 0;
    CHECK(has("\"name\":\"Locals\"") && has("\"name\":\"Globals\""));
    if (!hear("{\"seq\":7,\"type\":\"request\",\"command\":\"variables\",\"arguments\":{\"variablesReference\":4}}")) return 0;
    CHECK(has("\"success\":false")); /* not told yet */
    CHECK(yt_adapter_target(&adapter, 4, &target) == YT_OK && target.kind == 2);
    if (!goes_on(yt_adapter_variable_with(&adapter, BYTES("g"), BYTES("1"), false, 0, BYTES("{\"type\":\"int\"}")))) return 0;
    code = yt_adapter_variables(&adapter, target.object, &found);
    if (!told(code)) return 0;
    if (!hear("{\"seq\":8,\"type\":\"request\",\"command\":\"variables\",\"arguments\":{\"variablesReference\":4}}")) return 0;
    CHECK(has("\"name\":\"g\"") && has("\"value\":\"1\"") && has("\"type\":\"int\""));
    code = yt_adapter_variables(&adapter, target.object, &found);
    if (!goes_on(code)) return 0;
    CHECK(code == YT_TOLD);
    return 1;
}

static int goes(void) {
    yt_act act;
    uint8_t out[8];
    if (!told(yt_adapter_learned(&adapter, BYTES("x + 1"), true, BYTES("42"), false, 0, &found))) return 0;
    if (!hear("{\"seq\":9,\"type\":\"request\",\"command\":\"evaluate\",\"arguments\":{\"expression\":\"x + 1\"}}")) return 0;
    CHECK(has("\"result\":\"42\""));
    if (!told(yt_adapter_no_value(&adapter, BYTES("y +"), BYTES("no operand"), true, &found))) return 0;
    if (!hear("{\"seq\":13,\"type\":\"request\",\"command\":\"evaluate\",\"arguments\":{\"expression\":\"y +\"}}")) return 0;
    CHECK(has("\"message\":\"debuggee\"") && has("\"showUser\":true,\"variables\":{\"why\":\"no operand\"}"));
    if (!hear("{\"seq\":14,\"type\":\"request\",\"command\":\"evaluate\",\"arguments\":{\"expression\":\"y +\"}}")) return 0;
    CHECK(has("\"why\":\"no operand\"")); /* known until something else is told */
    if (!told(yt_adapter_learned_with(&adapter, BYTES("44"), true, BYTES("44"), false, 0, BYTES("{\"type\":\"long\"}"), &found))) return 0;
    if (!hear("{\"seq\":10,\"type\":\"request\",\"command\":\"setVariable\",\"arguments\":{\"variablesReference\":3,\"name\":\"x\",\"value\":\"44\"}}")) return 0;
    CHECK(has("\"value\":\"44\"") && has("\"type\":\"long\""));
    CHECK(yt_adapter_act(&adapter, &act) == YT_OK && act.kind == 5 && act.name == 1 && act.value == 2);
    CHECK(yt_adapter_name(&adapter, out, 8) == YT_OK && out[0] == 'x' && yt_adapter_value(&adapter, out, 8) == YT_OK && !memcmp(out, "44", 2));
    if (!hear("{\"seq\":11,\"type\":\"request\",\"command\":\"next\",\"arguments\":{\"threadId\":7}}")) return 0;
    CHECK(yt_adapter_act(&adapter, &act) == YT_OK && act.kind == 2 && act.how == 1 && act.thread == 7);
    if (!told(yt_adapter_output(&adapter, 1, BYTES("bye"), &found))) return 0;
    CHECK(has("\"output\":\"bye\"") && has("\"category\":\"stdout\""));
    if (!told(yt_adapter_output_with(&adapter, 4, BYTES("n"), BYTES("{\"data\":{\"n\":1},\"output\":\"m\"}"), &found))) return 0;
    CHECK(has("\"output\":\"n\"") && has("\"category\":\"telemetry\"") && has("\"data\":{\"n\":1}"));
    static uint8_t much[129];
    memset(much, 'x', sizeof much);
    uint32_t code = yt_adapter_output(&adapter, 1, much, sizeof much, &found);
    if (!goes_on(code)) return 0;
    CHECK(code == YT_OUT_OF_RANGE && found.bytes == 0);
    if (!told(yt_adapter_stopped_with(&adapter, BYTES("step"), 7, BYTES(SHOWS), false, BYTES("{\"description\":\"there\",\"reason\":\"x\"}"), &found))) return 0;
    CHECK(has("\"reason\":\"step\"") && has("\"description\":\"there\""));
    if (!told(yt_adapter_exited(&adapter, 5, &found))) return 0;
    CHECK(has("\"exitCode\":5") && has("\"event\":\"terminated\""));
    return hear("{\"seq\":12,\"type\":\"request\",\"command\":\"disconnect\"}");
}

/* Says something of what is asked next. Where memory is refused nothing has changed, and the next try goes through. */
static uint32_t ahead(const char *said) {
    uint32_t code = yt_adapter_ahead(&adapter, BYTES(said));
    return goes_on(code) ? code : yt_adapter_ahead(&adapter, BYTES(said));
}

#define LINES(seq) "{\"seq\":" seq ",\"type\":\"request\",\"command\":\"setBreakpoints\",\"arguments\":{\"source\":{\"path\":\"/w/a.c\"},\"breakpoints\":[{\"line\":3},{\"line\":9}]}}"

/* The host has to set breakpoints at the lines that were asked for, wherever they are. */
static void sets_lines(void) {
    yt_act act;
    uint32_t lines[2];
    CHECK(yt_adapter_act(&adapter, &act) == YT_OK && act.kind == 4 && act.lines == 2);
    CHECK(yt_adapter_lines(&adapter, lines, 2) == YT_OK && lines[0] == 3 && lines[1] == 9);
    CHECK(yt_adapter_act(&adapter, &act) == YT_NOTHING);
}

static int moves(void) {
    if (!hear("{\"seq\":1,\"type\":\"request\",\"command\":\"initialize\",\"arguments\":{\"adapterID\":\"x\"}}")) return 0;
    if (!take_in(LINES("2"))) return 0;
    CHECK(ahead("{\"placed\":{\"path\":\"/w/a.c\"},\"breakpoints\":[{\"asked\":3,\"line\":4},{\"asked\":9,\"line\":2,\"verified\":false,\"message\":\"No code here.\"}]}") == YT_OK);
    if (!handle()) return 0;
    CHECK(has("\"line\":4,\"verified\":true}") && has("\"line\":2,\"message\":\"No code here.\",\"verified\":false}"));
    sets_lines();
    if (!take_in(LINES("3"))) return 0;
    /* these say neither, so that what was said before counts */
    CHECK(ahead("{") == YT_BAD_ARGUMENTS && ahead("{\"happened\":\"exited\",\"code\":0}") == YT_BAD_ARGUMENTS);
    if (!handle()) return 0;
    CHECK(has("\"line\":4,\"verified\":true}") && has("\"line\":2,\"message\":\"No code here.\",\"verified\":false}"));
    sets_lines();
    if (!take_in(LINES("4"))) return 0;
    CHECK(ahead("") == YT_OK);
    if (!handle()) return 0;
    CHECK(has("\"line\":3,\"verified\":true}") && has("\"line\":9,\"verified\":false}") && !has("\"message\""));
    sets_lines();
    return 1;
}

static int refuses_to_start(void) {
    static const char words[] = "\"format\":\"{why}\",\"id\":1013,\"showUser\":true,\"variables\":{\"why\":\"No such program.\"}";
    yt_act act;
    if (!hear("{\"seq\":5,\"type\":\"request\",\"command\":\"launch\",\"arguments\":{}}")) return 0;
    if (!take_in("{\"seq\":6,\"type\":\"request\",\"command\":\"configurationDone\"}")) return 0;
    CHECK(ahead("{\"refuses\":\"Not this.\"}") == YT_OK && ahead("{\"refuses\":\"No such program.\",\"showUser\":true}") == YT_OK);
    CHECK(ahead("{\"refuses\":7}") == YT_BAD_ARGUMENTS && ahead("{\"asked\":\"target\",\"number\":1}") == YT_BAD_ARGUMENTS);
    if (!handle()) return 0;
    CHECK(has(words) && has("\"command\":\"launch\",\"message\":\"debuggee\"") && yt_adapter_act(&adapter, &act) == YT_NOTHING);
    if (!hear("{\"seq\":7,\"type\":\"request\",\"command\":\"launch\",\"arguments\":{}}")) return 0;
    CHECK(has(words) && yt_adapter_act(&adapter, &act) == YT_NOTHING); /* it counts until something else is said */
    if (!take_in("{\"seq\":8,\"type\":\"request\",\"command\":\"launch\",\"arguments\":{}}")) return 0;
    CHECK(ahead("") == YT_OK);
    if (!handle()) return 0;
    CHECK(has("\"command\":\"launch\",\"request_seq\":8,") && has("\"success\":true"));
    CHECK(yt_adapter_act(&adapter, &act) == YT_OK && act.kind == 1 && yt_adapter_act(&adapter, &act) == YT_NOTHING);
    return 1;
}

/* Output of 300 bytes: a character of three begins at byte 127, counted from 0, so that the first event has one byte less. */
static int says_much(void) {
    char text[301], heard[301];
    size_t size = sizeof text - 1, at = 0, came = 0, length = 0;
    memset(text, 'x', size);
    memcpy(text + 127, "\xe2\x82\xac", 3);
    text[size] = 0;
    for (int events = 0; at < size; at += length, events++) {
        CHECK(yt_output_piece((const uint8_t *)text + at, size - at, &length) == YT_OK);
        CHECK(length == (events == 0 ? 127 : events == 1 ? 128 : 45));
        if (length == 0 || length > size - at) return 0;
        if (!told(yt_adapter_output(&adapter, 1, (const uint8_t *)text + at, length, &found))) return 0;
        const char *output = strstr(written, "\"output\":\""), *end = output ? strchr(output + 10, '"') : NULL;
        CHECK(end && end - (output + 10) == (long)length);
        if (!end || end - (output + 10) != (long)length) return 0;
        memcpy(heard + came, output + 10, length);
        came += length;
    }
    CHECK(came == size && !memcmp(heard, text, size));
    return 1;
}

static int names(void) {
    if (!told(yt_adapter_output_named(&adapter, BYTES("stdout"), BYTES("a"), BYTES("{\"group\":\"start\"}"), &found))) return 0;
    CHECK(has("\"category\":\"stdout\"") && has("\"output\":\"a\"") && has("\"group\":\"start\""));
    if (!told(yt_adapter_output_named(&adapter, BYTES("my build"), BYTES("b"), BYTES(""), &found))) return 0;
    CHECK(has("\"category\":\"my build\"") && has("\"output\":\"b\"") && !has("\"group\""));
    static char name[66];
    memset(name, 'n', 65);
    if (!told(yt_adapter_output_named(&adapter, BYTES(name + 1), BYTES("c"), BYTES(""), &found))) return 0;
    CHECK(has(name + 1) && has("\"output\":\"c\""));
    uint32_t code = yt_adapter_output_named(&adapter, BYTES(name), BYTES("c"), BYTES(""), &found);
    if (!goes_on(code)) return 0;
    CHECK(code == YT_OUT_OF_RANGE && found.bytes == 0);
    code = yt_adapter_output_named(&adapter, BYTES("my \"build\""), BYTES("d"), BYTES(""), &found);
    if (!goes_on(code)) return 0;
    CHECK(code == YT_OUT_OF_RANGE && found.bytes == 0);
    return 1;
}

/* Tells an event by its name. One that is refused memory has changed nothing, and is told once more. */
static uint32_t emit(const char *event, const char *body) {
    uint32_t code = yt_adapter_emit(&adapter, BYTES(event), BYTES(body), &found);
    if (code == YT_NO_MEMORY) {
        CHECK(met > 0 && found.bytes == 0);
        code = yt_adapter_emit(&adapter, BYTES(event), BYTES(body), &found);
    }
    written[0] = 0;
    write_out();
    return code;
}

static int emits(void) {
    static const char *reserved[] = {"initialized", "stopped", "continued", "exited", "terminated", "capabilities"};
    static const char *bad[] = {"null", "0.5", "{", "{} {}", "[1e0]", "\xff"};
    CHECK(emit("module", "{\"reason\":\"new\",\"module\":{\"id\":1,\"name\":\"libc\"}}") == YT_OK);
    CHECK(has("{\"body\":{\"module\":{\"id\":1,\"name\":\"libc\"},\"reason\":\"new\"},\"event\":\"module\",\"seq\":"));
    CHECK(emit("mine", "") == YT_OK && has("{\"event\":\"mine\",\"seq\":"));
    CHECK(emit("", "7") == YT_OK && has("{\"body\":7,\"event\":\"\",\"seq\":"));
    for (size_t n = 0; n < sizeof reserved / sizeof *reserved; n++) CHECK(emit(reserved[n], "") == YT_RESERVED && !written[0]);
    for (size_t n = 0; n < sizeof bad / sizeof *bad; n++) CHECK(emit("module", bad[n]) == YT_BAD_ARGUMENTS && !written[0]);
    CHECK(emit("\xff", "") == YT_BAD_ARGUMENTS && !written[0]);
    return 1;
}

/* Answers a lent request. An answer that is refused memory has changed nothing, and is given once more. */
static uint32_t respond(uint64_t seq, bool success, const char *message, const char *body) {
    uint32_t code = yt_adapter_respond(&adapter, seq, success, BYTES(message), BYTES(body), &found);
    if (code == YT_NO_MEMORY) {
        CHECK(met > 0 && found.bytes == 0);
        code = yt_adapter_respond(&adapter, seq, success, BYTES(message), BYTES(body), &found);
    }
    written[0] = 0;
    write_out();
    return code;
}

/* Whether the request with this number, of this command, stands there among those that are lent. */
static int is_lent(size_t at, uint64_t seq, const char *command) {
    yt_lent lent = {0};
    uint8_t name[16];
    return yt_adapter_lent(&adapter, at, &lent) == YT_OK && lent.seq == seq && lent.command == strlen(command) &&
           yt_adapter_lent_command(&adapter, at, name, lent.command) == YT_OK && !memcmp(name, command, lent.command) &&
           yt_adapter_lent_command(&adapter, at, name, lent.command - 1) == YT_SMALL;
}

static int are_lent(size_t count) {
    yt_lent lent = {.seq = 77};
    uint8_t name[16];
    return yt_adapter_lent(&adapter, count, &lent) == YT_NOTHING && lent.seq == 77 && yt_adapter_lent_command(&adapter, count, name, 16) == YT_NOTHING &&
           (count == 0 || yt_adapter_lent(&adapter, count - 1, &lent) == YT_OK);
}

static void to_client(yt_adapter *from, size_t bytes) {
    size_t at = strlen(written);
    CHECK(at + bytes < sizeof written && yt_adapter_bytes(from, (uint8_t *)written + at, bytes) == YT_OK);
    written[at + bytes] = 0;
}

#include "answer_lent.h"

/* As docs/C.md answers. Where memory is refused it stops, and goes on when it is called once more. */
static int answers_in_turn(void) {
    if (!hear("{\"seq\":5,\"type\":\"request\",\"command\":\"mine\"}")) return 0;
    if (!hear("{\"seq\":6,\"type\":\"request\",\"command\":\"completions\",\"arguments\":{\"text\":\"p\",\"column\":2}}")) return 0;
    CHECK(are_lent(2));
    written[0] = 0;
    answer_lent(&adapter);
    if (!are_lent(0)) {
        CHECK(met > 0);
        answer_lent(&adapter);
    }
    CHECK(are_lent(0) && has("\"command\":\"mine\",\"message\":\"notNow\",\"request_seq\":5,"));
    CHECK(has("{\"body\":{\"targets\":[{\"label\":\"print\"}]},\"command\":\"completions\",\"request_seq\":6,"));
    return 1;
}

static int answers(void) {
    static const char *bad[] = {"null", "0.5", "{", "\xff"};
    if (!hear("{\"seq\":1,\"type\":\"request\",\"command\":\"initialize\",\"arguments\":{\"adapterID\":\"x\"}}")) return 0;
    CHECK(has("\"supportsCompletionsRequest\":true") && has("\"supportsStepBack\":true") && are_lent(0));
    if (!hear("{\"seq\":2,\"type\":\"request\",\"command\":\"completions\",\"arguments\":{\"text\":\"pri\",\"column\":4}}")) return 0;
    if (!hear("{\"seq\":3,\"type\":\"request\",\"command\":\"mine\"}")) return 0;
    if (!hear("{\"seq\":4,\"type\":\"request\",\"command\":\"completions\",\"arguments\":{\"text\":\"x\",\"column\":2}}")) return 0;
    CHECK(!written[0] && is_lent(0, 2, "completions") && is_lent(1, 3, "mine") && is_lent(2, 4, "completions") && are_lent(3));
    for (size_t n = 0; n < sizeof bad / sizeof *bad; n++) CHECK(respond(3, true, "", bad[n]) == YT_BAD_ARGUMENTS && !written[0]);
    CHECK(respond(3, false, "\xff", "") == YT_BAD_ARGUMENTS && respond(1, true, "", "") == YT_NOT_LENT && respond(9, true, "", "") == YT_NOT_LENT);
    CHECK(are_lent(3));
    CHECK(respond(3, false, "notNow", "{\"error\":{\"id\":7,\"format\":\"Not now.\"}}") == YT_OK);
    CHECK(has("{\"body\":{\"error\":{\"format\":\"Not now.\",\"id\":7}},\"command\":\"mine\",\"message\":\"notNow\",\"request_seq\":3,\"seq\":"));
    CHECK(has("\"success\":false,\"type\":\"response\"}") && is_lent(0, 2, "completions") && is_lent(1, 4, "completions") && are_lent(2));
    CHECK(respond(3, true, "", "") == YT_NOT_LENT && !written[0]);
    CHECK(respond(2, true, "\xff", "{\"targets\":[{\"label\":\"print\"}]}") == YT_OK); /* no message is looked at */
    CHECK(has("{\"body\":{\"targets\":[{\"label\":\"print\"}]},\"command\":\"completions\",\"request_seq\":2,\"seq\":") && !has("\"message\""));
    CHECK(has("\"success\":true,\"type\":\"response\"}") && is_lent(0, 4, "completions") && are_lent(1));
    CHECK(respond(2, true, "", "") == YT_NOT_LENT && !written[0]);
    CHECK(respond(4, false, "", "") == YT_OK && has("{\"command\":\"completions\",\"message\":\"\",\"request_seq\":4,") && are_lent(0));
    return 1;
}

/* Asks the client. A request that is refused memory has changed nothing, and is asked once more. */
static uint32_t ask(const char *command, const char *arguments, uint64_t *seq) {
    uint32_t code = yt_adapter_ask(&adapter, BYTES(command), BYTES(arguments), seq, &found);
    if (code == YT_NO_MEMORY) {
        CHECK(met > 0 && found.bytes == 0);
        code = yt_adapter_ask(&adapter, BYTES(command), BYTES(arguments), seq, &found);
    }
    written[0] = 0;
    write_out();
    return code;
}

/* Whether a request is refused for this, with no number told and nothing to be written. */
static int is_refused(uint32_t code, const char *command, const char *arguments) {
    uint64_t seq = 77;
    return ask(command, arguments, &seq) == code && seq == 77 && !written[0];
}

static int wait(size_t wanted) {
    size_t count = 77;
    return yt_adapter_asked_by_name(&adapter, &count) == YT_OK && count == wanted;
}

#include "ask_for_child.h"

/* As docs/C.md asks, and as it looks for the response. Where memory is refused it is asked once more. */
static int asks_for_child(void) {
    bool done = false;
    uint8_t frame[512];
    written[0] = 0;
    uint64_t seq = ask_for_child(&adapter);
    if (seq == 0) {
        CHECK(met > 0);
        seq = ask_for_child(&adapter);
    }
    CHECK(seq == 3 && wait(1));
    CHECK(has("{\"arguments\":{\"configuration\":{\"pid\":7},\"request\":\"attach\"},\"command\":\"startDebugging\",\"seq\":3,\"type\":\"request\"}"));
    if (!take_in("{\"seq\":2,\"type\":\"request\",\"command\":\"disconnect\",\"arguments\":{\"restart\":false}}")) return 0;
    CHECK(yt_adapter_frame(&adapter, frame, sizeof frame) == YT_OK && !is_response(frame, found.frame, seq, &done) && wait(1));
    if (!take_in("{\"seq\":3,\"type\":\"response\",\"request_seq\":3,\"success\":true,\"command\":\"startDebugging\"}")) return 0;
    CHECK(yt_adapter_frame(&adapter, frame, sizeof frame) == YT_OK && wait(0));
    bool is = is_response(frame, found.frame, seq, &done);
    if (!is) {
        CHECK(met > 0);
        is = is_response(frame, found.frame, seq, &done);
    }
    CHECK(is && done && !is_response(frame, found.frame, 4, &done));
    return handle();
}

/* An adapter of few and short requests: four that may be kept, bodies of 2048 bytes, seven numbers. */
static int asks(void) {
    static const char *bad[] = {"null", "0.5", "{", "{} {}", "[1e0]", "\xff"};
    static char name[66], much[2048];
    uint64_t seq = 0;
    memset(name, 'n', 65);
    memset(much, 'x', sizeof much - 1);
    much[0] = much[sizeof much - 2] = '"';
    CHECK(is_refused(YT_WRONG_PHASE, "mine", "") && is_refused(YT_WRONG_PHASE, name, "") && is_refused(YT_BAD_ARGUMENTS, "mine", "null"));
    if (!hear("{\"seq\":1,\"type\":\"request\",\"command\":\"initialize\",\"arguments\":{\"adapterID\":\"x\"}}")) return 0;
    for (size_t n = 0; n < sizeof bad / sizeof *bad; n++) CHECK(is_refused(YT_BAD_ARGUMENTS, "mine", bad[n]));
    CHECK(is_refused(YT_BAD_ARGUMENTS, "\xff", "") && is_refused(YT_BAD_NAME, name, "") && wait(0));
    CHECK(is_refused(YT_TOO_LARGE, "mine", much) && wait(0));
    CHECK(ask("startDebugging", "{\"request\":\"launch\",\"configuration\":{}}", &seq) == YT_OK && seq == 3 && wait(1));
    CHECK(has("{\"arguments\":{\"configuration\":{},\"request\":\"launch\"},\"command\":\"startDebugging\",\"seq\":3,\"type\":\"request\"}"));
    CHECK(ask("mine", "", &seq) == YT_OK && seq == 4 && has("{\"command\":\"mine\",\"seq\":4,\"type\":\"request\"}"));
    CHECK(ask(name + 1, "7", &seq) == YT_OK && seq == 5 && has("{\"arguments\":7,\"command\":\"nnnn") && wait(3));
    CHECK(is_refused(YT_FULL, "mine", "") && is_refused(YT_BAD_NAME, name, "") && is_refused(YT_FULL, "mine", much));
    if (!hear("{\"seq\":2,\"type\":\"response\",\"request_seq\":4,\"success\":false,\"command\":\"mine\",\"message\":\"notNow\"}")) return 0;
    CHECK(!written[0] && wait(2));
    CHECK(ask("", "[]", &seq) == YT_OK && seq == 6 && has("{\"arguments\":[],\"command\":\"\",\"seq\":6,\"type\":\"request\"}") && wait(3));
    if (!hear("{\"seq\":3,\"type\":\"response\",\"request_seq\":3,\"success\":true,\"command\":\"startDebugging\"}")) return 0;
    CHECK(ask("mine", "", &seq) == YT_OK && seq == 7);
    if (!hear("{\"seq\":4,\"type\":\"response\",\"request_seq\":7,\"success\":true,\"command\":\"mine\",\"body\":{}}")) return 0;
    CHECK(is_refused(YT_SEQ_EXHAUSTED, "mine", "") && is_refused(YT_TOO_LARGE, "mine", much) && wait(2));
    return 1;
}

static void open_adapter(void) {
    yt_limits limits;
    yt_limits_usual(&limits);
    uint32_t code = yt_adapter_open(&adapter, &limits, BYTES(BASE));
    if (code == YT_NO_MEMORY) {
        CHECK(!adapter.full);
        code = yt_adapter_open(&adapter, &limits, BYTES(BASE));
    }
    CHECK(code == YT_OK);
}

static void first_session(void) {
    open_adapter();
    if (starts() && emits() && stops()) goes();
    yt_adapter_free(&adapter);
}

static void second_session(void) {
    open_adapter();
    if (moves() && refuses_to_start() && says_much()) names();
    yt_adapter_free(&adapter);
}

static uint32_t open_commands(void) {
    yt_limits limits;
    yt_limits_usual(&limits);
    return yt_adapter_open_commands(&adapter, &limits, BYTES(BASE), BYTES(""), BYTES("[\"completions\",{\"name\":\"mine\",\"inStops\":false}]"));
}

static void third_session(void) {
    uint32_t code = open_commands();
    if (code == YT_NO_MEMORY) {
        CHECK(!adapter.full);
        code = open_commands();
    }
    CHECK(code == YT_OK);
    if (answers()) answers_in_turn();
    yt_adapter_free(&adapter);
}

static uint32_t open_small(void) {
    yt_limits limits;
    yt_limits_usual(&limits);
    limits.requests = 4;
    limits.body = 2048;
    limits.seq = 7;
    return yt_adapter_open(&adapter, &limits, BYTES(BASE));
}

static void fourth_session(void) {
    open_adapter();
    if (hear("{\"seq\":1,\"type\":\"request\",\"command\":\"initialize\",\"arguments\":{\"adapterID\":\"x\"}}")) asks_for_child();
    uint32_t code = open_small();
    if (code == YT_NO_MEMORY) {
        CHECK(!adapter.full);
        code = open_small();
    }
    CHECK(code == YT_OK);
    asks();
    yt_adapter_free(&adapter);
}

/* A response that names another command, or that nothing was asked for. */
static void answers_wrongly(const char *body, uint32_t fault, size_t waits) {
    uint8_t frame[512];
    uint64_t seq = 77;
    open_adapter();
    CHECK(hear("{\"seq\":1,\"type\":\"request\",\"command\":\"initialize\",\"arguments\":{\"adapterID\":\"x\"}}"));
    CHECK(ask("mine", "", &seq) == YT_OK && seq == 3);
    int size = snprintf((char *)frame, sizeof frame, "Content-Length: %zu\r\n\r\n%s", strlen(body), body);
    CHECK(yt_adapter_take(&adapter, frame, (size_t)size, &found) == fault && wait(waits));
    CHECK(is_refused(YT_ENDED, "mine", "") && is_refused(YT_BAD_ARGUMENTS, "mine", "null"));
    yt_adapter_free(&adapter);
}

/* How much of output can be told at once. */
static void pieces(void) {
    static const char bad[][4] = {"\xff", "x\x80", "\xe2\x82", "\xc0\x80"};
    static uint8_t much[130];
    size_t length = 77;
    for (size_t n = 0; n < sizeof bad / sizeof *bad; n++) CHECK(yt_output_piece(BYTES(bad[n]), &length) == YT_BAD_ARGUMENTS && length == 77);
    CHECK(yt_output_piece(BYTES(""), &length) == YT_OK && length == 0);
    memset(much, 'x', sizeof much);
    CHECK(yt_output_piece(much, 1, &length) == YT_OK && length == 1);
    CHECK(yt_output_piece(much, 128, &length) == YT_OK && length == 128);
    CHECK(yt_output_piece(much, 130, &length) == YT_OK && length == 128);
    memcpy(much + 125, "\xf0\x9f\x90\x8d", 4); /* the four bytes 125 to 128 */
    CHECK(yt_output_piece(much, 130, &length) == YT_OK && length == 125);
    memcpy(much + 124, "\xf0\x9f\x90\x8dx", 5);
    CHECK(yt_output_piece(much, 130, &length) == YT_OK && length == 128);
    much[129] = 0xff;
    CHECK(yt_output_piece(much, 130, &length) == YT_BAD_ARGUMENTS && length == 128);
}

static void opens_commands(const yt_limits *limits) {
    static const char *none[] = {"", "{}", "\"completions\"", "[7]", "[{}]", "[\"next\"]", "[\"cancel\"]", "[\"mine\",\"mine\"]", "[{\"name\":\"mine\",\"inStops\":1}]", "["};
    for (size_t n = 0; n < sizeof none / sizeof *none; n++)
        CHECK(yt_adapter_open_commands(&adapter, limits, BYTES(BASE), BYTES("{}"), BYTES(none[n])) == YT_BAD_ARGUMENTS && !adapter.full);
    CHECK(yt_adapter_open_commands(&adapter, limits, BYTES("{}"), BYTES(""), BYTES("[]")) == YT_BAD_RECORDING && !adapter.full);
    CHECK(yt_adapter_open_commands(&adapter, limits, BYTES(BASE), BYTES("[]"), BYTES("[]")) == YT_BAD_ARGUMENTS && !adapter.full);
    CHECK(yt_adapter_open_commands(&adapter, limits, BYTES(BASE), BYTES("{\"supportsRestartFrame\":true}"), BYTES("[]")) == YT_BAD_ARGUMENTS);
    CHECK(yt_adapter_open_commands(&adapter, limits, BYTES(BASE), BYTES("{\"supportsRestartFrame\":true}"), BYTES("[\"restartFrame\"]")) == YT_OK);
    CHECK(yt_adapter_open_commands(&adapter, limits, BYTES(BASE), BYTES("{\"supportsRestartFrame\":false}"), BYTES("[\"restartFrame\"]")) == YT_BAD_ARGUMENTS);
    CHECK(yt_adapter_open_commands(&adapter, limits, BYTES(BASE), BYTES(""), BYTES("[]")) == YT_OK && yt_adapter_respond(&adapter, 1, true, BYTES(""), BYTES(""), &found) == YT_NOT_LENT);
}

static void nothing_is_held(void) {
    yt_limits limits;
    yt_limits_usual(&limits);
    yt_act act;
    yt_adapter_seen seen;
    yt_target target;
    yt_lent lent;
    uint8_t out[1];
    uint32_t line[1];
    uint64_t seq = 77;
    size_t count = 77;
    CHECK(yt_adapter_open(&adapter, &limits, BYTES("{}")) == YT_BAD_RECORDING && !adapter.full);
    CHECK(yt_adapter_take(&adapter, BYTES("x"), &found) == YT_NONE && yt_adapter_turn(&adapter, &found) == YT_NONE);
    CHECK(yt_adapter_bytes(&adapter, out, 1) == YT_NONE && yt_adapter_frame(&adapter, out, 1) == YT_NONE);
    CHECK(yt_adapter_output(&adapter, 9, BYTES("x"), &found) == YT_NONE && yt_adapter_stopped(&adapter, BYTES("x"), 1, BYTES(SHOWS), false, &found) == YT_NONE);
    CHECK(yt_adapter_output_with(&adapter, 9, BYTES("x"), BYTES("{}"), &found) == YT_NONE);
    CHECK(yt_adapter_stopped_with(&adapter, BYTES("x"), 1, BYTES(SHOWS), false, BYTES("{}"), &found) == YT_NONE);
    CHECK(yt_adapter_continued(&adapter, 1, &found) == YT_NONE && yt_adapter_exited(&adapter, 1, &found) == YT_NONE);
    CHECK(yt_adapter_learned(&adapter, BYTES("x"), true, BYTES("y"), false, 0, &found) == YT_NONE);
    CHECK(yt_adapter_learned_with(&adapter, BYTES("x"), true, BYTES("y"), false, 0, BYTES("{}"), &found) == YT_NONE);
    CHECK(yt_adapter_no_value(&adapter, BYTES("x"), BYTES("y"), false, &found) == YT_NONE);
    CHECK(yt_adapter_output_named(&adapter, BYTES("stdout"), BYTES("x"), BYTES(""), &found) == YT_NONE);
    CHECK(yt_adapter_ahead(&adapter, BYTES("{\"refuses\":\"x\"}")) == YT_NONE && yt_adapter_ahead(&adapter, BYTES("")) == YT_NONE);
    CHECK(yt_adapter_emit(&adapter, BYTES("module"), BYTES(""), &found) == YT_NONE);
    CHECK(yt_adapter_variable_with(&adapter, BYTES("x"), BYTES("y"), false, 0, BYTES("{}")) == YT_NONE);
    CHECK(yt_adapter_variable(&adapter, BYTES("x"), BYTES("y"), false, 0) == YT_NONE && yt_adapter_variables(&adapter, 1, &found) == YT_NONE);
    CHECK(yt_adapter_sources(&adapter, BYTES(BASE), &found) == YT_NONE && yt_adapter_act(&adapter, &act) == YT_NONE);
    CHECK(yt_adapter_lines(&adapter, line, 1) == YT_NONE && yt_adapter_source(&adapter, out, 1) == YT_NONE);
    CHECK(yt_adapter_name(&adapter, out, 1) == YT_NONE && yt_adapter_value(&adapter, out, 1) == YT_NONE);
    CHECK(yt_adapter_state(&adapter, &seen) == YT_NONE && yt_adapter_target(&adapter, 1, &target) == YT_NONE);
    CHECK(yt_adapter_lent(&adapter, 0, &lent) == YT_NONE && yt_adapter_lent_command(&adapter, 0, out, 1) == YT_NONE);
    CHECK(yt_adapter_respond(&adapter, 1, true, BYTES(""), BYTES(""), &found) == YT_NONE);
    CHECK(yt_adapter_ask(&adapter, BYTES("mine"), BYTES(""), &seq, &found) == YT_NONE && seq == 77);
    CHECK(yt_adapter_asked_by_name(&adapter, &count) == YT_NONE && count == 77);
    yt_adapter_free(&adapter);
    CHECK(yt_adapter_open_with(&adapter, &limits, BYTES(BASE), BYTES("{\"supportsStepBack\":false,\"supportsLogPoints\":true}")) == YT_OK);
    CHECK(yt_adapter_open_with(&adapter, &limits, BYTES(BASE), BYTES("{\"supportsRestartFrame\":true}")) == YT_BAD_ARGUMENTS && !adapter.full);
    CHECK(yt_adapter_open_with(&adapter, &limits, BYTES(BASE), BYTES("[]")) == YT_BAD_ARGUMENTS);
    opens_commands(&limits);
    CHECK(yt_adapter_open(&adapter, &limits, BYTES("{\"sources\":[{}]}")) == YT_BAD_RECORDING);
    CHECK(yt_adapter_open(&adapter, &limits, BYTES(RECORDING)) == YT_OK); /* what else it has is not looked at */
    CHECK(yt_adapter_open(&adapter, &limits, BYTES(BASE)) == YT_OK);
    CHECK(yt_adapter_stopped(&adapter, BYTES("x"), 1, BYTES(RECORDING), false, &found) == YT_BAD_RECORDING);
    CHECK(yt_adapter_stopped(&adapter, BYTES("x"), 1, BYTES(PAST), false, &found) == YT_BAD_RECORDING); /* there is one source */
    CHECK(yt_adapter_stopped(&adapter, BYTES("x"), 1, BYTES(SHOWS), false, &found) == YT_OUT_OF_TURN);
    CHECK(yt_adapter_output(&adapter, 9, BYTES("x"), &found) == YT_BAD_ARGUMENTS && yt_adapter_output(&adapter, 1, BYTES("\xff"), &found) == YT_BAD_ARGUMENTS);
    CHECK(yt_adapter_output_with(&adapter, 5, BYTES("x"), BYTES("{}"), &found) == YT_BAD_ARGUMENTS);
    CHECK(yt_adapter_output_with(&adapter, 3, BYTES("x"), BYTES("{\"a\":0.5}"), &found) == YT_BAD_ARGUMENTS);
    CHECK(yt_adapter_output_with(&adapter, 3, BYTES("x"), NULL, 0, &found) == YT_OUT_OF_TURN);
    CHECK(yt_adapter_emit(&adapter, BYTES("module"), BYTES(""), &found) == YT_WRONG_PHASE && found.bytes == 0);
    CHECK(yt_adapter_output_named(&adapter, BYTES("\xff"), BYTES("x"), BYTES(""), &found) == YT_BAD_ARGUMENTS);
    CHECK(yt_adapter_output_named(&adapter, BYTES("stdout"), BYTES("\xff"), BYTES(""), &found) == YT_BAD_ARGUMENTS);
    CHECK(yt_adapter_output_named(&adapter, BYTES("stdout"), BYTES("x"), BYTES("[]"), &found) == YT_BAD_ARGUMENTS);
    CHECK(yt_adapter_output_named(&adapter, BYTES("a\nb"), BYTES("x"), BYTES(""), &found) == YT_OUT_OF_TURN); /* that is seen first */
    CHECK(yt_adapter_stopped_with(&adapter, BYTES("x"), 1, BYTES(SHOWS), false, BYTES("7"), &found) == YT_BAD_ARGUMENTS);
    CHECK(yt_adapter_stopped(&adapter, BYTES("x"), 1, BYTES("[]"), false, &found) == YT_BAD_RECORDING);
    CHECK(yt_adapter_variable_with(&adapter, BYTES("x"), BYTES("y"), false, 0, BYTES("[]")) == YT_BAD_ARGUMENTS);
    CHECK(yt_adapter_variable_with(&adapter, BYTES("x"), BYTES("y"), false, 0, BYTES("{\"a\":0.5}")) == YT_BAD_ARGUMENTS);
    CHECK(yt_adapter_learned_with(&adapter, BYTES("x"), true, BYTES("y"), false, 0, BYTES("{"), &found) == YT_BAD_ARGUMENTS);
    CHECK(yt_adapter_no_value(&adapter, BYTES("x"), BYTES("\xff"), false, &found) == YT_BAD_ARGUMENTS);
    CHECK(yt_adapter_variable_with(&adapter, BYTES("x"), BYTES("y"), false, 0, NULL, 0) == YT_OK);
    CHECK(yt_adapter_ahead(&adapter, BYTES("\xff")) == YT_BAD_ARGUMENTS && yt_adapter_ahead(&adapter, BYTES("[]")) == YT_BAD_ARGUMENTS);
    CHECK(yt_adapter_ahead(&adapter, BYTES("{}")) == YT_BAD_ARGUMENTS && yt_adapter_ahead(&adapter, BYTES("{\"refuses\":null}")) == YT_BAD_ARGUMENTS);
    CHECK(yt_adapter_ahead(&adapter, BYTES("{\"placed\":{\"path\":\"/w/a.c\"}}")) == YT_BAD_ARGUMENTS);
    CHECK(yt_adapter_ahead(&adapter, BYTES("{\"placed\":{\"sourceReference\":1},\"breakpoints\":[]}")) == YT_OK);
    CHECK(yt_adapter_take(&adapter, BYTES("Content-Length: 2\r\n\r\n[]"), &found) == YT_BODY && found.at == 0 && found.cause == 2);
    CHECK(yt_adapter_turn(&adapter, &found) == YT_BODY && yt_adapter_continued(&adapter, 1, &found) == YT_BODY);
    CHECK(yt_adapter_respond(&adapter, 1, true, BYTES(""), BYTES(""), &found) == YT_ENDED && found.bytes == 0);
    yt_adapter_free(&adapter);
}

int main(void) {
    nothing_is_held();
    pieces();
    answers_wrongly("{\"seq\":2,\"type\":\"response\",\"request_seq\":3,\"success\":true,\"command\":\"yours\"}", YT_COMMAND_MISMATCH, 1);
    answers_wrongly("{\"seq\":2,\"type\":\"response\",\"request_seq\":4,\"success\":true,\"command\":\"mine\"}", YT_UNMATCHED, 1);
    refuse_each("first session", first_session);
    refuse_each("second session", second_session);
    refuse_each("third session", third_session);
    refuse_each("fourth session", fourth_session);
    return wrong != 0;
}
