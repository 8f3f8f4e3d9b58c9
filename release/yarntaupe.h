/* Yarntaupe for C: the Debug Adapter Protocol, proved.
 *
 * Made by scripts/make-c from the library's sources; docs/C.md says how it is used and what is trusted.
 *
 * Bytes go in by a pointer and a length, and come out by a copy into the caller's buffer, whose length an earlier call told.
 * A handle (yt_frames, yt_client, yt_adapter) is two words of the caller's, all zero for none: `yt_client c = {0};`. It is
 * never copied and used twice, and is used by one thread at a time, on the thread that opened it. Each call on a handle that
 * holds nothing answers YT_NONE. Nothing here is global, calls back, starts a thread, reads, writes or waits. */
#ifndef YARNTAUPE_H
#define YARNTAUPE_H
#include <stdbool.h>
#include <stddef.h>
#include <stdint.h>
#ifdef __cplusplus
extern "C" {
#endif

/* What calls answer. A number has one meaning in all calls. */
enum {
    YT_OK = 0, /* The call did what it says. */
    YT_READY = 1, /* A body is ready. */
    YT_FINDING = 2, /* A line breaks a rule. */
    YT_TRUNCATED = 3, /* The stream ends within a frame. */
    YT_IDLE = 4, /* No request waits. */
    YT_ENDED = 11, /* disconnect was sent, or the client is closed. */
    YT_WRONG_PHASE = 12, /* The phase does not let the command be sent, and it does not merely wait for a stop. */
    YT_NOT_SUPPORTED = 13, /* The adapter does not offer the command. */
    YT_NOT_STOPPED = 14, /* The command is sent in a stop, and the debuggee is not stopped. */
    YT_UNKNOWN_REFERENCE = 15, /* A reference among the arguments is not known. */
    YT_TOO_LARGE = 16, /* The body would be longer than the limit. */
    YT_FULL = 17, /* As many requests are outstanding as there may be. */
    YT_SEQ_EXHAUSTED = 18, /* No own sequence number is left. */
    YT_NOT_KEPT = 19, /* No request of the adapter with this number is kept. */
    YT_FRAME = 31, /* The stream is no frame. */
    YT_BODY = 32, /* A body is no message. */
    YT_UNMATCHED = 33, /* A response answers no request that is outstanding. */
    YT_COMMAND_MISMATCH = 34, /* A response names another command than its request. */
    YT_REPEATED_SEQ = 35, /* A request has the number of one that is kept. */
    YT_REFERENCE_LIMIT = 36, /* More references would be known than there may be. */
    YT_BAD_LINE = 41, /* A line is of neither side. */
    YT_NO_MESSAGE = 42, /* A line is no message. */
    YT_OUT_OF_TURN = 51, /* What the host says does not happen in the state that the debuggee is in, and is dropped. */
    YT_OUT_OF_RANGE = 52, /* What the host says is too long or too great, and is dropped. */
    YT_TOO_MANY_SOURCES = 53, /* The moment that the host shows has more sources than the debuggee, and is dropped. */
    YT_TOLD = 54, /* The holder has its variables already. */
    YT_TOO_MANY_HOLDERS = 55, /* So many holders were told that there is room for no more. */
    YT_NONE = 100, /* The handle holds nothing. */
    YT_BAD_LIMITS = 101, /* A limit is out of its range. */
    YT_BAD_COMMAND = 102, /* There is no such command. */
    YT_BAD_ARGUMENTS = 103, /* An argument is out of its range, or is not of its form. */
    YT_NO_MEMORY = 104, /* Memory was refused. */
    YT_SMALL = 105, /* The buffer is too small, and nothing was put into it. */
    YT_NOTHING = 106, /* There is nothing to put. */
    YT_BAD_RECORDING = 107, /* The bytes are no recording. */
};

/* ---- limits */

/* The limits, in the order of dap_frame::Limits. */
typedef struct {
    uint64_t header; /* Bytes of a header block. */
    uint64_t body; /* Bytes of a body. */
    uint64_t requests; /* Requests kept unanswered at once. */
    uint64_t references; /* References live at once. */
    uint64_t breakpoints; /* Breakpoints set at once. */
    uint64_t seq; /* The greatest sequence number that an end gives. */
    uint64_t reference; /* The greatest number that a reference has. */
} yt_limits;

/* The defaults. */
void yt_limits_usual(yt_limits *limits);

/* ---- found */

/* What a piece of a stream did. */
typedef struct {
    size_t used; /* How many bytes of the piece were used. */
    size_t bytes; /* How many bytes are to be written. */
    size_t frame; /* How long the frame is that became whole; 0 where none did. */
    uint64_t at; /* Where the stream is refused: the offset of the frame, or the number of the message, that the code speaks of. */
    uint32_t cause; /* Why a frame or a body is refused, in the order of their refusals, from 1; else 0. */
} yt_found;

/* ---- frames */

/* A reader, or none. All zero is none. */
typedef struct {
    void *at;
    bool full;
} yt_frames;

/* What a piece did. */
typedef struct {
    size_t used; /* How many bytes were used. */
    size_t body; /* How long the body is that is ready; 0 where none is. */
    uint64_t offset; /* Where the refused frame begins, in bytes of the stream. */
    uint32_t cause; /* Why it is refused, from 1: the block is too long, a line is no field, no length, two lengths, a bad length, the body is too long. 0 where none is. */
} yt_fed;

/* Opens a reader that no byte has reached, with room for a header block or a body of the limits' size, and lets go
 * what the handle held. Where it answers other than YT_OK, the handle holds none. */
uint32_t yt_frames_open(yt_frames *frames, const yt_limits *limits);

/* Lets go what the handle held. */
void yt_frames_free(yt_frames *frames);

/* Uses the bytes of a piece up to the end of one frame at most: YT_READY where a body is ready. */
uint32_t yt_frames_feed(yt_frames *frames, const uint8_t *piece, size_t piece_len, yt_fed *fed);

/* Puts the ready body into a buffer: YT_NOTHING where none is ready. */
uint32_t yt_frames_body(yt_frames *frames, uint8_t *out, size_t out_len);

/* Gives the ready body up, or does nothing. */
uint32_t yt_frames_release(yt_frames *frames);

/* How the stream ends, if no more bytes come: YT_OK on a border of two frames, YT_TRUNCATED within one, YT_FRAME
 * where one was refused. */
uint32_t yt_frames_finish(yt_frames *frames);

/* ---- write */

/* Puts the frame of a body into a buffer. size is how long the frame is, also where the buffer is too small for it. */
uint32_t yt_frame(const uint8_t *body, size_t body_len, uint8_t *out, size_t out_len, size_t *size);

/* ---- heading */

/* What a message says of itself. */
typedef struct {
    uint64_t seq;
    uint64_t request_seq; /* The number of the request that a response answers; 0 of other messages. */
    size_t name; /* How long the command, the event or the type is, in bytes. */
    uint32_t kind; /* 1 of a request, 2 of a response, 3 of an event, 4 of another message. */
    bool success; /* Of a response, whether the request succeeded. */
} yt_heading_found;

/* Reads the heading of a body, and puts its command, its event or its type into the buffer. YT_NOTHING where the
 * body is no message, and where memory is refused; YT_SMALL where the name has no room, with all else told. */
uint32_t yt_heading(const uint8_t *body, size_t body_len, yt_heading_found *heading, uint8_t *name, size_t name_len);

/* ---- check */

/* What is found of a transcript. */
typedef struct {
    uint64_t line; /* The first line that breaks a rule, is of neither side or is no message, from 1; else 0. */
    uint32_t rule; /* The first rule that it breaks, 1 to 7; else 0. */
} yt_verdict;

/* Judges a transcript: YT_OK where it keeps the rules, YT_FINDING where a line breaks one, YT_BAD_LINE and
 * YT_NO_MESSAGE where it is no transcript. any_seq says whose numbers are not tested: 0 of none, 1 of the client, 2
 * of the adapter, 3 of both. */
uint32_t yt_check(const uint8_t *text, size_t text_len, uint32_t any_seq, yt_verdict *verdict);

/* Puts into a buffer, in one sentence, why a line of a transcript breaks a rule, as yt_check has found. size is how
 * long it is, also where the buffer is too small for it: the first call may lend a buffer of no bytes. YT_NOTHING
 * where the line keeps the rule, and where there is no such line. */
uint32_t yt_explain(const uint8_t *text, size_t text_len, uint64_t line, uint32_t rule, uint8_t *out, size_t out_len, size_t *size);

/* ---- client handle */

/* A client, or none. All zero is none. */
typedef struct {
    void *at;
    bool full;
} yt_client;

/* ---- client */

/* What was sent. */
typedef struct {
    uint64_t seq; /* The request's own number, which its response names as request_seq. */
    size_t bytes; /* How many bytes are to be written. */
} yt_sent;

/* Opens a client, and lets go what the handle held. Where it answers other than YT_OK, the handle holds none. */
uint32_t yt_client_open(yt_client *client, const yt_limits *limits);

/* Lets go what the handle held. */
void yt_client_free(yt_client *client);

/* Sends a request: its command, and its arguments as JSON, or no bytes where it has none. What is to be written is
 * fetched by yt_client_bytes before the next call on the handle. A refused call changes nothing, and the client goes
 * on. */
uint32_t yt_client_send(yt_client *client, const uint8_t *command, size_t command_len, const uint8_t *arguments, size_t arguments_len, yt_sent *sent);

/* Answers a request of the adapter that is kept: whether the command runs in a terminal, and the numbers of its
 * process and of the shell's, 0 where one is not known. bytes is how many bytes are to be written. A refused answer
 * changes nothing, and the client goes on. */
uint32_t yt_client_answer(yt_client *client, uint64_t request_seq, bool runs, uint32_t process, uint32_t shell, size_t *bytes);

/* Uses the bytes of a piece up to the end of one frame at most. What is to be written is fetched by yt_client_bytes,
 * and the frame that became whole by yt_client_frame, before the next call on the handle. Where it answers other
 * than YT_OK, the client is closed, and answers that from then on; but where it is YT_NO_MEMORY, it may have been
 * refused before anything was taken, and the same piece can be given once more. */
uint32_t yt_client_take(yt_client *client, const uint8_t *piece, size_t piece_len, yt_found *found);

/* Puts what is to be written into a buffer. */
uint32_t yt_client_bytes(yt_client *client, uint8_t *out, size_t out_len);

/* Puts the frame whose message the last call of yt_client_take delivered into a buffer, with its header block:
 * YT_NOTHING where it delivered none. */
uint32_t yt_client_frame(yt_client *client, uint8_t *out, size_t out_len);

/* ---- client state */

/* What is seen of a client. */
typedef struct {
    size_t outstanding; /* Requests that were sent and are not answered yet. */
    size_t incoming; /* Requests of the adapter that are kept, which wait for yt_client_answer. */
    uint64_t oldest_incoming; /* The number of the oldest one; 0 where none is kept. */
    size_t references; /* References that are known. */
    size_t held; /* Bytes held of the frame under way. */
    uint32_t phase; /* 0 fresh, 1 initializing, 2 configuring, 3 running, 4 stopped, 5 resuming, 6 exited, 7 ended. */
    bool ready; /* The event initialized came. */
} yt_client_seen;

/* What the adapter offers. */
typedef struct {
    bool breakpoint_locations;
    bool cancel;
    bool completions;
    bool configuration_done;
    bool exception_info;
    bool function_breakpoints;
    bool loaded_sources;
    bool modules;
    bool restart;
    bool set_variable;
    bool step_back;
    bool terminate;
} yt_capabilities;

/* Tells what is seen of a client. */
uint32_t yt_client_state(yt_client *client, yt_client_seen *state);

/* Tells what the adapter offers: the flags of the last success of initialize, as capabilities events changed them. */
uint32_t yt_client_capabilities(yt_client *client, yt_capabilities *capabilities);

/* ---- layout */

/* The size of each struct, in bytes. */
typedef struct {
    size_t limits;
    size_t found;
    size_t frames;
    size_t fed;
    size_t heading_found;
    size_t verdict;
    size_t client;
    size_t sent;
    size_t client_seen;
    size_t capabilities;
    size_t sizes;
} yt_sizes;

/* Tells the size of each struct. */
void yt_sizes_of(yt_sizes *sizes);

/* ---- adapter handle */

/* An adapter, or none. All zero is none. */
typedef struct {
    void *at;
    bool full;
} yt_adapter;

/* ---- adapter */

/* Opens an adapter, and lets go what the handle held. base is a recording (docs/RECORDINGS.md) whose sources are the
 * debuggee's; its moments do not matter. Where it answers other than YT_OK, the handle holds none. */
uint32_t yt_adapter_open(yt_adapter *adapter, const yt_limits *limits, const uint8_t *base, size_t base_len);

/* Lets go what the handle held. */
void yt_adapter_free(yt_adapter *adapter);

/* Uses the bytes of a piece up to the end of one frame at most. What is to be written is fetched by
 * yt_adapter_bytes, and the frame that became whole by yt_adapter_frame, before the next call on the handle. Where
 * it answers other than YT_OK, the adapter is closed, and answers that from then on; but where it is YT_NO_MEMORY,
 * it may have been refused before anything was taken, and the same piece can be given once more. */
uint32_t yt_adapter_take(yt_adapter *adapter, const uint8_t *piece, size_t piece_len, yt_found *found);

/* Handles the request that came first of those that are not parked: YT_IDLE where none waits. What is to be written
 * is fetched by yt_adapter_bytes before the next call on the handle. */
uint32_t yt_adapter_turn(yt_adapter *adapter, yt_found *found);

/* Puts what is to be written into a buffer. */
uint32_t yt_adapter_bytes(yt_adapter *adapter, uint8_t *out, size_t out_len);

/* Puts the frame whose message the last call of yt_adapter_take delivered into a buffer, with its header block:
 * YT_NOTHING where it delivered none. */
uint32_t yt_adapter_frame(yt_adapter *adapter, uint8_t *out, size_t out_len);

/* ---- telling */

/* Tells output: category is 0 console, 1 stdout, 2 stderr; at most 128 bytes of UTF-8. */
uint32_t yt_adapter_output(yt_adapter *adapter, uint32_t category, const uint8_t *output, size_t output_len, yt_found *found);

/* Tells a stop: a reason of at most 64 bytes, the thread that stopped, and a recording (docs/RECORDINGS.md) whose
 * first moment is what is shown. later says that more of it is told later, by yt_adapter_variables. */
uint32_t yt_adapter_stopped(yt_adapter *adapter, const uint8_t *reason, size_t reason_len, int64_t thread, const uint8_t *shows, size_t shows_len, bool later, yt_found *found);

/* Tells that it went on by itself. */
uint32_t yt_adapter_continued(yt_adapter *adapter, int64_t thread, yt_found *found);

/* Tells that it exited. */
uint32_t yt_adapter_exited(yt_adapter *adapter, int32_t code, yt_found *found);

/* Tells what a text comes to, or that it has no value, between yt_adapter_take of the request that asks it and the
 * turn. holder holds the parts of the value, where it has some. */
uint32_t yt_adapter_learned(yt_adapter *adapter, const uint8_t *asked, size_t asked_len, bool known, const uint8_t *value, size_t value_len, bool has_parts, uint64_t holder, yt_found *found);

/* One more of the variables that yt_adapter_variables tells next. holder holds its parts, where it has some. */
uint32_t yt_adapter_variable(yt_adapter *adapter, const uint8_t *name, size_t name_len, const uint8_t *value, size_t value_len, bool has_parts, uint64_t holder);

/* Tells the variables of a holder that has none yet: those that yt_adapter_variable has gathered since the last
 * call. */
uint32_t yt_adapter_variables(yt_adapter *adapter, uint64_t holder, yt_found *found);

/* Tells of more sources: those of a recording (docs/RECORDINGS.md) come behind those there are. Its moments do not
 * matter. */
uint32_t yt_adapter_sources(yt_adapter *adapter, const uint8_t *sources, size_t sources_len, yt_found *found);

/* ---- acts */

/* What the host has to do. */
typedef struct {
    int64_t thread; /* Of 2, the thread. */
    uint64_t holder; /* Of 5, what holds the variable. */
    size_t lines; /* Of 4, how many lines there are, for yt_adapter_lines. */
    size_t source; /* Of 4, how long the path of the source is, for yt_adapter_source; 0 where reference names it. */
    size_t name; /* Of 5, how long the variable's name is, for yt_adapter_name. */
    size_t value; /* Of 5, how long its value is, for yt_adapter_value. */
    uint32_t reference; /* Of 4, the reference of the source; 0 where its path names it. */
    uint32_t kind; /* 1 start, 2 go on, 3 pause, 4 these lines are in place of all others of the source, 5 set a variable, 6 end. */
    uint32_t how; /* Of 2: 0 step in, 1 next, 2 step out, 3 continue, 4 step back, 5 reverse. */
} yt_act;

/* Fetches what the host has to do next: YT_NOTHING where nothing is left. It is called after each turn, and after
 * each piece, until it answers that. Where it is YT_NO_MEMORY, no act is lost, and it can be called again. */
uint32_t yt_adapter_act(yt_adapter *adapter, yt_act *act);

/* Puts the lines of the act that was fetched last into a buffer. */
uint32_t yt_adapter_lines(yt_adapter *adapter, uint32_t *out, size_t out_len);

/* Puts the path of the source of the act that was fetched last into a buffer. */
uint32_t yt_adapter_source(yt_adapter *adapter, uint8_t *out, size_t out_len);

/* Puts the name of the variable of the act that was fetched last into a buffer. */
uint32_t yt_adapter_name(yt_adapter *adapter, uint8_t *out, size_t out_len);

/* Puts the value of the variable of the act that was fetched last into a buffer. */
uint32_t yt_adapter_value(yt_adapter *adapter, uint8_t *out, size_t out_len);

/* ---- adapter state */

/* What is seen of an adapter. */
typedef struct {
    size_t kept; /* Requests that are kept. */
    size_t references; /* References that are live. */
    size_t breakpoints; /* Breakpoints that are set. */
    size_t asked; /* Own requests that are not answered: at most one, which asks for a terminal. */
    size_t held; /* Bytes held of the frame under way. */
    uint32_t phase; /* 0 fresh, 1 ready, 2 configured, 3 parked, 4 asked, 5 running, 6 stopped, 7 exited, 8 ended. */
} yt_adapter_seen;

/* What a number of the client names. */
typedef struct {
    uint64_t object; /* The debuggee's own number. */
    uint32_t kind; /* 1 a stack frame, 2 what holds variables. */
} yt_target;

/* Tells what is seen of an adapter. */
uint32_t yt_adapter_state(yt_adapter *adapter, yt_adapter_seen *state);

/* Finds the frame, or what holds variables, that a number of the client names while it is live: a frameId or a
 * variablesReference of a request. YT_NOTHING where it names none. */
uint32_t yt_adapter_target(yt_adapter *adapter, uint32_t number, yt_target *target);

/* ---- adapter layout */

/* The size of each struct of the adapter, in bytes. */
typedef struct {
    size_t adapter;
    size_t act;
    size_t adapter_seen;
    size_t target;
    size_t adapter_sizes;
} yt_adapter_sizes;

/* Tells the size of each struct of the adapter. */
void yt_adapter_sizes_of(yt_adapter_sizes *sizes);

#ifdef __cplusplus
}
#endif
#endif
