/* Tests of nodes: prints each that fails, and `N passed, M failed`. */
#include "testing.h"

/* The log of a writer, as docs/FORMATS.md has it: its head of 192 bytes, the call, and the takes of `got` and `ack`. */
static const char written_head[] =
    "e009c6ff tellwydar log 1\n69771c8e cluster 7\nded1c05f process 0\n91ba8d59 chapter 0\nb56a2825 begun 12\n"
    "2f99698f tellwydar record 1\n95118964 front linear\nc2025397 processes 2\ndc21685e registers x\n";
static const char called_line[] = "fbc16c9f 0 call write x 5\n";
static const char got_line[] = "92e249cb 0 take 1 000a01020000000000000001\n";
static const char ack_line[] = "b9d266ce 0 take 1 001301010000000000000000020000000000000002 = done 0\n";

/* A node with the text of its log, as it is written down. */
struct written {
    struct tellwydar_node *node;
    uint8_t text[4096];
    size_t length;
};

static struct tellwydar_log of_process(uint8_t process) {
    struct tellwydar_log log = {
        .cluster = 7, .begun = 12, .front = TELLWYDAR_LINEAR, .processes = 2, .process = process};
    return log;
}

static uint32_t begun(const struct tellwydar_log *log, const char *names, struct written *it) {
    it->length = 0;
    return tellwydar_node_begin(log, (const uint8_t *)names, strlen(names), it->text, sizeof it->text, &it->length);
}

static uint32_t reopened(struct written *it, size_t length, uint64_t durable) {
    return tellwydar_node_open(it->node, it->text, length, durable);
}

static uint64_t seen(const struct written *it, uint32_t what) { return tellwydar_node_look(it->node, what, 0); }

/* Writes the last step's bytes behind the log, and tells how many there are. */
static size_t write_down(struct written *it) {
    size_t count = tellwydar_node_bytes(it->node, it->text + it->length, sizeof it->text - it->length);
    it->length += count;
    return count;
}

/* Whether the log ends in this line. */
static int ends_in(const struct written *it, const char *line) {
    size_t count = strlen(line);
    return it->length >= count && memcmp(it->text + it->length - count, line, count) == 0;
}

/* Whether the frames that were handed out last are these bytes. */
static int hands_bytes(const struct written *it, const uint8_t *bytes, size_t count) {
    uint8_t room[64];
    size_t length;
    return tellwydar_node_frames(it->node, room, sizeof room, &length) == 0 && length == count &&
           memcmp(room, bytes, count) == 0;
}

static void beginnings(struct written *it) {
    struct tellwydar_log log = of_process(0), front = log, shape = log, process = of_process(2);
    front.front = 3;
    shape.processes = 65;
    expect("no such front end", begun(&front, "x", it) == TELLWYDAR_NO_FRONT && it->length == 0);
    expect("65 processes", begun(&shape, "x", it) == TELLWYDAR_NO_SHAPE);
    expect("no such process", begun(&process, "x", it) == TELLWYDAR_NO_PROCESS);
    expect("no name", begun(&log, "", it) == TELLWYDAR_BAD_NAMES);
    expect("a capital", begun(&log, "X", it) == TELLWYDAR_BAD_NAMES);
    expect("a name twice", begun(&log, "x x", it) == TELLWYDAR_BAD_NAMES);
    expect("a second line", begun(&log, "x\nx", it) == TELLWYDAR_BAD_NAMES && it->length == 0);
    expect("begun", begun(&log, "x", it) == 0 && it->length == strlen(written_head) && ends_in(it, written_head));
    uint8_t room[4] = {9, 9, 9, 9};
    size_t length = 0;
    expect("the room has the front",
           tellwydar_node_begin(&log, (const uint8_t *)"x", 1, room, 3, &length) == 0 && length == 192);
    expect("and no more", memcmp(room, written_head, 3) == 0 && room[3] == 9);
}

/* Logs that a crash kept from being begun: each part of a head, with zeros behind it. A step
 * behind it is another matter. */
static void headless(struct written *it) {
    struct tellwydar_log log = of_process(0), other = of_process(1);
    size_t whole = strlen(written_head);
    uint8_t text[512] = {0};
    uint32_t told = 9;
    int all = 1;
    for (size_t length = 0; length < whole; length++) {
        memset(text, 0, sizeof text);
        memcpy(text, written_head, length);
        all &= tellwydar_node_is_headless(&log, text, length, &told) == 0 && told == 1;
        all &= tellwydar_node_is_headless(&log, text, sizeof text, &told) == 0 && told == 1;
    }
    expect("each part of a head", all);
    expect("of another process", tellwydar_node_is_headless(&other, text, whole - 1, &told) == 0 && told == 0);
    expect("the whole head", tellwydar_node_is_headless(&log, it->text, it->length, &told) == 0 && told == 0);
}

/* What the head of a log says, whatever stands behind it, and how long the log is up to an entry. */
static void heads(struct written *it) {
    struct tellwydar_log log = {.cluster = 1};
    uint8_t room[4] = {9, 9, 9, 9};
    size_t length = 5;
    expect("no head", tellwydar_log_head(it->text, 191, &log, room, 3, &length) == TELLWYDAR_NOT_A_LOG);
    expect("nothing has changed", log.cluster == 1 && room[0] == 9 && length == 5);
    expect("a head", tellwydar_log_head(it->text, 200, &log, room, 3, &length) == 0 && length == 1);
    expect("its names", room[0] == 'x' && room[1] == 9);
    expect("its log", log.cluster == 7 && log.process == 0 && log.chapter == 0 && log.begun == 12);
    expect("its cluster", log.front == TELLWYDAR_LINEAR && log.processes == 2);
    struct tellwydar_log other = {UINT64_MAX, 5, 0, TELLWYDAR_LOCAL_WRITE, 64, 63};
    struct written long_one = {.length = 0};
    expect("another head", begun(&other, "abc de f", &long_one) == 0);
    expect("names cut off",
           tellwydar_log_head(long_one.text, long_one.length, &log, room, 3, &length) == 0 && length == 8);
    expect("the room has the front", memcmp(room, "abc", 3) == 0 && room[3] == 9);
    expect("its numbers", log.cluster == UINT64_MAX && log.chapter == 5 && log.begun == 0 && log.process == 63);
    expect("its shape", log.front == TELLWYDAR_LOCAL_WRITE && log.processes == 64);
    expect("the head alone", tellwydar_log_part(it->text, it->length, 0) == strlen(written_head));
    size_t first = strlen(written_head) + strlen(called_line);
    expect("one entry", tellwydar_log_part(it->text, it->length, 1) == first);
    expect("two entries", tellwydar_log_part(it->text, it->length, 2) == first + strlen(got_line));
}

/* Texts with which no node is opened. What was open stays so. */
static void unopened(struct written *it) {
    char text[512];
    expect("no text",
           tellwydar_node_open(it->node, it->text, 0, 0) == TELLWYDAR_NOT_A_LOG && seen(it, TELLWYDAR_NODE_PLACE) == 1);
    int count = snprintf(text, sizeof text, "%s37eef420 0 call read x\nbee94b51 0 call read x\n", written_head);
    expect("a call while one runs",
           tellwydar_node_open(it->node, (uint8_t *)text, (size_t)count, 0) == TELLWYDAR_NOT_A_STEP);
    expect("is the second entry", seen(it, TELLWYDAR_NODE_PLACE) == 1);
    count = snprintf(text, sizeof text, "%sea782da5 1 call read x\n", written_head);
    expect("a call of another", tellwydar_node_open(it->node, (uint8_t *)text, (size_t)count, 0) == TELLWYDAR_FOREIGN);
    expect("is the first entry", seen(it, TELLWYDAR_NODE_PLACE) == 0);
}

/* The writer's steps, each handed out once its entry is durable. */
static void write_ahead(struct written *it) {
    uint8_t sent[33] = {1}, counted[13] = {1};
    memcpy(sent + 1, cast, sizeof cast);
    memcpy(counted + 1, got, sizeof got);
    expect("it has heard from none",
           tellwydar_node_call(it->node, TELLWYDAR_WRITE, 0, 5) == TELLWYDAR_UNHEARD && write_down(it) == 0);
    expect("no other of this number", tellwydar_node_hear(it->node, 0, 0) == TELLWYDAR_NO_PROCESS);
    expect("it hears the other", tellwydar_node_hear(it->node, 1, 0) == 0 && seen(it, TELLWYDAR_NODE_HEARD_ALL) == 1);
    expect("called",
           tellwydar_node_call(it->node, TELLWYDAR_WRITE, 0, 5) == 0 && write_down(it) > 0 && ends_in(it, called_line));
    expect("no such operation", tellwydar_node_call(it->node, 3, 0, 5) == TELLWYDAR_NO_EVENT && write_down(it) == 0);
    expect("nothing is durable",
           tellwydar_node_hand_out(it->node) == TELLWYDAR_NOTHING_DUE && hands_bytes(it, sent, 0));
    expect("nor can two entries be", tellwydar_node_mark_durable(it->node, 2) == TELLWYDAR_NOT_LOGGED);
    expect("nothing is due yet", tellwydar_node_hand_out(it->node) == TELLWYDAR_NOTHING_DUE);
    expect("the call is durable",
           tellwydar_node_mark_durable(it->node, 1) == 0 && seen(it, TELLWYDAR_NODE_DURABLE) == 1);
    expect("its cast goes to the other",
           tellwydar_node_hand_out(it->node) == TELLWYDAR_ACCEPTED && hands_bytes(it, sent, sizeof sent));
    expect("once", tellwydar_node_hand_out(it->node) == TELLWYDAR_NOTHING_DUE && hands_bytes(it, sent, 0));
    expect("busy", tellwydar_node_call(it->node, TELLWYDAR_READ, 0, 0) == TELLWYDAR_BUSY && write_down(it) == 0);
    expect("bytes that are no frame", tellwydar_node_take(it->node, 1, ack, sizeof ack - 1) == TELLWYDAR_NOT_A_FRAME);
    expect("the count",
           tellwydar_node_take(it->node, 1, got, sizeof got) == 0 && write_down(it) > 0 && ends_in(it, got_line));
    expect("done",
           tellwydar_node_take(it->node, 1, ack, sizeof ack) == 0 && write_down(it) > 0 && ends_in(it, ack_line));
    expect("three entries", seen(it, TELLWYDAR_NODE_LOGGED) == 3 && seen(it, TELLWYDAR_NODE_DURABLE) == 1);
    expect("no reply yet", tellwydar_node_hand_out(it->node) == TELLWYDAR_NOTHING_DUE);
    expect("all are durable", tellwydar_node_mark_durable(it->node, 3) == 0);
    expect("of the count nothing", tellwydar_node_hand_out(it->node) == TELLWYDAR_ACCEPTED && hands_bytes(it, sent, 0));
    expect("the reply",
           tellwydar_node_hand_out(it->node) == TELLWYDAR_DONE && hands_bytes(it, counted, sizeof counted));
    expect("as the first", seen(it, TELLWYDAR_OWN_REPLY_PLACE) == 0);
}

/* A crash tore the last line. */
static void torn(struct written *it) {
    size_t cut = it->length - 5, whole = it->length - strlen(ack_line);
    expect("an entry that was durable",
           reopened(it, cut, 3) == TELLWYDAR_DAMAGED && seen(it, TELLWYDAR_NODE_PLACE) == 2);
    expect("and all is as it was", seen(it, TELLWYDAR_NODE_LOGGED) == 3 && seen(it, TELLWYDAR_OWN_RUNNING) == 0);
    expect("two were durable", reopened(it, cut, 2) == 0 && seen(it, TELLWYDAR_NODE_LOGGED) == 2);
    expect("the line is cut off", seen(it, TELLWYDAR_NODE_WHOLE) == whole);
    it->length = whole;
    expect("it waits for its cast", seen(it, TELLWYDAR_OWN_RUNNING) == 1 && seen(it, TELLWYDAR_NODE_HEARD_ALL) == 0);
    expect("nothing is due", tellwydar_node_hand_out(it->node) == TELLWYDAR_NOTHING_DUE);
    expect("taken again",
           tellwydar_node_take(it->node, 1, ack, sizeof ack) == 0 && write_down(it) > 0 && ends_in(it, ack_line));
    expect("a count too high",
           tellwydar_node_hear(it->node, 1, 2) == TELLWYDAR_LOG_LOST && seen(it, TELLWYDAR_NODE_LOST) == 1);
    expect("stops it", tellwydar_node_tick(it->node) == TELLWYDAR_LOG_LOST && write_down(it) == 0);
    expect("and its output",
           tellwydar_node_mark_durable(it->node, 3) == 0 && tellwydar_node_hand_out(it->node) == TELLWYDAR_NOTHING_DUE);
}

/* Of a node that hears nothing of process 1: the looks at which something is due, with what it is. */
static void looks(struct written *it) {
    struct tellwydar_log log = of_process(0);
    expect("a handle with nothing behind it",
           tellwydar_node_new(&it->node) == 0 && tellwydar_node_came(it->node, 1) == 0 &&
               tellwydar_node_watch(it->node, 1) == 0);
    expect("a log", begun(&log, "x", it) == 0 && reopened(it, it->length, 0) == 0);
    for (uint32_t look = 1; look <= 126; look++) {
        uint32_t due = (look & (look + 1)) == 0 ? TELLWYDAR_GREETS : 0;
        expect("a look", tellwydar_node_watch(it->node, 1) == due);
    }
    expect("not for long", tellwydar_node_known(it->node, TELLWYDAR_PEER_SILENT, 1) == 0);
    expect("the look 127", tellwydar_node_watch(it->node, 1) == TELLWYDAR_GREETS);
    expect("for long", tellwydar_node_known(it->node, TELLWYDAR_PEER_SILENT, 1) == 1);
    expect("something came", tellwydar_node_came(it->node, 1) == 0);
    expect("not for long again", tellwydar_node_known(it->node, TELLWYDAR_PEER_SILENT, 1) == 0);
    expect("unheard", tellwydar_node_known(it->node, TELLWYDAR_PEER_HEARD, 1) == 0);
    expect("heard", tellwydar_node_hear(it->node, 1, 0) == 0 &&
                        tellwydar_node_known(it->node, TELLWYDAR_PEER_HEARD, 1) == 1);
    expect("a call", tellwydar_node_call(it->node, TELLWYDAR_WRITE, 0, 5) == 0 && write_down(it) > 0);
    expect("the frame is seen", tellwydar_node_watch(it->node, 1) == 0);
    expect("the frame is unacknowledged", tellwydar_node_watch(it->node, 1) == TELLWYDAR_TICKS);
    tellwydar_node_free(it->node);
}

/* A node that writes at once, whose first frame was lost: the others are put again as the peer acknowledges them. */
static void dropped(struct written *it) {
    const uint8_t put_again[] = {0, 10, 1, 2, 0, 0, 0, 0, 0, 0, 0, 16};
    struct tellwydar_log log = of_process(0);
    log.front = TELLWYDAR_LOCAL_WRITE;
    expect("a log",
           tellwydar_node_new(&it->node) == 0 && begun(&log, "x", it) == 0 && reopened(it, it->length, 0) == 0);
    expect("it hears the other", tellwydar_node_hear(it->node, 1, 0) == 0);
    for (int write = 0; write < 20; write++)
        expect("a write", tellwydar_node_call(it->node, TELLWYDAR_WRITE, 0, 5) == 0);
    expect("a look", tellwydar_node_watch(it->node, 1) == 0 && tellwydar_node_watch(it->node, 1) == TELLWYDAR_TICKS);
    expect("nothing is acknowledged", tellwydar_node_came(it->node, 1) == 0);
    expect("what was put again is acknowledged", tellwydar_node_take(it->node, 1, put_again, sizeof put_again) == 0);
    expect("a tick is due", tellwydar_node_came(it->node, 1) == TELLWYDAR_TICKS);
    expect("once", tellwydar_node_came(it->node, 1) == 0);
    tellwydar_node_free(it->node);
}

/* The other process: it takes the cast, and reads its value once the writer's count and acknowledgement are there. */
static void other_node(struct written *it) {
    struct tellwydar_log log = of_process(1);
    uint8_t answered[35] = {0};
    memcpy(answered + 1, got, sizeof got);
    memcpy(answered + 14, ack, sizeof ack);
    expect("a handle",
           tellwydar_node_new(&it->node) == 0 && begun(&log, "x", it) == 0 && reopened(it, it->length, 0) == 0);
    expect("taken", tellwydar_node_take(it->node, 0, cast, sizeof cast) == 0 && write_down(it) > 0);
    expect("durable", tellwydar_node_mark_durable(it->node, 1) == 0);
    expect("its answer",
           tellwydar_node_hand_out(it->node) == TELLWYDAR_ACCEPTED && hands_bytes(it, answered, sizeof answered));
    expect("what it says when they meet", tellwydar_node_known(it->node, TELLWYDAR_PEER_EXPECTED, 0) == 1);
    expect("the value", seen(it, TELLWYDAR_OWN_REGISTER) == 5);
    expect("it hears the writer", tellwydar_node_hear(it->node, 0, 1) == 0);
    expect("a compare-and-swap", tellwydar_node_compare_and_swap(it->node, 0, 5, 6) == 0 && write_down(it) > 0);
    expect("puts again", tellwydar_node_tick(it->node) == 0 && write_down(it) > 0);
    expect("reopened", reopened(it, it->length, 1) == 0 && seen(it, TELLWYDAR_NODE_LOGGED) == 3);
    tellwydar_node_free(it->node);
}

/* Makes durable what a node logged, and has the other one take all frames that it hands out. It gives the last reply's
 * number, and its value. */
static uint32_t carry(struct written *from, uint8_t sender, struct written *to, uint64_t *value) {
    uint32_t replied = 0, code;
    tellwydar_node_mark_durable(from->node, seen(from, TELLWYDAR_NODE_LOGGED));
    while ((code = tellwydar_node_hand_out(from->node)) != TELLWYDAR_NOTHING_DUE) {
        uint8_t room[128];
        size_t length = 0;
        if (code != TELLWYDAR_ACCEPTED) {
            replied = code;
            *value = seen(from, TELLWYDAR_OWN_REPLY_VALUE);
        }
        tellwydar_node_frames(from->node, room, sizeof room, &length);
        for (size_t at = 0; at < length; at += 3 + (size_t)room[at + 2]) {
            tellwydar_node_take(to->node, sender, room + at + 1, 2 + (size_t)room[at + 2]);
            write_down(to);
        }
    }
    return replied;
}

/* Two nodes meet; one writes, and the other one reads the value. */
static void write_and_read(struct written *writer, struct written *reader) {
    struct written *both[] = {writer, reader};
    uint64_t value = 0;
    for (uint8_t me = 0; me < 2; me++) {
        struct tellwydar_log log = of_process(me);
        struct written *it = both[me];
        expect("a node", tellwydar_node_new(&it->node) == 0 && begun(&log, "x", it) == 0);
        expect("that meets", reopened(it, it->length, 0) == 0 && tellwydar_node_hear(it->node, !me, 0) == 0);
    }
    expect("a write", tellwydar_node_call(writer->node, TELLWYDAR_WRITE, 0, 5) == 0 && write_down(writer) > 0);
    expect("its cast", carry(writer, 0, reader, &value) == 0);
    expect("is acknowledged", carry(reader, 1, writer, &value) == 0);
    expect("and the write done", carry(writer, 0, reader, &value) == TELLWYDAR_DONE);
    expect("a read", tellwydar_node_call(reader->node, TELLWYDAR_READ, 0, 0) == 0 && write_down(reader) > 0);
    expect("its cast", carry(reader, 1, writer, &value) == 0);
    expect("is acknowledged", carry(writer, 0, reader, &value) == 0);
    expect("and it finds the value", carry(reader, 1, writer, &value) == TELLWYDAR_VALUE && value == 5);
    for (uint8_t me = 0; me < 2; me++) {
        struct written *it = both[me];
        uint64_t logged = seen(it, TELLWYDAR_NODE_LOGGED);
        expect("it is reopened", reopened(it, it->length, logged) == 0);
        expect("after its log", seen(it, TELLWYDAR_NODE_LOGGED) == logged);
        expect("with the value", seen(it, TELLWYDAR_OWN_REGISTER) == 5);
        tellwydar_node_free(it->node);
    }
}

/* A chapter of two processes, as the first one sees it: what it tells, and states of the other one, by hand. */
static void chapters(struct written *it) {
    struct tellwydar_log log = of_process(0);
    uint8_t room[32], told[25] = {3}, over[25] = {3};
    size_t length = 0;
    over[16] = 1; /* it accepted one body, and the first one put none */
    expect("a node", tellwydar_node_new(&it->node) == 0 && begun(&log, "x", it) == 0);
    expect("none yet", tellwydar_node_tell_state(it->node, 1, room, sizeof room, &length) == TELLWYDAR_CLOSED &&
                           tellwydar_node_is_over(it->node) == 0);
    expect("opened", reopened(it, it->length, 0) == 0 && tellwydar_node_is_over(it->node) == 0);
    expect("it tells", tellwydar_node_tell_state(it->node, 1, room, sizeof room, &length) == 0 &&
                           length == sizeof told && memcmp(room, told, sizeof told) == 0);
    expect("no state", tellwydar_node_hear_state(it->node, 1, told, 24) == TELLWYDAR_NO_STATE);
    expect("no process", tellwydar_node_hear_state(it->node, 2, told, sizeof told) == TELLWYDAR_NO_PROCESS);
    expect("of one no", tellwydar_node_is_over(it->node) == 0);
    expect("of both", tellwydar_node_hear_state(it->node, 1, told, sizeof told) == 0 &&
                          tellwydar_node_is_over(it->node) == 1);
    expect("the later one", tellwydar_node_hear_state(it->node, 1, over, sizeof over) == 0 &&
                                tellwydar_node_is_over(it->node) == 0);
    tellwydar_node_free(it->node);
    struct tellwydar_chapter_room found;
    expect("the usual room", tellwydar_room(3, 2, UINT64_MAX, UINT64_MAX, &found) == 0);
    expect("as worked by hand", found.operations == 65000 && found.total == 786432 && found.entries == 262144 &&
                                    found.ahead == 6721);
    expect("too few", tellwydar_room(3, 2, UINT64_MAX, 38, &found) == TELLWYDAR_BAD_ENTRIES && found.least == 39 &&
                          found.most == 1048537);
}

/* The second of two chapters, which comes behind the values 0 and 7, as process 0 sees it. */
static void courses(struct written *it) {
    struct tellwydar_log log = of_process(0);
    uint64_t values[2] = {0, 7}, zeros[4097] = {0};
    expect("a node", tellwydar_node_new(&it->node) == 0 && begun(&log, "x y", it) == 0);
    expect("none yet", tellwydar_node_set_room(it->node, 3, 20, 5) == TELLWYDAR_CLOSED);
    expect("opened", reopened(it, it->length, 0) == 0 && tellwydar_node_hear(it->node, 1, 0) == 0);
    expect("no room", tellwydar_node_follow(it->node, values, 2) == TELLWYDAR_CLOSED &&
                          tellwydar_node_end(it->node) == TELLWYDAR_CLOSED &&
                          tellwydar_node_course(it->node, TELLWYDAR_COURSE_CALLS, 0) == 0);
    expect("a room", tellwydar_node_set_room(it->node, 3, 20, 1) == 0);
    expect("too many values", tellwydar_node_follow(it->node, zeros, 4097) == TELLWYDAR_NO_SHAPE);
    expect("no opening", tellwydar_node_course(it->node, TELLWYDAR_COURSE_OPENING, 0) == 0);
    expect("values", tellwydar_node_follow(it->node, values, 2) == 0);
    expect("an opening", tellwydar_node_course(it->node, TELLWYDAR_COURSE_OPENING, 0) == 1);
    expect("its write", tellwydar_node_course(it->node, TELLWYDAR_COURSE_NEXT, 0) == 1 &&
                            tellwydar_node_course(it->node, TELLWYDAR_COURSE_REGISTER, 0) == 1 &&
                            tellwydar_node_course(it->node, TELLWYDAR_COURSE_VALUE, 0) == 7);
    expect("called", tellwydar_node_call(it->node, TELLWYDAR_WRITE, 1, 7) == 0 && seen(it, TELLWYDAR_NODE_CALLS) == 1);
    expect("is the only one", tellwydar_node_course(it->node, TELLWYDAR_COURSE_NEXT, 1) == 0);
    expect("and not the caller's", tellwydar_node_course(it->node, TELLWYDAR_COURSE_CALLS, 1) == 0);
    expect("it is on its way", tellwydar_node_course(it->node, TELLWYDAR_COURSE_FAR_AHEAD, 1) == 1);
    expect("nobody asked", tellwydar_node_course(it->node, TELLWYDAR_COURSE_ENDING, 1) == 0);
    expect("somebody does", tellwydar_node_end(it->node) == 0 &&
                                tellwydar_node_course(it->node, TELLWYDAR_COURSE_ENDING, 1) == 1);
    expect("it is acknowledged", tellwydar_node_take(it->node, 1, got, sizeof got) == 0 &&
                                     tellwydar_node_take(it->node, 1, ack, sizeof ack) == 0);
    expect("its reply is held", tellwydar_node_course(it->node, TELLWYDAR_COURSE_OPENING, 1) == 1 &&
                                    tellwydar_node_course(it->node, TELLWYDAR_COURSE_QUIET, 1) == 0);
    expect("and then not", tellwydar_node_course(it->node, TELLWYDAR_COURSE_OPENING, 0) == 0 &&
                               tellwydar_node_course(it->node, TELLWYDAR_COURSE_QUIET, 0) == 1);
    expect("a new room", tellwydar_node_set_room(it->node, 1, 20, 5) == 0 &&
                             tellwydar_node_course(it->node, TELLWYDAR_COURSE_CALLS, 0) == 1 &&
                             tellwydar_node_course(it->node, TELLWYDAR_COURSE_ENDING, 0) == 1);
    expect("no such number", tellwydar_node_course(it->node, 8, 0) == 0);
    tellwydar_node_free(it->node);
}

/* What is told of the logs of two processes, in this order. */
static uint32_t merged(const struct written *first, const struct written *second, uint8_t *room, size_t size,
                       struct tellwydar_merged *told) {
    uint8_t logs[2 * sizeof first->text];
    uint64_t lengths[2] = {first->length, second->length};
    memcpy(logs, first->text, first->length);
    memcpy(logs + first->length, second->text, second->length);
    return tellwydar_merge_logs(logs, first->length + second->length, lengths, 2, room, size, told);
}

/* The logs of a chapter, merged. */
static void merges(void) {
    static const char record[] = "tellwydar record 1\nfront linear\nprocesses 2\nregisters x\n0 call write x 5\n";
    struct written first, second;
    struct tellwydar_log own = of_process(0), other = of_process(1), later = other;
    struct tellwydar_merged told = {.length = 9, .log = 9, .place = 9};
    uint8_t room[128] = {0};
    later.chapter = 1;
    expect("begun logs", begun(&own, "x", &first) == 0 && begun(&other, "x", &second) == 0);
    memcpy(first.text + first.length, called_line, sizeof called_line - 1);
    first.length += sizeof called_line - 1;
    expect("one record", merged(&second, &first, room, sizeof room, &told) == 0 && told.length == sizeof record - 1 &&
                             memcmp(room, record, told.length) == 0);
    room[8] = 9;
    expect("the front of it", merged(&first, &second, room, 8, &told) == 0 && told.length == sizeof record - 1 &&
                                  memcmp(room, record, 8) == 0 && room[8] == 9);
    expect("twice", merged(&first, &first, room, 0, &told) == TELLWYDAR_SAME_PROCESS && told.log == 1 &&
                        told.place == 0 && told.length == sizeof record - 1);
    uint32_t alone = tellwydar_merge_logs(second.text, second.length, &(uint64_t){second.length}, 1, room, 0, &told);
    expect("one alone", alone == TELLWYDAR_NO_LOG_OF && told.place == 0);
    expect("none", tellwydar_merge_logs(room, 0, &(uint64_t){0}, 0, room, 0, &told) == TELLWYDAR_NO_LOG);
    expect("another chapter", begun(&later, "x", &second) == 0 && merged(&first, &second, room, 0, &told) ==
                                  TELLWYDAR_OTHER_CHAPTER && told.log == 1 && told.place == TELLWYDAR_CHAPTER);
    memcpy(second.text, called_line, sizeof called_line - 1);
    expect("no log",
           merged(&first, &second, room, 0, &told) == TELLWYDAR_NOT_A_LOG && told.log == 1 && told.place == 1);
}

int main(void) {
    struct written writer = {.node = NULL}, other = {.node = NULL};
    expect("a handle", tellwydar_node_new(&writer.node) == 0 && writer.node != NULL);
    expect("with no node", tellwydar_node_tick(writer.node) == TELLWYDAR_CLOSED &&
                               tellwydar_node_hand_out(writer.node) == TELLWYDAR_CLOSED);
    beginnings(&writer);
    headless(&writer);
    expect("opened", reopened(&writer, writer.length, 0) == 0 && seen(&writer, TELLWYDAR_NODE_WHOLE) == writer.length);
    unopened(&writer);
    write_ahead(&writer);
    heads(&writer);
    torn(&writer);
    tellwydar_node_free(writer.node);
    looks(&other);
    dropped(&other);
    other_node(&other);
    write_and_read(&writer, &other);
    chapters(&other);
    courses(&other);
    merges();
    printf("%d passed, %d failed\n", passed, failed);
    return failed != 0;
}
