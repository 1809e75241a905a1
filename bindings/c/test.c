/* Tests of the C interface: prints each that fails, and `N passed, M failed`. */
#include "testing.h"

static void rooms(void) {
    const char *text = "processes 1\nregisters x\nfront linear\ncall 0 read y\n";
    uint8_t answer[8], line[4] = "....";
    struct tellwydar_lengths lengths;
    uint8_t status = tellwydar_replay((const uint8_t *)text, strlen(text), answer, 0, line, 3, &lengths);
    expect("a bad schedule has status 1", status == 1);
    expect("no answer, and the whole line's length", lengths.output == 0 && lengths.errors == strlen("line 4: name\n"));
    expect("the room has the front of the line, and no more", memcmp(line, "lin.", 4) == 0);
    status = tellwydar_verify((const uint8_t *)text, 0, answer, 0, line, 0, &lengths);
    expect("no text is no record", status == 1 && lengths.errors == strlen("line 1: end\n"));
}

/* Two chapters of one process: the second one writes first what the first one ended with, or doesn't. */
static void storied(void) {
    const char *form = "awreg report 2\nfront linear\nprocesses 1\nregisters 1\nx\nhistory 1\n"
                       "       0  p0    #0       call    write x %d\norder 1\np0 #0\nend\n";
    const char *yes = "one story of 2 chapters\n";
    const char *no = "report 1: p0 #0 should be write x 5, with which the chapter before ended\n";
    char text[512], answer[128], line[64];
    struct tellwydar_lengths lengths;
    for (int value = 5; value < 7; value++) {
        const char *wanted = value == 5 ? yes : no;
        size_t length = snprintf(text, sizeof text, form, 5);
        snprintf(text + length, sizeof text - length, form, value);
        uint8_t status = tellwydar_story((const uint8_t *)text, strlen(text), (uint8_t *)answer, sizeof answer,
                                         (uint8_t *)line, sizeof line, &lengths);
        expect("chapters are told to be one story or none", status == value - 5 && lengths.output == strlen(wanted) &&
                                                                memcmp(answer, wanted, lengths.output) == 0 &&
                                                                lengths.errors == 0);
    }
}

/* Two processes: one writes, and the other takes that before it stands in the text. */
static void merged(void) {
    const char *head = "tellwydar record 1\nfront linear\nprocesses 2\nregisters x\n";
    const char *call = "0 call write x 5\n";
    const char *take = "1 take 0 001e010100000000000000000100000000000000010200000000000000000005\n";
    char text[512], wanted[512], answer[512], line[64];
    struct tellwydar_lengths lengths;
    snprintf(text, sizeof text, "%s%s%s", head, take, call);
    snprintf(wanted, sizeof wanted, "%s%s%s", head, call, take);
    uint8_t status = tellwydar_merge((const uint8_t *)text, strlen(text), (uint8_t *)answer, sizeof answer,
                                     (uint8_t *)line, sizeof line, &lengths);
    expect("steps are put into an order that is a run", status == 0 && lengths.output == strlen(wanted) &&
                                                            memcmp(answer, wanted, strlen(wanted)) == 0);
    snprintf(text, sizeof text, "%s%s", head, take);
    status = tellwydar_merge((const uint8_t *)text, strlen(text), (uint8_t *)answer, sizeof answer, (uint8_t *)line,
                             sizeof line, &lengths);
    expect("a step that is in no run is named", status == 1 && lengths.errors == strlen("line 5: unfaithful\n") &&
                                                    memcmp(line, "line 5: unfaithful\n", lengths.errors) == 0);
}

/* What `tellwydar_judge` tells of a history: its status, with the answer and the line as strings. */
static char judged_answer[1024], judged_line[256];

static uint8_t judged(const char *history, uint8_t report) {
    struct tellwydar_lengths lengths;
    uint8_t status = tellwydar_judge((const uint8_t *)history, strlen(history), report, (uint8_t *)judged_answer,
                                     sizeof judged_answer - 1, (uint8_t *)judged_line, sizeof judged_line - 1,
                                     &lengths);
    expect("the answer has room", lengths.output < sizeof judged_answer && lengths.errors < sizeof judged_line);
    judged_answer[lengths.output] = 0;
    judged_line[lengths.errors] = 0;
    return status;
}

static int begins(const char *text, const char *word) {
    return strncmp(text, word, strlen(word)) == 0;
}

static uint8_t judged_from(const char *history, const char *first) {
    struct tellwydar_lengths lengths;
    uint8_t status = tellwydar_judge_from((const uint8_t *)history, strlen(history), (const uint8_t *)first,
                                          strlen(first), 0, (uint8_t *)judged_answer, sizeof judged_answer - 1,
                                          (uint8_t *)judged_line, sizeof judged_line - 1, &lengths);
    expect("the answer has room", lengths.output < sizeof judged_answer && lengths.errors < sizeof judged_line);
    judged_answer[lengths.output] = 0;
    judged_line[lengths.errors] = 0;
    return status;
}

/* A read of 5 by the only client: right where registers begin with 5. */
static void first_values(void) {
    const char *lines = "{\"process\": 1, \"type\": \"invoke\", \"f\": \"read\"}\n"
                        "{\"process\": 1, \"type\": \"ok\", \"f\": \"read\", \"value\": 5}\n";
    const char *report = "awreg report 2\nfront observed\nprocesses 1\nregisters 1\nx\nentries 0\norder 0\n";
    expect("no value of the kind", judged(lines, 0) == 1 && begins(judged_answer, "no\n"));
    expect("the first value", judged_from(lines, "5") == 0 && begins(judged_answer, "yes\n") && judged_line[0] == 0);
    expect("another first value", judged_from(lines, "6") == 1 && begins(judged_answer, "no\n"));
    const char *refused = "refused: --first: wanted an integer, a string or null, as JSON has it\n";
    expect("a first value that is none", judged_from(lines, "05") == 1 && strcmp(judged_line, refused) == 0);
    expect("nothing is no first value", judged_from(lines, "") == 1 && strcmp(judged_line, refused) == 0);
    expect("nor are bytes that are no text", judged_from(lines, "\"\xff\"") == 1 && strcmp(judged_line, refused) == 0);
    expect("a report begins with 0",
           judged_from(report, "0") == 1 && begins(judged_line, "refused: --first is for lines of JSON and EDN"));
}

/* A write that is done, and a read behind it: of the value, and of another one. */
static void histories(void) {
    const char *lines = "{\"process\": 0, \"type\": \"invoke\", \"f\": \"write\", \"value\": 1}\n"
                        "{\"process\": 0, \"type\": \"ok\", \"f\": \"write\", \"value\": 1}\n"
                        "{\"process\": 1, \"type\": \"invoke\", \"f\": \"read\"}\n"
                        "{\"process\": 1, \"type\": \"ok\", \"f\": \"read\", \"value\": 1}\n";
    const char *edn = "[{:process 0, :type :invoke, :f :write, :value 1}"
                      " {:process 0, :type :ok, :f :write, :value 1}\n"
                      " {:process 1, :type :invoke, :f :read, :value nil}"
                      " {:process 1, :type :ok, :f :read, :value 0}]\n";
    expect("it is linearizable", judged(lines, 0) == 0 && begins(judged_answer, "yes\n") && judged_line[0] == 0);
    expect("a report of it", judged(lines, 1) == 0 && begins(judged_answer, "awreg report 2\nfront observed\n"));
    char verdicts[64];
    struct tellwydar_lengths lengths;
    uint8_t status = tellwydar_check((const uint8_t *)judged_answer, strlen(judged_answer), (uint8_t *)verdicts,
                                     sizeof verdicts, (uint8_t *)judged_line, 0, &lengths);
    expect("which the check accepts", status == 0 && lengths.output == strlen("serial yes\npoints yes\n") &&
                                          memcmp(verdicts, "serial yes\npoints yes\n", lengths.output) == 0);
    const char *no = "no\nkey null: not linearizable\n  by line 2: process 1 read 0\n  possible: 1\n";
    expect("it is not", judged(edn, 0) == 1 && begins(judged_answer, no) && judged_line[0] == 0);
    expect("and has no report", judged(edn, 1) == 1 && begins(judged_answer, "no\n"));
    const char *refused = "refused: line 1: wanted process, an integer or a string\n";
    expect("it is refused", judged("{}\n", 0) == 1 && judged_answer[0] == 0 && strcmp(judged_line, refused) == 0);
}

static void refusals(void) {
    struct tellwydar_world *world = NULL;
    expect("no such front end", tellwydar_world_new(3, 1, 1, &world) == TELLWYDAR_NO_FRONT && world == NULL);
    expect("no process", tellwydar_world_new(0, 0, 1, &world) == TELLWYDAR_NO_SHAPE && world == NULL);
    expect("65 processes", tellwydar_world_new(0, 65, 1, &world) == TELLWYDAR_NO_SHAPE && world == NULL);
    expect("4,097 registers", tellwydar_world_new(0, 1, 4097, &world) == TELLWYDAR_NO_SHAPE && world == NULL);
    expect("64 processes", tellwydar_world_new(TELLWYDAR_LINEAR, 64, 4096, &world) == 0 && world != NULL);
    expect("no such kind", tellwydar_world_step(world, 5, 0, 0, 0, 0) == TELLWYDAR_NO_EVENT);
    expect("a register that is none",
           tellwydar_world_step(world, TELLWYDAR_READ, 0, 65536, 0, 0) == TELLWYDAR_NO_EVENT);
    expect("no register", tellwydar_world_step(world, TELLWYDAR_READ, 0, 4096, 0, 0) == TELLWYDAR_NO_REGISTER);
    expect("no process", tellwydar_world_step(world, TELLWYDAR_TICK, 64, 0, 0, 0) == TELLWYDAR_NO_PROCESS);
    expect("no frame", tellwydar_world_step(world, TELLWYDAR_TAKE, 1, 0, 0, 0) == TELLWYDAR_NO_FRAME);
    expect("called", tellwydar_world_step(world, TELLWYDAR_READ, 0, 0, 0, 0) == TELLWYDAR_ACCEPTED);
    expect("busy", tellwydar_world_step(world, TELLWYDAR_READ, 0, 0, 0, 0) == TELLWYDAR_BUSY);
    expect("one event", tellwydar_world_look(world, TELLWYDAR_EVENTS, 0) == 1);
    expect("no such look", tellwydar_world_look(world, 18, 0) == 0);
    tellwydar_world_free(world);
}

/* A process of its own under each front end: it swaps, and reads the value. */
static void fronts(void) {
    for (uint32_t front = 0; front < 3; front++) {
        struct tellwydar_world *world;
        expect("a world", tellwydar_world_new(front, 1, 1, &world) == 0);
        expect("the swap gives 0", tellwydar_world_step(world, TELLWYDAR_SWAP, 0, 0, 0, UINT64_MAX) == TELLWYDAR_VALUE);
        expect("its value", tellwydar_world_look(world, TELLWYDAR_REPLY_VALUE, 0) == 0);
        expect("the read answers", tellwydar_world_step(world, TELLWYDAR_READ, 0, 0, 0, 0) == TELLWYDAR_VALUE);
        expect("what was swapped in", tellwydar_world_look(world, TELLWYDAR_REPLY_VALUE, 0) == UINT64_MAX);
        expect("behind one cast", tellwydar_world_look(world, TELLWYDAR_REPLY_PLACE, 0) == 1);
        expect("arranged", tellwydar_world_arrange(world) == 0);
        expect("two operations", tellwydar_world_look(world, TELLWYDAR_IDS, 0) == 2);
        expect("points under linear alone",
               tellwydar_world_look(world, TELLWYDAR_POINTS, 0) == (front == TELLWYDAR_LINEAR ? 2 : 0));
        expect("four entries", tellwydar_world_look(world, TELLWYDAR_ENTRIES, 0) == 4);
        expect("the last is an answer",
               tellwydar_world_look(world, TELLWYDAR_ENTRY_KIND, 3) == TELLWYDAR_ANSWERED_VALUE);
        expect("with the value", tellwydar_world_look(world, TELLWYDAR_ENTRY_VALUE, 3) == UINT64_MAX);
        expect("of event 1", tellwydar_world_look(world, TELLWYDAR_ENTRY_EVENT, 3) == 1);
        expect("nothing behind it", tellwydar_world_look(world, TELLWYDAR_ENTRY_VALUE, 4) == 0);
        tellwydar_world_free(world);
    }
}

/* A process of its own compares twice: it finds the value, and then another one. */
static void comparing(void) {
    for (uint32_t front = 0; front < 3; front++) {
        struct tellwydar_world *world;
        expect("a world", tellwydar_world_new(front, 1, 2, &world) == 0);
        expect("0 is there", tellwydar_world_compare_and_swap(world, 0, 1, 0, 7) == TELLWYDAR_DONE);
        expect("0 is no longer there", tellwydar_world_compare_and_swap(world, 0, 1, 0, 8) == TELLWYDAR_UNEQUAL);
        expect("with no value", tellwydar_world_look(world, TELLWYDAR_REPLY_VALUE, 0) == 0);
        expect("nor in the other register", tellwydar_world_compare_and_swap(world, 0, 0, 1, 8) == TELLWYDAR_UNEQUAL);
        expect("7 is there", tellwydar_world_step(world, TELLWYDAR_READ, 0, 1, 0, 0) == TELLWYDAR_VALUE);
        expect("and told", tellwydar_world_look(world, TELLWYDAR_REPLY_VALUE, 0) == 7);
        expect("a register that is none",
               tellwydar_world_compare_and_swap(world, 0, 65536, 0, 0) == TELLWYDAR_NO_EVENT);
        expect("no register", tellwydar_world_compare_and_swap(world, 0, 2, 0, 0) == TELLWYDAR_NO_REGISTER);
        expect("a call of its kind",
               tellwydar_world_look(world, TELLWYDAR_ENTRY_KIND, 2) == TELLWYDAR_CALLED_COMPARE_AND_SWAP);
        expect("of its register", tellwydar_world_look(world, TELLWYDAR_ENTRY_REGISTER, 2) == 1);
        expect("with its value", tellwydar_world_look(world, TELLWYDAR_ENTRY_VALUE, 2) == 8);
        expect("and what it expects", tellwydar_world_look(world, TELLWYDAR_ENTRY_EXPECTED, 4) == 1);
        expect("an answer of its kind",
               tellwydar_world_look(world, TELLWYDAR_ENTRY_KIND, 3) == TELLWYDAR_ANSWERED_UNEQUAL);
        expect("a read expects nothing", tellwydar_world_look(world, TELLWYDAR_ENTRY_EXPECTED, 6) == 0);
        tellwydar_world_free(world);
    }
}

/* Of three processes under local reads: a write that is done, and a read of another process behind it
 * that saw nothing of it. */
static const struct tellwydar_entry stale[] = {
    {.at = 0, .process = 0, .number = 0, .kind = TELLWYDAR_CALLED_WRITE, .value = 5},
    {.at = 4, .process = 0, .number = 0, .kind = TELLWYDAR_ANSWERED_DONE},
    {.at = 5, .process = 1, .number = 0, .kind = TELLWYDAR_CALLED_READ},
    {.at = 5, .process = 1, .number = 0, .kind = TELLWYDAR_ANSWERED_VALUE, .value = 0},
};

/* A compare-and-swap that is done, and behind it one that found another value. */
static const struct tellwydar_entry compared[] = {
    {.at = 0, .process = 0, .number = 0, .kind = TELLWYDAR_CALLED_COMPARE_AND_SWAP, .value = 5},
    {.at = 1, .process = 0, .number = 0, .kind = TELLWYDAR_ANSWERED_DONE},
    {.at = 2, .process = 1, .number = 0, .kind = TELLWYDAR_CALLED_COMPARE_AND_SWAP, .value = 6},
    {.at = 3, .process = 1, .number = 0, .kind = TELLWYDAR_ANSWERED_UNEQUAL},
};

static void expecting(void) {
    struct tellwydar_id order[] = {{.process = 0, .number = 0}, {.process = 1, .number = 0}};
    struct tellwydar_point points[] = {{.process = 0, .number = 0, .at = 0}, {.process = 1, .number = 0, .at = 2}};
    uint64_t same[] = {0, 99, 0}, equal[] = {0, 99, 5}, late[] = {1, 99, 0};
    size_t place = 77;
    expect("the second found 5",
           tellwydar_check_serial_expecting(2, 1, compared, 4, same, 3, order, 2, &place) == TELLWYDAR_HOLDS &&
               place == 0);
    expect("and has a point",
           tellwydar_check_points_expecting(2, 1, compared, 4, same, 3, points, 2, &place) == TELLWYDAR_HOLDS);
    expect("it found what it expects",
           tellwydar_check_serial_expecting(2, 1, compared, 4, equal, 3, order, 2, &place) == TELLWYDAR_ANSWER &&
               place == 1);
    expect("the first did not",
           tellwydar_check_points_expecting(2, 1, compared, 4, late, 3, points, 2, &place) == TELLWYDAR_ANSWER &&
               place == 0);
    expect("nothing is expected",
           tellwydar_check_serial_expecting(2, 1, compared, 4, same, 2, order, 2, &place) == TELLWYDAR_OUT_OF_PLACE &&
               place == 2);
    expect("an older call says so",
           tellwydar_check_serial(2, 1, compared, 4, order, 2, &place) == TELLWYDAR_OUT_OF_PLACE && place == 0);
    expect("of points too",
           tellwydar_check_points(2, 1, compared, 4, points, 2, &place) == TELLWYDAR_OUT_OF_PLACE && place == 0);
    expect("of others it is the older one",
           tellwydar_check_serial_expecting(3, 1, stale, 4, same, 0, order, 2, &place) == TELLWYDAR_ANSWER &&
               place == 1);
}

static uint32_t serial(size_t entries, const struct tellwydar_id *ids, size_t count, size_t *place) {
    return tellwydar_check_serial(3, 1, stale, entries, ids, count, place);
}

static uint32_t points(uint32_t first, uint32_t second, int write_first, size_t *place) {
    struct tellwydar_point list[] = {{.process = (uint8_t)!write_first, .at = first},
                                     {.process = (uint8_t)write_first, .at = second}};
    return tellwydar_check_points(3, 1, stale, 4, list, 2, place);
}

static void verdicts(void) {
    struct tellwydar_id write = {.process = 0, .number = 0}, read = {.process = 1, .number = 0},
                        other = {.process = 2, .number = 0};
    struct tellwydar_id right[] = {read, write}, turned[] = {write, read}, twice[] = {read, write, write},
                        unknown[] = {read, write, other};
    size_t place = 77;
    expect("the read first is serial", serial(4, right, 2, &place) == TELLWYDAR_HOLDS && place == 0);
    expect("the write first is not", serial(4, turned, 2, &place) == TELLWYDAR_ANSWER && place == 1);
    expect("the write is missing", serial(4, right, 1, &place) == TELLWYDAR_MISSING);
    expect("the write twice", serial(4, twice, 3, &place) == TELLWYDAR_TWICE);
    expect("an operation that is none", serial(4, unknown, 3, &place) == TELLWYDAR_UNKNOWN);
    expect("an unfinished read", serial(3, right, 2, &place) == TELLWYDAR_UNKNOWN);
    expect("falling", points(5, 4, 0, &place) == TELLWYDAR_FALLING && place == 1);
    expect("outside", points(4, 4, 0, &place) == TELLWYDAR_OUTSIDE && place == 0);
    expect("another answer", points(4, 5, 1, &place) == TELLWYDAR_ANSWER && place == 1);
    expect("no shape", tellwydar_check_serial(65, 1, stale, 4, right, 2, &place) == TELLWYDAR_CHECK_SHAPE);
    expect("one process too few",
           tellwydar_check_serial(1, 1, stale, 4, right, 2, &place) == TELLWYDAR_OUT_OF_PLACE && place == 2);
    struct tellwydar_entry kind = {.kind = 5};
    expect("a kind that is none",
           tellwydar_check_serial(1, 1, &kind, 1, right, 0, &place) == TELLWYDAR_OUT_OF_PLACE && place == 0);
}

/* The cast of a compare-and-swap from 0 to 5, as worked by hand. */
static const uint8_t compared_cast[] = {0, 0x26, 4, 1, 0, 0, 0, 0, 0, 0, 0, 0, 1, 0, 0, 0, 0, 0, 0, 0,
                                        1, 4, 0, 0, 0, 0, 0, 0, 0, 0, 0, 0, 0, 0, 0, 0, 0, 0, 0, 5};

/* Whether the last step's frames are these bytes. */
static int puts_bytes(struct tellwydar_process *process, const uint8_t *bytes, size_t count) {
    uint8_t room[64];
    size_t length;
    memset(room, 0xee, sizeof room);
    return tellwydar_process_frames(process, room, sizeof room, &length) == 0 && length == count &&
           memcmp(room, bytes, count) == 0 && room[count] == 0xee;
}

static void processes(void) {
    struct tellwydar_process *writer = NULL, *other = NULL;
    expect("no such process", tellwydar_process_new(0, 2, 1, 2, &writer) == TELLWYDAR_NO_PROCESS && writer == NULL);
    expect("no such shape", tellwydar_process_new(0, 65, 1, 0, &writer) == TELLWYDAR_NO_SHAPE && writer == NULL);
    expect("no such front end", tellwydar_process_new(3, 2, 1, 0, &writer) == TELLWYDAR_NO_FRONT && writer == NULL);
    expect("the writer", tellwydar_process_new(TELLWYDAR_LINEAR, 2, 1, 0, &writer) == 0 && writer != NULL);
    expect("the other", tellwydar_process_new(TELLWYDAR_LINEAR, 2, 1, 1, &other) == 0 && other != NULL);
    uint8_t sent[33] = {1}, answered[35] = {0}, counted[13] = {1}, short_room[4] = {9, 9, 9, 9};
    memcpy(sent + 1, cast, sizeof cast);
    memcpy(answered + 1, got, sizeof got);
    memcpy(answered + 14, ack, sizeof ack);
    memcpy(counted + 1, got, sizeof got);
    size_t length = 7;

    expect("nothing was put", puts_bytes(writer, sent, 0));
    expect("no such operation", tellwydar_process_call(writer, 3, 0, 5) == TELLWYDAR_NO_EVENT);
    expect("no such register", tellwydar_process_call(writer, TELLWYDAR_WRITE, 1, 5) == TELLWYDAR_NO_REGISTER);
    expect("called", tellwydar_process_call(writer, TELLWYDAR_WRITE, 0, 5) == TELLWYDAR_ACCEPTED);
    expect("its cast goes to the other", puts_bytes(writer, sent, sizeof sent));
    expect("the room has the front", tellwydar_process_frames(writer, short_room, 3, &length) == 0 && length == 33 &&
                                         memcmp(short_room, sent, 3) == 0 && short_room[3] == 9);
    expect("it waits for its cast", tellwydar_process_look(writer, TELLWYDAR_OWN_RUNNING, 0) == 1);
    expect("one frame is pending", tellwydar_process_look(writer, TELLWYDAR_OWN_PENDING, 0) == 1);
    expect("its number is used up", tellwydar_process_known(writer, TELLWYDAR_PEER_NEXT, 1) == 1);
    expect("bytes that are no frame", tellwydar_process_take(writer, 1, ack, sizeof ack - 1) == TELLWYDAR_NOT_A_FRAME);
    expect("and change nothing",
           puts_bytes(writer, sent, sizeof sent) && tellwydar_process_look(writer, TELLWYDAR_OWN_CLOCK, 0) == 1);
    expect("busy", tellwydar_process_call(writer, TELLWYDAR_READ, 0, 0) == TELLWYDAR_BUSY);
    expect("which puts nothing", puts_bytes(writer, sent, 0));
    expect("put again", tellwydar_process_tick(writer) == TELLWYDAR_ACCEPTED && puts_bytes(writer, sent, sizeof sent));

    expect("taken", tellwydar_process_take(other, 0, cast, sizeof cast) == TELLWYDAR_ACCEPTED);
    expect("answered by a count and an acknowledgement", puts_bytes(other, answered, sizeof answered));
    expect("its clock", tellwydar_process_look(other, TELLWYDAR_OWN_CLOCK, 0) == 2);
    expect("it has the value", tellwydar_process_look(other, TELLWYDAR_OWN_REGISTER, 0) == 5);
    expect("of one sender", tellwydar_process_take(writer, 0, got, sizeof got) == TELLWYDAR_NO_PROCESS);
    expect("the count",
           tellwydar_process_take(writer, 1, got, sizeof got) == TELLWYDAR_ACCEPTED && puts_bytes(writer, sent, 0));
    expect("nothing is pending", tellwydar_process_look(writer, TELLWYDAR_OWN_PENDING, 0) == 0);
    expect("done", tellwydar_process_take(writer, 1, ack, sizeof ack) == TELLWYDAR_DONE &&
                       puts_bytes(writer, counted, sizeof counted));
    expect("as the first", tellwydar_process_look(writer, TELLWYDAR_OWN_REPLY_PLACE, 0) == 0);
    expect("its clock", tellwydar_process_look(writer, TELLWYDAR_OWN_CLOCK, 0) == 3);
    expect("the next one is expected", tellwydar_process_known(writer, TELLWYDAR_PEER_EXPECTED, 1) == 1);
    expect("and seen", tellwydar_process_known(writer, TELLWYDAR_PEER_SEEN, 1) == 2);
    expect("no peer", tellwydar_process_known(writer, TELLWYDAR_PEER_SEEN, 2) == 0);
    tellwydar_process_free(writer);
    tellwydar_process_free(other);
}

/* One process compares, and the other one has the value. */
static void comparing_processes(void) {
    struct tellwydar_process *writer = NULL, *other = NULL;
    expect("the writer", tellwydar_process_new(TELLWYDAR_LOCAL_WRITE, 2, 1, 0, &writer) == 0);
    expect("the other", tellwydar_process_new(TELLWYDAR_LOCAL_WRITE, 2, 1, 1, &other) == 0);
    uint8_t sent[41] = {1};
    memcpy(sent + 1, compared_cast, sizeof compared_cast);
    expect("a register that is none", tellwydar_process_compare_and_swap(writer, 65536, 0, 5) == TELLWYDAR_NO_EVENT);
    expect("no register", tellwydar_process_compare_and_swap(writer, 1, 0, 5) == TELLWYDAR_NO_REGISTER);
    expect("called", tellwydar_process_compare_and_swap(writer, 0, 0, 5) == TELLWYDAR_ACCEPTED);
    expect("its cast goes to the other", puts_bytes(writer, sent, sizeof sent));
    expect("taken", tellwydar_process_take(other, 0, compared_cast, sizeof compared_cast) == TELLWYDAR_ACCEPTED);
    expect("it has the value", tellwydar_process_look(other, TELLWYDAR_OWN_REGISTER, 0) == 5);
    expect("the count", tellwydar_process_take(writer, 1, got, sizeof got) == TELLWYDAR_ACCEPTED);
    expect("done", tellwydar_process_take(writer, 1, ack, sizeof ack) == TELLWYDAR_DONE);
    tellwydar_process_free(writer);
    tellwydar_process_free(other);
    expect("one alone", tellwydar_process_new(TELLWYDAR_LINEAR, 1, 1, 0, &writer) == 0);
    expect("finds another value", tellwydar_process_compare_and_swap(writer, 0, 1, 5) == TELLWYDAR_UNEQUAL);
    expect("and leaves it", tellwydar_process_look(writer, TELLWYDAR_OWN_REGISTER, 0) == 0);
    tellwydar_process_free(writer);
}

int main(void) {
    rooms();
    merged();
    storied();
    first_values();
    histories();
    refusals();
    fronts();
    comparing();
    verdicts();
    expecting();
    processes();
    comparing_processes();
    printf("%d passed, %d failed\n", passed, failed);
    return failed != 0;
}
