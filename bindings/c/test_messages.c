/* Tests of messages between nodes: prints each that fails, and `N passed, M failed`. */
#include "testing.h"

/* A message of process 1 in chapter 4 of cluster 5, which has three processes and the registers x and y. Its log was
 * begun as 9, and it is for process 2. */
static const uint8_t good[] = {0x54, 0x57, 3, 0, 3, 0, 2, 0x19, 0xfe, 0x0d, 0xc0, 0, 0, 0, 0, 0, 0, 0, 5, 1, 2,
                               0,    0,    0, 0, 0, 0, 0, 9,    0,    0,    0,    4, 0, 7};

static struct tellwydar_log of_process(uint8_t process) {
    struct tellwydar_log log = {
        .cluster = 5, .chapter = 4, .begun = 9, .front = TELLWYDAR_LINEAR, .processes = 3, .process = process};
    return log;
}

static uint32_t started(const struct tellwydar_log *log, const char *names, uint8_t *room) {
    return tellwydar_message_start(log, (const uint8_t *)names, strlen(names), 2, room, TELLWYDAR_MESSAGE_START);
}

static void starts(void) {
    struct tellwydar_log log = of_process(1), front = log, shape = log, process = of_process(3), chapter = log;
    uint8_t room[TELLWYDAR_MESSAGE_START] = {0}, few[4] = {9, 9, 9, 9};
    front.front = 3;
    shape.processes = 65;
    chapter.chapter = UINT64_C(0x100000000);
    expect("no such front end", started(&front, "x y", room) == TELLWYDAR_NO_FRONT);
    expect("65 processes", started(&shape, "x y", room) == TELLWYDAR_NO_SHAPE);
    expect("no such process", started(&process, "x y", room) == TELLWYDAR_NO_PROCESS);
    expect("a name twice", started(&log, "x x", room) == TELLWYDAR_BAD_NAMES);
    expect("too great a chapter", started(&chapter, "x y", room) == TELLWYDAR_NO_CHAPTER && room[0] == 0);
    expect("a start", started(&log, "x y", room) == 0 && memcmp(room, good, sizeof room) == 0);
    expect("the room has the front", tellwydar_message_start(&log, (const uint8_t *)"x y", 3, 2, few, 3) == 0);
    expect("and no more", memcmp(few, good, 3) == 0 && few[3] == 9);
    chapter.chapter--;
    expect("the last chapter", started(&chapter, "x y", room) == 0 && room[29] == 255 && room[32] == 255);
}

/* What the message is with another byte in this place, by this key. */
static uint32_t met_with(struct tellwydar_heard *heard, size_t place, uint8_t byte, uint32_t key) {
    struct tellwydar_log log = of_process(2);
    uint8_t own[TELLWYDAR_MESSAGE_START], message[sizeof good];
    struct tellwydar_met met;
    memcpy(message, good, sizeof good);
    message[place] = byte;
    started(&log, "x y", own);
    return tellwydar_message_met(own, sizeof own, key, message, sizeof message, heard, 3, &met) == 0 ? met.met : 99;
}

static void meetings(void) {
    struct tellwydar_heard heard[3] = {{.begun = 1}, {.begun = 1}, {.begun = 1}};
    struct tellwydar_log log = of_process(2);
    struct tellwydar_met met = {.met = 77};
    uint8_t own[TELLWYDAR_MESSAGE_START];
    started(&log, "x y", own);
    expect("fewer rows",
           tellwydar_message_met(own, sizeof own, 256, good, sizeof good, heard, 2, &met) == TELLWYDAR_NO_SHAPE);
    expect("no start", tellwydar_message_met(own, 32, 256, good, sizeof good, heard, 3, &met) == TELLWYDAR_NO_SHAPE);
    expect("nothing has changed", met.met == 77 && heard[1].begun == 1);
    expect("no message", tellwydar_message_met(own, sizeof own, 256, good, 33, heard, 3, &met) == 0 &&
                             met.met == TELLWYDAR_MET_NO_MESSAGE && met.sender == 0);
    expect("another front end", met_with(heard, 3, 1, 256) == TELLWYDAR_MET_OTHER_FRONT);
    expect("more processes", met_with(heard, 4, 4, 256) == TELLWYDAR_MET_OTHER_PROCESSES);
    expect("other names", met_with(heard, 10, 0, 256) == TELLWYDAR_MET_OTHER_REGISTERS);
    expect("another cluster", met_with(heard, 18, 6, 256) == TELLWYDAR_MET_OTHER_CLUSTER);
    expect("for another one", met_with(heard, 20, 0, 256) == TELLWYDAR_MET_OTHER_RECEIVER);
    expect("from itself", met_with(heard, 19, 2, 256) == TELLWYDAR_MET_OTHER_SENDER);
    expect("by another key", met_with(heard, 34, 7, 0) == TELLWYDAR_MET_OTHER_SENDER);
    expect("late", met_with(heard, 32, 3, 256) == TELLWYDAR_MET_LATE);
    expect("elsewhere", met_with(heard, 32, 5, 256) == TELLWYDAR_MET_ELSEWHERE && heard[1].is_heard == 0);
    expect("unknown",
           met_with(heard, 33, 3, 1) == TELLWYDAR_MET_UNKNOWN && heard[1].is_heard == 1 && heard[1].begun == 9);
    expect("begun anew", met_with(heard, 28, 8, 256) == TELLWYDAR_MET_BEGUN_ANEW && heard[1].begun == 9);
    expect("a peer",
           met_with(heard, 33, 2, 1) == TELLWYDAR_MET_PEER && heard[0].is_heard == 0 && heard[2].is_heard == 0);
    expect("what it says", tellwydar_message_met(own, sizeof own, 256, good, sizeof good, heard, 3, &met) == 0);
    expect("of which cluster", met.cluster == 5 && met.front == 0 && met.processes == 3 && met.registers == 2 &&
                                   met.names == 0x19fe0dc0);
    expect("from whom to whom", met.sender == 1 && met.receiver == 2 && met.begun == 9 && met.chapter == 4);
    expect("what it brings", met.met == TELLWYDAR_MET_PEER && met.brings == TELLWYDAR_BRINGS_FRAMES);
}

static void greetings(void) {
    static const uint8_t spelled[] = {1, 0, 0, 0, 0, 0, 0, 1, 2}, odd[] = {2, 0, 0, 0, 0, 0, 0, 1, 2};
    uint8_t room[9] = {0};
    struct tellwydar_greeting told = {.accepted = 5};
    expect("no greeting", tellwydar_message_greeting(odd, 9, &told) == TELLWYDAR_NO_GREETING && told.accepted == 5);
    expect("a byte too few", tellwydar_message_greeting(spelled, 8, &told) == TELLWYDAR_NO_GREETING);
    expect("a greeting",
           tellwydar_message_greeting(spelled, 9, &told) == 0 && told.accepted == 258 && told.is_wanting == 1);
    tellwydar_message_greet(7, 258, room, sizeof room);
    expect("spelled", memcmp(room, spelled, sizeof room) == 0);
    tellwydar_message_greet(0, 258, room, 1);
    expect("its first byte", room[0] == 0 && room[8] == 2);
}

int main(void) {
    starts();
    meetings();
    greetings();
    printf("%d passed, %d failed\n", passed, failed);
    return failed != 0;
}
