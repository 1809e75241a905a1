/* Tellwydar for C: shared registers over totally ordered broadcast, from the static library `reg_c`.
 *
 * What each function does is proved of the library's code (docs/LIBRARY.md); that these declarations are those of that
 * code is not checked by anything but `tools/bindings`.
 *
 * Duties of the caller. No pointer is null, not even where its length is 0. A length is that of its room. Rooms don't
 * overlap. A handle is one that `tellwydar_world_new`, `tellwydar_process_new` or `tellwydar_node_new` gave to that
 * kind of function, it is in one call at a time, and in none after it was freed; threads that share one take turns
 * under a lock of theirs. No function is called from a signal handler. A command keeps some 64 KiB on the stack.
 *
 * The library starts no thread and takes no lock. It takes memory by malloc, realloc and free.
 */
#ifndef TELLWYDAR_H
#define TELLWYDAR_H
#include <stddef.h>
#include <stdint.h>
#include <stdlib.h>

#define TELLWYDAR_VERSION "0.1.0"

/* Which functions and numbers there are. 2 adds compare-and-swaps, 3 nodes, 4 the judge of histories, 5 the merge of
 * records and a first value for the judge, 6 chapters and looks at the peers of a node, 7 how one chapter follows
 * another, and 8 the merge of logs, what the head of one says, whether one never began, who a message is from, and
 * whether chapters are one story. In 9 the result of `tellwydar_node_came` tells whether a tick is due, and of no node
 * it is 0. Else all functions and numbers of those before are there, and mean what they did. */
#define TELLWYDAR_ABI 9

#ifdef __cplusplus
extern "C" {
#endif

/* --- Texts: the commands of the program `awreg`, and `verify`, `merge`, `story` and `judge` of `awshow` ----------- */

/* How many bytes an answer has, and how many the line of a fault, also where less room was lent. */
struct tellwydar_lengths {
    size_t output;
    size_t errors;
};

/* Each takes a text and two rooms, and puts as much of the answer and of the line of a fault into them as they take. A
 * room may have the length 0: call again with room for `lengths`. The result is the status: 0, or 1 where something was
 * refused or judged no. */

/* A schedule: the answer is the report of its run. */
uint8_t tellwydar_replay(const uint8_t *text, size_t text_length, uint8_t *output, size_t output_length,
                         uint8_t *errors, size_t errors_length, struct tellwydar_lengths *lengths);
/* A report: the answer is the verdicts on its order and, where it has points, on them. */
uint8_t tellwydar_check(const uint8_t *text, size_t text_length, uint8_t *output, size_t output_length, uint8_t *errors,
                        size_t errors_length, struct tellwydar_lengths *lengths);
/* A workload: the answer is the report of the play that the words of its seed choose. */
uint8_t tellwydar_play(const uint8_t *text, size_t text_length, uint8_t *output, size_t output_length, uint8_t *errors,
                       size_t errors_length, struct tellwydar_lengths *lengths);
/* The same of the fair play. */
uint8_t tellwydar_play_fair(const uint8_t *text, size_t text_length, uint8_t *output, size_t output_length,
                            uint8_t *errors, size_t errors_length, struct tellwydar_lengths *lengths);
/* A record of processes that ran apart, as `awshow verify` reads it: the answer is the report of the run that it is. */
uint8_t tellwydar_verify(const uint8_t *text, size_t text_length, uint8_t *output, size_t output_length,
                         uint8_t *errors, size_t errors_length, struct tellwydar_lengths *lengths);
/* A record whose steps stand in any order, those of each process in their own one, as `awshow merge` reads it: the
 * answer is the record of the same steps in an order that is a run. If there is none, the line names a step that no run
 * of first steps has. */
uint8_t tellwydar_merge(const uint8_t *text, size_t text_length, uint8_t *output, size_t output_length, uint8_t *errors,
                        size_t errors_length, struct tellwydar_lengths *lengths);
/* The reports of chapters, one behind another, as `awshow story` reads them: with status 0 they are one story.
 * The answer says so, or names the first report with which they go wrong (status 1); where they weren't
 * judged, the line says why. */
uint8_t tellwydar_story(const uint8_t *text, size_t text_length, uint8_t *output, size_t output_length, uint8_t *errors,
                        size_t errors_length, struct tellwydar_lengths *lengths);
/* What any system answered its clients, as lines of JSON, EDN or a report: `awshow judge` reads it, and docs/JUDGE.md
 * says how. The answer begins with yes if it is linearizable (status 0) and with no if it isn't (status 1); with a
 * line, and no answer, it is refused (status 1). If `report` isn't 0, a report with the points that were found stands
 * in the place of a yes: `tellwydar_check` judges it anew. */
uint8_t tellwydar_judge(const uint8_t *text, size_t text_length, uint8_t report, uint8_t *output, size_t output_length,
                        uint8_t *errors, size_t errors_length, struct tellwydar_lengths *lengths);

/* The same of registers that begin with this value, as JSON has it: `5`, `null`, `"idle"`. A report, whose registers
 * begin with 0, is refused. */
uint8_t tellwydar_judge_from(const uint8_t *text, size_t text_length, const uint8_t *first, size_t first_length,
                             uint8_t report, uint8_t *output, size_t output_length, uint8_t *errors,
                             size_t errors_length, struct tellwydar_lengths *lengths);

/* --- Checkers: a history of your own, judged ---------------------------------------------------------------------- */

/* The kinds of entries. */
enum {
    TELLWYDAR_CALLED_READ = 0,
    TELLWYDAR_CALLED_WRITE = 1,
    TELLWYDAR_CALLED_SWAP = 2,
    TELLWYDAR_ANSWERED_DONE = 3,
    TELLWYDAR_ANSWERED_VALUE = 4,
    TELLWYDAR_CALLED_COMPARE_AND_SWAP = 5,
    TELLWYDAR_ANSWERED_UNEQUAL = 6 /* of a compare-and-swap that found another value than the expected one */
};

/* A call or an answer. Events are numbered from 0, rise from entry to entry, and are at most 1,048,575; only an
 * answer may have the event of the entry before it, if that is its own call. A process numbers its operations
 * from 0, one after another. */
struct tellwydar_entry {
    uint64_t value;    /* of a write, a swap, a compare-and-swap, or an answer with a value */
    uint32_t at;       /* the number of its event */
    uint32_t number;   /* of the operation, among those of its process */
    uint16_t reg;      /* the register of a call */
    uint8_t process;
    uint8_t kind;
};

/* An operation. */
struct tellwydar_id {
    uint32_t number;
    uint8_t process;
};

/* An operation and its point: the number of an event. */
struct tellwydar_point {
    uint32_t at;
    uint32_t number;
    uint8_t process;
};

/* Verdicts. */
enum {
    TELLWYDAR_HOLDS = 0,
    TELLWYDAR_UNKNOWN = 1,       /* an operation that is neither finished nor a called update */
    TELLWYDAR_TWICE = 2,         /* an operation stands twice */
    TELLWYDAR_MISSING = 3,       /* a finished operation isn't there */
    TELLWYDAR_OWN_ORDER = 4,     /* a process's operations are out of their order */
    TELLWYDAR_ANSWER = 5,        /* the operation at `place` has another answer than one memory gives */
    TELLWYDAR_OUTSIDE = 6,       /* the point at `place` is before the call or after the answer */
    TELLWYDAR_FALLING = 7,       /* the point at `place` is below the one before it */
    TELLWYDAR_CHECK_MEMORY = 8,  /* malloc gave no memory */
    TELLWYDAR_CHECK_SHAPE = 9,   /* not 1 to 64 processes, or not 1 to 4,096 registers */
    TELLWYDAR_OUT_OF_PLACE = 10  /* the entry at `place` is none, or can't come there */
};

/* Whether the operations are a serial order of the history (sequential consistency). `place` gets the place that the
 * verdict names, from 0, else 0. */
uint32_t tellwydar_check_serial(uint32_t processes, uint32_t registers, const struct tellwydar_entry *entries,
                                size_t entries_length, const struct tellwydar_id *ids, size_t ids_length,
                                size_t *place);
/* Whether the points are a point order of the history (linearizability). */
uint32_t tellwydar_check_points(uint32_t processes, uint32_t registers, const struct tellwydar_entry *entries,
                                size_t entries_length, const struct tellwydar_point *points, size_t points_length,
                                size_t *place);
/* The same of histories with compare-and-swaps: what one expects stands in `expected`, at the place of its entry; at
 * other places any number does. A compare-and-swap without an expected value is no entry: TELLWYDAR_OUT_OF_PLACE, as
 * from the two functions above. */
uint32_t tellwydar_check_serial_expecting(uint32_t processes, uint32_t registers, const struct tellwydar_entry *entries,
                                          size_t entries_length, const uint64_t *expected, size_t expected_length,
                                          const struct tellwydar_id *ids, size_t ids_length, size_t *place);
uint32_t tellwydar_check_points_expecting(uint32_t processes, uint32_t registers, const struct tellwydar_entry *entries,
                                          size_t entries_length, const uint64_t *expected, size_t expected_length,
                                          const struct tellwydar_point *points, size_t points_length, size_t *place);

/* --- Worlds: all processes of a run, stepped event by event ------------------------------------------------------- */

struct tellwydar_world;

enum { TELLWYDAR_LINEAR = 0, TELLWYDAR_LOCAL_READ = 1, TELLWYDAR_LOCAL_WRITE = 2 };

/* Kinds of events: the calls of a process, its take of a frame, its tick. The call of a compare-and-swap
 * is a function of its own. */
enum { TELLWYDAR_READ = 0, TELLWYDAR_WRITE = 1, TELLWYDAR_SWAP = 2, TELLWYDAR_TAKE = 3, TELLWYDAR_TICK = 4 };

/* What a step tells. */
enum {
    TELLWYDAR_ACCEPTED = 0,
    TELLWYDAR_DONE = 1,    /* accepted, and answered Done */
    TELLWYDAR_VALUE = 2,   /* accepted, and answered with a value: TELLWYDAR_REPLY_VALUE */
    TELLWYDAR_UNEQUAL = 3, /* accepted, and answered that the register had another value than the expected one */
    TELLWYDAR_FAILED = 16, /* memory was refused before: the world has stopped */
    TELLWYDAR_TOO_MANY_EVENTS = 17,
    TELLWYDAR_NO_PROCESS = 18,
    TELLWYDAR_BUSY = 19,
    TELLWYDAR_NO_REGISTER = 20,
    TELLWYDAR_TOO_MANY_OPERATIONS = 21,
    TELLWYDAR_NO_FRAME = 22,
    TELLWYDAR_NO_MEMORY = 23,
    TELLWYDAR_AHEAD = 24,      /* of a process: a count above the number of the next body */
    TELLWYDAR_STALE = 25,      /* of a process: an expected body whose time isn't above that of the last one
                                * from its sender */
    TELLWYDAR_CLOCK_FULL = 26, /* of a process, which has stopped */
    TELLWYDAR_NO_EVENT = 32, /* no such kind, or a register above 65,535 */
    TELLWYDAR_CLOSED = 33,
    TELLWYDAR_NO_SHAPE = 34,
    TELLWYDAR_NO_FRONT = 35,
    TELLWYDAR_NOT_A_FRAME = 48 /* of a process: these bytes spell no frame (docs/FORMATS.md) */
};

/* Makes a world in which nothing happened yet. The result is 0, and the handle is set; or one of the
 * last numbers, and it isn't. */
uint32_t tellwydar_world_new(uint32_t front, uint32_t processes, uint32_t registers, struct tellwydar_world **handle);
/* Makes an event. Of a call `number` is the register, of a take that of the frame on the wire from `from`; `value` is
 * that of a write or swap. What isn't of the event isn't looked at. A refused event changes nothing, but want of memory
 * stops the world for good. */
uint32_t tellwydar_world_step(struct tellwydar_world *handle, uint32_t kind, uint8_t process, uint32_t number,
                              uint8_t from, uint64_t value);
/* Makes the event that a process calls a compare-and-swap. */
uint32_t tellwydar_world_compare_and_swap(struct tellwydar_world *handle, uint8_t process, uint32_t reg,
                                          uint64_t expected, uint64_t value);
/* Asks the world for a serial order of its history and, under `linear`, for a point order: 0, or TELLWYDAR_NO_MEMORY,
 * and then the orders that were asked for before are kept. */
uint32_t tellwydar_world_arrange(struct tellwydar_world *handle);

/* What to look at. An entry, an id or a point is the one at the place `at`; what isn't there is 0. */
enum {
    TELLWYDAR_EVENTS = 0,  /* how many events were accepted */
    TELLWYDAR_ENTRIES = 1, /* how many entries the history has */
    TELLWYDAR_ENTRY_EVENT = 2,
    TELLWYDAR_ENTRY_PROCESS = 3,
    TELLWYDAR_ENTRY_NUMBER = 4,
    TELLWYDAR_ENTRY_KIND = 5,
    TELLWYDAR_ENTRY_REGISTER = 6,
    TELLWYDAR_ENTRY_VALUE = 7,
    TELLWYDAR_REPLY_VALUE = 8, /* of the last step */
    TELLWYDAR_REPLY_PLACE = 9, /* how many casts that reply counts with */
    TELLWYDAR_IDS = 10,        /* how many operations the order has that was asked for last */
    TELLWYDAR_ID_PROCESS = 11,
    TELLWYDAR_ID_NUMBER = 12,
    TELLWYDAR_POINTS = 13, /* how many points there were then */
    TELLWYDAR_POINT_PROCESS = 14,
    TELLWYDAR_POINT_NUMBER = 15,
    TELLWYDAR_POINT_EVENT = 16,
    TELLWYDAR_ENTRY_EXPECTED = 17 /* of the call of a compare-and-swap */
};
uint64_t tellwydar_world_look(struct tellwydar_world *handle, uint32_t what, uint32_t at);

/* Gives back what the world holds, but for the handle's own block: call `tellwydar_world_free` in its place. */
void tellwydar_world_close(struct tellwydar_world *handle);

/* Ends a world. */
static inline void tellwydar_world_free(struct tellwydar_world *handle) {
    tellwydar_world_close(handle);
    free(handle);
}

/* --- Processes: one process of a run, whose frames the caller carries --------------------------------------------- */

struct tellwydar_process;

/* Makes the process `me`, from 0, of a run in which all have this front end and this shape. It did nothing yet. The
 * result is 0, and the handle is set; or TELLWYDAR_NO_SHAPE, TELLWYDAR_NO_FRONT, TELLWYDAR_NO_PROCESS or
 * TELLWYDAR_NO_MEMORY, and it isn't. */
uint32_t tellwydar_process_new(uint32_t front, uint32_t processes, uint32_t registers, uint8_t me,
                               struct tellwydar_process **handle);

/* Each makes a step, and tells one of the numbers above. A refused step changes nothing, but a full clock and want of
 * memory stop the process for good; its reply and its frames are none. Bytes that spell no frame, and numbers that say
 * no operation, make no step: the reply and the frames of the last one are kept. */

/* Calls an operation: the kind is TELLWYDAR_READ, TELLWYDAR_WRITE or TELLWYDAR_SWAP. */
uint32_t tellwydar_process_call(struct tellwydar_process *handle, uint32_t kind, uint32_t reg, uint64_t value);
/* Calls a compare-and-swap. */
uint32_t tellwydar_process_compare_and_swap(struct tellwydar_process *handle, uint32_t reg, uint64_t expected,
                                            uint64_t value);
/* Takes a frame that the process `from` put for this one, as often and in whatever order: just
 * the bytes of one frame. */
uint32_t tellwydar_process_take(struct tellwydar_process *handle, uint8_t from, const uint8_t *bytes,
                                size_t bytes_length);
/* Puts the first unacknowledged frames of every link again. */
uint32_t tellwydar_process_tick(struct tellwydar_process *handle);

/* Puts as many bytes of the last step's frames into the room as it takes, and into `length` how many there are: for
 * each frame a byte for its receiver, and then the frame's bytes, whose first two are how many follow them. 41,328
 * bytes always do, and 33,264 where the process calls no compare-and-swap. The result is 0, or TELLWYDAR_NO_MEMORY, or
 * TELLWYDAR_NOT_A_FRAME where a frame is out of range, and then nothing has changed. */
uint32_t tellwydar_process_frames(struct tellwydar_process *handle, uint8_t *room, size_t room_length, size_t *length);

/* What to look at. */
enum {
    TELLWYDAR_OWN_CLOCK = 0,
    TELLWYDAR_OWN_DELIVERED = 1, /* how many casts it has delivered */
    TELLWYDAR_OWN_UNSETTLED = 2, /* how many of its own casts are not delivered here */
    TELLWYDAR_OWN_PENDING = 3,   /* how many data frames are not acknowledged, over all links */
    TELLWYDAR_OWN_RUNNING = 4,   /* 0: no operation runs, 1: one waits for its cast, 2: one waits for all own casts */
    TELLWYDAR_OWN_REGISTER = 5,  /* the value of the register `reg` in its copy, 0 where there is none */
    TELLWYDAR_OWN_REPLY_VALUE = 6, /* of the last step */
    TELLWYDAR_OWN_REPLY_PLACE = 7  /* how many casts that reply counts with */
};
uint64_t tellwydar_process_look(struct tellwydar_process *handle, uint32_t what, uint16_t reg);

/* What it knows of another process: 0 where there is no other of this number. */
enum {
    TELLWYDAR_PEER_FIRST = 0,    /* the number of the first body to it that it hasn't acknowledged */
    TELLWYDAR_PEER_NEXT = 1,     /* the number of the next body to it */
    TELLWYDAR_PEER_EXPECTED = 2, /* the number of the next body from it */
    TELLWYDAR_PEER_SEEN = 3      /* the time of the last body that was accepted from it */
};
uint64_t tellwydar_process_known(struct tellwydar_process *handle, uint32_t what, uint8_t peer);

/* Gives back what the process holds, but for the handle's own block: call `tellwydar_process_free` in its place. */
void tellwydar_process_close(struct tellwydar_process *handle);

/* Ends a process. */
static inline void tellwydar_process_free(struct tellwydar_process *handle) {
    tellwydar_process_close(handle);
    free(handle);
}

/* --- Nodes: one process that outlives crashes by a log, which the caller writes down ------------------------------ */

struct tellwydar_node;

/* What a node tells besides the numbers above. */
enum {
    TELLWYDAR_STOPPED = 64,     /* it stopped before: an entry of its log had no text */
    TELLWYDAR_UNSPELLED = 65,   /* it stops here: it made a step, and there was no memory for the text of its entry */
    TELLWYDAR_LOG_LOST = 66,    /* it has stopped: another process accepted more than was ever queued for it */
    TELLWYDAR_UNHEARD = 67,     /* the operation would be cast, and it hasn't heard from all others yet */
    TELLWYDAR_LOG_FULL = 68,    /* 1,048,576 entries */
    TELLWYDAR_NO_ROOM = 69,     /* malloc gave no memory before the step: nothing has changed */
    TELLWYDAR_NOT_LOGGED = 70,  /* the log has fewer entries */
    TELLWYDAR_NOTHING_DUE = 71, /* no entry is durable whose output is held back, or the node has stopped */
    /* Why a text isn't opened; TELLWYDAR_NODE_PLACE is the line, from 1, or the entry, from 0. */
    TELLWYDAR_NOT_A_LOG = 72,  /* the line at which the reader stopped */
    TELLWYDAR_DAMAGED = 73,    /* the entry was told durable, and doesn't stand whole */
    TELLWYDAR_NOT_A_STEP = 74, /* the entry is no step of the process */
    TELLWYDAR_FOREIGN = 75,    /* the entry is of another process */
    TELLWYDAR_BAD_NAMES = 76,
    TELLWYDAR_NO_STATE = 80 /* the bytes are no state of a process of such a cluster */
};

/* Which log it is, and what its cluster is like. */
struct tellwydar_log {
    uint64_t cluster; /* the same in all logs of a cluster, and in no other's */
    uint64_t chapter; /* from 0 */
    uint64_t begun;   /* drawn anew for each log that is begun */
    uint32_t front;
    uint32_t processes;
    uint8_t process;
};

/* Puts as many bytes of a log with no entries into the room as it takes, and into `length` how many there are. The
 * names of the registers have one space between them: 1 to 4,096 names of 1 to 16 letters a to z, which differ. The
 * result is 0, or TELLWYDAR_NO_FRONT, TELLWYDAR_BAD_NAMES, TELLWYDAR_NO_SHAPE, TELLWYDAR_NO_PROCESS or
 * TELLWYDAR_NO_MEMORY, and then nothing has changed. */
uint32_t tellwydar_node_begin(const struct tellwydar_log *log, const uint8_t *names, size_t names_length, uint8_t *room,
                              size_t room_length, size_t *length);

/* Puts into `headless` 1 where the text has a part of this log's first four lines and zeros, or these lines and fewer
 * than five line feeds behind them, else 0. All that a crash can leave before the head is whole is so. No log is, so no
 * step is lost where the log is begun anew. Of `log` the cluster, the chapter and the process are looked at, and not
 * what was drawn. The result is 0, or TELLWYDAR_NO_MEMORY, and then nothing has changed. */
uint32_t tellwydar_node_is_headless(const struct tellwydar_log *log, const uint8_t *text, size_t text_length,
                                    uint32_t *headless);

/* Puts what the head of the log says that the text begins with into `log`, and as many bytes of its names into the room
 * as it takes, one space between them, and into `length` how many they are. What stands behind the head isn't looked
 * at. The result is 0; or TELLWYDAR_NOT_A_LOG or TELLWYDAR_NO_PROCESS, and then the text begins with no head; or
 * TELLWYDAR_NO_MEMORY. If it isn't 0, nothing has changed. */
uint32_t tellwydar_log_head(const uint8_t *text, size_t text_length, struct tellwydar_log *log, uint8_t *room,
                            size_t room_length, size_t *length);

/* How many bytes the head and the first entries, so many, of the log take that the text begins with, where it has as
 * many. The result is at most the length of the text. */
size_t tellwydar_log_part(const uint8_t *text, size_t text_length, uint64_t entries);

/* Makes a handle with no node behind it: until one is opened, all but looks tell TELLWYDAR_CLOSED. The result is 0, and
 * the handle is set; or TELLWYDAR_NO_MEMORY, and it isn't. */
uint32_t tellwydar_node_new(struct tellwydar_node **handle);

/* Opens a node that goes on after its log, and gives back what was behind the handle. Of the text, the first
 * TELLWYDAR_NODE_WHOLE bytes are the log: cut off what a crash left behind them before more is written. All its entries
 * count as durable, so see that they are; `durable` is how many of them were told so before the crash. The result is 0;
 * or TELLWYDAR_NOT_A_LOG, TELLWYDAR_NO_PROCESS, TELLWYDAR_FOREIGN, TELLWYDAR_DAMAGED, TELLWYDAR_NOT_A_STEP or
 * TELLWYDAR_NO_MEMORY, and then nothing has changed but TELLWYDAR_NODE_PLACE. */
uint32_t tellwydar_node_open(struct tellwydar_node *handle, const uint8_t *text, size_t text_length, uint64_t durable);

/* Each makes a step. The result is 0, and then the log grows by the bytes that `tellwydar_node_bytes` gives: write them
 * behind it before the next step. Or it tells why there is no step, and there are no bytes. The reply, if there is one,
 * is handed out. */

/* Calls an operation: the kind is TELLWYDAR_READ, TELLWYDAR_WRITE or TELLWYDAR_SWAP. */
uint32_t tellwydar_node_call(struct tellwydar_node *handle, uint32_t kind, uint32_t reg, uint64_t value);
/* Calls a compare-and-swap. */
uint32_t tellwydar_node_compare_and_swap(struct tellwydar_node *handle, uint32_t reg, uint64_t expected,
                                         uint64_t value);
/* Takes a frame that the process `from` put for this one, as often and in whatever order: the bytes of one frame. */
uint32_t tellwydar_node_take(struct tellwydar_node *handle, uint8_t from, const uint8_t *bytes, size_t bytes_length);
/* Puts the first unacknowledged frames of every link again. */
uint32_t tellwydar_node_tick(struct tellwydar_node *handle);

/* Puts as many of the last step's bytes into the room as it takes, and gives how many there are. 160 always do. */
size_t tellwydar_node_bytes(struct tellwydar_node *handle, uint8_t *room, size_t room_length);

/* Tells that the first `count` entries of the log are durable, those that it was opened with among them: what goes out
 * of them may be handed out. The result is 0, or TELLWYDAR_NOT_LOGGED, and then nothing has changed. */
uint32_t tellwydar_node_mark_durable(struct tellwydar_node *handle, uint64_t count);

/* Hands out what goes out of the first step for which that was not done yet, if its entry is durable:
 * `tellwydar_node_frames` gives its frames. The result is TELLWYDAR_ACCEPTED if there is no reply, TELLWYDAR_DONE,
 * TELLWYDAR_VALUE or TELLWYDAR_UNEQUAL if there is one, or TELLWYDAR_NOTHING_DUE. */
uint32_t tellwydar_node_hand_out(struct tellwydar_node *handle);
/* The frames that were handed out last, as `tellwydar_process_frames` gives them. */
uint32_t tellwydar_node_frames(struct tellwydar_node *handle, uint8_t *room, size_t room_length, size_t *length);

/* Hears that another process accepted the first `count` bodies from this one: that is its TELLWYDAR_PEER_EXPECTED of
 * this process, which a process tells each other one when they meet. Do so before the first call, and at each new
 * meeting. The result is 0, or TELLWYDAR_NO_PROCESS, or TELLWYDAR_LOG_LOST: then this node has stopped for good. */
uint32_t tellwydar_node_hear(struct tellwydar_node *handle, uint8_t other, uint64_t count);

/* What to look at beside TELLWYDAR_OWN_CLOCK to TELLWYDAR_OWN_REPLY_PLACE, which are as of a process: the reply is that
 * of what was handed out last. What they tell may be of entries that are not durable. */
enum {
    TELLWYDAR_NODE_LOGGED = 8,     /* how many entries its log has */
    TELLWYDAR_NODE_DURABLE = 9,    /* how many of them it was told are durable */
    TELLWYDAR_NODE_STOPPED = 10,   /* 1 if an entry had no text, and else 0 */
    TELLWYDAR_NODE_LOST = 11,      /* 1 if it has found out that its log was lost */
    TELLWYDAR_NODE_HEARD_ALL = 12, /* 1 if it has heard from all others */
    TELLWYDAR_NODE_WHOLE = 13,     /* how many bytes of the text that was opened last are the log */
    TELLWYDAR_NODE_PLACE = 14,     /* the line or the entry that the last refusal to open names, else 0 */
    TELLWYDAR_NODE_CALLS = 15      /* how many entries of its log are calls */
};
uint64_t tellwydar_node_look(struct tellwydar_node *handle, uint32_t what, uint16_t reg);
/* What its process knows of another one, as `tellwydar_process_known`, and besides: */
enum {
    TELLWYDAR_PEER_HEARD = 4, /* 1 if the node has heard from it */
    TELLWYDAR_PEER_SILENT = 5 /* 1 if it is silent for 127 looks or more */
};
uint64_t tellwydar_node_known(struct tellwydar_node *handle, uint32_t what, uint8_t peer);

/* Looks at another process: do so for each one every few milliseconds. Where looks find that it wasn't heard, or the
 * same frame to it unacknowledged, something is due after 1, 2, 4, .. 64 looks, and from there on after each 100: a
 * greeting, where it wasn't heard or is silent for 127 looks or more; and a tick, where a frame to it isn't
 * acknowledged and it isn't silent for so long. The result has these bits, and is 0 where nothing is due, where there
 * is no other process of this number, and where no node was opened. */
enum {
    TELLWYDAR_GREETS = 1, /* that process is to be told TELLWYDAR_PEER_EXPECTED of it */
    TELLWYDAR_TICKS = 2
};
uint32_t tellwydar_node_watch(struct tellwydar_node *handle, uint8_t peer);
/* Tells that the node took what came from another process: where that was silent for long, looks are counted anew. The
 * result is TELLWYDAR_TICKS where the node is to tick at once: the last tick that was due for that process put frames
 * again, and it has acknowledged just these, though it hasn't acknowledged more. So what it dropped, since a frame
 * before was lost, is put again as fast as it acknowledges it. Else, and where no node was opened, the result is 0. */
uint32_t tellwydar_node_came(struct tellwydar_node *handle, uint8_t peer);

/* A cluster that doesn't end runs in chapters, each with logs of its own. Where one is to end, all nodes call nothing
 * more, and tell each other how far they have come until it is over for all: then everybody has accepted all that
 * anybody put, and their copies are equal. */

/* Puts as many of the bytes that tell how far the node has come into the room as it takes, and tells how many there
 * are: 9 and 8 for each process. `is_quiet` is 1 where it calls nothing more in this chapter and no operation goes on.
 * The node keeps that it told this. The result is 0, or TELLWYDAR_OUT_OF_MEMORY, and then nothing has changed. */
uint32_t tellwydar_node_tell_state(struct tellwydar_node *handle, uint32_t is_quiet, uint8_t *room, size_t room_length,
                                   size_t *length);
/* Hears such bytes of another node of the same chapter, in whatever order they come: the latest are kept. The result is
 * 0, or TELLWYDAR_NO_PROCESS, TELLWYDAR_NO_STATE or TELLWYDAR_OUT_OF_MEMORY, and then nothing has changed. */
uint32_t tellwydar_node_hear_state(struct tellwydar_node *handle, uint8_t sender, const uint8_t *bytes,
                                   size_t bytes_length);
/* 1 where the chapter is over, by what the node told and heard, and else 0. */
uint32_t tellwydar_node_is_over(struct tellwydar_node *handle);

/* What ends a chapter, so that it comes to rest within the limits of a run. */
struct tellwydar_chapter_room {
    uint64_t operations; /* once a process has called so many, the chapter ends */
    uint64_t total;      /* once the logs of all could have so many entries together, too */
    uint64_t entries;    /* that is once its own log has so many */
    uint64_t ahead;      /* while so many of its casts aren't delivered at itself, it calls nothing that is cast */
    uint64_t least;      /* where there is no such room: the least number that there can be, */
    uint64_t most;       /* and the greatest */
};
/* Why there is no room. */
enum {
    TELLWYDAR_NO_BEGINNING = 81,   /* a chapter needs `least` entries to begin, and has `most` */
    TELLWYDAR_BAD_OPERATIONS = 82, /* it can't end at so many operations of a process */
    TELLWYDAR_BAD_ENTRIES = 83     /* it can't end at so many entries */
};
/* The room in chapters that end at so many operations of a process, or so many entries of all logs together; UINT64_MAX
 * stands for the usual number. The result is 0, TELLWYDAR_NO_SHAPE, or one of those above. */
uint32_t tellwydar_room(uint32_t processes, uint32_t registers, uint64_t operations, uint64_t entries,
                        struct tellwydar_chapter_room *room);

/* A chapter behind another one begins with what that one ended with: process 0 first calls the writes of all registers
 * that weren't 0, and nobody calls anything else until all of them are delivered at itself. */

/* Sets the room of the node's chapter, by the numbers of `tellwydar_room`. It comes behind no other one then, and
 * nobody has asked for its end. The result is 0, or TELLWYDAR_CLOSED, and then nothing has changed. */
uint32_t tellwydar_node_set_room(struct tellwydar_node *handle, uint64_t operations, uint64_t entries, uint64_t ahead);
/* Tells with which values of the registers, in their order, the chapter before ended. The result is 0; or
 * TELLWYDAR_CLOSED where no room was set, TELLWYDAR_NO_SHAPE where there are more than 4,096, or TELLWYDAR_NO_MEMORY,
 * and then nothing has changed. */
uint32_t tellwydar_node_follow(struct tellwydar_node *handle, const uint64_t *values, size_t values_length);
/* Asks for the end of the node's chapter, as is due where another node tells how far it has come. The result is 0, or
 * TELLWYDAR_CLOSED where no room was set. */
uint32_t tellwydar_node_end(struct tellwydar_node *handle);
/* What to look at. All are 0 until a room was set. */
enum {
    TELLWYDAR_COURSE_ENDING = 0,    /* 1 where the chapter is to end: somebody asked, or there is little room left */
    TELLWYDAR_COURSE_FAR_AHEAD = 1, /* 1 where so many own casts are on their way that no other one is made */
    TELLWYDAR_COURSE_OPENING = 2,   /* 1 where a write of the chapter before isn't delivered here, or goes on */
    TELLWYDAR_COURSE_QUIET = 3,     /* 1 where the node calls nothing more in this chapter, and no operation goes on */
    TELLWYDAR_COURSE_CALLS = 4,     /* how many calls weren't made to write what the chapter before ended with */
    TELLWYDAR_COURSE_NEXT = 5,      /* 1 where a register of the chapter before is to be written next, */
    TELLWYDAR_COURSE_REGISTER = 6,  /* its number, */
    TELLWYDAR_COURSE_VALUE = 7      /* and its value */
};
/* `running` is 1 where an operation runs or its reply isn't handed out, and else 0. */
uint64_t tellwydar_node_course(struct tellwydar_node *handle, uint32_t what, uint32_t running);

/* Gives back what the node holds, but for the handle's own block: call `tellwydar_node_free` in its place. */
void tellwydar_node_close(struct tellwydar_node *handle);

/* Ends a node. */
static inline void tellwydar_node_free(struct tellwydar_node *handle) {
    tellwydar_node_close(handle);
    free(handle);
}

/* --- Messages: how those between nodes begin, and who they are from (docs/FORMATS.md) ----------------------------- */

enum {
    TELLWYDAR_MESSAGE_START = 33, /* the bytes of the start of a message: the next one says what it brings */
    TELLWYDAR_NO_CHAPTER = 84,    /* the chapter is above 4,294,967,295 */
    TELLWYDAR_NO_GREETING = 85    /* the bytes are no greeting */
};
/* What a message brings. */
enum { TELLWYDAR_BRINGS_FRAMES = 0, TELLWYDAR_BRINGS_STATE = 1, TELLWYDAR_BRINGS_GREETING = 2 };
/* What a message is to the process that it came to: the first of these that applies, where they are looked at in the
 * order 11, 3 to 8, 1, 2, 9, 10, 0. */
enum {
    TELLWYDAR_MET_PEER = 0,      /* from the process that it says, with what it brings */
    TELLWYDAR_MET_LATE = 1,      /* from a process that doesn't know yet that its chapter, the one before, is over */
    TELLWYDAR_MET_ELSEWHERE = 2, /* from a process in some other chapter */
    TELLWYDAR_MET_OTHER_FRONT = 3,
    TELLWYDAR_MET_OTHER_PROCESSES = 4, /* another number of them */
    TELLWYDAR_MET_OTHER_REGISTERS = 5,
    TELLWYDAR_MET_OTHER_CLUSTER = 6,
    TELLWYDAR_MET_OTHER_RECEIVER = 7,
    TELLWYDAR_MET_OTHER_SENDER = 8, /* from no other process of the cluster, or not from the one by whose key it came */
    TELLWYDAR_MET_BEGUN_ANEW = 9,   /* from a log that was begun anew: another one of its process was heard first */
    TELLWYDAR_MET_UNKNOWN = 10,     /* from the process that it says, but nothing is known that it could bring */
    TELLWYDAR_MET_NO_MESSAGE = 11   /* the bytes are none of a message */
};
/* What a message is, and what it says: zeros where it is none. */
struct tellwydar_met {
    uint64_t cluster;
    uint64_t begun; /* of the sender's log */
    uint32_t names; /* the CRC-32 of the registers' names with a space between two */
    uint32_t chapter;
    uint32_t met;
    uint16_t registers; /* how many there are */
    uint8_t front;
    uint8_t processes;
    uint8_t sender;
    uint8_t receiver;
    uint8_t brings;
};
/* The log of a process that was heard first in a chapter. */
struct tellwydar_heard {
    uint64_t begun;
    uint32_t is_heard; /* 0 where none was, and `begun` isn't looked at */
};
struct tellwydar_greeting {
    uint64_t accepted;   /* how many bodies its sender accepted from the receiver */
    uint32_t is_wanting; /* 1 where its sender wants one back, else 0 */
};

/* Puts as many of the 33 bytes into the room as it takes with which a message of the process of this log to the process
 * `to` begins. The names are those of `tellwydar_node_begin`. The result is 0; or one of those of that function, or
 * TELLWYDAR_NO_CHAPTER, and then nothing has changed. */
uint32_t tellwydar_message_start(const struct tellwydar_log *log, const uint8_t *names, size_t names_length, uint8_t to,
                                 uint8_t *room, size_t room_length);
/* Tells what a message is to the process whose own messages begin with these 33 bytes, whomever they are for. A key
 * below 256 is the process by whose key the message came; else there are no keys. `heard` has a row for each process of
 * the cluster, by its number: that of the sender is set where the message is TELLWYDAR_MET_PEER or
 * TELLWYDAR_MET_UNKNOWN. The result is 0; or TELLWYDAR_NO_SHAPE where `own` is no such start, or the rows are more or
 * fewer, and then nothing has changed. */
uint32_t tellwydar_message_met(const uint8_t *own, size_t own_length, uint32_t key, const uint8_t *message,
                               size_t message_length, struct tellwydar_heard *heard, size_t heard_length,
                               struct tellwydar_met *met);
/* Puts as many of the 9 bytes of a greeting into the room as it takes. Its sender wants one back
 * unless `is_wanting` is 0. */
void tellwydar_message_greet(uint32_t is_wanting, uint64_t accepted, uint8_t *room, size_t room_length);
/* Tells the greeting of these bytes. The result is 0; or TELLWYDAR_NO_GREETING, and then nothing has changed. */
uint32_t tellwydar_message_greeting(const uint8_t *bytes, size_t bytes_length, struct tellwydar_greeting *greeting);

/* --- Logs: those of all processes of a chapter, merged ------------------------------------------------------------ */

/* What is told of logs that are merged. */
struct tellwydar_merged {
    size_t length;  /* how many bytes the text of the record has, also where less room was lent */
    uint64_t log;   /* of a refusal: the log that it names, by its place from 0, else 0 */
    uint64_t place; /* and what else it names, else 0 */
};
/* Why there is no record of logs. A text that is no log is told as `tellwydar_node_open` tells it, by
 * TELLWYDAR_NOT_A_LOG, TELLWYDAR_NO_PROCESS or TELLWYDAR_FOREIGN, and the line or the entry in `place`; by
 * TELLWYDAR_DAMAGED if behind the last line that stands whole a further one ends, which no crash leaves: `place` is
 * then the entry that should be there. */
enum {
    TELLWYDAR_NO_LOG = 96,           /* there is no text */
    TELLWYDAR_OTHER_CHAPTER = 97,    /* the log is the first that isn't of the first one's chapter: `place` is
                                      * where they differ */
    TELLWYDAR_SAME_PROCESS = 98,     /* the log is of the process of the one at `place` */
    TELLWYDAR_NO_LOG_OF = 99,        /* no log is of the process `place` */
    TELLWYDAR_TOO_MANY_ENTRIES = 100, /* more than 1,048,576 in all logs together */
    TELLWYDAR_UNFAITHFUL = 101       /* the entry `place` of the log is in no run of first entries of the logs */
};
/* Where the heads of logs differ: the first of these. */
enum {
    TELLWYDAR_CLUSTER = 0,
    TELLWYDAR_CHAPTER = 1,
    TELLWYDAR_FRONT = 2,
    TELLWYDAR_PROCESSES = 3,
    TELLWYDAR_REGISTERS = 4
};
/* Puts as many bytes into the room as it takes of the text of the record that has the steps of all these logs in an
 * order that is a run: `tellwydar_verify` takes it. The logs are those of one chapter, one of each process, in any
 * order, and stand one behind the other: the first has `lengths[0]` bytes, and so on. What a crash left behind the last
 * line of a log that stands whole is none of it. The result is 0; or it tells why there is no such record, and then
 * `told` says where, and neither the room nor `length` has changed. TELLWYDAR_NO_MEMORY may come in place of all. */
uint32_t tellwydar_merge_logs(const uint8_t *logs, size_t logs_length, const uint64_t *lengths, size_t lengths_length,
                              uint8_t *room, size_t room_length, struct tellwydar_merged *told);

#ifdef __cplusplus
}
#endif
#endif
