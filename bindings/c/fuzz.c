/* Calls of all functions, chosen by bytes, for libFuzzer with AddressSanitizer: `tools/bindings --fuzz SECONDS`.
 *
 * Each text and each room is a block of its own, so that nobody reads or writes past its end unseen. Nodes carry frames
 * as they were handed out, lose, repeat and reorder them, and crash: their logs have to be those of one run then. */
#include "tellwydar.h"
#include <string.h>

enum { MOST_NODES = 3, MOST_FRAMES = 256, MOST_TEXT = 1 << 16, MOST_ENTRIES = 512 };

/* The bytes that choose. Behind the last one all are 0. */
struct choices {
    const uint8_t *at;
    size_t left;
};

static void must(int holds) {
    if (!holds) abort();
}

static uint64_t number(struct choices *given, size_t width) {
    uint64_t value = 0;
    for (; width > 0 && given->left > 0; width--, given->left--) value = value << 8 | *given->at++;
    return value;
}

/* One of the first `count` numbers. */
static size_t one_of(struct choices *given, size_t count) { return (size_t)number(given, 1) % count; }

/* A block of its own. */
static uint8_t *block(size_t length) {
    uint8_t *it = malloc(length + (length == 0));
    must(it != NULL);
    return it;
}

/* So many of the bytes at most, in a block of their own. */
static uint8_t *part(struct choices *given, size_t most, size_t *length) {
    *length = given->left < most ? given->left : most;
    uint8_t *it = block(*length);
    memcpy(it, given->at, *length);
    given->at += *length;
    given->left -= *length;
    return it;
}

/* --- Texts */

typedef uint8_t (*command)(const uint8_t *, size_t, uint8_t *, size_t, uint8_t *, size_t, struct tellwydar_lengths *);

static uint8_t judge(const uint8_t *text, size_t count, uint8_t *output, size_t room, uint8_t *errors, size_t more,
                     struct tellwydar_lengths *lengths) {
    return tellwydar_judge(text, count, count & 1, output, room, errors, more, lengths);
}

static uint8_t judge_from(const uint8_t *text, size_t count, uint8_t *output, size_t room, uint8_t *errors, size_t more,
                          struct tellwydar_lengths *lengths) {
    size_t first = count < 4 ? count : 4;
    return tellwydar_judge_from(text + first, count - first, text, first, 0, output, room, errors, more, lengths);
}

static void texts(struct choices *given) {
    static const command commands[] = {tellwydar_replay, tellwydar_check, tellwydar_play, tellwydar_play_fair,
                                       tellwydar_verify, tellwydar_merge, tellwydar_story,  judge,
                                       judge_from};
    command run = commands[one_of(given, sizeof commands / sizeof *commands)];
    size_t room = number(given, 2), more = number(given, 1), count;
    uint8_t *text = part(given, given->left, &count), *output = block(room), *errors = block(more);
    struct tellwydar_lengths lengths;
    uint8_t status = run(text, count, output, room, errors, more, &lengths);
    must(status <= 1 && (lengths.output > 0 || lengths.errors > 0));
    free(text);
    free(output);
    free(errors);
}

/* --- Checkers, over rows of any bytes */

static void checkers(struct choices *given) {
    uint32_t processes = (uint32_t)number(given, 1), registers = (uint32_t)number(given, 1);
    size_t rows = one_of(given, 32), ids = one_of(given, 32), points = one_of(given, 32), expecting = one_of(given, 32);
    size_t place, ignored;
    struct tellwydar_entry *entries = (void *)part(given, rows * sizeof *entries, &ignored);
    rows = ignored / sizeof *entries;
    struct tellwydar_id *order = (void *)part(given, ids * sizeof *order, &ignored);
    ids = ignored / sizeof *order;
    struct tellwydar_point *places = (void *)part(given, points * sizeof *places, &ignored);
    points = ignored / sizeof *places;
    uint64_t *expected = (void *)part(given, expecting * sizeof *expected, &ignored);
    expecting = ignored / sizeof *expected;
    must(tellwydar_check_serial(processes, registers, entries, rows, order, ids, &place) <= TELLWYDAR_OUT_OF_PLACE);
    must(tellwydar_check_points(processes, registers, entries, rows, places, points, &place) <= TELLWYDAR_OUT_OF_PLACE);
    must(tellwydar_check_serial_expecting(processes, registers, entries, rows, expected, expecting, order, ids,
                                          &place) <= TELLWYDAR_OUT_OF_PLACE);
    must(tellwydar_check_points_expecting(processes, registers, entries, rows, expected, expecting, places, points,
                                          &place) <= TELLWYDAR_OUT_OF_PLACE);
    free(entries);
    free(order);
    free(places);
    free(expected);
}

/* --- Worlds, and a process that takes any bytes */

static void world(struct choices *given) {
    struct tellwydar_world *it;
    uint32_t front = (uint32_t)one_of(given, 4), processes = (uint32_t)number(given, 1),
             registers = (uint32_t)number(given, 2);
    if (tellwydar_world_new(front, processes, registers, &it) != 0) return;
    while (given->left > 0) {
        uint32_t kind = (uint32_t)one_of(given, 10);
        uint8_t process = (uint8_t)one_of(given, 5), from = (uint8_t)one_of(given, 5);
        if (kind < 6) {
            tellwydar_world_step(it, kind, process, (uint32_t)number(given, 1), from, number(given, 2));
        } else if (kind == 6) {
            tellwydar_world_compare_and_swap(it, process, (uint32_t)number(given, 1), number(given, 1),
                                             number(given, 1));
        } else if (kind == 7) {
            tellwydar_world_arrange(it);
        } else if (kind == 8) {
            tellwydar_world_look(it, (uint32_t)one_of(given, 20), (uint32_t)number(given, 2));
        } else if (one_of(given, 16) == 0) {
            tellwydar_world_close(it);
        }
    }
    tellwydar_world_free(it);
}

static void process(struct choices *given) {
    struct tellwydar_process *it;
    uint32_t front = (uint32_t)one_of(given, 3), processes = 1 + (uint32_t)one_of(given, 4);
    if (tellwydar_process_new(front, processes, 1 + (uint32_t)one_of(given, 3), 0, &it) != 0) return;
    while (given->left > 0) {
        size_t length, room = number(given, 1), what = one_of(given, 6);
        if (what == 0) {
            tellwydar_process_call(it, (uint32_t)one_of(given, 5), (uint32_t)one_of(given, 4), number(given, 8));
        } else if (what == 1) {
            tellwydar_process_compare_and_swap(it, (uint32_t)one_of(given, 4), number(given, 1), number(given, 1));
        } else if (what == 2) {
            tellwydar_process_tick(it);
        } else if (what == 3) {
            uint8_t *frames = block(room);
            tellwydar_process_frames(it, frames, room, &length);
            free(frames);
        } else if (what == 4) {
            tellwydar_process_look(it, (uint32_t)one_of(given, 10), (uint16_t)number(given, 1));
            tellwydar_process_known(it, (uint32_t)one_of(given, 6), (uint8_t)one_of(given, 5));
        } else {
            uint8_t from = (uint8_t)one_of(given, 5), *bytes = part(given, room % 40, &length);
            tellwydar_process_take(it, from, bytes, length);
            free(bytes);
        }
    }
    tellwydar_process_free(it);
}

/* --- Nodes */

/* A frame that was handed out. */
struct frame {
    uint8_t from, to, bytes[64];
    size_t length;
};

/* A node with the text of its log, where the lines of its entries end, and how many of these
 * it was told are durable. */
struct member {
    struct tellwydar_node *node;
    uint8_t text[MOST_TEXT];
    size_t ends[MOST_ENTRIES], entries, durable;
};

static struct cluster {
    size_t count, frames;
    struct member members[MOST_NODES];
    struct frame carried[MOST_FRAMES];
    int is_honest; /* nobody took or heard what nobody said */
} all;

/* The log ends in what the last step wrote. */
static void write_down(struct member *it) {
    size_t end = it->ends[it->entries];
    size_t count = tellwydar_node_bytes(it->node, it->text + end, MOST_TEXT - end);
    if (count > 0) it->ends[++it->entries] = end + count;
}

/* Keeps the frames that were handed out, in the places of earlier ones where there are many. */
static void carry(struct choices *given, uint8_t from) {
    static uint8_t room[41328];
    size_t length;
    must(tellwydar_node_frames(all.members[from].node, room, sizeof room, &length) == 0 && length <= sizeof room);
    for (size_t at = 0; at < length;) {
        size_t count = 2 + (size_t)(room[at + 1] << 8 | room[at + 2]);
        size_t place = all.frames < MOST_FRAMES ? all.frames++ : one_of(given, MOST_FRAMES);
        struct frame *it = &all.carried[place];
        must(count <= sizeof it->bytes);
        it->from = from;
        it->to = room[at];
        it->length = count;
        memcpy(it->bytes, room + at + 1, count);
        at += 1 + count;
    }
}

/* A frame is taken as it was handed out, or with another byte. */
static void take(struct choices *given) {
    if (all.frames == 0) return;
    struct frame it = all.carried[number(given, 1) % all.frames];
    if (one_of(given, 64) == 63) {
        it.bytes[one_of(given, it.length)] ^= 1 + (uint8_t)one_of(given, 255);
        all.is_honest = 0;
    }
    uint8_t *bytes = block(it.length);
    memcpy(bytes, it.bytes, it.length);
    tellwydar_node_take(all.members[it.to].node, it.from, bytes, it.length);
    free(bytes);
    write_down(&all.members[it.to]);
}

/* All nodes meet this one. */
static void meet(uint8_t me) {
    for (uint8_t other = 0; other < all.count; other++) {
        if (other == me) continue;
        uint64_t accepted = tellwydar_node_known(all.members[other].node, TELLWYDAR_PEER_EXPECTED, me);
        uint32_t told = tellwydar_node_hear(all.members[me].node, other, accepted);
        must(told == 0 || !all.is_honest);
    }
}

/* What was told durable stays, some entries behind it, and a part of a further one. */
static void crash(struct choices *given, uint8_t me) {
    struct member *it = &all.members[me];
    size_t kept = it->durable + number(given, 2) % (it->entries - it->durable + 1), end = it->ends[kept];
    if (kept < it->entries) end += number(given, 1) % (it->ends[kept + 1] - end);
    uint8_t *text = block(end);
    memcpy(text, it->text, end);
    must(tellwydar_node_open(it->node, text, end, it->durable) == 0);
    must(tellwydar_node_look(it->node, TELLWYDAR_NODE_LOGGED, 0) == kept);
    must(tellwydar_node_look(it->node, TELLWYDAR_NODE_WHOLE, 0) == it->ends[kept]);
    free(text);
    it->entries = it->durable = kept;
    meet(me);
}

/* Two nodes tell each other how far they are, or one hears any bytes. */
static void tell(struct choices *given, uint8_t me, uint8_t other) {
    size_t length, room = 9 + 8 * all.count;
    uint8_t *state = block(room);
    must(tellwydar_node_tell_state(all.members[me].node, (uint32_t)one_of(given, 2), state, room, &length) == 0 &&
         length == room);
    if (one_of(given, 8) == 7) room = one_of(given, room);
    tellwydar_node_hear_state(all.members[other].node, me, state, room);
    tellwydar_node_is_over(all.members[other].node);
    free(state);
}

static void course(struct choices *given, struct tellwydar_node *node) {
    struct tellwydar_chapter_room room;
    uint64_t values[MOST_NODES];
    for (size_t at = 0; at < MOST_NODES; at++) values[at] = one_of(given, 3);
    if (tellwydar_room((uint32_t)all.count, 2, number(given, 2), number(given, 3), &room) == 0) {
        tellwydar_node_set_room(node, room.operations, room.entries, room.ahead);
    }
    tellwydar_node_follow(node, values, one_of(given, MOST_NODES + 1));
    if (one_of(given, 4) == 3) tellwydar_node_end(node);
    for (uint32_t what = 0; what < 9; what++) tellwydar_node_course(node, what, what & 1);
}

/* One thing at one node. */
static void act(struct choices *given) {
    uint8_t me = (uint8_t)one_of(given, all.count), other = (uint8_t)one_of(given, all.count);
    struct member *it = &all.members[me];
    if (it->entries + 2 >= MOST_ENTRIES || it->ends[it->entries] + 512 > MOST_TEXT) return;
    switch (one_of(given, 16)) {
    case 0:
    case 1:
        tellwydar_node_call(it->node, (uint32_t)one_of(given, 4), (uint32_t)one_of(given, 3), number(given, 1));
        write_down(it);
        break;
    case 2:
        tellwydar_node_compare_and_swap(it->node, (uint32_t)one_of(given, 2), number(given, 1), number(given, 1));
        write_down(it);
        break;
    case 3:
        tellwydar_node_tick(it->node);
        write_down(it);
        break;
    case 4:
        crash(given, me);
        break;
    case 5:
        tell(given, me, other);
        break;
    case 6:
        course(given, it->node);
        break;
    case 7:
        tellwydar_node_watch(it->node, other);
        tellwydar_node_came(it->node, other);
        tellwydar_node_look(it->node, (uint32_t)one_of(given, 18), (uint16_t)one_of(given, 3));
        break;
    case 8:
    case 9:
    case 10:
        it->durable = it->entries;
        must(tellwydar_node_mark_durable(it->node, it->durable) == 0);
        while (tellwydar_node_hand_out(it->node) != TELLWYDAR_NOTHING_DUE) carry(given, me);
        break;
    default:
        take(given);
    }
}

/* The logs, as they stand, are those of one run. */
static void merge(void) {
    uint64_t lengths[MOST_NODES];
    size_t length = 0;
    for (size_t p = 0; p < all.count; p++) length += lengths[p] = all.members[p].ends[all.members[p].entries];
    uint8_t *logs = block(length), *room = block(64), *at = logs;
    for (size_t p = 0; p < all.count; at += lengths[p++]) memcpy(at, all.members[p].text, lengths[p]);
    struct tellwydar_merged told;
    uint32_t result = tellwydar_merge_logs(logs, length, lengths, all.count, room, 64, &told);
    must(result == 0 || !all.is_honest);
    free(logs);
    free(room);
}

static void nodes(struct choices *given) {
    struct tellwydar_log log = {
        .cluster = 7, .front = (uint32_t)one_of(given, 3), .processes = 1 + (uint32_t)one_of(given, MOST_NODES)};
    all.count = log.processes;
    all.frames = 0;
    all.is_honest = 1;
    for (uint8_t me = 0; me < all.count; me++) {
        struct member *it = &all.members[me];
        log.process = me;
        it->entries = it->durable = 0;
        must(tellwydar_node_begin(&log, (const uint8_t *)"x y", 3, it->text, MOST_TEXT, &it->ends[0]) == 0);
        must(tellwydar_node_new(&it->node) == 0 && tellwydar_node_open(it->node, it->text, it->ends[0], 0) == 0);
    }
    for (uint8_t me = 0; me < all.count; me++) meet(me);
    while (given->left > 0) act(given);
    merge();
    for (size_t me = 0; me < all.count; me++) tellwydar_node_free(all.members[me].node);
}

/* Texts of logs that anybody may have changed. */
static void logs(struct choices *given) {
    struct tellwydar_log log = {.cluster = 7, .processes = 2, .process = (uint8_t)one_of(given, 2)};
    uint64_t lengths[3] = {number(given, 2), number(given, 2), number(given, 2)};
    size_t count = one_of(given, 4), length;
    uint8_t *text = part(given, given->left, &length), *room = block(64);
    uint32_t headless = 0;
    size_t names;
    must(tellwydar_node_is_headless(&log, text, length, &headless) == 0 && headless <= 1);
    must(tellwydar_log_part(text, length, lengths[0]) <= length);
    must(tellwydar_log_head(text, length, &log, room, 64, &names) != 0 || !headless);
    struct tellwydar_node *node;
    must(tellwydar_node_new(&node) == 0);
    uint32_t opened = tellwydar_node_open(node, text, length, lengths[2]);
    must(opened != 0 || !headless);
    tellwydar_node_tick(node);
    tellwydar_node_free(node);
    struct tellwydar_merged told;
    tellwydar_merge_logs(text, length, lengths, count, room, 64, &told);
    free(text);
    free(room);
}

/* --- Messages: one's own is its own, whatever bytes came before it */

static void messages(struct choices *given) {
    uint32_t processes = 1 + (uint32_t)one_of(given, 4);
    struct tellwydar_log log = {
        .cluster = number(given, 8), .chapter = number(given, 4), .begun = number(given, 8), .processes = processes};
    struct tellwydar_heard heard[4] = {{0}};
    struct tellwydar_met met;
    struct tellwydar_greeting greeting;
    uint8_t own[TELLWYDAR_MESSAGE_START], other[TELLWYDAR_MESSAGE_START + 1];
    must(tellwydar_message_start(&log, (const uint8_t *)"x y", 3, 0, own, sizeof own) == 0);
    while (given->left > 0) {
        size_t count = one_of(given, 48), length;
        uint32_t key = (uint32_t)number(given, 2);
        uint8_t *bytes = part(given, count, &length);
        must(tellwydar_message_met(own, sizeof own, key, bytes, length, heard, processes, &met) == 0);
        must(tellwydar_message_greeting(bytes, length, &greeting) != 0 || length == 9);
        free(bytes);
    }
    uint64_t accepted = log.begun;
    tellwydar_message_greet(processes & 1, accepted, other, 9);
    must(tellwydar_message_greeting(other, 9, &greeting) == 0 && greeting.accepted == accepted &&
         greeting.is_wanting == (processes & 1));
    log.process = (uint8_t)(processes - 1);
    must(tellwydar_message_start(&log, (const uint8_t *)"x y", 3, 0, other, TELLWYDAR_MESSAGE_START) == 0);
    other[TELLWYDAR_MESSAGE_START] = TELLWYDAR_BRINGS_STATE;
    must(tellwydar_message_met(own, sizeof own, 256, other, sizeof other, heard, processes, &met) == 0);
    must(met.met == (processes == 1 ? TELLWYDAR_MET_OTHER_SENDER : TELLWYDAR_MET_PEER) ||
         (met.met == TELLWYDAR_MET_BEGUN_ANEW && heard[processes - 1].begun != log.begun));
}

int LLVMFuzzerTestOneInput(const uint8_t *data, size_t size) {
    static void (*const parts[])(struct choices *) = {texts, checkers, world, process, nodes, logs, messages};
    struct choices given = {data, size};
    parts[one_of(&given, sizeof parts / sizeof *parts)](&given);
    return 0;
}
