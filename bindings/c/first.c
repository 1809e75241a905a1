/* Two processes: one writes, and both copies get it. Prints who was answered what, and whether the checker agrees. */
#include "tellwydar.h"
#include <stdio.h>

int main(void) {
    struct tellwydar_world *world;
    if (tellwydar_world_new(TELLWYDAR_LINEAR, 2, 1, &world) != 0) return 1;
    tellwydar_world_step(world, TELLWYDAR_WRITE, 0, 0, 0, 5);               /* process 0 writes 5 to register 0 */
    tellwydar_world_step(world, TELLWYDAR_TAKE, 1, 0, 0, 0);                /* process 1 takes frame 0 of process 0 */
    uint32_t told = tellwydar_world_step(world, TELLWYDAR_TAKE, 0, 1, 1, 0); /* process 0 takes the acknowledgement */
    printf("the write is %s after %u events\n", told == TELLWYDAR_DONE ? "done" : "not done",
           (unsigned)tellwydar_world_look(world, TELLWYDAR_EVENTS, 0));
    tellwydar_world_free(world);

    /* A history of one's own: a read that saw a write which came later. */
    struct tellwydar_entry entries[] = {
        {.at = 0, .process = 0, .number = 0, .kind = TELLWYDAR_CALLED_WRITE, .reg = 0, .value = 5},
        {.at = 1, .process = 0, .number = 0, .kind = TELLWYDAR_ANSWERED_DONE},
        {.at = 2, .process = 1, .number = 0, .kind = TELLWYDAR_CALLED_READ, .reg = 0},
        {.at = 3, .process = 1, .number = 0, .kind = TELLWYDAR_ANSWERED_VALUE, .value = 0},
    };
    struct tellwydar_id order[] = {{.process = 1, .number = 0}, {.process = 0, .number = 0}};
    struct tellwydar_point points[] = {{.process = 0, .number = 0, .at = 1}, {.process = 1, .number = 0, .at = 2}};
    size_t place;
    printf("serial order: %s\n",
           tellwydar_check_serial(2, 1, entries, 4, order, 2, &place) == TELLWYDAR_HOLDS ? "yes" : "no");
    uint32_t verdict = tellwydar_check_points(2, 1, entries, 4, points, 2, &place);
    printf("points: %s at %zu\n", verdict == TELLWYDAR_ANSWER ? "another answer" : "?", place);
    return 0;
}
