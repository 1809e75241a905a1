/* Runs a command of `awreg`, or `verify`, `merge`, `story` or `judge` of `awshow`, over standard input:
 * command replay|check|play|play-fair|verify|merge|story|judge. It prints what the program prints, with its status. */
#include "tellwydar.h"
#include <stdio.h>
#include <string.h>

typedef uint8_t command(const uint8_t *, size_t, uint8_t *, size_t, uint8_t *, size_t, struct tellwydar_lengths *);

static uint8_t judge(const uint8_t *text, size_t length, uint8_t *output, size_t output_length, uint8_t *errors,
                     size_t errors_length, struct tellwydar_lengths *lengths) {
    return tellwydar_judge(text, length, 0, output, output_length, errors, errors_length, lengths);
}

static command *named(const char *word) {
    if (strcmp(word, "check") == 0) return tellwydar_check;
    if (strcmp(word, "play") == 0) return tellwydar_play;
    if (strcmp(word, "play-fair") == 0) return tellwydar_play_fair;
    if (strcmp(word, "verify") == 0) return tellwydar_verify;
    if (strcmp(word, "merge") == 0) return tellwydar_merge;
    if (strcmp(word, "story") == 0) return tellwydar_story;
    if (strcmp(word, "judge") == 0) return judge;
    return tellwydar_replay;
}

int main(int count, char **words) {
    size_t room = 1 << 16, length = 0, got;
    uint8_t *text = malloc(room);
    if (text == NULL) return 99;
    while ((got = fread(text + length, 1, room - length, stdin)) > 0) {
        length += got;
        if (length == room) {
            uint8_t *larger = realloc(text, room *= 2);
            if (larger == NULL) return 99;
            text = larger;
        }
    }
    if (ferror(stdin)) return 99;
    command *run = named(count > 1 ? words[1] : "replay");
    /* First with no room for the answer: the lengths tell how much is wanted. */
    uint8_t none[1], line[256];
    struct tellwydar_lengths lengths;
    uint8_t status = run(text, length, none, 0, line, sizeof line, &lengths);
    uint8_t *answer = malloc(lengths.output + 1);
    if (answer == NULL) return 99;
    if (run(text, length, answer, lengths.output, line, sizeof line, &lengths) != status) return 99;
    fwrite(answer, 1, lengths.output, stdout);
    fwrite(line, 1, lengths.errors < sizeof line ? lengths.errors : sizeof line, stderr);
    free(answer);
    free(text);
    return fflush(stdout) == 0 ? status : 99;
}
