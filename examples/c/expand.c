/* Expands the prototypes of a scene in Lines form and prints the counts: expand SCENE.lines */
#include "luhetami.h"

#include <inttypes.h>
#include <stdio.h>
#include <stdlib.h>

enum { NODES = 20000, DEPTH = 64, ROWS = 100000 };

/* Room for some words. */
static uint32_t *words_for(size_t words) {
    uint32_t *room = calloc(words + 1, sizeof *room); /* one more, so that it is never NULL */
    if (room == NULL) {
        fprintf(stderr, "no memory for %zu words\n", words);
        exit(70);
    }
    return room;
}

/* The bytes of a file. */
static uint8_t *bytes_of(const char *path, size_t *length) {
    FILE *file = fopen(path, "rb");
    uint8_t *bytes = NULL;
    size_t room = 0;
    *length = 0;
    if (file != NULL) {
        do {
            room += 1 << 16;
            bytes = realloc(bytes, room);
            if (bytes == NULL) {
                break;
            }
            *length += fread(bytes + *length, 1, room - *length, file);
        } while (*length == room);
    }
    if (file == NULL || bytes == NULL || ferror(file)) {
        perror(path);
        exit(74);
    }
    fclose(file);
    return bytes;
}

int main(int count, char **arguments) {
    if (count != 2) {
        fprintf(stderr, "usage: %s SCENE.lines\n", arguments[0]);
        return 64;
    }

    /* The scene's rows. */
    size_t length;
    uint8_t *lines = bytes_of(arguments[1], &length);
    size_t root_words = length / LUHETAMI_ROW_BYTES * LUHETAMI_ROW_WORDS;
    uint32_t *root = words_for(root_words);
    uint32_t read[LUHETAMI_LINES_ANSWER];
    uint32_t refusal = luhetami_read_lines(lines, length, root, root_words, read, LUHETAMI_LINES_ANSWER);
    if (refusal != LUHETAMI_ACCEPTED) {
        printf("%s: refused %" PRIu32 " at line %" PRIu32 "\n", arguments[1], refusal, read[1]);
        return (int)refusal;
    }

    /* The expansion, with an empty library. */
    uint32_t empty = 0;
    uint32_t *out = words_for(LUHETAMI_OUT_WORDS(ROWS));
    uint32_t *ledger = words_for(LUHETAMI_LEDGER_WORDS(NODES));
    uint32_t *scopes = words_for(LUHETAMI_SCOPES_WORDS(ROWS));
    uint32_t *work = words_for(LUHETAMI_WORK_WORDS(DEPTH, ROWS));
    uint32_t answer[LUHETAMI_EXPAND_ANSWER];
    refusal = luhetami_expand(root, root_words, &empty, 0, NODES, DEPTH, ROWS,
                              out, LUHETAMI_OUT_WORDS(ROWS), ledger, LUHETAMI_LEDGER_WORDS(NODES),
                              scopes, LUHETAMI_SCOPES_WORDS(ROWS), work, LUHETAMI_WORK_WORDS(DEPTH, ROWS),
                              answer, LUHETAMI_EXPAND_ANSWER);
    if (refusal != LUHETAMI_ACCEPTED) {
        printf("%s: refused %" PRIu32 ", places %" PRIu32 " and %" PRIu32 "\n", arguments[1], refusal, answer[1], answer[2]);
    } else {
        printf("%s: nodes %" PRIu32 ", scopes %" PRIu32 ", charges %" PRIu32 ", rows %" PRIu32 "\n",
               arguments[1], answer[3], answer[4], answer[5], answer[6]);
    }
    free(work);
    free(scopes);
    free(ledger);
    free(out);
    free(root);
    free(lines);
    return (int)refusal;
}
