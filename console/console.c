/* console - plays a tape file and shows its listing and its fault in words. */
#include "kobrinza.h"

#include <stdio.h>
#include <stdlib.h>

enum { MOST = 65536 };

static const char *fault_in_words(uint32_t fault)
{
    switch (fault) {
    case KOBRINZA_NO_POINT: return "there is no such point";
    case KOBRINZA_SAME_POINT: return "the run leads from a point to itself";
    case KOBRINZA_NO_WINCH: return "there is no such winch";
    case KOBRINZA_STRAIN_TOO_HIGH: return "the strain is above 100 percent";
    case KOBRINZA_MAP_FULL: return "all 256 runs have been laid";
    case KOBRINZA_NO_RUN: return "no run of that number was laid";
    case KOBRINZA_RUN_STRUCK: return "the run is struck";
    case KOBRINZA_SAME_WINCH: return "the same winch twice";
    case KOBRINZA_BAD_NAME: return "the name has a byte that cannot be printed";
    case KOBRINZA_UNKNOWN_COMMAND: return "the byte is no command";
    case KOBRINZA_TAPE_ENDS: return "the tape ends inside a command";
    case KOBRINZA_UNKNOWN_LETTER: return "the letter names no kind or rule";
    case KOBRINZA_NO_ROOM: return "the line does not fit into the listing";
    default: return "unknown fault";
    }
}

static const char *layer_in_words(uint32_t layer)
{
    switch (layer) {
    case KOBRINZA_TAPE: return "tape";
    case KOBRINZA_MAP: return "map";
    case KOBRINZA_RULE: return "rule";
    case KOBRINZA_SEARCH: return "search";
    case KOBRINZA_LISTING: return "listing";
    default: return "unknown layer";
    }
}

/* Plays the tape with room for a listing of `room` bytes, and shows what came of it. Says whether that could be shown. */
static int show(const uint8_t *tape, size_t tape_len, size_t room)
{
    uint8_t *listing = malloc(room > 0 ? room : 1);
    if (listing == NULL) {
        perror("console");
        return 0;
    }
    struct kobrinza_report report = kobrinza_play(tape, tape_len, listing, room);
    fwrite(listing, 1, report.len, stdout);
    free(listing);
    if (report.fault != KOBRINZA_NO_FAULT) {
        printf("fault %u at %zu in %s: %s\n", (unsigned)report.fault, report.place, layer_in_words(report.layer),
               fault_in_words(report.fault));
    }
    if (fflush(stdout) != 0 || ferror(stdout)) {
        perror("console");
        return 0;
    }
    return 1;
}

/* Reads the file into a buffer of just its length. */
static uint8_t *load(const char *path, size_t *len)
{
    FILE *file = fopen(path, "rb");
    if (file == NULL) {
        perror(path);
        return NULL;
    }
    static uint8_t bytes[MOST + 1];
    *len = fread(bytes, 1, sizeof bytes, file);
    int failed = ferror(file);
    fclose(file);
    if (failed) {
        perror(path);
        return NULL;
    }
    if (*len > MOST) {
        fprintf(stderr, "%s: tape too long\n", path);
        return NULL;
    }
    uint8_t *tape = malloc(*len > 0 ? *len : 1);
    if (tape == NULL) {
        perror(path);
        return NULL;
    }
    for (size_t i = 0; i < *len; i++) {
        tape[i] = bytes[i];
    }
    return tape;
}

int main(int argc, char **argv)
{
    size_t room = MOST;
    if (argc == 3) {
        char *end;
        room = strtoul(argv[2], &end, 10);
        if (*end != '\0' || room > MOST) {
            argc = 0;
        }
    }
    if (argc != 2 && argc != 3) {
        fprintf(stderr, "usage: console TAPE [ROOM]\n"
                        "plays the tape file with ROOM bytes (at most 65536) for its listing\n");
        return 2;
    }
    size_t len;
    uint8_t *tape = load(argv[1], &len);
    if (tape == NULL) {
        return 1;
    }
    int shown = show(tape, len, room);
    free(tape);
    return shown ? 0 : 1;
}
