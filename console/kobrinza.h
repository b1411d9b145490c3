/* kobrinza.h - the player of the Kobrinza router, as C calls it.
 *
 * One call, which allocates nothing, keeps nothing and writes nowhere but into the listing buffer.
 * Link with libkobrinza.a, which `make` builds of the proved crates kobrinza and kobrinza_c.
 */
#ifndef KOBRINZA_H
#define KOBRINZA_H

#include <stddef.h>
#include <stdint.h>

/* The number of the fault that ended a play.
 *
 * The numbers 8 to 11 and 17 are refusals of other calls; no play ends with one.
 * (11, that no legal walk leads to the mark, is a line of the listing and no fault.)
 */
enum kobrinza_fault {
    KOBRINZA_NO_FAULT = 0,         /* the tape was played to its end */
    KOBRINZA_NO_POINT = 1,         /* a point above 127 (R, N, P, Q) */
    KOBRINZA_SAME_POINT = 2,       /* a run from a point to itself (R) */
    KOBRINZA_NO_WINCH = 3,         /* a winch above 15 (R, M) */
    KOBRINZA_STRAIN_TOO_HIGH = 4,  /* a strain above 100 percent (R) */
    KOBRINZA_MAP_FULL = 5,         /* all 256 runs have been laid (R) */
    KOBRINZA_NO_RUN = 6,           /* no run of that number was laid (X, T) */
    KOBRINZA_RUN_STRUCK = 7,       /* the run is struck (X, T) */
    KOBRINZA_SAME_WINCH = 12,      /* the same winch twice (M) */
    KOBRINZA_BAD_NAME = 13,        /* a name has a byte that is not from 32 to 126 (N) */
    KOBRINZA_UNKNOWN_COMMAND = 14, /* the byte is no command */
    KOBRINZA_TAPE_ENDS = 15,       /* the tape ends inside a command */
    KOBRINZA_UNKNOWN_LETTER = 16,  /* the letter names no kind (Q) or no rule (W) */
    KOBRINZA_NO_ROOM = 18          /* the line does not fit into what is left of the listing */
};

/* The layer at which it arose. */
enum kobrinza_layer {
    KOBRINZA_NO_LAYER = 0, /* there is no fault */
    KOBRINZA_TAPE = 1,     /* the command could not be read: 14, 15, 16 */
    KOBRINZA_MAP = 2,      /* R, X, T or N was refused: 1 to 7, 13 */
    KOBRINZA_RULE = 3,     /* P or M was refused: 1, 3, 12 */
    KOBRINZA_SEARCH = 4,   /* Q was refused: 1 */
    KOBRINZA_LISTING = 5   /* the line of a Q did not fit: 18 */
};

/* What a play came to. */
struct kobrinza_report {
    size_t len;     /* how many bytes of the listing were written */
    size_t place;   /* where the fault's command begins on the tape, counted from 0; 0 where there is no fault */
    uint32_t fault; /* an enum kobrinza_fault */
    uint32_t layer; /* an enum kobrinza_layer */
};

/* Plays the tape on a new rig with new rules, to its end or to its first fault, and writes a line into the listing for each question.
 *
 * The listing begins with report.len bytes of text; the later bytes of the buffer are untouched. Lines written before a fault remain.
 * Neither pointer may be null, also where its length is 0, and the two buffers may not overlap.
 */
struct kobrinza_report kobrinza_play(const uint8_t *tape, size_t tape_len, uint8_t *listing, size_t listing_len);

#endif
