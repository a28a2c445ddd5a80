/*
 * outline.h: the outline engine for C and C++, x86-64 and Arm Linux.
 *
 * The engine takes the directed edges of a drawing in sweep order, gives each
 * edge the number of the closed outline that it belongs to and its place round
 * that outline, and lists the edges in the order in which they are cut. From
 * these it gives the instructions for two kinds of cutter. It is proved, for
 * x86-64; for Arm the same code is compiled once more, and tested. It comes as
 * libdesk.a, in the repository's dist/ with this header:
 *
 *     cc program.c -I dist dist/$(uname -m)/libdesk.a
 *
 * The functions work only in the memory that they are handed. They allocate
 * nothing, keep nothing between calls, call nothing back, and may be called
 * from several threads at once. A slice is a pointer and a length counted in
 * numbers, not in bytes. Any length and any contents are allowed: what does not
 * fit is refused. The pointers must not be NULL, even where the length is 0,
 * and what is lent to be written must overlap nothing else that the call is
 * handed.
 */
#ifndef OUTLINE_H
#define OUTLINE_H

#include <stddef.h>
#include <stdint.h>

#ifdef __cplusplus
extern "C" {
#endif

/* How much of everything. */
enum {
    OUTLINE_NUMBERS_PER_EDGE = 5,         /* tail x, tail y, head x, head y,
                                             film */
    OUTLINE_MOST_EDGES = 4096,            /* in one list */
    OUTLINE_LIMIT = 1000000,              /* coordinates: -limit to limit */
    OUTLINE_MOST_FILM = 255,              /* films: 0 to this one */
    OUTLINE_JOURNAL_NUMBERS_PER_EDGE = 8, /* to lend, at least */
    OUTLINE_NUMBERS_PER_RECORD = 4,       /* level, name, row, offset */
    OUTLINE_NUMBERS_PER_ROW = 8,          /* to lend for each row */
    OUTLINE_UNITS_PER_MILLIMETRE = 64     /* of coordinates */
};

/*
 * The refusals, by number; the words are those of docs/REFUSALS.md. `place` is
 * the place of an edge in the list, from 0, where an edge is named below, a
 * position in the turn list, from 0, for 24, and 0 otherwise.
 *
 * 1 to 4 are tried first. Then the first edge with any of 5, 16, 6, 7 decides,
 * in that order within an edge. Then 8 is tried over the whole list, then 9,
 * then 17, then 10. Likewise 11, 12, 13 and 14 one after the other. For an instruction
 * 1 and 2 are tried first, then the first edge with any of 5, 16, 6 decides,
 * then come 11 to 14, 24, 25 and 18.
 */
enum {
    OUTLINE_ACCEPTED = 0,
    /* outline_assemble */
    OUTLINE_NOT_WHOLE = 1,      /* the list's length is no multiple of 5 */
    OUTLINE_TOO_MANY = 2,       /* more than 4,096 edges */
    OUTLINE_LISTS_DIFFER = 3,   /* polygons, sequences or turns: not one an
                                   edge */
    OUTLINE_JOURNAL_SHORT = 4,  /* fewer than 8 numbers an edge */
    OUTLINE_PAST_RANGE = 5,     /* the edge has a coordinate past the limit */
    OUTLINE_EQUAL_ENDS = 6,     /* the edge begins where it ends */
    OUTLINE_TOP_FALLS = 7,      /* its top is below the top before it */
    OUTLINE_REPEATED = 8,       /* it arrives at a point, or leaves one, on the
                                   side on which an earlier edge of its film
                                   does */
    OUTLINE_UNEVEN = 9,         /* it has an end where arriving and leaving
                                   edges of its film are not equally many */
    OUTLINE_NO_ROW = 10,        /* too few rows: when it was treated */
    OUTLINE_FILM_PAST_RANGE = 16, /* the edge has a film past 0 to 255 */
    OUTLINE_NOT_ALTERNATING = 17, /* it has an end where four edges of its film
                                     do not arrive and leave by turns going
                                     round the point, or where two of them lie
                                     in one direction */
    /* outline_turns */
    OUTLINE_TURN_LENGTHS = 11,  /* the lengths differ, or are above 4,096, or
                                   for an instruction not one an edge */
    OUTLINE_NO_POLYGON = 12,    /* the edge has polygon number 0 */
    OUTLINE_PAIR_REPEATED = 13, /* an earlier edge has both its numbers */
    OUTLINE_GAP = 14,           /* no edge stands one before it, in its polygon
                                   or among polygons */
    /* outline_flatbed, outline_roll_feeder */
    OUTLINE_PAST_LAST = 18,     /* there are not so many instructions */
    OUTLINE_TURNS_DIFFER = 24,  /* the turn list is not that of the numbers;
                                   place: the first position that differs */
    OUTLINE_HEAD_NOT_TAIL = 25, /* the edge does not end where the next of its
                                   outline begins; the first in turn order */
    /* none of these: the program outline, which reads text */
    OUTLINE_MALFORMED = 15      /* place: the first malformed line, from 1 */
};

/* What an instruction is. */
enum {
    OUTLINE_TRAVEL = 0, /* go to the place with the blade up */
    OUTLINE_CUT = 1,    /* go to the place with the blade down */
    OUTLINE_LIFT = 2    /* raise the blade where it is */
};

/* The answer of outline_assemble. */
typedef struct {
    uint32_t refusal;  /* 0: accepted */
    uint32_t place;    /* accepted: 0 */
    uint32_t polygons; /* how many outlines; refused: 0 */
    uint32_t peak;     /* the most rows in use at any moment; refused: 0 */
    uint32_t records;  /* how many records in the journal; refused: 0 */
} outline_sheet;

/* The answer of outline_turns. */
typedef struct {
    uint32_t refusal;  /* 0: accepted */
    uint32_t place;    /* accepted: 0 */
    uint32_t polygons; /* how many outlines; refused: 0 */
} outline_turned;

/* The answer of outline_flatbed and of outline_roll_feeder. */
typedef struct {
    uint32_t refusal; /* 0: accepted */
    uint32_t place;   /* accepted: 0 */
    uint32_t what;    /* travel, cut or lift; refused: 0 */
    float x;          /* the first number of the place in millimetres */
    float y;          /* the second; both are +0 for a lift and a refusal */
} outline_cut;

/*
 * Numbers a list of edges and puts them in turn.
 *
 *   edges      five numbers an edge, in sweep order: no edge has its higher end
 *              below that of the edge before it, a point being higher by y and
 *              at equal y by x, whatever the films. Edges meet only within a
 *              film: neighbours of two films may share whole sides. Film lies
 *              to the left of each edge: where four edges of a film meet, an
 *              arriving edge is followed by the leaving edge first met turning
 *              clockwise from the way it came, so that two pixels which touch
 *              corner to corner are two outlines. Unchanged.
 *   polygons   one number an edge: its outline, from 1. The outline with the
 *              highest top is number 1. Two films' outlines may have the same
 *              top: of the two edges that each has there, take the later one in
 *              the list; whose stands later has the smaller number.
 *   sequences  one number an edge: its place round its outline, from 0. The
 *              edge that leaves the highest point has 0.
 *   turns      one number an edge: the places of the edges, outline by outline
 *              and each in sequence order; what outline_turns reads from the
 *              other two lists. Each edge ends at the point where the next of
 *              its outline begins, and the last where the first begins.
 *   journal    8 numbers an edge or more. Holds the records of the sweep up
 *              afterwards, 4 numbers each, then zeros.
 *   rows       8 numbers a row; what is over at the end is no row. What the
 *              rows hold before does not matter. All zeros afterwards.
 *
 * Accepted: polygons, sequences and turns are filled, journal and rows as said.
 * Refused: all three lists are as they were; so are journal and rows, but for
 * refusal 10, which leaves both all zeros. 11 to 14 never come from this call.
 *
 * How many rows to lend: let C be the most edges, of all films, that pass any
 * one point (its lower end is below the point, its higher end is not) and F the
 * whole part of log2 of the number of edges of the longest outline. 1 + F(C - 2)
 * rows are always enough, and so are C times F, which is more. Who does not know
 * the longest outline may take the number of all edges for it. The answer's peak
 * is the exact number for this list: with so many it is accepted again, with
 * fewer it gets refusal 10. Lending more costs their clearing only.
 */
outline_sheet outline_assemble(const int32_t *edges, size_t edges_length,
                               uint32_t *polygons, size_t polygons_length,
                               uint32_t *sequences, size_t sequences_length,
                               uint32_t *turns, size_t turns_length,
                               int32_t *journal, size_t journal_length,
                               int32_t *rows, size_t rows_length);

/*
 * Reads the turn list from a polygon list and a sequence list that come from
 * elsewhere: the places of the edges, outline by outline and each in sequence
 * order. All three have one number an edge. Accepted are exactly the numberings
 * whose polygon numbers run from 1 without a gap and in which the sequence
 * numbers of each polygon run from 0 without gap or repeat. Refused: the turn
 * list is as it was.
 */
outline_turned outline_turns(const uint32_t *polygons, size_t polygons_length,
                             const uint32_t *sequences, size_t sequences_length,
                             uint32_t *turns, size_t turns_length);

/*
 * The k-th instruction, from 0, for the outlines of a sheet that is numbered
 * and put in turn, by outline_assemble or elsewhere. For each outline in the
 * order of the polygon numbers: travel to the tail of its edge 0, cut to the
 * head of each of its edges in sequence order, the last leading back to the
 * start, lift. That is n + 2 instructions for n edges; after the last of all
 * comes refusal 18.
 *
 *   edges      five numbers an edge, in any order.
 *   polygons,  one number an edge: its outline, from 1, and its place round it,
 *   sequences  from 0; any numbering that outline_turns accepts.
 *   turns      the turn list that outline_turns reads from these two.
 *   k          which instruction.
 *
 * Each edge must end at the point where the next of its outline begins, and the
 * last where edge 0 begins, whatever the films. Nothing is written.
 *
 * The flatbed takes x and then y. The roll feeder takes y and then x negated.
 * Both are exact, and a zero is always +0.
 */
outline_cut outline_flatbed(const int32_t *edges, size_t edges_length,
                            const uint32_t *polygons, size_t polygons_length,
                            const uint32_t *sequences, size_t sequences_length,
                            const uint32_t *turns, size_t turns_length,
                            uint32_t k);

outline_cut outline_roll_feeder(const int32_t *edges, size_t edges_length,
                                const uint32_t *polygons,
                                size_t polygons_length,
                                const uint32_t *sequences,
                                size_t sequences_length,
                                const uint32_t *turns, size_t turns_length,
                                uint32_t k);

#ifdef __cplusplus
}
#endif

#endif
