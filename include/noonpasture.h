/* Noonpasture: the demo-run archive. The calls of the proved library, libnoonpasture.a or .so.
 *
 * A generator has a width n (1 to 64), a multiplier, an increment and a seed, each below 2^n.
 * Element 0 is the seed; element i + 1 is multiplier * (element i) + increment modulo 2^n.
 * Width 0 is the generator of APL\360, whose modulus is the prime 2147483647 in place of 2^n: its
 * multiplier is 16807, its increment 0 and its seed 1 to 2147483646.
 * A run is a generator with a first index and a count; position p, below the count, shows
 * element first + p. A line is the six numbers of a run in the order of np_run, in decimal,
 * separated by commas and ended by byte 10. An archive is zero or more lines, no two of them equal,
 * numbered from 1.
 *
 * Any numbers and any bytes may be passed: nothing has to be checked beforehand. A pointer must
 * be good for the length that comes with it; a null pointer is good with length 0. No call
 * allocates, keeps a pointer or has a state of its own, so all of them may run at once in several
 * threads; a player's record is its caller's, and only one call at a time may be given it.
 *
 * The first field of a reply is the refusal: 0, or the lowest NP_REFUSED_.. that applies; for an
 * archive, for a return to a mark, for a fix, for a lane's line and for two runs the order is said at their list.
 * Beside a refusal every other field is 0 (but for the line that it concerns, in a lookup or a summary; a float is
 * +0.0) and nothing is written.
 */
#ifndef NOONPASTURE_H
#define NOONPASTURE_H

#include <stddef.h>
#include <stdint.h>

#ifdef __cplusplus
extern "C" {
#endif

#define NP_VERSION "0.15.0"

#define NP_LINE_MAX 107       /* no line of a run is longer, its byte 10 included */
#define NP_ARCHIVE_MAX 65536  /* no accepted archive is longer */

/* Why a call is refused. In an archive 1 comes first, then line by line 2, 3, 4, 5, 11, then 10. In a return to
 * a mark 12 of the position held comes first, then 13, then 12 of the mark's position. In a fix 14 comes before 12,
 * in the line of a lane 15 before 8, and of two runs whatever refuses the first before what refuses the second. */
enum {
    NP_REFUSED_ARCHIVE_TOO_LONG = 1,      /* more than NP_ARCHIVE_MAX bytes */
    NP_REFUSED_MALFORMED_LINE = 2,        /* bytes that are not a valid line: a field that is no
                                             number below 2^64 or has a leading zero, more or fewer
                                             than six fields, any other byte, byte 10 missing */
    NP_REFUSED_WIDTH_OUT_OF_RANGE = 3,    /* width above 64; for the customary multiplier also below 3 */
    NP_REFUSED_OPERAND_OUT_OF_RANGE = 4,  /* multiplier, increment or seed is 2^width or more; at width 0 the
                                             multiplier is not 16807, the increment not 0, or the seed not
                                             1 to 2147483646 */
    NP_REFUSED_RUN_OUT_OF_RANGE = 5,      /* count 0, or first + count above 2^64 - 1 */
    NP_REFUSED_VALUE_OUT_OF_RANGE = 6,    /* predecessor of a value of 2^width or more, at width 0 of one that
                                             is not 1 to 2147483646 */
    NP_REFUSED_NOT_INVERTIBLE = 7,        /* predecessor or gap with an even multiplier */
    NP_REFUSED_BUFFER_TOO_SHORT = 8,      /* the buffer is shorter than the line */
    NP_REFUSED_PLACES_OUT_OF_RANGE = 9,   /* 0 places, or more than the width has: at width 0 always */
    NP_REFUSED_TOTAL_OVERFLOW = 10,       /* summary of an archive whose counts sum to more than 2^64 - 1 */
    NP_REFUSED_DUPLICATE_LINE = 11,       /* a line of an archive equals an earlier one, byte by byte; the line
                                             given is the later of the two */
    NP_REFUSED_POSITION_OUT_OF_RANGE = 12, /* a player's position, held or resulting, is below 0 or not below the
                                             run's count; a mark's counts only when it is returned to. A fix whose
                                             second position, 2 * fix + 1, is not below the count */
    NP_REFUSED_BOOKMARK_INVALID = 13,     /* a mark above 3, or a return to an unset one */
    NP_REFUSED_INEXACT = 14,              /* a fix at width 0, whose modulus is no power of two */
    NP_REFUSED_LANES_OUT_OF_RANGE = 15,   /* 0 lanes, more than 16 or more than the run's count; a lane that is not
                                             below their number; or width 0 */
    NP_REFUSED_INCOMPATIBLE = 16          /* two runs that differ in width, multiplier or increment, or whose
                                             multiplier is even */
};

typedef struct { uint64_t width, multiplier, increment, seed; } np_generator;
typedef struct { np_generator generator; uint64_t first, count; } np_run;

typedef struct { uint64_t refusal, value; } np_value;
/* period 0: it is 2^exponent; else it is the period itself, and exponent is 0 */
typedef struct { uint64_t refusal, preperiod, exponent, period; } np_orbit_reply;
typedef struct { uint64_t refusal, found, index; } np_index_reply;            /* found 0: never */
/* found 0: never; recurs 0: at index only; 1: there and every 2^exponent further */
typedef struct { uint64_t refusal, found, index, recurs, exponent; } np_places_reply;
typedef struct { uint64_t refusal, found; int64_t steps; } np_gap_reply;      /* found 0: never */
typedef struct { uint64_t refusal; np_run run; } np_run_reply;
typedef struct { uint64_t refusal, line, found, position; } np_lookup_reply;  /* found 0, refusal 0: none */
typedef struct { uint64_t start, length; } np_part;                           /* length 0: the empty part */
/* line: the one that a refusal 2 to 5 or 11 concerns, else 0 */
typedef struct { uint64_t refusal, line, line_count, total; } np_summary_reply;

typedef struct { uint64_t set, position; } np_mark;                           /* set 0: unset; any other number: set */
typedef struct { np_run run; uint64_t position; np_mark marks[4]; } np_player;

typedef struct { double east, north; } np_fix;
typedef struct { uint64_t refusal; np_fix fix; } np_fix_reply;                /* +0.0 twice beside a refusal */

/* The element at an index, any from 0 to 2^64 - 1. Refusals 3, 4. */
np_value        np_element(np_generator g, uint64_t index);

/* The preperiod, the least index whose element occurs again at a later index, and the period,
 * after how many indices it first does: at widths 1 to 64 a power of two, given as its exponent,
 * 0 to 64, with 0 in the field period; at width 0 the number 2147483646, in the field period.
 * Refusals 3, 4. */
np_orbit_reply  np_orbit(np_generator g);

/* The least index that yields the value (found 1), or never (found 0). At width 0 the values 1 to
 * 2147483646 all have one, and no others. Refusals 3, 4. */
np_index_reply  np_index(np_generator g, uint64_t value);

/* The least index at which the element's lowest `places` bits (the element modulo 2^places) are the
 * value (found 1), or never (found 0); a value of 2^places or more is never. With recurs 0 no other
 * index has them, and exponent is 0; with recurs 1 exactly the indices index + t * 2^exponent, t from
 * 0 on, have them, and exponent is 0 to 64. With places = width, from 1 on, found and index are those
 * of np_index. Refusals 3, 4, 9, the last for every number of places at width 0. */
np_places_reply np_index_places(np_generator g, uint64_t places, uint64_t value);

/* The steps from one number of the sequence to another (found 1), or never (found 0) if either of
 * them is at no index. With P the period, steps is the d with -P <= 2 d < P such that d single
 * steps from `from` give `to` or, where d is negative, -d single steps from `to` give `from`: half
 * the period is -P/2. Refusals 3, 4, 7, the last for every even multiplier, whatever the numbers. */
np_gap_reply    np_gap(np_generator g, uint64_t from, uint64_t to);

/* The only number below 2^width, at width 0 from 1 to 2147483646, that one step takes to the value.
 * Refusals 3, 4, 6, 7. */
np_value        np_predecessor(np_generator g, uint64_t value);

/* The largest odd power of 5 below 2^width, for widths from 3 to 64. Refusal 3. */
np_value        np_customary_multiplier(uint64_t width);

/* How many different numbers the run shows, those of a preperiod included: with t the preperiod, P the
 * period and r the larger of t - first and 0, the smaller of count and r + P. Refusals 3, 4, 5. */
np_value        np_variety(np_run run);

/* Writes the run's line from the buffer's first byte on, keeps the bytes behind it, and gives the
 * line's length; NP_LINE_MAX bytes always suffice. Refusals 3, 4, 5, 8. */
np_value        np_write_line(np_run run, uint8_t *buffer, size_t length);

/* The run of bytes that are one line, its byte 10 included. Refusals 2, 3, 4, 5. */
np_run_reply    np_read_line(const uint8_t *bytes, size_t length);

/* Writes the numbers at the position and those after it, from values[0] on, as many as the buffer
 * has room for and the run still has, keeps the numbers behind them, and gives how many were
 * written: 0 from the run's count on. Refusals 3, 4, 5. */
np_value        np_remake(np_run run, uint64_t position, uint64_t *values, size_t capacity);

/* Where the line with this number stands in the archive, its byte 10 included. The empty part,
 * start 0 and length 0, if the archive is refused or has no such line: this call alone gives no
 * refusal. */
np_part         np_line(const uint8_t *archive, size_t length, uint64_t line);

/* The earliest line that shows the value and the least position in it (found 1), or none (found 0).
 * The whole archive is checked first. Refusals 1 with line 0; 2, 3, 4, 5, 11 with the number of the
 * refused line. */
np_lookup_reply np_lookup(const uint8_t *archive, size_t length, uint64_t value);

/* How many lines the archive has (line_count) and the sum of their counts (total); both are 0 for an
 * archive of 0 bytes. The whole archive is checked first, so 10 is given only if every line has passed.
 * Refusals 1 and 10 with line 0; 2, 3, 4, 5, 11 with the number of the refused line. */
np_summary_reply np_summary(const uint8_t *archive, size_t length);

/* A player plays a run forward and back. Its record is the caller's, and each call but show alters it; a
 * refused call writes nothing.
 * Hand in a record of your own, not null, zeroed (np_player player = {0};) or opened before: every call
 * reads the whole record, open too, and memory that was never written must not be read. Nothing else has to
 * be checked: any numbers may stand in it. All but show give the refusal, 0 for accepted.
 *
 * Opens the run at position 0, with no mark set, whatever the record held. Refusals 3, 4, 5 of that run. */
uint64_t        np_player_open(np_player *player, np_run run);

/* The other calls first check what the record holds: refusals 3, 4, 5 of its run, then 12 of its position.
 *
 * Moves on by so many positions, 0 to 2^64 - 1; no sum wraps. Refusal 12 if that leaves the run. */
uint64_t        np_player_forward(np_player *player, uint64_t steps);

/* Moves back by so many positions, with an even multiplier too. Refusal 12 if that leaves the run. */
uint64_t        np_player_back(np_player *player, uint64_t steps);

/* Sets a mark, 0 to 3, to the position held: 1 is written to its field set. Refusal 13 for a mark above 3. */
uint64_t        np_player_mark(np_player *player, uint64_t mark);

/* Returns to a mark, which stays set. Refusals 13 for a mark above 3 or unset, then 12 for one whose position
 * is not on the run. */
uint64_t        np_player_return(np_player *player, uint64_t mark);

/* The number at the position held: element first + position. */
np_value        np_player_show(const np_player *player);

/* Fix number `fix` of a run: east from the element at position 2 * fix, north from that at 2 * fix + 1. At
 * widths n to 53 a deviate is element / 2^n - 1/2; above, the lowest n - 53 bits are dropped, and what is left
 * is divided by 2^53 in place of 2^n. Each is that fraction exactly, from -1/2 to below 1/2; a deviate of 0 is
 * +0.0 as long as the processor rounds to nearest, as at a program's start: nothing is rounded here, but the
 * sign of a 0 depends on it. Refusals 3, 4, 5, then 14, then 12; no sum wraps, whatever fix is. */
np_fix_reply    np_fix_at(np_run run, uint64_t fix);

/* One run for a row of 1 to 16 watches: lane 0, 1, .. of so many lanes is the run of positions lane, lane + lanes,
 * lane + 2 * lanes, .. of the given one. It has the same width, the multiplier and the increment of `lanes` steps,
 * element first + lane for its seed, first index 0, and for its count as many positions as fall to the lane, so that
 * position q of it shows what position lane + q * lanes of the run shows. It is an accepted run. Two lanes may be
 * the same run, though not both in one archive. Refusals 3, 4, 5, 15. */
np_run_reply    np_lane(np_run run, uint64_t lanes, uint64_t lane);

/* Writes the line of that lane as np_write_line does, and gives its length. Refusals 3, 4, 5, then 15, then 8. */
np_value        np_write_lane(np_run run, uint64_t lanes, uint64_t lane, uint8_t *buffer, size_t length);

/* How many different numbers two runs have in common: each is counted once, however often the runs show it. The runs
 * have the same width, multiplier and increment, and the multiplier is odd; seed, first index and count may differ.
 * Refusals 3, 4, 5 of the first run, then 3, 4, 5 of the second, then 16. */
np_value        np_shared(np_run first, np_run second);

/* A refusal's reason in words; of 0 and of numbers that are no refusal it says so. */
static inline const char *np_refusal_text(uint64_t refusal)
{
    switch (refusal) {
    case 0: return "not refused";
    case NP_REFUSED_ARCHIVE_TOO_LONG: return "the archive has more than 65,536 bytes";
    case NP_REFUSED_MALFORMED_LINE: return "bytes that are not a valid line";
    case NP_REFUSED_WIDTH_OUT_OF_RANGE: return "the width is above 64, or below 3 for a customary multiplier";
    case NP_REFUSED_OPERAND_OUT_OF_RANGE:
        return "the multiplier, the increment or the seed is 2^width or more, "
               "or at width 0 other than 16807, 0 and 1 to 2147483646";
    case NP_REFUSED_RUN_OUT_OF_RANGE: return "the count is 0, or first + count is above 2^64 - 1";
    case NP_REFUSED_VALUE_OUT_OF_RANGE: return "the value is 2^width or more, or at width 0 not 1 to 2147483646";
    case NP_REFUSED_NOT_INVERTIBLE: return "the multiplier is even: a predecessor or a gap needs an odd one";
    case NP_REFUSED_BUFFER_TOO_SHORT: return "the buffer is shorter than the line";
    case NP_REFUSED_PLACES_OUT_OF_RANGE: return "the number of places is 0 or above the width";
    case NP_REFUSED_TOTAL_OVERFLOW: return "the sum of the counts is above 2^64 - 1";
    case NP_REFUSED_DUPLICATE_LINE: return "the line equals an earlier one";
    case NP_REFUSED_POSITION_OUT_OF_RANGE: return "the position is not on the run";
    case NP_REFUSED_BOOKMARK_INVALID: return "the mark is above 3, or is returned to and unset";
    case NP_REFUSED_INEXACT: return "a fix at width 0 would be inexact";
    case NP_REFUSED_LANES_OUT_OF_RANGE:
        return "the lanes are none, more than 16 or more than the count, the lane is none of them, or the width is 0";
    case NP_REFUSED_INCOMPATIBLE: return "the runs differ in width, multiplier or increment, or the multiplier is even";
    default: return "no refusal has this number";
    }
}

#ifdef __cplusplus
}
#endif

#endif
