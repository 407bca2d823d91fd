/* Makes every call of include/noonpasture.h, good and refused, as the reference's vectors ask, and
 * prints the replies:
 *
 *     calls <crates/vectors/stdin | cmp - crates/vectors/stdout
 *
 * tests/reference/make_vectors.py makes both files and says how a call is written. A pointer to no
 * bytes is null here. Each call is made twice, over memory filled with two different bytes, and the
 * replies must be the same. Compiles as C99 and as C++17. */

#include <fenv.h>
#include <inttypes.h>
#include <stdarg.h>
#include <stdio.h>
#include <stdlib.h>
#include <string.h>

#include "noonpasture.h"

enum { NUMBERS = 256 };

/* Of the call in hand: its numbers, and how many; the run of six of them; bytes, and their length. */
static uint64_t numbers[NUMBERS];
static int given;
static np_run run;
static uint8_t room[NUMBERS];
static const uint8_t *bytes;
static size_t length;

static void fail(const char *what)
{
    printf("%s\n", what);
    exit(1);
}

/* The bytes whose count is the number at this place. */
static void take_bytes(size_t at)
{
    size_t i;

    if (numbers[at] >= NUMBERS - at)
        fail("a call with too many bytes");
    length = (size_t)numbers[at];
    for (i = 0; i < length; i++)
        room[i] = (uint8_t)numbers[at + 1 + i];
    bytes = length == 0 ? NULL : room;
}

/* The run of six numbers. */
static np_run run_of(const uint64_t *n)
{
    np_generator g = {n[0], n[1], n[2], n[3]};
    np_run r = {g, n[4], n[5]};

    return r;
}

/* In a list of calls on a player: where the run to open stands, behind the record, and where the calls do. */
enum { TO_OPEN = 15, LIST = 21 };

/* Reads the next call and gives its letter; 0 at the end. */
static int next_call(void)
{
    int letter = getchar(), mark;

    if (letter == EOF)
        return 0;
    memset(numbers, 0, sizeof numbers);
    given = 0;
    while ((mark = getchar()) == ',')
        if (given == NUMBERS || scanf("%" SCNu64, &numbers[given++]) != 1)
            fail("a call that does not read");
    if (mark != '\n')
        fail("a call without its byte 10");
    if (letter == 'R' || letter == 'S')
        take_bytes(0);
    else if (letter == 'L' || letter == 'F')
        take_bytes(1);
    else
        run = run_of(letter == 'K' ? numbers + TO_OPEN : numbers);
    return letter;
}

/* Prints numbers, each a uint64_t. */
static void print(int count, ...)
{
    va_list list;

    va_start(list, count);
    for (; count > 0; count--)
        printf("%" PRIu64 "%c", va_arg(list, uint64_t), count == 1 ? '\n' : ',');
    va_end(list);
}

/* A buffer for a line, of which the first bytes are lent. */
static uint8_t written[NUMBERS];

static uint8_t *lend(uint64_t lent)
{
    if (lent > NUMBERS)
        fail("a buffer that is too long");
    memset(written, 165, sizeof written);
    return lent == 0 ? NULL : written;
}

/* The whole buffer is compared with what printf makes of the run whose line is written, or with what it was. */
static void try_written(np_value v, np_run r)
{
    uint8_t wanted[NUMBERS];
    char line[NP_LINE_MAX + 21];
    np_generator g = r.generator;

    memset(wanted, 165, sizeof wanted);
    if (v.refusal == 0) {
        snprintf(line, sizeof line, "%" PRIu64 ",%" PRIu64 ",%" PRIu64 ",%" PRIu64 ",%" PRIu64 ",%" PRIu64 "\n",
                 g.width, g.multiplier, g.increment, g.seed, r.first, r.count);
        memcpy(wanted, line, strlen(line));
    }
    if (memcmp(written, wanted, sizeof written) != 0)
        fail("a buffer with other bytes");
}

static np_value write_line(uint64_t lent)
{
    np_value v = np_write_line(run, lend(lent), (size_t)lent);

    try_written(v, run);
    return v;
}

/* A remade value, and all numbers of the buffer of which the first were lent. */
typedef struct { np_value value; uint64_t buffer[5]; } remade_reply;

static remade_reply remake(uint64_t position, uint64_t lent)
{
    remade_reply m = {{0, 0}, {1, 2, 3, 4, 5}};

    if (lent > 5)
        fail("a buffer that is too long");
    m.value = np_remake(run, position, lent == 0 ? NULL : m.buffer, (size_t)lent);
    return m;
}

static np_player player_of(const uint64_t *n)
{
    np_player p = {run_of(n), n[6], {{n[7], n[8]}, {n[9], n[10]}, {n[11], n[12]}, {n[13], n[14]}}};

    return p;
}

enum { OPEN, FORWARD, BACK, MARK, RETURN, SHOW };

/* One call of a list. All but show answer with the refusal alone. */
static np_value play_one(np_player *player, uint64_t code, uint64_t argument)
{
    np_value v = {0, 0};

    switch (code) {
    case OPEN: v.refusal = np_player_open(player, run); return v;
    case FORWARD: v.refusal = np_player_forward(player, argument); return v;
    case BACK: v.refusal = np_player_back(player, argument); return v;
    case MARK: v.refusal = np_player_mark(player, argument); return v;
    case RETURN: v.refusal = np_player_return(player, argument); return v;
    case SHOW: return np_player_show(player);
    default: fail("no such call on a player"); return v;
    }
}

/* The answer to the last call of a list, and the record after it. */
typedef struct { np_value value; np_player player; } played_reply;

/* A record between bytes that no call may alter, where further marks would stand. */
typedef struct { uint8_t before[64]; np_player player; uint8_t behind[64]; } kept_player;

/* Makes the calls in turn. Each leaves the bytes about the record; a refused one and show also every byte of it. */
static played_reply play(void)
{
    kept_player kept, was;
    played_reply p;
    int at;

    if (given < LIST + 2 || (given - LIST) % 2 != 0)
        fail("a list of calls that is none");
    memset(&kept, 165, sizeof kept);
    kept.player = player_of(numbers);
    for (at = LIST; at < given; at += 2) {
        was = kept;
        p.value = play_one(&kept.player, numbers[at], numbers[at + 1]);
        if (p.value.refusal == 0 && numbers[at] != SHOW)
            was.player = kept.player;
        if (memcmp(&kept, &was, sizeof kept) != 0)
            fail("a call on a player that alters what has to stay");
    }
    p.player = kept.player;
    return p;
}

static uint64_t bits_of(double x)
{
    uint64_t bits;

    memcpy(&bits, &x, sizeof bits);
    return bits;
}

/* A deviate of an element, by the floats of C; none of these steps rounds. */
static double deviate_of(uint64_t width, uint64_t element)
{
    uint64_t places = width < 53 ? width : 53;

    return (double)(element >> (width - places)) / (double)((uint64_t)1 << places) - 0.5;
}

/* It has to be that of the elements that np_remake writes, and from -1/2 to below 1/2. */
static void try_deviate(double x, uint64_t element)
{
    if (!(-0.5 <= x && x < 0.5))
        fail("a deviate that is out of its range");
    if (bits_of(x) != bits_of(deviate_of(run.generator.width, element)))
        fail("a deviate that is not its element's");
}

/* Nothing is rounded, so that the numbers are the same however the processor rounds; but a 0 may be -0.0 then. */
static void try_rounding(int mode, uint64_t fix, np_fix_reply f)
{
    np_fix_reply other;

    if (fesetround(mode) != 0)
        fail("no such rounding mode");
    other = np_fix_at(run, fix);
    fesetround(FE_TONEAREST);
    if (other.refusal != f.refusal || other.fix.east != f.fix.east || other.fix.north != f.fix.north)
        fail("a fix depends on how the processor rounds");
}

/* Beside a refusal both are +0.0. */
static np_fix_reply fix_at(uint64_t fix)
{
    np_fix_reply f = np_fix_at(run, fix);
    uint64_t shown[2] = {0, 0};

    try_rounding(FE_DOWNWARD, fix, f);
    try_rounding(FE_UPWARD, fix, f);
    try_rounding(FE_TOWARDZERO, fix, f);

    if (f.refusal != 0) {
        if (bits_of(f.fix.east) != 0 || bits_of(f.fix.north) != 0)
            fail("a deviate beside a refusal");
        return f;
    }
    if (np_remake(run, 2 * fix, shown, 2).value != 2)
        fail("a fix of less than two elements");
    try_deviate(f.fix.east, shown[0]);
    try_deviate(f.fix.north, shown[1]);
    return f;
}

/* What a run shows at a position of it. */
static uint64_t shown_at(np_run r, uint64_t position)
{
    uint64_t shown = 0;

    if (np_remake(r, position, &shown, 1).value != 1)
        fail("a position that is not on its run");
    return shown;
}

/* Position q of the lane and position lane + q * lanes of the run show the same. */
static void try_position(np_run r, uint64_t q, uint64_t lanes, uint64_t lane)
{
    if (shown_at(r, q) != shown_at(run, lane + q * lanes))
        fail("a lane that shows other numbers than its run");
}

/* Tried at the start of the lane, within it and at its end, which is that of the run. */
static np_run_reply lane_of(uint64_t lanes, uint64_t lane)
{
    np_run_reply r = np_lane(run, lanes, lane);
    uint64_t last = r.run.count - 1;

    if (r.refusal != 0)
        return r;
    try_position(r.run, 0, lanes, lane);
    try_position(r.run, last / 2, lanes, lane);
    try_position(r.run, last, lanes, lane);
    if (run.count - (lane + last * lanes) > lanes)
        fail("a lane that ends before its run");
    return r;
}

/* The line is that of the run that np_lane gives, and reads as it. */
static np_value write_lane(uint64_t lanes, uint64_t lane, uint64_t lent)
{
    np_value v = np_write_lane(run, lanes, lane, lend(lent), (size_t)lent);
    np_run_reply given = np_lane(run, lanes, lane), read;

    try_written(v, given.run);
    if (v.refusal == 0) {
        read = np_read_line(written, (size_t)v.value);
        if (memcmp(&read, &given, sizeof read) != 0)
            fail("a lane's line that reads as another run");
    }
    return v;
}

/* Runs of no more numbers than this are also listed. */
enum { LISTED = 100 };

static int among(uint64_t number, const uint64_t *list, size_t count)
{
    size_t i;

    for (i = 0; i < count; i++)
        if (list[i] == number)
            return 1;
    return 0;
}

/* How many of the numbers that np_remake writes of the one run it writes of the other too; each counts where it comes
 * first. */
static uint64_t listed_in_both(np_run one, np_run other)
{
    uint64_t ours[LISTED], theirs[LISTED], both = 0;
    size_t i, count = (size_t)np_remake(one, 0, ours, LISTED).value, more;

    more = (size_t)np_remake(other, 0, theirs, LISTED).value;
    for (i = 0; i < count; i++)
        if (!among(ours[i], ours, i) && among(ours[i], theirs, more))
            both++;
    return both;
}

/* Two runs share as much in the other order; a run and itself share what np_variety gives. */
static np_value shared_with(np_run second)
{
    np_value v = np_shared(run, second), back = np_shared(second, run);
    np_value own = np_shared(run, run), variety = np_variety(run);

    if ((v.refusal == 0 || v.refusal == NP_REFUSED_INCOMPATIBLE) && memcmp(&v, &back, sizeof v) != 0)
        fail("two runs that share other numbers in the other order");
    if (v.refusal != 0)
        return v;
    if (memcmp(&own, &variety, sizeof own) != 0)
        fail("a run that shares other numbers with itself than it shows");
    if (v.value > variety.value || v.value > np_variety(second).value)
        fail("two runs that share more numbers than one of them shows");
    if (run.count <= LISTED && second.count <= LISTED && v.value != listed_in_both(run, second))
        fail("two runs that share other numbers than both show");
    return v;
}

/* A reply. None has padding, so that replies are the same if their bytes are. */
typedef union {
    np_value value;
    np_orbit_reply orbit;
    np_index_reply index;
    np_places_reply places;
    np_gap_reply gap;
    np_run_reply run;
    np_part part;
    np_lookup_reply lookup;
    np_summary_reply summary;
    remade_reply remade;
    played_reply played;
    np_fix_reply fix;
} reply;

typedef char no_padding[sizeof(np_value) == 16 && sizeof(np_orbit_reply) == 32 && sizeof(np_index_reply) == 24
                        && sizeof(np_places_reply) == 40 && sizeof(np_gap_reply) == 24 && sizeof(np_run_reply) == 56
                        && sizeof(np_part) == 16 && sizeof(np_lookup_reply) == 32 && sizeof(np_summary_reply) == 32
                        && sizeof(remade_reply) == 56 && sizeof(np_mark) == 16 && sizeof(np_player) == 120
                        && sizeof(played_reply) == 136 && sizeof(kept_player) == 248 && sizeof(np_fix) == 16
                        && sizeof(np_fix_reply) == 24 ? 1 : -1];

/* Makes the call in hand, and gives the size of its reply. */
static size_t answer(int letter, reply *r)
{
    switch (letter) {
    case 'E': r->value = np_element(run.generator, numbers[4]); return sizeof r->value;
    case 'O': r->orbit = np_orbit(run.generator); return sizeof r->orbit;
    case 'I': r->index = np_index(run.generator, numbers[4]); return sizeof r->index;
    case 'B': r->places = np_index_places(run.generator, numbers[4], numbers[5]); return sizeof r->places;
    case 'G': r->gap = np_gap(run.generator, numbers[4], numbers[5]); return sizeof r->gap;
    case 'P': r->value = np_predecessor(run.generator, numbers[4]); return sizeof r->value;
    case 'C': r->value = np_customary_multiplier(numbers[0]); return sizeof r->value;
    case 'V': r->value = np_variety(run); return sizeof r->value;
    case 'W': r->value = write_line(numbers[6]); return sizeof r->value;
    case 'M': r->remade = remake(numbers[6], numbers[7]); return sizeof r->remade;
    case 'K': r->played = play(); return sizeof r->played;
    case 'D': r->fix = fix_at(numbers[6]); return sizeof r->fix;
    case 'J': r->run = lane_of(numbers[6], numbers[7]); return sizeof r->run;
    case 'T': r->value = write_lane(numbers[6], numbers[7], numbers[8]); return sizeof r->value;
    case 'H': r->value = shared_with(run_of(numbers + 6)); return sizeof r->value;
    case 'R': r->run = np_read_line(bytes, length); return sizeof r->run;
    case 'L': r->part = np_line(bytes, length, numbers[0]); return sizeof r->part;
    case 'F': r->lookup = np_lookup(bytes, length, numbers[0]); return sizeof r->lookup;
    case 'S': r->summary = np_summary(bytes, length); return sizeof r->summary;
    default: fail("no such call"); return 0;
    }
}

/* Fills the memory of the reply, and of the stack that the call is made on, and makes the call. Through volatile pointers, so
 * that no compiler leaves out the filling, or makes the call on another part of the stack. */
static void *(*volatile fill)(void *, int, size_t) = memset;

static void fill_stack(int byte)
{
    uint8_t stack[1 << 14];

    fill(stack, byte, sizeof stack);
}

static void (*volatile fill_below)(int) = fill_stack;
static size_t (*volatile answer_below)(int, reply *) = answer;

static size_t answer_over(int byte, int letter, reply *r)
{
    fill(r, byte, sizeof *r);
    fill_below(byte);
    return answer_below(letter, r);
}

static void print_value(np_value v)
{
    print(2, v.refusal, v.value);
}

static void print_remade(remade_reply m)
{
    print(7, m.value.refusal, m.value.value, m.buffer[0], m.buffer[1], m.buffer[2], m.buffer[3], m.buffer[4]);
}

static void print_orbit(np_orbit_reply r)
{
    print(4, r.refusal, r.preperiod, r.exponent, r.period);
}

static void print_index(np_index_reply r)
{
    print(3, r.refusal, r.found, r.index);
}

static void print_places(np_places_reply r)
{
    print(5, r.refusal, r.found, r.index, r.recurs, r.exponent);
}

/* A negative count of steps as 1 and its absolute value, which for -2^63 only a uint64_t holds. */
static void print_gap(np_gap_reply r)
{
    uint64_t backward = r.steps < 0, steps = (uint64_t)r.steps;

    print(4, r.refusal, r.found, backward, backward ? 0 - steps : steps);
}

static void print_run(np_run_reply r)
{
    np_generator g = r.run.generator;
    print(7, r.refusal, g.width, g.multiplier, g.increment, g.seed, r.run.first, r.run.count);
}

static void print_part(np_part p)
{
    print(2, p.start, p.length);
}

static void print_lookup(np_lookup_reply r)
{
    print(4, r.refusal, r.line, r.found, r.position);
}

static void print_summary(np_summary_reply r)
{
    print(4, r.refusal, r.line, r.line_count, r.total);
}

static void print_played(played_reply p)
{
    np_run r = p.player.run;
    np_generator g = r.generator;
    const np_mark *m = p.player.marks;

    print(17, p.value.refusal, p.value.value, g.width, g.multiplier, g.increment, g.seed, r.first, r.count,
          p.player.position, m[0].set, m[0].position, m[1].set, m[1].position, m[2].set, m[2].position, m[3].set,
          m[3].position);
}

static void print_fix(np_fix_reply f)
{
    print(3, f.refusal, bits_of(f.fix.east), bits_of(f.fix.north));
}

static void print_reply(int letter, const reply *r)
{
    switch (letter) {
    case 'O': print_orbit(r->orbit); break;
    case 'I': print_index(r->index); break;
    case 'B': print_places(r->places); break;
    case 'G': print_gap(r->gap); break;
    case 'M': print_remade(r->remade); break;
    case 'K': print_played(r->played); break;
    case 'D': print_fix(r->fix); break;
    case 'J': print_run(r->run); break;
    case 'R': print_run(r->run); break;
    case 'L': print_part(r->part); break;
    case 'F': print_lookup(r->lookup); break;
    case 'S': print_summary(r->summary); break;
    default: print_value(r->value);
    }
}

/* The archive is refused so by every call on it. */
static void try_refused(const uint8_t *archive, size_t size, uint64_t refusal, uint64_t line)
{
    np_lookup_reply found = np_lookup(archive, size, 0);
    np_summary_reply sum = np_summary(archive, size);
    np_part part = np_line(archive, size, 1);

    if (found.refusal != refusal || found.line != line || found.found != 0 || found.position != 0)
        fail("a lookup in a long archive replies otherwise");
    if (sum.refusal != refusal || sum.line != line || sum.line_count != 0 || sum.total != 0)
        fail("a summary of a long archive replies otherwise");
    if (part.start != 0 || part.length != 0)
        fail("a line of a refused archive is not the empty part");
}

/* No vector is long enough for the refusal of an archive's length: so many bytes 0 are tried. */
static void try_zeros(size_t size, uint64_t refusal, uint64_t line)
{
    static uint8_t archive[NP_ARCHIVE_MAX + 1];

    try_refused(archive, size, refusal, line);
}

/* Different lines that have NP_ARCHIVE_MAX bytes together. Line k, from 1 on, is 64,5,3,s,0,9 with
 * s = 10000 + k; the second has count 90, and one byte more than the others. */
enum { LINE = 17, LINES = 3855 };

static uint8_t full[NP_ARCHIVE_MAX + 1];

static uint8_t *line_at(int k)
{
    return full + LINE * (k - 1) + (k > 2);
}

/* Writes line k, of seed 10000 + s. */
static void put_line(int k, int s)
{
    char line[LINE + 2];

    snprintf(line, sizeof line, k == 2 ? "64,5,3,%d,0,90\n" : "64,5,3,%d,0,9\n", 10000 + s);
    memcpy(line_at(k), line, strlen(line));
}

/* The later line is written as the earlier one: it is refused, and with the last digit changed it is
 * not. */
static void try_twins(int earlier, int later)
{
    np_summary_reply sum;
    np_part part;

    put_line(later, earlier);
    try_refused(full, NP_ARCHIVE_MAX, NP_REFUSED_DUPLICATE_LINE, (uint64_t)later);
    try_refused(full, NP_ARCHIVE_MAX + 1, NP_REFUSED_ARCHIVE_TOO_LONG, 0);
    line_at(later)[LINE - 2] = '8';
    sum = np_summary(full, NP_ARCHIVE_MAX);
    part = np_line(full, NP_ARCHIVE_MAX, (uint64_t)later);
    if (sum.refusal != 0 || sum.line_count != LINES || sum.total != 9 * LINES + 90 - 9 - 1)
        fail("a summary of different lines replies otherwise");
    if (part.start != (uint64_t)(line_at(later) - full) || part.length != LINE)
        fail("a line of a full archive is another part");
    put_line(later, later);
}

/* Twins next to each other and far apart, and a bad line behind one and before it. */
static void try_full_archives(void)
{
    int k;

    for (k = 1; k <= LINES; k++)
        put_line(k, k);
    try_twins(1, 3);
    try_twins(1, LINES);
    try_twins(3, 4);
    try_twins(3, LINES);
    try_twins(LINES / 2, LINES / 2 + 1);
    try_twins(LINES - 1, LINES);
    put_line(2000, 1);
    line_at(2001)[0] = 'x';
    try_refused(full, NP_ARCHIVE_MAX, NP_REFUSED_DUPLICATE_LINE, 2000);
    line_at(1999)[0] = 'x';
    try_refused(full, NP_ARCHIVE_MAX, NP_REFUSED_MALFORMED_LINE, 1999);
}

/* Lengths that are those of one line, of less and of one number with `more` added. */
static void try_lengths(size_t more, uint64_t refusal, uint64_t line)
{
    static uint8_t buffer[(1 << 16) + 13];
    static uint64_t values[(1 << 16) + 1];
    np_run r = {{4, 5, 3, 1}, 0, 1 << 20};

    memcpy(buffer, "4,5,3,1,0,16\n", 13);
    try_refused(buffer, more + 13, refusal, line);
    if (np_read_line(buffer, more + 13).refusal != NP_REFUSED_MALFORMED_LINE)
        fail("a line is read with what stands behind it");
    if (np_write_line(r, buffer, more + 5).refusal != 0 || np_write_lane(r, 16, 15, buffer, more + 5).refusal != 0)
        fail("a long buffer is refused");
    if (np_remake(r, 0, values, more + 1).value != more + 1)
        fail("a long buffer is not filled");
}

/* On document 01's run. A constant stands in memory that cannot be written, so that a show or a refused call that
 * writes, be it the same bytes, ends the program. */
static const np_player still = {{{10, 371, 995, 73}, 100, 8}, 2, {{1, 5}, {0, 6}, {7, 0}, {1, 8}}};

static void try_still(void)
{
    np_value v = np_player_show(&still);

    if (v.refusal != 0 || v.value != 821)
        fail("a record that cannot be written is shown otherwise");
}

static void try_refused_still(void)
{
    np_player *player = (np_player *)&still;
    np_run refused = {{10, 371, 995, 73}, 100, 0};

    if (np_player_open(player, refused) != NP_REFUSED_RUN_OUT_OF_RANGE
        || np_player_forward(player, 6) != NP_REFUSED_POSITION_OUT_OF_RANGE
        || np_player_back(player, 3) != NP_REFUSED_POSITION_OUT_OF_RANGE
        || np_player_mark(player, 4) != NP_REFUSED_BOOKMARK_INVALID
        || np_player_return(player, 1) != NP_REFUSED_BOOKMARK_INVALID
        || np_player_return(player, 3) != NP_REFUSED_POSITION_OUT_OF_RANGE)
        fail("a call on a record that cannot be written is refused otherwise");
}

/* A record filled with this byte is kept by an open that is refused, and written whole by one that is not. A record's
 * own run is opened like any other. */
static void try_open(int byte)
{
    static const np_player opened = {{{10, 371, 995, 73}, 100, 8}, 0, {{0, 0}, {0, 0}, {0, 0}, {0, 0}}};
    np_run refused = {{10, 371, 995, 73}, 100, 0};
    np_player player, filled;

    memset(&filled, byte, sizeof filled);
    player = filled;
    if (np_player_open(&player, refused) != NP_REFUSED_RUN_OUT_OF_RANGE)
        fail("a run without a position is opened");
    if (memcmp(&player, &filled, sizeof player) != 0)
        fail("a refused open alters the record");
    if (np_player_open(&player, still.run) != 0 || memcmp(&player, &opened, sizeof player) != 0)
        fail("a run is opened otherwise");
    player = still;
    if (np_player_open(&player, player.run) != 0 || memcmp(&player, &opened, sizeof player) != 0)
        fail("a run is opened otherwise over itself");
}

/* Elements 3, 0, 5, 2, 7, 4, 1, 6 of width 3: the fixes of this run as anyone would write them; 14 comes before 12. */
static void try_fixes(void)
{
    static const np_fix fixes[4] = {{-0.125, -0.5}, {0.125, -0.25}, {0.375, 0.0}, {-0.375, 0.25}};
    np_run r = {{3, 1, 5, 3}, 0, 8}, at_width_0 = {{0, 16807, 0, 1}, 0, 8};
    uint64_t fix;

    for (fix = 0; fix < 4; fix++) {
        np_fix_reply f = np_fix_at(r, fix);

        if (f.refusal != 0 || f.fix.east != fixes[fix].east || f.fix.north != fixes[fix].north)
            fail("a fix is made otherwise");
    }
    if (np_fix_at(r, 4).refusal != NP_REFUSED_POSITION_OUT_OF_RANGE
        || np_fix_at(r, (uint64_t)1 << 63).refusal != NP_REFUSED_POSITION_OUT_OF_RANGE
        || np_fix_at(at_width_0, 0).refusal != NP_REFUSED_INEXACT
        || np_fix_at(at_width_0, 4).refusal != NP_REFUSED_INEXACT)
        fail("a fix is refused otherwise");
}

/* The numbers 3, 0, 5, 2, 7, 4, 1, 6 of width 3 in three lanes, as anyone would write them; 15 comes before 8. */
static void try_lanes(void)
{
    static const np_run_reply lanes[3] = {
        {0, {{3, 1, 7, 3}, 0, 3}}, {0, {{3, 1, 7, 0}, 0, 3}}, {0, {{3, 1, 7, 5}, 0, 2}}};
    np_run r = {{3, 1, 5, 3}, 0, 8}, at_width_0 = {{0, 16807, 0, 1}, 0, 8};
    uint64_t lane;

    for (lane = 0; lane < 3; lane++) {
        np_run_reply given = np_lane(r, 3, lane);

        if (memcmp(&given, &lanes[lane], sizeof given) != 0)
            fail("a lane is made otherwise");
    }
    if (np_lane(r, 3, 3).refusal != NP_REFUSED_LANES_OUT_OF_RANGE
        || np_lane(r, 9, 0).refusal != NP_REFUSED_LANES_OUT_OF_RANGE
        || np_lane(at_width_0, 3, 0).refusal != NP_REFUSED_LANES_OUT_OF_RANGE
        || np_write_lane(r, 3, 3, NULL, 0).refusal != NP_REFUSED_LANES_OUT_OF_RANGE
        || np_write_lane(r, 3, 2, NULL, 0).refusal != NP_REFUSED_BUFFER_TOO_SHORT)
        fail("a lane is refused otherwise");
}

/* An archive of all lanes of a run, which shows no number twice: each is found in its lane, at its place. */
static void try_archive_of_lanes(uint64_t lanes)
{
    uint8_t archive[16 * NP_LINE_MAX];
    np_run r = {{10, 5, 3, 1}, 700, 100};
    np_summary_reply sum;
    uint64_t lane, position;
    size_t used = 0;

    for (lane = 0; lane < lanes; lane++)
        used += (size_t)np_write_lane(r, lanes, lane, archive + used, sizeof archive - used).value;
    sum = np_summary(archive, used);
    if (sum.refusal != 0 || sum.line_count != lanes || sum.total != r.count)
        fail("the lanes of a run are summed up otherwise");
    for (position = 0; position < r.count; position++) {
        np_lookup_reply f = np_lookup(archive, used, shown_at(r, position));

        if (f.found != 1 || f.line != position % lanes + 1 || f.position != position / lanes)
            fail("a number of a run is found elsewhere in its lanes");
    }
}

/* Runs over the numbers 3, 0, 5, 2, 7, 4, 1, 6 of width 3, and what they share, as anyone would count it. What refuses
 * the first run comes before what refuses the second, whichever is lower, and 16 comes last. */
static void try_shared(void)
{
    np_run all = {{3, 1, 5, 3}, 0, 8}, first_five = {{3, 1, 5, 3}, 0, 5}, last_four = {{3, 1, 5, 7}, 8, 4};
    np_run from_7_to_0 = {{3, 1, 5, 2}, 1, 6}, twice = {{3, 1, 5, 1}, 0, 16};
    np_run too_wide = {{65, 1, 5, 3}, 0, 8}, empty = {{4, 1, 5, 3}, 0, 0};
    np_run wider = {{4, 1, 5, 3}, 0, 8}, times_5 = {{3, 5, 5, 3}, 0, 8}, plus_7 = {{3, 1, 7, 3}, 0, 8};
    np_run even = {{3, 2, 5, 3}, 0, 8};

    if (np_shared(first_five, last_four).value != 1 || np_shared(first_five, from_7_to_0).value != 3
        || np_shared(last_four, from_7_to_0).value != 4 || np_shared(all, twice).value != 8
        || np_shared(twice, first_five).value != 5)
        fail("two runs share other numbers");
    if (np_shared(empty, too_wide).refusal != NP_REFUSED_RUN_OUT_OF_RANGE
        || np_shared(too_wide, empty).refusal != NP_REFUSED_WIDTH_OUT_OF_RANGE
        || np_shared(all, empty).refusal != NP_REFUSED_RUN_OUT_OF_RANGE
        || np_shared(all, wider).refusal != NP_REFUSED_INCOMPATIBLE
        || np_shared(all, times_5).refusal != NP_REFUSED_INCOMPATIBLE
        || np_shared(all, plus_7).refusal != NP_REFUSED_INCOMPATIBLE
        || np_shared(even, even).refusal != NP_REFUSED_INCOMPATIBLE)
        fail("two runs are refused otherwise");
}

/* Every refusal has a text of its own, and the next number none. */
static void try_texts(void)
{
    uint64_t refusal, other;

    for (refusal = 0; refusal <= NP_REFUSED_INCOMPATIBLE + 1; refusal++)
        for (other = 0; other < refusal; other++)
            if (strcmp(np_refusal_text(refusal), np_refusal_text(other)) == 0)
                fail("two refusals with one text");
    if (strcmp(np_refusal_text(NP_REFUSED_INCOMPATIBLE + 1), np_refusal_text(UINT64_MAX)) != 0)
        fail("a text of no refusal");
}

int main(void)
{
    uint64_t lanes;
    int letter;
    reply r, again;

    try_zeros(NP_ARCHIVE_MAX, NP_REFUSED_MALFORMED_LINE, 1);
    try_zeros(NP_ARCHIVE_MAX + 1, NP_REFUSED_ARCHIVE_TOO_LONG, 0);
    try_full_archives();
    try_lengths(1 << 8, NP_REFUSED_MALFORMED_LINE, 2);
    try_lengths(1 << 16, NP_REFUSED_ARCHIVE_TOO_LONG, 0);
    try_still();
    try_refused_still();
    try_open(0xA5);
    try_open(0xFF);
    try_fixes();
    try_lanes();
    for (lanes = 1; lanes <= 16; lanes++)
        try_archive_of_lanes(lanes);
    try_shared();
    try_texts();
    while ((letter = next_call()) != 0) {
        size_t size = answer_over(0xA5, letter, &r);

        answer_over(0x5A, letter, &again);
        if (memcmp(&r, &again, size) != 0)
            fail("a reply that is not written whole");
        print_reply(letter, &r);
    }
    return 0;
}
