/* The plain plate, dense and by wounds: what a careful C programmer would write for speed, to measure `round` against.
 *
 *     gcc -O3 -march=x86-64-v2 -o plain bench/plain.c
 *     ./plain FILE              plays the round in FILE, or on standard input if no file is named, and prints its report
 *     ./plain --wounds FILE     the same report, but a beat looks only at the line and at the places that are wounded
 *
 * It plays rounds that are in order. It checks header, kind, length and number of copies alone: any other file that is not in
 * order may make it do anything. A cell is its byte, also a bit and a place of the shadow; planes lie one after
 * another; there are no bounds checks. The long loops have no wrap and no branch, so that the compiler can do several cells at
 * once: all planes are voted in one sweep, and then the last columns and rows again, where north or east is at the other end;
 * and all planes of the ring but the first and the last step in one sweep.
 *
 * By wounds, copies are read and written at wounded places alone, those where some copy may differ from the line: a struck place
 * becomes one, and each beat votes their set as the shadow is voted. What is not wounded is the line's. Here the copies of one
 * place lie one after another, as the cells of the line do. Where many places are wounded, all are taken for wounds, and now and
 * then those that differ from the line are looked for.
 */
#include <stdbool.h>
#include <stdint.h>
#include <stdio.h>
#include <stdlib.h>
#include <string.h>

enum { MOST_FILE = 65535, MOST_COPIES = 16384, MOST_PLANES = 4096, MOST_AREA = 64 * 64, MOST_SIDE = 64, MOST_REPORT = 12396 };

typedef uint8_t cell;

struct round {
    unsigned kind, side, planes, beats;
    size_t host_length, script_length;
    const uint8_t *host, *tape, *script;
};

/* What a cell of a Turing machine does, by its byte. A head is in the high four bits, as in a cell; 0 is none. */
struct machine {
    cell symbol[256];     /* the symbol of the centre after the step */
    cell stays[256];      /* the head that the centre keeps: the next state of one that stays, or the head of a foreign cell */
    cell goes_right[256]; /* the head that the left cell sends here */
    cell goes_left[256];  /* the head that the right cell sends here */
};

struct host {
    unsigned kind;
    bool by_selects;      /* whether long runs of bits are answered by selects, and not by the table */
    cell answers[8];      /* of an elementary rule, by 4 * left + 2 * centre + right */
    uint64_t words[8];    /* the same, each answer eight times */
    struct machine machine;
};

static cell copies[MOST_COPIES], voted[MOST_COPIES], line[MOST_PLANES], earlier[MOST_PLANES];
static cell shadow[MOST_AREA], old_shadow[MOST_AREA];
static size_t side, planes, area;
static unsigned age;

/* ---------------------------------------------------------------- one beat */

static cell vote(cell north, cell east, cell own)
{
    return north == east ? north : own;
}

/* Votes `count` planes. The first loop has no wrap: it is wrong in each last column and each last row, which are voted again. */
static void vote_planes(const cell *restrict from, cell *restrict to, size_t count)
{
    size_t all = count * area, last = side - 1;
    for (size_t k = 0; k < all - side; k++)
        to[k] = vote(from[k + side], from[k + 1], from[k]);
    for (size_t k = 0; k < all - side; k += side)
        to[k + last] = vote(from[k + side + last], from[k], from[k + last]);
    for (size_t k = 0; k < all; k += area) {
        const cell *row = from + k + area - side;
        cell *out = to + k + area - side;
        for (size_t c = 0; c < last; c++)
            out[c] = vote(from[k + c], row[c + 1], row[c]);
        out[last] = vote(from[k + last], row[0], row[last]);
    }
}

static void step_bits(const cell *restrict answers, const cell *restrict left, const cell *restrict centre,
                      const cell *restrict right, cell *restrict to, size_t count)
{
    for (size_t k = 0; k < count; k++)
        to[k] = answers[4 * left[k] + 2 * centre[k] + right[k]];
}

static cell choose(cell which, cell one, cell zero)
{
    return zero ^ ((one ^ zero) & -which);
}

/* As step_bits, by seven selects of bytes, of which the compiler does 16 at once. */
static void select_bits(const cell *restrict answers, const cell *restrict left, const cell *restrict centre,
                        const cell *restrict right, cell *restrict to, size_t count)
{
    cell a[8];
    memcpy(a, answers, 8);
    for (size_t k = 0; k < count; k++) {
        cell l = left[k], c = centre[k], r = right[k];
        cell one = choose(c, choose(r, a[7], a[6]), choose(r, a[5], a[4]));
        cell zero = choose(c, choose(r, a[3], a[2]), choose(r, a[1], a[0]));
        to[k] = choose(l, one, zero);
    }
}

static void step_machine(const struct machine *restrict m, const cell *restrict left, const cell *restrict centre,
                         const cell *restrict right, cell *restrict to, size_t count)
{
    for (size_t k = 0; k < count; k++) {
        cell own = centre[k];
        cell from_right = m->goes_left[right[k]];
        cell from_left = m->goes_right[left[k]];
        cell head = from_left ? from_left : from_right;
        to[k] = m->symbol[own] | (m->stays[own] ? m->stays[own] : head);
    }
}

static void step(const struct host *host, const cell *left, const cell *centre, const cell *right, cell *to, size_t count)
{
    if (host->kind == 0 && host->by_selects && count >= 16)
        select_bits(host->answers, left, centre, right, to, count);
    else if (host->kind == 0)
        step_bits(host->answers, left, centre, right, to, count);
    else
        step_machine(&host->machine, left, centre, right, to, count);
}

/* A ring of `planes` blocks of `width` cells. */
static void step_ring(const struct host *host, const cell *from, cell *to, size_t width)
{
    size_t last = (planes - 1) * width;
    if (planes == 1) {
        step(host, from, from, from, to, width);
        return;
    }
    step(host, from + last, from, from + width, to, width);
    step(host, from, from + width, from + 2 * width, to + width, last - width);
    step(host, from + last - width, from + last, from, to + last, width);
}

static void beat(const struct host *host)
{
    vote_planes(copies, voted, planes);
    step_ring(host, voted, copies, area);
    memcpy(earlier, line, planes);
    step_ring(host, earlier, line, 1);
    memcpy(old_shadow, shadow, area);
    vote_planes(old_shadow, shadow, 1);
    age++;
}

/* ---------------------------------------------------------------- the round file */

static uint64_t number(const uint8_t *bytes, int count)
{
    uint64_t value = 0;
    for (int i = 0; i < count; i++)
        value = value << 8 | bytes[i];
    return value;
}

static void fail(const char *why)
{
    fprintf(stderr, "plain: %s\n", why);
    exit(1);
}

static struct round read_round(const uint8_t *file, size_t length)
{
    struct round round;
    if (length < 9)
        fail("the file has no header");
    uint64_t word = number(file + 1, 8);
    round.kind = file[0] >> 6;
    round.side = (file[0] & 63) + 1;
    round.planes = (word >> 52) + 1;
    round.beats = word >> 32 & 0xFFFFF;
    round.host_length = word >> 16 & 0xFFFF;
    round.script_length = word & 0xFFFF;
    round.host = file + 9;
    round.tape = round.host + round.host_length;
    round.script = round.tape + round.planes;
    if (round.kind > 1 || length != 9 + round.host_length + round.planes + round.script_length)
        fail("the file is not in order");
    if (round.planes * round.side * round.side > MOST_COPIES)
        fail("the round has too many copies");
    return round;
}

static void read_machine(const uint8_t *file, struct machine *m)
{
    unsigned states = file[0] >> 4, symbols = (file[0] & 15) + 1;
    for (unsigned byte = 0; byte < 256; byte++) {
        unsigned head = byte >> 4, symbol = byte & 15;
        m->symbol[byte] = symbol;
        m->stays[byte] = head << 4;
        if (head == 0 || head > states || symbol >= symbols)
            continue;
        const uint8_t *entry = file + 1 + 2 * ((head - 1) * symbols + symbol);
        cell next = entry[0] & 0xF0;
        unsigned move = entry[1] >> 6;
        m->symbol[byte] = entry[0] & 15;
        m->stays[byte] = move == 0 ? next : 0;
        m->goes_left[byte] = move == 1 ? next : 0;
        m->goes_right[byte] = move == 2 ? next : 0;
    }
}

static void read_host(const struct round *round, struct host *host)
{
    memset(host, 0, sizeof *host);
    host->kind = round->kind;
    if (host->kind == 0)
        for (unsigned k = 0; k < 8; k++)
            host->words[k] = (host->answers[k] = round->host[0] >> k & 1) * 0x0101010101010101;
    else
        read_machine(round->host, &host->machine);
}

/* ---------------------------------------------------------------- a round */

static void lay(const struct round *round)
{
    side = round->side;
    planes = round->planes;
    area = side * side;
    for (unsigned i = 0; i < planes; i++)
        memset(copies + i * area, round->tape[i], area);
    memcpy(voted, copies, planes * area);
    memcpy(line, round->tape, planes);
    memcpy(earlier, round->tape, planes);
}

static void run(const struct round *round, const struct host *host)
{
    unsigned done = 0;
    for (size_t at = 0; at < round->script_length; at += 8) {
        uint64_t record = number(round->script + at, 8);
        for (; done < record >> 44; done++)
            beat(host);
        unsigned plane = record >> 32 & 0xFFF, row = record >> 26 & 63, column = record >> 20 & 63;
        copies[plane * area + row * side + column] = record >> 12 & 0xFF;
        shadow[row * side + column] = 1;
    }
    for (; done < round->beats; done++)
        beat(host);
}

/* ---------------------------------------------------------------- a round by wounds */

/* A set of places. Bit c of word r is place (r, c), and bit r of `taken` says that row r has a place. `rests` says that the last
 * vote left the set as it was, so that another one would too. */
struct set {
    uint64_t rows[MOST_SIDE], taken;
    unsigned count;
    bool rests;
};

/* The copies of a wounded place are a column, as the line is: a ring of n cells from cell 1 on, with the last one again before
 * it and the first one again after it. Columns lie place after place, `length` cells from one to the next. */
enum { SHORTEST = 8, LENGTH = MOST_PLANES + SHORTEST, MOST_CELLS = MOST_COPIES + (2 + SHORTEST) * MOST_AREA, LONGEST_SPAN = 1024 };

static cell wounded[MOST_CELLS], votes[MOST_CELLS], lines[2][LENGTH], many_lines[MOST_CELLS];
static cell *now = lines[0], *next = lines[1]; /* the line, and where the next one is written */
static size_t length;
static struct set wounds, marks;               /* `marks` is the shadow */
static bool is_dense;                          /* whether all places are taken for wounds */
static unsigned span, until_look;              /* how many beats are dense from look to look, and how many still are */

static unsigned lowest(uint64_t word)
{
    return __builtin_ctzll(word);
}

/* Bit k of the answer is bit k + 1 of a word of `side` bits, round a ring: the east of a row, the north of the rows. */
static uint64_t turned(uint64_t word)
{
    return word >> 1 | (word & 1) << (side - 1);
}

static bool has(const struct set *set, size_t row, size_t column)
{
    return set->rows[row] >> column & 1;
}

static void add(struct set *set, size_t row, size_t column)
{
    set->count += !has(set, row, column);
    set->rows[row] |= 1ull << column;
    set->taken |= 1ull << row;
    set->rests = false;
}

/* Row r needs row r + 1 alone, so rows are voted in place from row 0 on. The last one needs row 0 as it was. */
static void vote_set(struct set *set)
{
    uint64_t first = set->rows[0], taken = 0, changed = 0;
    set->count = 0;
    for (uint64_t left = set->taken | turned(set->taken); left; left &= left - 1) {
        unsigned r = lowest(left);
        uint64_t own = set->rows[r], east = turned(own), north = r + 1 < side ? set->rows[r + 1] : first;
        uint64_t row = (north & east) | (own & (north | east));
        set->rows[r] = row;
        set->count += __builtin_popcountll(row);
        taken |= (uint64_t)(row != 0) << r;
        changed |= row ^ own;
    }
    set->taken = taken;
    set->rests = !changed;
}

enum neighbour { NONE, NORTH, EAST, OWN };

static cell *column_of(cell *columns, size_t row, size_t column)
{
    return columns + (row * side + column) * length;
}

static void close_ring(cell *column)
{
    column[0] = column[planes];
    column[planes + 1] = column[1];
}

static void copy_line(cell *to, size_t count)
{
    if (length == SHORTEST)
        for (size_t k = 0; k < count; k++)
            memcpy(to + k * SHORTEST, now, SHORTEST);
    else
        for (size_t k = 0; k < count; k++)
            memcpy(to + k * length, now, length);
}

/* Votes eight cells in a word: `differs` has 01 in each byte where north and east are not the same. */
static void vote_eight(const cell *north, const cell *east, const cell *own, cell *to)
{
    const uint64_t low = 0x7F7F7F7F7F7F7F7F;
    uint64_t n, e, o;
    memcpy(&n, north, SHORTEST);
    memcpy(&e, east, SHORTEST);
    memcpy(&o, own, SHORTEST);
    uint64_t differs = (((((n ^ e) & low) + low) | (n ^ e)) & ~low) >> 7;
    n ^= (n ^ o) & differs * 0xFF;
    memcpy(to, &n, SHORTEST);
}

static void vote_columns(const cell *restrict north, const cell *restrict east, const cell *restrict own, cell *restrict to,
                         size_t count)
{
    if (count * length == SHORTEST)
        vote_eight(north, east, own, to);
    else
        for (size_t k = 0; k < count * length; k++)
            to[k] = vote(north[k], east[k], own[k]);
}

/* Votes a run of places of row r, all with the same one of the three neighbours, if any, that is no wound: it is the line. */
static inline void vote_run(enum neighbour missing, size_t r, size_t c, size_t count)
{
    size_t after = r + 1 < side ? r + 1 : 0, next_to = c + 1 < side ? c + 1 : 0;
    const cell *of_line = now;
    if (missing != NONE && count > 1) {
        copy_line(many_lines, count);
        of_line = many_lines;
    }
    vote_columns(missing == NORTH ? of_line : column_of(wounded, after, c),
                 missing == EAST ? of_line : column_of(wounded, r, next_to),
                 missing == OWN ? of_line : column_of(wounded, r, c), column_of(votes, r, c), count);
}

/* Run by run. The last column is apart, as its east is at the other end. */
static inline void vote_runs(enum neighbour missing, size_t r, uint64_t places)
{
    uint64_t last = places & 1ull << (side - 1);
    for (uint64_t left = places ^ last; left;) {
        size_t c = lowest(left), count = lowest(~left >> c);
        vote_run(missing, r, c, count);
        left &= left + (1ull << c);
    }
    if (last)
        vote_run(missing, r, side - 1, 1);
}

/* The column of a place: the line, if it was no wound. */
static const cell *seen(const struct set *old, size_t row, size_t column)
{
    return has(old, row, column) ? column_of(wounded, row, column) : now;
}

/* Votes the places of row r of which at least two of the three neighbours were wounds: those that are wounds after the beat. One
 * alone, as in a column or an antidiagonal, needs no runs. */
static void vote_row(const struct set *old, size_t r)
{
    size_t after = r + 1 < side ? r + 1 : 0;
    uint64_t places = wounds.rows[r], own = old->rows[r], east = turned(own), north = old->rows[after];
    if (!(places & (places - 1))) {
        size_t c = lowest(places), next_to = c + 1 < side ? c + 1 : 0;
        vote_columns(seen(old, after, c), seen(old, r, next_to), seen(old, r, c), column_of(votes, r, c), 1);
        return;
    }
    vote_runs(NONE, r, north & east & own);
    vote_runs(NORTH, r, ~north & east & own);
    vote_runs(EAST, r, north & ~east & own);
    vote_runs(OWN, r, north & east & ~own);
}

/* Steps eight bits in a word. */
static void step_eight(const struct host *host, const cell *left, const cell *centre, const cell *right, cell *to)
{
    uint64_t l, c, r, word[8];
    memcpy(&l, left, SHORTEST);
    memcpy(&c, centre, SHORTEST);
    memcpy(&r, right, SHORTEST);
    l *= 0xFF;
    c *= 0xFF;
    r *= 0xFF;
    memcpy(word, host->words, sizeof word);
    for (size_t k = 0; k < 8; k += 2)
        word[k] ^= (word[k] ^ word[k + 1]) & r;
    for (size_t k = 0; k < 8; k += 4)
        word[k] ^= (word[k] ^ word[k + 2]) & c;
    word[0] ^= (word[0] ^ word[4]) & l;
    memcpy(to, word, SHORTEST);
}

/* Steps columns that lie one after another. Bits step in one sweep, also over what lies between two rings: of a lone short column
 * eight cells at once, of which the last ones fall into the next column's margin, which is written anew when that one steps. */
static void step_columns(const struct host *host, const cell *from, cell *to, size_t count)
{
    if (host->kind == 0 && count * length == SHORTEST)
        step_eight(host, from, from + 1, from + 2, to + 1);
    else if (host->kind == 0)
        step(host, from, from + 1, from + 2, to + 1, (count - 1) * length + planes);
    for (size_t k = 0; k < count; k++, from += length, to += length) {
        if (host->kind != 0)
            step(host, from, from + 1, from + 2, to + 1, planes);
        close_ring(to);
    }
}

/* Steps the wounds of row r, run by run. */
static void step_row(const struct host *host, size_t r)
{
    for (uint64_t left = wounds.rows[r]; left;) {
        size_t c = lowest(left), count = ~left >> c ? lowest(~left >> c) : MOST_SIDE;
        step_columns(host, column_of(votes, r, c), column_of(wounded, r, c), count);
        left &= left + (1ull << c);
    }
}

static void step_line(const struct host *host)
{
    cell *from = now;
    step_columns(host, from, next, 1);
    now = next;
    next = from;
    if (!marks.rests)
        vote_set(&marks);
    age++;
}

/* A beat of the line and the wounds. */
static void beat_wounds(const struct host *host)
{
    static struct set old;
    if (!wounds.rests) {
        old = wounds;
        vote_set(&wounds);
    }
    for (uint64_t left = wounds.taken; left; left &= left - 1)
        vote_row(&old, lowest(left));
    for (uint64_t left = wounds.taken; left; left &= left - 1)
        step_row(host, lowest(left));
    step_line(host);
}

/* Makes a place a wound. Its column is written from the line, if it was none. */
static void wound(size_t row, size_t column)
{
    if (!has(&wounds, row, column))
        copy_line(column_of(wounded, row, column), 1);
    add(&wounds, row, column);
}

static void wound_all(void)
{
    for (size_t r = 0; r < side; r++)
        for (size_t c = 0; c < side; c++)
            wound(r, c);
}

/* Finds the places where some copy differs from the line. */
static void look(void)
{
    memset(&wounds, 0, sizeof wounds);
    for (size_t r = 0; r < side; r++)
        for (size_t c = 0; c < side; c++)
            if (memcmp(column_of(wounded, r, c), now, planes + 1))
                add(&wounds, r, c);
}

static bool are_many(void)
{
    return 2 * wounds.count > area;
}

static void beats_by_wounds(const struct host *host, unsigned times)
{
    for (; times > 0; times--) {
        if (!is_dense && are_many()) {
            is_dense = true;
            span = until_look = 1;
            wound_all();
        }
        if (wounds.count > 0)
            beat_wounds(host);
        else
            step_line(host);
        if (is_dense && --until_look == 0) {
            look();
            is_dense = are_many();
            span = until_look = span < LONGEST_SPAN ? 2 * span : span;
            if (is_dense)
                wound_all();
        }
    }
}

static void run_by_wounds(const struct round *round, const struct host *host)
{
    unsigned done = 0;
    length = (planes + 2 + SHORTEST - 1) / SHORTEST * SHORTEST;
    memcpy(now + 1, line, planes);
    close_ring(now);
    wounds.rests = marks.rests = true;
    for (size_t at = 0; at < round->script_length; at += 8) {
        uint64_t record = number(round->script + at, 8);
        size_t plane = record >> 32 & 0xFFF, row = record >> 26 & 63, column = record >> 20 & 63;
        beats_by_wounds(host, (record >> 44) - done);
        done = record >> 44;
        wound(row, column);
        column_of(wounded, row, column)[plane + 1] = record >> 12 & 0xFF;
        close_ring(column_of(wounded, row, column));
        add(&marks, row, column);
    }
    beats_by_wounds(host, round->beats - done);
}

/* Writes the copies, the line and the shadow of the report. */
static void write_plate(void)
{
    memcpy(line, now + 1, planes);
    for (size_t k = 0; k < area; k++) {
        const cell *column = seen(&wounds, k / side, k % side);
        for (size_t i = 0; i < planes; i++)
            copies[i * area + k] = column[i + 1];
        shadow[k] = has(&marks, k / side, k % side);
    }
}

/* ---------------------------------------------------------------- the report */

/* The majority of a plane, or -1 if it has none. */
static int majority(const cell *plane)
{
    unsigned counts[256] = {0};
    for (unsigned k = 0; k < area; k++)
        counts[plane[k]]++;
    for (int byte = 0; byte < 256; byte++)
        if (counts[byte] > area / 2)
            return byte;
    return -1;
}

static void report(void)
{
    static const char digits[] = "0123456789abcdef";
    static unsigned map[MOST_AREA];
    static char text[MOST_REPORT + 1];
    char *out = text;
    unsigned marked = 0, hurt = 0;
    for (unsigned i = 0; i < planes; i++)
        for (unsigned k = 0; k < area; k++)
            map[k] += copies[i * area + k] != line[i];
    for (unsigned k = 0; k < area; k++) {
        marked += shadow[k];
        hurt += map[k];
    }
    out += sprintf(out, "age %u\nshadow %u\nhurt %u\n", age, marked, hurt);
    for (unsigned k = 0; k < area; k++) {
        *out++ = map[k] ? '#' : shadow[k] ? 's' : '.';
        if (k % side == side - 1)
            *out++ = '\n';
    }
    char *last = out;
    out += sprintf(out, "tape ");
    for (unsigned i = 0; i < planes; i++) {
        int byte = majority(copies + i * area);
        if (byte < 0) {
            out = last + sprintf(last, "no majority %u", i);
            break;
        }
        *out++ = digits[byte >> 4];
        *out++ = digits[byte & 15];
    }
    *out++ = '\n';
    fwrite(text, 1, out - text, stdout);
}

int main(int argc, char **argv)
{
    static uint8_t file[MOST_FILE + 1];
    static struct host host;
    bool by_wounds = argc > 1 && strcmp(argv[1], "--wounds") == 0;
    const char *name = argc > 1 + by_wounds ? argv[1 + by_wounds] : NULL;
    FILE *source = name ? fopen(name, "rb") : stdin;
    if (!source)
        fail("the file cannot be read");
    struct round round = read_round(file, fread(file, 1, sizeof file, source));
    read_host(&round, &host);
    host.by_selects = by_wounds;
    lay(&round);
    if (by_wounds) {
        run_by_wounds(&round, &host);
        write_plate();
    } else {
        run(&round, &host);
    }
    report();
    return 0;
}
