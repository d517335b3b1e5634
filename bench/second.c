/* A second implementation of `round`, written from docs/RULES.md, docs/FORMATS.md and docs/REFUSALS.md alone.
 *
 * With no arguments it plays the round on standard input; else the round in each file that is named, `-` being
 * standard input. It writes the report, or the line of the refusal, to standard output.
 *
 * A cell is held as its byte: 00 or 01 for a bit, head and symbol for a machine cell. So two cells are the same
 * exactly when their bytes are equal.
 */
#include <errno.h>
#include <stdbool.h>
#include <stdio.h>
#include <string.h>

enum {
    MOST_READ = 65536,    /* bytes that are read of an input */
    MOST_FILE = 65535,    /* bytes of a round file */
    MOST_COPIES = 16384,  /* n x P x P of a round */
    MOST_PLANES = 4096,   /* n */
    MOST_SIDE = 64,       /* P */
    MOST_AGE = 1048575,
    MOST_SCRIPT = 65528,  /* bytes of a script */
    MOST_ENTRIES = 15 * 16,
    HEADER = 9,           /* bytes of the header of a round file */
    RECORD = 8            /* bytes of a record */
};

enum { BITS = 0, MACHINE_CELLS = 1 };          /* the kinds */
enum { STAY = 0, LEFT = 1, RIGHT = 2 };        /* the moves of an entry */

typedef unsigned char cell;

/* ---------------------------------------------------------------- what is decoded */

struct round {
    unsigned kind;
    unsigned side;                  /* P */
    unsigned planes;                /* n */
    unsigned beats;
    const unsigned char *host;
    size_t host_length;
    const unsigned char *tape;      /* n bytes */
    const unsigned char *script;
    size_t script_length;
};

struct record {
    unsigned number, plane, row, column, byte, zeros;
};

struct entry {
    unsigned next, symbol, move, zeros;
};

struct host {
    unsigned kind;
    unsigned rule;                  /* W, of kind 0 */
    unsigned states, symbols;       /* Q and S, of kind 1 */
    struct entry entries[MOST_ENTRIES];
};

/* A refusal. The number 0 means that nothing was refused. */
struct refusal {
    unsigned number;
    const char *word;
    size_t place;
};

static const struct refusal NONE = {0, "", 0};

static struct refusal refuse(unsigned number, const char *word, size_t place)
{
    struct refusal refusal = {number, word, place};
    return refusal;
}

/* The number in `count` bits from bit `first` on. Bit 0 is the highest bit of byte 0. */
static unsigned field(const unsigned char *bytes, size_t first, size_t count)
{
    unsigned value = 0;
    for (size_t i = first; i < first + count; i++)
        value = 2 * value + ((bytes[i / 8] >> (7 - i % 8)) & 1u);
    return value;
}

/* Whether the byte names a cell of the kind. */
static bool names_cell(unsigned kind, unsigned byte)
{
    return kind == MACHINE_CELLS || byte <= 1;
}

static struct record read_record(const struct round *round, size_t index)
{
    const unsigned char *bytes = round->script + RECORD * index;
    struct record record;
    record.number = field(bytes, 0, 20);
    record.plane = field(bytes, 20, 12);
    record.row = field(bytes, 32, 6);
    record.column = field(bytes, 38, 6);
    record.byte = field(bytes, 44, 8);
    record.zeros = field(bytes, 52, 12);
    return record;
}

/* ---------------------------------------------------------------- the questions */

/* 23, 24, 25, 26: those of the round file. Decodes it. */
static struct refusal ask_round(const unsigned char *file, size_t length, struct round *round)
{
    if (length < HEADER)
        return refuse(23, "round", 0);

    round->kind = field(file, 0, 2);
    if (round->kind != BITS && round->kind != MACHINE_CELLS)
        return refuse(24, "round", 0);

    round->side = field(file, 2, 6) + 1;
    round->planes = field(file, 8, 12) + 1;
    round->beats = field(file, 20, 20);
    round->host_length = field(file, 40, 16);
    round->script_length = field(file, 56, 16);
    if (length != HEADER + round->host_length + round->planes + round->script_length || length > MOST_FILE)
        return refuse(25, "round", 0);
    round->host = file + HEADER;
    round->tape = round->host + round->host_length;
    round->script = round->tape + round->planes;

    if (round->planes * round->side * round->side > MOST_COPIES)
        return refuse(26, "round", 0);
    return NONE;
}

/* 27: that of a bit rule. */
static struct refusal ask_rule(const struct round *round, struct host *host)
{
    if (round->host_length != 1)
        return refuse(27, "host", 0);
    host->rule = round->host[0];
    return NONE;
}

/* 17, 18, then 19, 20, 21, 22 for each entry: those of a machine file. Decodes it. */
static struct refusal ask_machine(const struct round *round, struct host *host)
{
    if (round->host_length < 1)
        return refuse(17, "host", 0);
    host->states = field(round->host, 0, 4);
    host->symbols = field(round->host, 4, 4) + 1;
    if (host->states < 1 || host->symbols < 2)
        return refuse(17, "host", 0);

    size_t entries = (size_t)host->states * host->symbols;
    if (round->host_length != 1 + 2 * entries)
        return refuse(18, "host", 0);

    for (size_t i = 0; i < entries; i++) {
        const unsigned char *bytes = round->host + 1 + 2 * i;
        struct entry entry;
        entry.next = field(bytes, 0, 4);
        entry.symbol = field(bytes, 4, 4);
        entry.move = field(bytes, 8, 2);
        entry.zeros = field(bytes, 10, 6);
        if (entry.next < 1 || entry.next > host->states)
            return refuse(19, "host", i);
        if (entry.symbol >= host->symbols)
            return refuse(20, "host", i);
        if (entry.move > RIGHT)
            return refuse(21, "host", i);
        if (entry.zeros != 0)
            return refuse(22, "host", i);
        host->entries[i] = entry;
    }
    return NONE;
}

static struct refusal ask_host(const struct round *round, struct host *host)
{
    host->kind = round->kind;
    if (round->kind == BITS)
        return ask_rule(round, host);
    return ask_machine(round, host);
}

/* 1, 2, 3, 4, then 5 for each byte of the tape: those of lay. 3 and 4 cannot fail here: the tape was cut to n bytes,
 * and there is memory for every round. */
static struct refusal ask_lay(const struct round *round)
{
    if (round->planes < 1 || round->planes > MOST_PLANES)
        return refuse(1, "lay", 0);
    if (round->side < 2 || round->side > MOST_SIDE)
        return refuse(2, "lay", 0);
    for (size_t i = 0; i < round->planes; i++)
        if (!names_cell(round->kind, round->tape[i]))
            return refuse(5, "lay", i);
    return NONE;
}

/* 10, 11, then 12, 13, 14, 7, 8, 9 for each record: those of run, for a plate of age 0. */
static struct refusal ask_run(const struct round *round)
{
    if (round->beats > MOST_AGE)
        return refuse(10, "run", 0);
    if (round->script_length % RECORD != 0 || round->script_length > MOST_SCRIPT)
        return refuse(11, "run", 0);

    unsigned before = 0; /* the number that the last record had; record 0 has none before it, and passes 14 */
    for (size_t i = 0; i < round->script_length / RECORD; i++) {
        struct record record = read_record(round, i);
        if (record.zeros != 0)
            return refuse(12, "run", i);
        if (record.number > round->beats)
            return refuse(13, "run", i);
        if (record.number < before)
            return refuse(14, "run", i);
        if (record.plane >= round->planes)
            return refuse(7, "strike", i);
        if (record.row >= round->side || record.column >= round->side)
            return refuse(8, "strike", i);
        if (!names_cell(round->kind, record.byte))
            return refuse(9, "strike", i);
        before = record.number;
    }
    return NONE;
}

/* All questions of a play, in order. 15 is not asked: the output always suffices. */
static struct refusal ask_play(const unsigned char *file, size_t length, struct round *round, struct host *host)
{
    struct refusal refusal = ask_round(file, length, round);
    if (refusal.number == 0)
        refusal = ask_host(round, host);
    if (refusal.number == 0)
        refusal = ask_lay(round);
    if (refusal.number == 0)
        refusal = ask_run(round);
    return refusal;
}

/* ---------------------------------------------------------------- the hosts */

/* The entry of a live cell. NULL for a cell that is not live. */
static const struct entry *entry_of(const struct host *host, cell cell)
{
    unsigned head = cell / 16;
    unsigned symbol = cell % 16;
    if (head < 1 || head > host->states || symbol >= host->symbols)
        return NULL;
    return &host->entries[(head - 1) * host->symbols + symbol];
}

static cell answer_machine(const struct host *host, cell left, cell centre, cell right)
{
    const struct entry *of_left = entry_of(host, left);
    const struct entry *of_centre = entry_of(host, centre);
    const struct entry *of_right = entry_of(host, right);

    /* A foreign centre stays what it is. */
    if (centre / 16 != 0 && of_centre == NULL)
        return centre;

    unsigned symbol = centre % 16;
    if (of_centre != NULL)
        symbol = of_centre->symbol;

    unsigned head = 0;
    if (of_centre != NULL && of_centre->move == STAY)
        head = of_centre->next;
    else if (of_left != NULL && of_left->move == RIGHT)
        head = of_left->next;
    else if (of_right != NULL && of_right->move == LEFT)
        head = of_right->next;

    return (cell)(16 * head + symbol);
}

static cell answer_rule(const struct host *host, cell left, cell centre, cell right)
{
    unsigned number = 4u * left + 2u * centre + right;
    return (cell)((host->rule >> number) & 1u);
}

static cell answer(const struct host *host, cell left, cell centre, cell right)
{
    if (host->kind == BITS)
        return answer_rule(host, left, centre, right);
    return answer_machine(host, left, centre, right);
}

/* ---------------------------------------------------------------- the plate */

static struct {
    unsigned planes, side, age;
    cell copies[MOST_COPIES];   /* place (r, c) of plane i at i x P x P + r x P + c */
    cell voted[MOST_COPIES];
    cell line[MOST_PLANES];
    cell earlier[MOST_PLANES];
    unsigned char shadow[MOST_SIDE * MOST_SIDE]; /* 1 where the place (r, c) is marked, at r x P + c */
} plate;

static size_t place_of(unsigned row, unsigned column)
{
    return (size_t)row * plate.side + column;
}

static cell *plane_of(cell *copies, unsigned plane)
{
    return copies + (size_t)plane * plate.side * plate.side;
}

static void lay(const struct round *round)
{
    plate.planes = round->planes;
    plate.side = round->side;
    plate.age = 0;
    unsigned places = plate.side * plate.side;
    for (unsigned i = 0; i < plate.planes; i++) {
        memset(plane_of(plate.copies, i), round->tape[i], places);
        memset(plane_of(plate.voted, i), round->tape[i], places);
        plate.line[i] = round->tape[i];
        plate.earlier[i] = round->tape[i];
    }
    memset(plate.shadow, 0, places);
}

static void strike(const struct record *record)
{
    size_t place = place_of(record->row, record->column);
    plane_of(plate.copies, record->plane)[place] = (cell)record->byte;
    plate.shadow[place] = 1;
}

/* North is the next row, east the next column. */
static unsigned north_row(unsigned row)
{
    return (row + 1) % plate.side;
}

static unsigned east_column(unsigned column)
{
    return (column + 1) % plate.side;
}

/* The left and the right of plane i, or of cell i of the line: both are a ring. */
static unsigned left_of(unsigned i)
{
    return i == 0 ? plate.planes - 1 : i - 1;
}

static unsigned right_of(unsigned i)
{
    return i == plate.planes - 1 ? 0 : i + 1;
}

/* Votes one plane: where north and east are equal they win, and elsewhere the own cell stays. */
static void vote_plane(const cell *old, cell *voted)
{
    for (unsigned r = 0; r < plate.side; r++)
        for (unsigned c = 0; c < plate.side; c++) {
            cell own = old[place_of(r, c)];
            cell north = old[place_of(north_row(r), c)];
            cell east = old[place_of(r, east_column(c))];
            voted[place_of(r, c)] = north == east ? north : own;
        }
}

/* Votes the shadow: each place becomes the majority of three bits. */
static void vote_shadow(void)
{
    unsigned char old[MOST_SIDE * MOST_SIDE];
    memcpy(old, plate.shadow, (size_t)plate.side * plate.side);
    for (unsigned r = 0; r < plate.side; r++)
        for (unsigned c = 0; c < plate.side; c++) {
            int marks = old[place_of(r, c)] + old[place_of(north_row(r), c)] + old[place_of(r, east_column(c))];
            plate.shadow[place_of(r, c)] = marks >= 2;
        }
}

static void beat(const struct host *host)
{
    unsigned places = plate.side * plate.side;

    /* 1. The votes go to the voted copies. */
    for (unsigned i = 0; i < plate.planes; i++)
        vote_plane(plane_of(plate.copies, i), plane_of(plate.voted, i));

    /* 2. The copies step, each from the voted copies of three planes at its place. */
    for (unsigned i = 0; i < plate.planes; i++) {
        const cell *left = plane_of(plate.voted, left_of(i));
        const cell *centre = plane_of(plate.voted, i);
        const cell *right = plane_of(plate.voted, right_of(i));
        cell *copies = plane_of(plate.copies, i);
        for (unsigned place = 0; place < places; place++)
            copies[place] = answer(host, left[place], centre[place], right[place]);
    }

    /* 3. The line steps, and what it was is kept as the earlier line. */
    memcpy(plate.earlier, plate.line, plate.planes);
    for (unsigned i = 0; i < plate.planes; i++)
        plate.line[i] = answer(host, plate.earlier[left_of(i)], plate.earlier[i], plate.earlier[right_of(i)]);

    /* 4. The shadow is voted. */
    vote_shadow();

    /* 5. One beat older. */
    plate.age++;
}

/* The records of number 0 strike; then, for each b, beat b is made and the records of number b strike. */
static void run(const struct round *round, const struct host *host)
{
    size_t records = round->script_length / RECORD;
    size_t next = 0;
    for (unsigned b = 0; b <= round->beats; b++) {
        if (b > 0)
            beat(host);
        for (; next < records; next++) {
            struct record record = read_record(round, next);
            if (record.number != b)
                break;
            strike(&record);
        }
    }
}

/* How many planes have a copy at the place that differs from their cell of the line. */
static unsigned map_at(size_t place)
{
    unsigned differ = 0;
    for (unsigned i = 0; i < plate.planes; i++)
        differ += plane_of(plate.copies, i)[place] != plate.line[i];
    return differ;
}

/* The byte of the plane's majority, or -1 if it has none. */
static int majority(unsigned plane)
{
    unsigned places = plate.side * plate.side;
    unsigned counts[256] = {0};
    for (unsigned place = 0; place < places; place++)
        counts[plane_of(plate.copies, plane)[place]]++;
    for (int byte = 0; byte < 256; byte++)
        if (2 * counts[byte] > places)
            return byte;
    return -1;
}

/* ---------------------------------------------------------------- what is written */

static void report(void)
{
    unsigned places = plate.side * plate.side;
    unsigned map[MOST_SIDE * MOST_SIDE];
    unsigned marked = 0;
    unsigned hurt = 0;
    for (unsigned place = 0; place < places; place++) {
        map[place] = map_at(place);
        hurt += map[place];
        marked += plate.shadow[place];
    }
    printf("age %u\n", plate.age);
    printf("shadow %u\n", marked);
    printf("hurt %u\n", hurt);

    for (unsigned r = 0; r < plate.side; r++) {
        for (unsigned c = 0; c < plate.side; c++) {
            size_t place = place_of(r, c);
            putchar(map[place] != 0 ? '#' : plate.shadow[place] ? 's' : '.');
        }
        putchar('\n');
    }

    for (unsigned i = 0; i < plate.planes; i++)
        if (majority(i) < 0) {
            printf("no majority %u\n", i);
            return;
        }
    printf("tape ");
    for (unsigned i = 0; i < plate.planes; i++)
        printf("%02x", (unsigned)majority(i));
    putchar('\n');
}

static void reply(const unsigned char *file, size_t length)
{
    struct round round;
    static struct host host;
    struct refusal refusal = ask_play(file, length, &round, &host);
    if (refusal.number != 0) {
        printf("refused %u %s %zu\n", refusal.number, refusal.word, refusal.place);
        return;
    }
    lay(&round);
    run(&round, &host);
    report();
}

/* ---------------------------------------------------------------- the program */

static int error(const char *what)
{
    fprintf(stderr, "Error: %s: %s\n", what, strerror(errno));
    return 1;
}

/* Plays the round in one input. The status. */
static int play_input(const char *name)
{
    static unsigned char file[MOST_READ];
    bool standard = strcmp(name, "-") == 0;
    FILE *input = standard ? stdin : fopen(name, "rb");
    if (input == NULL)
        return error(name);
    size_t length = fread(file, 1, MOST_READ, input);
    if (ferror(input))
        return error(name);
    if (!standard)
        fclose(input);

    reply(file, length);
    if (fflush(stdout) != 0 || ferror(stdout))
        return error("standard output");
    return 0;
}

int main(int count, char **arguments)
{
    if (count < 2)
        return play_input("-");
    for (int i = 1; i < count; i++) {
        int status = play_input(arguments[i]);
        if (status != 0)
            return status;
    }
    return 0;
}
