/*
 * Damaged inputs for every call, to be run under valgrind:
 *
 *   gcc -O2 -g -std=c99 -I include bindings/c/damaged.c crates/exports/out/libexports.a -o damaged
 *   valgrind --error-exitcode=1 --leak-check=full --track-origins=yes ./damaged
 *
 * A thousand inputs of each call, most of them damaged. Each list lies in a heap block of exactly the lent length, made for that one
 * call, so that valgrind sees a read or a write one past. Looked at after each call: the number is one that the call may give, 1 and 2 are
 * given exactly where they apply, a report is refused as the reader refuses its image, lists that are only read are as they were, and so is
 * every lent byte where the call is refused; an account counts the zones kept and the values not returned, and has 0 at zones left out; a
 * float report has +0 and the equal side there, and a side for each float; a nearest float has the side that its distance shows; a rank
 * counts each shuffle at its desk; a join table has the weights between zones that are returned. Ends with 1 at the first fault.
 */
#include <inttypes.h>
#include <stdint.h>
#include <stdio.h>
#include <stdlib.h>
#include <string.h>

#include "dca.h"

enum { ROUNDS = 1000, LISTS_MOST = 10, NUMBERS = 25 };

enum call { ACCOUNT, CLASS_ACCOUNT, FLOAT_REPORT, NEAREST, HOT_LIST, RANK, JOIN_TABLE, GABRIEL, BANDS, ROOK, BISHOP, QUEEN, READ, WRITE,
            REPORT, CALLS };

#define BIT(number) (UINT32_C(1) << (number))
#define UP_TO_7 (BIT(0) | BIT(1) | BIT(2) | BIT(3) | BIT(4) | BIT(5) | BIT(6) | BIT(7))
#define PLACED (BIT(0) | BIT(1) | BIT(2) | BIT(10) | BIT(11))
#define IMAGED (UP_TO_7 | BIT(8) | BIT(10) | BIT(11) | BIT(12) | BIT(13) | BIT(15))
#define READER (IMAGED | BIT(14) | BIT(16) | BIT(17))

static const struct {
    const char *name;
    uint32_t numbers; /* a bit for each number that the call may give */
} calls[CALLS] = {
    {"dca_account", UP_TO_7},
    {"dca_class_account", UP_TO_7 | BIT(9)},
    {"dca_float_report", UP_TO_7 | BIT(9)},
    {"dca_nearest", BIT(0) | BIT(2) | BIT(18)},
    {"dca_hot_list", UP_TO_7},
    {"dca_rank", UP_TO_7 | BIT(13) | BIT(24)},
    {"dca_join_table", BIT(0) | BIT(1) | BIT(2) | BIT(3) | BIT(4) | BIT(5) | BIT(8)},
    {"dca_gabriel", PLACED},
    {"dca_bands", PLACED | BIT(12)},
    {"dca_grid_rook", BIT(0) | BIT(1) | BIT(2)},
    {"dca_grid_bishop", BIT(0) | BIT(1) | BIT(2)},
    {"dca_grid_queen", BIT(0) | BIT(1) | BIT(2)},
    {"dca_read", READER},
    {"dca_write", IMAGED | BIT(19)},
    {"dca_report", READER},
};

static unsigned given[CALLS][NUMBERS];
static unsigned long inputs;

/* The numbers to draw from: xorshift64*, so that a seed draws the same everywhere. */
static uint64_t state;

static uint64_t draw(void)
{
    state ^= state >> 12;
    state ^= state << 25;
    state ^= state >> 27;
    return state * UINT64_C(2685821657736338717);
}

static size_t below(size_t bound) { return (size_t)((draw() >> 20) % bound); }

static int one_in(size_t many) { return below(many) == 0; }

static void fault(enum call call, const char *what)
{
    printf("%s, input %lu: %s\n", calls[call].name, inputs, what);
    exit(1);
}

/* ---- The lists that one call is lent ---- */

struct list {
    unsigned char *at, *before; /* the lent block, and what it held */
    size_t len, bytes;
    int out;
};

static struct list lent[LISTS_MOST];
static int lists;
static int wrong_length; /* a list whose exact length is fixed got another */

static void *block(size_t bytes)
{
    void *at = malloc(bytes);
    if (at == NULL) {
        fprintf(stderr, "no memory\n");
        exit(2);
    }
    return at;
}

/* Lends `len` entries: those of `from` as far as they go, then drawn bytes; all of them drawn where `from` is null. */
static struct list *lend(size_t len, size_t size, const void *from, size_t from_len, int out)
{
    struct list *list = &lent[lists++];
    size_t known = from == NULL ? 0 : (from_len < len ? from_len : len) * size;
    list->len = len;
    list->bytes = len * size;
    list->at = block(list->bytes);
    list->before = block(list->bytes);
    list->out = out;
    if (known > 0)
        memcpy(list->at, from, known);
    for (size_t i = known; i < list->bytes; i++)
        list->at[i] = (unsigned char)draw();
    if (list->bytes > 0)
        memcpy(list->before, list->at, list->bytes);
    return list;
}

/* A length near `exact`, mostly another one. */
static size_t other_length(size_t exact)
{
    switch (below(6)) {
    case 0: return 0;
    case 1: return exact > 0 ? exact - 1 : 0;
    case 2: return exact + 1;
    case 3: return below(exact + 1);
    case 4: return 2 * exact;
    default: return exact + below(9);
    }
}

static int length_damage; /* a list in so many has another length; 0: none */

static struct list *lend_exact(size_t exact, size_t size, const void *from, int out)
{
    size_t len = length_damage > 0 && one_in((size_t)length_damage) ? other_length(exact) : exact;
    if (len != exact)
        wrong_length = 1;
    return lend(len, size, from, exact, out);
}

/* Floats to be written. Half of them are NaNs, quiet and signalling, of both signs, with any payload: a bit of the exponent decides. */
static struct list *lend_floats(size_t exact)
{
    struct list *list = lend_exact(exact, sizeof(double), NULL, 1);
    for (size_t i = 0; i < list->len; i++) {
        uint64_t bits;
        memcpy(&bits, list->at + 8 * i, sizeof bits);
        bits |= (bits >> 52 & 1) * UINT64_C(0x7FF0000000000000);
        memcpy(list->at + 8 * i, &bits, sizeof bits);
    }
    if (list->bytes > 0)
        memcpy(list->before, list->at, list->bytes);
    return list;
}

#define IN(exact, from) lend_exact((exact), sizeof *(from), (from), 0)
#define OUT(exact, type) lend_exact((exact), sizeof(type), NULL, 1)
#define GIVE(list, type) ((type *)(void *)(list)->at), (list)->len

static int same(const struct list *list, size_t from)
{
    return list->bytes <= from || memcmp(list->at + from, list->before + from, list->bytes - from) == 0;
}

/* Looks at what a call did. `first` is the number that must be given, or -1 where it is neither 1 nor 2. */
static void look(enum call call, uint8_t number, int first)
{
    if (number >= NUMBERS || !(calls[call].numbers & BIT(number)))
        fault(call, "a number that this call does not give");
    if (first >= 0 && number != first)
        fault(call, "not the number that must be given");
    if (first < 0 && (number == 1 || number == 2))
        fault(call, "1 or 2 given wrongly");
    for (int i = 0; i < lists; i++) {
        if (!lent[i].out && !same(&lent[i], 0))
            fault(call, "a list that is only read was changed");
        if (number != 0 && !same(&lent[i], 0))
            fault(call, "lent memory changed by a refused call");
    }
    given[call][number]++;
    inputs++;
}

static void take_back(void)
{
    for (int i = 0; i < lists; i++) {
        free(lent[i].at);
        free(lent[i].before);
    }
    lists = 0;
    wrong_length = 0;
}

/* ---- A job, sound and damaged ---- */

static struct {
    size_t n, bands_len, rows;
    int32_t values[64], places[128];
    uint8_t categories[64], weights[4096], classes[4096], shuffles[31936], desks[DCA_SHUFFLES_MOST];
    uint32_t bands[8];
} job;

static void shuffle_row(uint8_t *row)
{
    for (size_t i = 0; i < job.n; i++) {
        size_t j = below(i + 1);
        row[i] = row[j];
        row[j] = (uint8_t)i;
    }
}

/* Few rows or many, and the desk of each; where they are few, some desks have none. */
static void draw_rows(void)
{
    job.rows = one_in(8) ? DCA_SHUFFLES_MOST : below(6);
    for (size_t r = 0; r < job.rows; r++) {
        shuffle_row(job.shuffles + r * job.n);
        job.desks[r] = (uint8_t)below(DCA_DESKS);
    }
}

/* Takes all weight from zones behind the first two, so that they touch nobody. */
static void leave_out(void)
{
    size_t n = job.n;
    for (size_t zone = 2; zone < n; zone++)
        if (one_in(4))
            for (size_t other = 0; other < n; other++)
                job.weights[n * zone + other] = job.weights[n * other + zone] = 0;
}

/* Some zones behind the first two send no value. */
static void miss_values(void)
{
    size_t some = 1 + below(6);
    for (size_t zone = 2; zone < job.n; zone++)
        if (one_in(some))
            job.values[zone] = DCA_NOT_RETURNED;
}

/* In half of the jobs some zones are left out, in half some are not returned. The first two are kept and have different values. */
static void draw_job(void)
{
    size_t n = job.n = one_in(6) ? 64 : 2 + below(one_in(3) ? 63 : 10);
    for (size_t i = 0; i < n; i++) {
        job.values[i] = (int32_t)below(200001) - 100000;
        job.categories[i] = (uint8_t)below(8);
        job.places[2 * i] = (int32_t)(i * 900) - 30000 + (int32_t)below(900);
        job.places[2 * i + 1] = (int32_t)below(60001) - 30000;
    }
    job.values[0] = job.values[1] == 7 ? 8 : 7;
    for (size_t k = 0; k < n * n; k++) {
        job.weights[k] = k % (n + 1) == 0 || one_in(3) ? 0 : (uint8_t)below(10);
        job.classes[k] = (uint8_t)below(9);
    }
    job.weights[1] = 9;
    if (one_in(2))
        leave_out();
    if (one_in(2))
        miss_values();
    job.bands_len = 1 + below(8);
    for (size_t b = 0; b < job.bands_len; b++)
        job.bands[b] = (uint32_t)(b * 500000000 + 1 + below(500000000));
    draw_rows();
}

static int is_returned(size_t zone) { return job.values[zone] != DCA_NOT_RETURNED; }

/* Whether a weight counts, that of the row or that of the column, so that the zone is kept. */
static int touches_somebody(size_t zone)
{
    size_t n = job.n;
    for (size_t other = 0; other < n && is_returned(zone); other++)
        if (is_returned(other) && (job.weights[n * zone + other] > 0 || job.weights[n * other + zone] > 0))
            return 1;
    return 0;
}

/* Gives every zone the value of the first, or only those that are kept. */
static void make_equal(int all)
{
    for (size_t zone = 1; zone < job.n; zone++)
        if (all || touches_somebody(zone))
            job.values[zone] = job.values[0];
}

/* No zone sends a value, or none that touches the first. */
static void miss_around_first(int all)
{
    size_t n = job.n;
    for (size_t zone = 0; zone < n; zone++)
        if (all || job.weights[zone] > 0 || job.weights[n * zone] > 0)
            job.values[zone] = DCA_NOT_RETURNED;
}

/* Breaks one rule of the job's contents. */
static void spoil(void)
{
    static const int32_t wild[] = {100001, -100001, INT32_MAX, DCA_NOT_RETURNED + 1};
    size_t n = job.n;
    switch (below(14)) {
    case 0: job.values[below(n)] = wild[below(4)]; break;
    case 1: job.weights[below(n * n)] = (uint8_t)(10 + below(246)); break;
    case 2: job.weights[below(n) * (n + 1)] = (uint8_t)(1 + below(one_in(4) ? 255 : 9)); break;
    case 3: memset(job.weights, 0, n * n); break;
    case 4: make_equal(one_in(2)); break;
    case 5: miss_around_first(one_in(2)); break;
    case 6: job.categories[below(n)] = (uint8_t)(8 + below(248)); break;
    case 7: job.classes[below(n * n)] = (uint8_t)(9 + below(247)); break;
    case 8: job.places[below(2 * n)] = one_in(2) ? 30001 : wild[below(4)]; break;
    case 9: memcpy(job.places + 2 * (n - 1), job.places, 2 * sizeof job.places[0]); break;
    case 10: job.bands[below(job.bands_len)] = 0; break;
    case 11: if (job.bands_len > 1) job.bands[job.bands_len - 1] = job.bands[0]; break;
    case 12: if (job.rows > 0) job.desks[below(job.rows)] = (uint8_t)(DCA_DESKS + below(252)); break;
    default: if (job.rows > 0) job.shuffles[below(job.rows * n)] = (uint8_t)draw(); break;
    }
}

/* n as it is lent: the job's, or a wild one; among these are some whose square is 0 in 64 bits. */
static size_t lent_n(int damaged)
{
    static const size_t wild[] = {0, 1, 65, 128, 256, (size_t)1 << 32, (size_t)1 << 63, SIZE_MAX, SIZE_MAX / 2};
    return damaged ? wild[below(sizeof wild / sizeof wild[0])] : job.n;
}

/* What must come first: 1 for n, then 2 for a length, else neither. */
static int first_number(size_t n) { return n < 2 || n > 64 ? 1 : wrong_length ? 2 : -1; }

/* Draws a job and its damage; returns n as it is lent. */
static size_t start(void)
{
    size_t kind = below(10); /* 0: sound; 1, 2: n wild; 3 to 5: lengths; the others: contents */
    draw_job();
    length_damage = kind >= 3 && kind <= 5 ? 3 : kind == 9 ? 12 : 0;
    for (size_t i = kind >= 6 ? 1 + below(2) : 0; i > 0; i--)
        spoil();
    return lent_n(kind == 1 || kind == 2);
}

/* ---- The calls ---- */

/* The zones kept are counted and the values not returned, and zones left out have no local numerator. */
static void look_at_kept(const int64_t *locals, const int64_t *sums)
{
    int64_t kept = 0, missing = 0;
    for (size_t zone = 0; zone < job.n; zone++) {
        missing += !is_returned(zone);
        if (touches_somebody(zone))
            kept++;
        else if (locals[zone] != 0)
            fault(ACCOUNT, "a zone left out has a local numerator");
    }
    if (sums[5] != kept)
        fault(ACCOUNT, "not the number of zones kept");
    if (sums[6] != missing)
        fault(ACCOUNT, "not the number of values not returned");
}

/* The entries add up to the weights that count. */
static void look_at_table(const int64_t *table)
{
    int64_t left = 0;
    for (size_t k = 0; k < job.n * job.n; k++)
        if (is_returned(k / job.n) && is_returned(k % job.n))
            left += job.weights[k];
    for (size_t entry = 0; entry < DCA_JOIN_TABLE; entry++)
        left -= table[entry];
    if (left != 0)
        fault(JOIN_TABLE, "not the weights between zones that are returned");
}

static void try_account(void)
{
    size_t n = start();
    struct list *values = IN(job.n, job.values), *weights = IN(job.n * job.n, job.weights);
    struct list *locals = OUT(job.n, int64_t), *sums = OUT(DCA_SUMS, int64_t);
    uint8_t number = dca_account(n, GIVE(values, int32_t), GIVE(weights, uint8_t), GIVE(locals, int64_t), GIVE(sums, int64_t));
    look(ACCOUNT, number, first_number(n));
    if (number == 0)
        look_at_kept((const int64_t *)(const void *)locals->at, (const int64_t *)(const void *)sums->at);
    take_back();
}

static void try_class_account(void)
{
    size_t n = start();
    struct list *values = IN(job.n, job.values), *weights = IN(job.n * job.n, job.weights), *classes = IN(job.n * job.n, job.classes);
    struct list *rows = OUT(27, int64_t), *locals = OUT(9 * job.n, int64_t);
    look(CLASS_ACCOUNT, dca_class_account(n, GIVE(values, int32_t), GIVE(weights, uint8_t), GIVE(classes, uint8_t), GIVE(rows, int64_t),
                                          GIVE(locals, int64_t)), first_number(n));
    take_back();
}

static void look_at_sides(const uint8_t *sides, size_t len)
{
    for (size_t i = 0; i < len; i++)
        if (sides[i] != DCA_SIDE_EQUAL && sides[i] != DCA_SIDE_BELOW && sides[i] != DCA_SIDE_ABOVE)
            fault(FLOAT_REPORT, "not a side");
}

/* A zone left out has +0, which is equal. */
static void look_at_locals(const struct list *locals, const struct list *sides)
{
    static const uint8_t zero[8];
    look_at_sides(sides->at, sides->len);
    for (size_t zone = 0; zone < job.n; zone++)
        if (!touches_somebody(zone) && (memcmp(locals->at + 8 * zone, zero, 8) != 0 || sides->at[zone] != DCA_SIDE_EQUAL))
            fault(FLOAT_REPORT, "a zone left out has a figure");
}

static void look_at_pairs(const struct list *pairs, const struct list *sides, const struct list *has_pair)
{
    for (size_t c = 0; c < DCA_CLASSES; c++) {
        if (has_pair->at[c] > 1)
            fault(FLOAT_REPORT, "has_pair");
        if (has_pair->at[c] == 1)
            look_at_sides(sides->at + 2 * c, 2);
        else if (memcmp(pairs->at + 16 * c, pairs->before + 16 * c, 16) != 0 || memcmp(sides->at + 2 * c, sides->before + 2 * c, 2) != 0)
            fault(FLOAT_REPORT, "the pair of a class without weight was changed");
    }
}

static void try_float_report(void)
{
    size_t n = start(), k = below(9);
    for (size_t i = 0; i < job.n * job.n; i++) /* class k without weight */
        if (job.classes[i] == k)
            job.classes[i] = (uint8_t)(k == 0 ? 1 : 0);
    struct list *values = IN(job.n, job.values), *weights = IN(job.n * job.n, job.weights), *classes = IN(job.n * job.n, job.classes);
    struct list *globals = lend_floats(2), *global_sides = OUT(2, uint8_t), *locals = lend_floats(job.n);
    struct list *local_sides = OUT(job.n, uint8_t), *pairs = lend_floats(18), *pair_sides = OUT(18, uint8_t);
    struct list *has_pair = OUT(9, uint8_t);
    uint8_t number = dca_float_report(n, GIVE(values, int32_t), GIVE(weights, uint8_t), GIVE(classes, uint8_t), GIVE(globals, double),
                                      GIVE(global_sides, uint8_t), GIVE(locals, double), GIVE(local_sides, uint8_t),
                                      GIVE(pairs, double), GIVE(pair_sides, uint8_t), GIVE(has_pair, uint8_t));
    look(FLOAT_REPORT, number, first_number(n));
    if (number == 0) {
        if (has_pair->at[k] != 0)
            fault(FLOAT_REPORT, "a class without weight has a pair");
        look_at_sides(global_sides->at, 2);
        look_at_locals(locals, local_sides);
        look_at_pairs(pairs, pair_sides, has_pair);
    }
    take_back();
}

static int64_t wild_whole(void)
{
    static const int64_t edges[] = {0, 1, -1, 3, DCA_RATIO_MOST, -DCA_RATIO_MOST, DCA_RATIO_MOST + 1, -DCA_RATIO_MOST - 1, INT64_MAX,
                                    INT64_MIN, INT64_C(9007199254740993)};
    return one_in(2) ? edges[below(sizeof edges / sizeof edges[0])] : (int64_t)(draw() >> 1 >> below(63)) * (one_in(3) ? -1 : 1);
}

/*
 * The side of the float nearest to p over q, p not 0. The float is its digits times a power of 2. What digits times q is more than p, one of
 * them shifted by that power, is at most q / 2 in size where the power is not above 0, so near is a nearest float, and below 1,000 else; so
 * its last 64 bits show whether it is 0 or less.
 */
static uint8_t side_of(int64_t p, int64_t q, uint64_t bits)
{
    int power = (int)(bits >> 52 & 2047) - 1075;
    uint64_t digits = (bits & ((UINT64_C(1) << 52) - 1)) | UINT64_C(1) << 52;
    uint64_t size = p < 0 ? -(uint64_t)p : (uint64_t)p;
    uint64_t more = (digits * (uint64_t)q << (power > 0 ? power : 0)) - (power > 0 ? size : power > -64 ? size << -power : 0);
    if (more == 0)
        return DCA_SIDE_EQUAL;
    return (more >> 63 == 1) == (p > 0) ? DCA_SIDE_BELOW : DCA_SIDE_ABOVE;
}

static void try_nearest(void)
{
    int64_t p = wild_whole(), q = wild_whole();
    length_damage = one_in(3) ? 2 : 0;
    struct list *out = lend_floats(1), *side = OUT(1, uint8_t);
    uint8_t number = dca_nearest(p, q, GIVE(out, double), GIVE(side, uint8_t));
    int taken = q >= 1 && q <= DCA_RATIO_MOST && p <= DCA_RATIO_MOST && p >= -DCA_RATIO_MOST;
    look(NEAREST, number, wrong_length ? 2 : taken ? 0 : 18);
    if (number == 0) {
        uint64_t bits;
        memcpy(&bits, out->at, sizeof bits);
        if (side->at[0] != (p == 0 ? DCA_SIDE_EQUAL : side_of(p, q, bits)))
            fault(NEAREST, "not the side that its distance shows");
    }
    take_back();
}

static void try_hot_list(void)
{
    size_t n = start();
    struct list *values = IN(job.n, job.values), *weights = IN(job.n * job.n, job.weights), *zones = OUT(job.n, uint8_t);
    look(HOT_LIST, dca_hot_list(n, GIVE(values, int32_t), GIVE(weights, uint8_t), GIVE(zones, uint8_t)), first_number(n));
    take_back();
}

/* The counts of each desk add up to its rows. */
static void look_at_counts(const struct list *desks, const uint64_t *counts)
{
    uint64_t rows[DCA_DESKS] = {0};
    for (size_t r = 0; r < desks->len; r++) {
        if (desks->at[r] >= DCA_DESKS)
            fault(RANK, "a desk above 3 taken");
        rows[desks->at[r]]++;
    }
    for (size_t k = 0; k < DCA_DESKS; k++)
        if (counts[3 * k] + counts[3 * k + 1] + counts[3 * k + 2] != rows[k])
            fault(RANK, "not the shuffles of each desk");
}

/* A desk for each row that is lent; those behind the job's rows are drawn, as such rows are. */
static void try_rank(void)
{
    size_t n = start();
    struct list *values = IN(job.n, job.values), *weights = IN(job.n * job.n, job.weights);
    size_t rows_len = job.rows * job.n, len = length_damage > 0 && one_in(3) ? other_length(rows_len) : rows_len;
    size_t rows = len / job.n, desks_len = length_damage > 0 && one_in(3) ? other_length(rows) : rows;
    struct list *shuffles = lend(len, 1, job.shuffles, rows_len, 0), *desks = lend(desks_len, 1, job.desks, job.rows, 0);
    struct list *counts = OUT(DCA_RANK_COUNTS, uint64_t);
    wrong_length = wrong_length || len % job.n != 0 || rows > DCA_SHUFFLES_MOST || desks_len != rows;
    uint8_t number = dca_rank(n, GIVE(values, int32_t), GIVE(weights, uint8_t), GIVE(shuffles, uint8_t), GIVE(desks, uint8_t),
                              GIVE(counts, uint64_t));
    look(RANK, number, first_number(n));
    if (number == 0)
        look_at_counts(desks, (const uint64_t *)(const void *)counts->at);
    take_back();
}

static void try_join_table(void)
{
    size_t n = start();
    struct list *values = IN(job.n, job.values), *categories = IN(job.n, job.categories), *weights = IN(job.n * job.n, job.weights);
    struct list *table = OUT(DCA_JOIN_TABLE, int64_t);
    uint8_t number = dca_join_table(n, GIVE(values, int32_t), GIVE(categories, uint8_t), GIVE(weights, uint8_t), GIVE(table, int64_t));
    look(JOIN_TABLE, number, first_number(n));
    if (number == 0)
        look_at_table((const int64_t *)(const void *)table->at);
    take_back();
}

static void try_gabriel(void)
{
    size_t n = start();
    struct list *places = IN(2 * job.n, job.places), *weights = OUT(job.n * job.n, uint8_t);
    look(GABRIEL, dca_gabriel(n, GIVE(places, int32_t), GIVE(weights, uint8_t)), first_number(n));
    take_back();
}

/* The band list has no exact length: a wrong one gets 12. */
static void try_bands(void)
{
    size_t n = start(), len = one_in(4) ? below(12) : job.bands_len;
    struct list *places = IN(2 * job.n, job.places), *classes = OUT(job.n * job.n, uint8_t);
    struct list *bands = lend(len, sizeof job.bands[0], job.bands, job.bands_len, 0);
    uint8_t number = dca_bands(n, GIVE(places, int32_t), GIVE(bands, uint32_t), GIVE(classes, uint8_t));
    look(BANDS, number, first_number(n));
    if (number == 0 && (len < 1 || len > 8))
        fault(BANDS, "a wrong count of bands taken");
    take_back();
}

/* Among the wild grids are some whose product is 2 to 64 in 64 bits only. */
static void try_grid(enum call call, uint8_t (*grid)(size_t, size_t, uint8_t *, size_t))
{
    static const size_t wild[][2] = {{0, 5}, {5, 0}, {1, 1}, {5, 13}, {65, 1}, {SIZE_MAX, 2}, {SIZE_MAX, SIZE_MAX},
                                     {(size_t)1 << 32, (size_t)1 << 32}, {((size_t)1 << 63) + 1, 2}, {2, ((size_t)1 << 63) + 3}};
    size_t rows = 1 + below(8), columns = 2 + below(7), n = rows * columns;
    const size_t *pick = wild[below(sizeof wild / sizeof wild[0])];
    int outside = one_in(4);
    length_damage = one_in(2) ? 2 : 0;
    struct list *weights = OUT(n * n, uint8_t);
    if (outside) {
        rows = pick[0];
        columns = pick[1];
    }
    look(call, grid(rows, columns, GIVE(weights, uint8_t)), outside ? 1 : wrong_length ? 2 : 0);
    take_back();
}

/* ---- Images ---- */

static uint8_t image[2 * DCA_IMAGE_MOST]; /* a spoiled job may have 64 joins more than any sound one */

static size_t put(size_t at, uint32_t number, size_t bytes)
{
    for (size_t i = 0; i < bytes; i++)
        image[at + i] = (uint8_t)(number >> 8 * i);
    return at + bytes;
}

/* The image of the job by a writer that judges nothing, so that spoiled jobs get one too; returns its length. */
static size_t plain_image(void)
{
    size_t n = job.n, joins = 0, at = put(0, (uint32_t)n, 2);
    size_t categories = one_in(3) ? 0 : n, places = one_in(3) ? 0 : n, bands = places == 0 || one_in(3) ? 0 : job.bands_len;
    for (size_t i = 0; i < n; i++)
        at = put(at, (uint32_t)job.values[i], 4);
    at = put(at, (uint32_t)categories, 2);
    for (size_t i = 0; i < categories; i++)
        at = put(at, job.categories[i], 1);
    for (size_t k = 0; k < n * n; k++)
        joins += job.weights[k] > 0;
    at = put(at, (uint32_t)joins, 2);
    for (size_t k = 0; k < n * n; k++)
        if (job.weights[k] > 0)
            at = put(put(put(at, (uint32_t)(k / n), 1), (uint32_t)(k % n), 1), job.weights[k], 1);
    at = put(at, (uint32_t)places, 2);
    for (size_t i = 0; i < 2 * places; i++)
        at = put(at, (uint32_t)job.places[i], 4);
    at = put(at, (uint32_t)bands, 2);
    for (size_t b = 0; b < bands; b++)
        at = put(at, job.bands[b], 4);
    at = put(at, (uint32_t)job.rows, 2);
    memcpy(image + at, job.shuffles, job.rows * n);
    return at + job.rows * n;
}

/* Cuts, changes or lengthens an image, or draws one; returns the new length. */
static size_t damage_image(size_t len)
{
    size_t kind = below(9);
    if (kind == 0) /* cut */
        return below(len);
    if (kind == 1) { /* bytes after it */
        for (size_t more = 1 + below(9); more > 0; more--)
            image[len++] = (uint8_t)draw();
        return len;
    }
    if (kind == 2) { /* no image at all */
        len = below(200);
        for (size_t i = 0; i < len; i++)
            image[i] = (uint8_t)draw();
        return len;
    }
    if (kind == 3) { /* longer than any image */
        memset(image + len, 0, sizeof image - len);
        return DCA_IMAGE_MOST + below(DCA_IMAGE_MOST);
    }
    for (size_t times = 1 + below(3); kind < 8 && times > 0; times--) /* some bytes changed, mostly near the front */
        image[below(one_in(2) ? len : (len < 40 ? len : 40))] = (uint8_t)(one_in(2) ? draw() : below(12));
    return len;
}

/* An image that is sound, of a spoiled job, or damaged in its bytes. */
static size_t draw_image(void)
{
    size_t kind = below(5);
    draw_job();
    if (kind >= 3)
        spoil();
    return kind == 1 || kind == 2 ? damage_image(plain_image()) : plain_image();
}

/* What was read is written again: it must be the image that was read. */
static void write_again(struct list *const *buffers, const uint64_t counts[6], const struct list *read)
{
    uint64_t again[5] = {counts[0], counts[1], counts[3], counts[4], counts[5]}, length[1] = {0};
    uint8_t *out = block(read->len);
    uint8_t number = dca_write(GIVE(buffers[0], int32_t), GIVE(buffers[1], uint8_t), GIVE(buffers[2], uint8_t), GIVE(buffers[3], int32_t),
                               GIVE(buffers[4], uint32_t), GIVE(buffers[5], uint8_t), again, 5, out, read->len, length, 1);
    if (number != 0 || length[0] != read->len || memcmp(out, read->at, read->len) != 0)
        fault(READ, "an image read and written is another");
    free(out);
}

static void try_read(void)
{
    size_t len = draw_image();
    struct list *lent_image = lend(len, 1, image, len, 0), *buffers[6], *counts;
    length_damage = one_in(5) ? 4 : 0;
    buffers[0] = OUT(64, int32_t);
    buffers[1] = OUT(64, uint8_t);
    buffers[2] = OUT(4096, uint8_t);
    buffers[3] = OUT(128, int32_t);
    buffers[4] = OUT(8, uint32_t);
    buffers[5] = OUT(31936, uint8_t);
    counts = OUT(6, uint64_t);
    uint8_t number = dca_read(GIVE(lent_image, uint8_t), GIVE(buffers[0], int32_t), GIVE(buffers[1], uint8_t), GIVE(buffers[2], uint8_t),
                              GIVE(buffers[3], int32_t), GIVE(buffers[4], uint32_t), GIVE(buffers[5], uint8_t), GIVE(counts, uint64_t));
    /* 1 can come from the image's own count */
    look(READ, number, wrong_length ? 2 : number == 1 ? 1 : -1);
    if (number == 0) {
        const uint64_t *six = (const uint64_t *)(const void *)counts->at;
        size_t n = (size_t)six[0];
        if (!same(buffers[0], 4 * n) || !same(buffers[1], (size_t)six[1]) || !same(buffers[2], n * n) ||
            !same(buffers[3], 8 * (size_t)six[3]) || !same(buffers[4], 4 * (size_t)six[4]) || !same(buffers[5], n * (size_t)six[5]))
            fault(READ, "an entry that is not used was changed");
        write_again(buffers, six, lent_image);
    }
    take_back();
}

static uint64_t wild_count(void)
{
    static const uint64_t wild[] = {0, 1, 9, 65, 500, 65535, 65536, UINT64_C(1) << 32, UINT64_C(1) << 63, UINT64_MAX};
    return wild[below(sizeof wild / sizeof wild[0])];
}

static void try_write(void)
{
    size_t n = start();
    uint64_t five[5] = {n, one_in(2) ? job.n : 0, one_in(4) ? 0 : job.n, one_in(4) ? 0 : job.bands_len, job.rows};
    if (one_in(4))
        five[1 + below(4)] = wild_count();
    if (five[2] == 0 && one_in(2))
        five[3] = 0;
    struct list *values = IN(64, job.values), *categories = IN(64, job.categories), *weights = IN(4096, job.weights);
    struct list *places = IN(128, job.places), *bands = IN(8, job.bands), *shuffles = IN(31936, job.shuffles);
    size_t counts_len = length_damage > 0 && one_in(4) ? other_length(5) : 5;
    struct list *counts = lend(counts_len, sizeof five[0], five, 5, 0);
    size_t out_len = one_in(4) ? below(300) : DCA_IMAGE_MOST + below(9);
    struct list *out = lend(out_len, 1, NULL, 0, 1), *length = OUT(1, uint64_t);
    uint8_t number = dca_write(GIVE(values, int32_t), GIVE(categories, uint8_t), GIVE(weights, uint8_t), GIVE(places, int32_t),
                               GIVE(bands, uint32_t), GIVE(shuffles, uint8_t), GIVE(counts, uint64_t), GIVE(out, uint8_t),
                               GIVE(length, uint64_t));
    look(WRITE, number, counts_len != 5 ? 2 : first_number(n));
    if (number == 0) {
        uint64_t used;
        memcpy(&used, length->at, sizeof used);
        if (used > out->len || used > DCA_IMAGE_MOST || !same(out, (size_t)used))
            fault(WRITE, "more than the image's length was filled");
    }
    take_back();
}

/* The number that the reader gives an image. */
static uint8_t read_number(const struct list *read)
{
    static int32_t values[64], places[128];
    static uint8_t categories[64], weights[4096], shuffles[31936];
    static uint32_t bands[8];
    static uint64_t counts[6];
    return dca_read(GIVE(read, const uint8_t), values, 64, categories, 64, weights, 4096, places, 128, bands, 8, shuffles, 31936,
                    counts, 6);
}

static void try_report(void)
{
    size_t len = draw_image();
    struct list *lent_image = lend(len, 1, image, len, 0);
    length_damage = one_in(5) ? 2 : 0;
    struct list *text = OUT(DCA_REPORT_TEXT, uint8_t), *length = OUT(1, uint64_t);
    uint8_t number = dca_report(GIVE(lent_image, uint8_t), GIVE(text, uint8_t), GIVE(length, uint64_t));
    look(REPORT, number, wrong_length ? 2 : read_number(lent_image));
    if (number == 0) {
        uint64_t used;
        memcpy(&used, length->at, sizeof used);
        if (used < 6 || used > DCA_REPORT_TEXT || memcmp(text->at, "zones ", 6) != 0 || text->at[used - 1] != '\n' ||
            !same(text, (size_t)used))
            fault(REPORT, "the text, or what lies behind it");
    }
    take_back();
}

int main(int count, char **words)
{
    uint64_t seed = count > 1 ? strtoull(words[1], NULL, 10) : 20260101;
    state = seed * 2 + 1;
    printf("seed %" PRIu64 "\n", seed);
    for (int round = 0; round < ROUNDS; round++) {
        try_account();
        try_class_account();
        try_float_report();
        try_nearest();
        try_hot_list();
        try_rank();
        try_join_table();
        try_gabriel();
        try_bands();
        try_grid(ROOK, dca_grid_rook);
        try_grid(BISHOP, dca_grid_bishop);
        try_grid(QUEEN, dca_grid_queen);
        try_read();
        try_write();
        try_report();
    }
    for (int call = 0; call < CALLS; call++) {
        printf("%-18s", calls[call].name);
        for (int number = 0; number < NUMBERS; number++)
            if (given[call][number] > 0)
                printf(" %d:%u", number, given[call][number]);
        printf("\n");
    }
    printf("%lu inputs, no fault\n", inputs);
    return 0;
}
