/*
 * An example for an office: the worked job of document 01, through every kind of call. Its last zone touches nobody and is left out. Then
 * its first zone sends no value.
 *
 *   gcc -O2 -std=c99 -I include bindings/c/example.c crates/exports/out/libexports.a -o example && ./example
 *
 * What it prints is kept in example.stdout; bindings/rust/examples/worked.rs prints the same.
 */
#include <inttypes.h>
#include <stdint.h>
#include <stdio.h>
#include <stdlib.h>
#include <string.h>

#include "dca.h"

/* A length is the number of entries of a list. */
#define LEN(list) (sizeof(list) / sizeof((list)[0]))
/* An array as a list: the pointer, then the length. */
#define LIST(list) (list), LEN(list)

enum { N = 4, CATEGORIES_USED = 2 };

static const int32_t values[N] = {1, 1, 3, 3};
static const uint8_t categories[N] = {0, 0, 1, 1};
static const uint8_t weights[N * N] = {
    0, 3, 0, 0,
    3, 0, 1, 0,
    0, 1, 0, 0,
    0, 0, 0, 0,
};
static const int32_t places[2 * N] = {0, 0, 1, 0, 3, 0, 9, 9};
static const uint32_t bands[2] = {1, 4};
static const uint8_t shuffles[2 * N] = {
    0, 1, 2, 3,
    2, 1, 0, 3,
};

/* The six buffers that a job image is read into and written from. */
struct buffers {
    int32_t values[DCA_BUFFER_VALUES];
    uint8_t categories[DCA_BUFFER_CATEGORIES];
    uint8_t weights[DCA_BUFFER_WEIGHTS];
    int32_t places[DCA_BUFFER_PLACES];
    uint32_t bands[DCA_BUFFER_BANDS];
    uint8_t shuffles[DCA_BUFFER_SHUFFLES];
};

/* Ends the program where a call that this example expects to be done is refused. */
static void done(const char *call, uint8_t refusal)
{
    if (refusal != DCA_REFUSED_NOTHING) {
        fprintf(stderr, "%s: refused %d\n", call, refusal);
        exit(1);
    }
}

/* A float by its decimals and by its 64 bits, with the sign of its side right behind them. */
static void print_float(double figure, uint8_t side)
{
    uint64_t bits;
    memcpy(&bits, &figure, sizeof bits);
    printf("%.6f (%016" PRIX64 "%c)", figure, bits, side == DCA_SIDE_EQUAL ? '=' : side == DCA_SIDE_BELOW ? '<' : '>');
}

static void print_pair(const double pair[2], const uint8_t sides[2])
{
    printf("Moran ");
    print_float(pair[0], sides[0]);
    printf(", Geary ");
    print_float(pair[1], sides[1]);
    printf("\n");
}

static void print_sums(const char *of, const int64_t sums[DCA_SUMS])
{
    printf("%s: S %" PRId64 ", M %" PRId64 ", W %" PRId64 ", P %" PRId64 ", G %" PRId64, of, sums[0], sums[1], sums[2], sums[3], sums[4]);
    printf(", zones kept %" PRId64 " of %d, not returned %" PRId64 "\n", sums[5], N, sums[6]);
}

static void show_account(void)
{
    int64_t locals[N], sums[DCA_SUMS];
    done("dca_account", dca_account(N, LIST(values), LIST(weights), LIST(locals), LIST(sums)));
    print_sums("account", sums);
    for (int zone = 0; zone < N; zone++)
        printf("  zone %d: L %" PRId64 "\n", zone, locals[zone]);
}

static void print_hot_list(const char *of, const int32_t given[N])
{
    uint8_t zones[N];
    done("dca_hot_list", dca_hot_list(N, given, N, LIST(weights), LIST(zones)));
    printf("%s:", of);
    for (int place = 0; place < N; place++)
        printf(" %d", zones[place]);
    printf("\n");
}

/* With the other values every L is 0, so that the row sums of the weights say the order: 3, 4 and 1 at the zones kept. */
static void show_hot_list(void)
{
    static const int32_t all_tie[N] = {1, 2, 3, 3};
    print_hot_list("hot list", values);
    print_hot_list("hot list where every L is 0", all_tie);
}

/* The class of each pair comes from the bands of squared distance. */
static void show_float_report(void)
{
    uint8_t classes[N * N], has_pair[DCA_CLASSES];
    double globals[DCA_GLOBALS], locals[N], pairs[DCA_PAIRS];
    uint8_t global_sides[DCA_GLOBALS], local_sides[N], pair_sides[DCA_PAIRS];
    done("dca_bands", dca_bands(N, LIST(places), LIST(bands), LIST(classes)));
    done("dca_float_report", dca_float_report(N, LIST(values), LIST(weights), LIST(classes), LIST(globals), LIST(global_sides),
                                              LIST(locals), LIST(local_sides), LIST(pairs), LIST(pair_sides), LIST(has_pair)));
    printf("float report: ");
    print_pair(globals, global_sides);
    for (int zone = 0; zone < N; zone++) {
        printf("  zone %d: local Moran ", zone);
        print_float(locals[zone], local_sides[zone]);
        printf("\n");
    }
    for (size_t k = 0; k <= LEN(bands); k++) {
        printf("  class %zu: ", k);
        if (has_pair[k])
            print_pair(pairs + 2 * k, pair_sides + 2 * k);
        else
            printf("no weight, no coefficient\n");
    }
}

/* The figures of the job above are exact. A third is not: its float is below it, and that of minus a third above. */
static void show_nearest(void)
{
    static const int64_t ratios[][2] = {{1, 2}, {1, 3}, {-1, 3}};
    double out[1];
    uint8_t side[1];
    for (size_t i = 0; i < LEN(ratios); i++) {
        done("dca_nearest", dca_nearest(ratios[i][0], ratios[i][1], LIST(out), LIST(side)));
        printf("nearest to %" PRId64 "/%" PRId64 ": ", ratios[i][0], ratios[i][1]);
        print_float(out[0], side[0]);
        printf("\n");
    }
}

static void show_join_table(void)
{
    int64_t table[DCA_JOIN_TABLE];
    done("dca_join_table", dca_join_table(N, LIST(values), LIST(categories), LIST(weights), LIST(table)));
    printf("join table:\n");
    for (int r = 0; r < CATEGORIES_USED; r++)
        for (int s = 0; s < CATEGORIES_USED; s++)
            printf("  from category %d to %d: %" PRId64 "\n", r, s, table[8 * r + s]);
}

/* The first zone sends no value: its weights, 3 each way, count as 0. */
static void show_not_returned(void)
{
    const int32_t fewer[N] = {DCA_NOT_RETURNED, 1, 3, 3};
    int64_t locals[N], sums[DCA_SUMS], table[DCA_JOIN_TABLE];
    done("dca_account", dca_account(N, LIST(fewer), LIST(weights), LIST(locals), LIST(sums)));
    print_sums("the same without the value of zone 0", sums);
    done("dca_join_table", dca_join_table(N, LIST(fewer), LIST(categories), LIST(weights), LIST(table)));
    printf("  from category 0 to 0: %" PRId64 "\n", table[0]);
}

static void print_counts(const char *of, const uint64_t counts[3])
{
    printf("%s: less %" PRIu64 ", equal %" PRIu64 ", greater %" PRIu64 "\n", of, counts[0], counts[1], counts[2]);
}

/* All shuffles of desk 0, then each of a desk of its own. */
static void show_rank(void)
{
    static const uint8_t one_desk[2] = {0, 0}, two_desks[2] = {0, 1};
    uint64_t counts[DCA_RANK_COUNTS];
    done("dca_rank", dca_rank(N, LIST(values), LIST(weights), LIST(shuffles), LIST(one_desk), LIST(counts)));
    print_counts("rank", counts);
    done("dca_rank", dca_rank(N, LIST(values), LIST(weights), LIST(shuffles), LIST(two_desks), LIST(counts)));
    printf("rank where desk 1 sends the second shuffle:\n");
    print_counts("  desk 0", counts);
    print_counts("  desk 1", counts + 3);
}

/* Two networks that are worked rather than given. */
static void show_networks(void)
{
    uint8_t network[N * N];
    done("dca_gabriel", dca_gabriel(N, LIST(places), LIST(network)));
    printf("gabriel network of the places:");
    for (int i = 0; i < N; i++)
        for (int j = i + 1; j < N; j++)
            if (network[N * i + j])
                printf(" %d-%d", i, j);
    done("dca_grid_rook", dca_grid_rook(2, 2, LIST(network)));
    printf("\nrook network of a 2 by 2 grid:");
    for (int i = 0; i < N; i++)
        for (int j = i + 1; j < N; j++)
            if (network[N * i + j])
                printf(" %d-%d", i, j);
    printf("\n");
}

/* Writes the job as an image and reads the image back; returns the image's length. */
static size_t show_image(uint8_t image[DCA_IMAGE_MOST])
{
    static struct buffers own, back; /* all 0 */
    memcpy(own.values, values, sizeof values);
    memcpy(own.categories, categories, sizeof categories);
    memcpy(own.weights, weights, sizeof weights);
    memcpy(own.places, places, sizeof places);
    memcpy(own.bands, bands, sizeof bands);
    memcpy(own.shuffles, shuffles, sizeof shuffles);
    const uint64_t given[DCA_WRITE_COUNTS] = {N, N, N, LEN(bands), LEN(shuffles) / N};
    uint64_t length[1], counts[DCA_READ_COUNTS];
    done("dca_write", dca_write(LIST(own.values), LIST(own.categories), LIST(own.weights), LIST(own.places), LIST(own.bands),
                                LIST(own.shuffles), LIST(given), image, DCA_IMAGE_MOST, LIST(length)));
    done("dca_read", dca_read(image, length[0], LIST(back.values), LIST(back.categories), LIST(back.weights), LIST(back.places),
                              LIST(back.bands), LIST(back.shuffles), LIST(counts)));
    printf("image: %" PRIu64 " bytes\n", length[0]);
    printf("  read back: values %" PRIu64 ", categories %" PRIu64 ", joins %" PRIu64 ", places %" PRIu64 ", bands %" PRIu64
           ", shuffles %" PRIu64 "\n", counts[0], counts[1], counts[2], counts[3], counts[4], counts[5]);
    printf("  the same job: %s\n", memcmp(&own, &back, sizeof own) == 0 ? "yes" : "no");
    return (size_t)length[0];
}

static void show_report(const uint8_t *image, size_t image_len)
{
    uint8_t text[DCA_REPORT_TEXT];
    uint64_t length[1];
    done("dca_report", dca_report(image, image_len, LIST(text), LIST(length)));
    printf("report:\n");
    fwrite(text, 1, (size_t)length[0], stdout);
}

/* An image that is cut is refused, and the lent lists are as they were. */
static void show_refused_report(const uint8_t *image, size_t image_len)
{
    uint8_t text[DCA_REPORT_TEXT];
    uint64_t length[1] = {7};
    memset(text, '#', sizeof text);
    uint8_t refusal = dca_report(image, image_len, LIST(text), LIST(length));
    printf("report of the same image without its last byte: refused %d%s\n", refusal,
           refusal == DCA_REFUSED_CUT ? " (the image ends inside a section or its count)" : "");
    int kept = length[0] == 7;
    for (size_t i = 0; i < LEN(text); i++)
        kept = kept && text[i] == '#';
    printf("  lent lists as they were: %s\n", kept ? "yes" : "no");
}

/* Equal values have no spread: the job is refused, and the lent lists are as they were. */
static void show_refused_job(void)
{
    const int32_t equal[N] = {5, 5, 5, 5};
    int64_t locals[N] = {-1, -1, -1, -1}, sums[DCA_SUMS] = {-1, -1, -1, -1, -1, -1, -1};
    uint8_t refusal = dca_account(N, LIST(equal), LIST(weights), LIST(locals), LIST(sums));
    printf("a job of equal values: refused %d%s\n", refusal, refusal == DCA_REFUSED_NO_SPREAD ? " (M of the zones kept is 0)" : "");
    int kept = 1;
    for (size_t i = 0; i < LEN(locals); i++)
        kept = kept && locals[i] == -1;
    for (size_t i = 0; i < LEN(sums); i++)
        kept = kept && sums[i] == -1;
    printf("  lent lists as they were: %s\n", kept ? "yes" : "no");
}

int main(void)
{
    uint8_t image[DCA_IMAGE_MOST];
    show_account();
    show_hot_list();
    show_float_report();
    show_nearest();
    show_join_table();
    show_rank();
    show_networks();
    size_t image_len = show_image(image);
    show_report(image, image_len);
    show_not_returned();
    show_refused_report(image, image_len - 1);
    show_refused_job();
    return 0;
}
