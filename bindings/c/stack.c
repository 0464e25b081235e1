/*
 * Measures the stack that calls take, on a painted stack of a thread of its own:
 *
 *   gcc -O2 -std=c99 -pthread -I include bindings/c/stack.c crates/exports/out/libexports.a -o stack && ./stack samples/island.image
 *
 * The image should use everything: 64 zones, categories, places, bands, shuffles. Each call is made on its job, again when the last zone
 * touches nobody and is left out, and again when the first sends no value besides. Ends with 1 where a call takes 256 KiB or more.
 * The frames are fixed. One function calls itself, the sort of the hot list, by some 144 bytes a time and never more often than there are zones;
 * so what three such runs take is, but for 9 KiB, about what any run takes.
 */
#define _POSIX_C_SOURCE 200809L
#include <pthread.h>
#include <stdint.h>
#include <stdio.h>
#include <stdlib.h>
#include <string.h>

#include "dca.h"

enum { STACK = 1 << 20, BOUND = 256 * 1024, PAINT = 0xA5 };

static uint8_t image[DCA_IMAGE_MOST + 1], text[DCA_REPORT_TEXT], out[DCA_IMAGE_MOST];
static size_t image_len;
static int32_t values[64], places[128];
static uint8_t categories[64], weights[4096], classes[4096], network[4096], shuffles[31936], desks[DCA_SHUFFLES_MOST], zones[64], has_pair[9];
static uint32_t bands[8];
static int64_t locals[64], sums[DCA_SUMS], rows[27], class_locals[576], table[64];
static double globals[2], figures[64], pairs[18], nearest[1];
static uint8_t global_sides[2], figure_sides[64], pair_sides[18], side[1];
static uint64_t six[6], five[5], counts[DCA_RANK_COUNTS], length[1];
static size_t n;

static int nothing(void) { return 0; }
static int call_read(void)
{
    return dca_read(image, image_len, values, 64, categories, 64, weights, 4096, places, 128, bands, 8, shuffles, 31936, six, 6);
}
static int call_write(void)
{
    return dca_write(values, 64, categories, 64, weights, 4096, places, 128, bands, 8, shuffles, 31936, five, 5,
                     out, sizeof out, length, 1);
}
static int call_report(void) { return dca_report(image, image_len, text, sizeof text, length, 1); }
static int call_account(void) { return dca_account(n, values, n, weights, n * n, locals, n, sums, DCA_SUMS); }
static int call_bands(void) { return dca_bands(n, places, 2 * n, bands, (size_t)six[4], classes, n * n); }
static int call_class_account(void)
{
    return dca_class_account(n, values, n, weights, n * n, classes, n * n, rows, 27, class_locals, 9 * n);
}
static int call_float_report(void)
{
    return dca_float_report(n, values, n, weights, n * n, classes, n * n, globals, 2, global_sides, 2, figures, n, figure_sides, n,
                            pairs, 18, pair_sides, 18, has_pair, 9);
}
static int call_nearest(void) { return dca_nearest(-1, 3, nearest, 1, side, 1); }
static int call_hot_list(void) { return dca_hot_list(n, values, n, weights, n * n, zones, n); }
static int call_rank(void)
{
    return dca_rank(n, values, n, weights, n * n, shuffles, (size_t)six[5] * n, desks, (size_t)six[5], counts, DCA_RANK_COUNTS);
}
static int call_join_table(void) { return dca_join_table(n, values, n, categories, n, weights, n * n, table, 64); }
static int call_gabriel(void) { return dca_gabriel(n, places, 2 * n, network, n * n); }
static int call_grid(void) { return dca_grid_queen(8, 8, network, 4096); }

static int (*now)(void);
static int answer;

static void *run(void *unused)
{
    answer = now();
    return unused;
}

/* The bytes of the stack that a thread took which makes one call. */
static size_t taken(int (*call)(void))
{
    pthread_t thread;
    pthread_attr_t how;
    void *stack = NULL;
    size_t clean = 0;
    if (posix_memalign(&stack, 4096, STACK) != 0)
        exit(2);
    memset(stack, PAINT, STACK);
    now = call;
    if (pthread_attr_init(&how) != 0 || pthread_attr_setstack(&how, stack, STACK) != 0 || pthread_create(&thread, &how, run, NULL) != 0 ||
        pthread_join(thread, NULL) != 0)
        exit(2);
    while (clean < STACK && ((uint8_t *)stack)[clean] == PAINT)
        clean++;
    pthread_attr_destroy(&how);
    free(stack);
    return STACK - clean;
}

static const struct {
    const char *name;
    int (*call)(void);
} calls[] = {
    {"dca_read", call_read}, {"dca_write", call_write}, {"dca_report", call_report}, {"dca_account", call_account},
    {"dca_bands", call_bands}, {"dca_class_account", call_class_account}, {"dca_float_report", call_float_report},
    {"dca_nearest", call_nearest}, {"dca_hot_list", call_hot_list}, {"dca_rank", call_rank}, {"dca_join_table", call_join_table},
    {"dca_gabriel", call_gabriel}, {"dca_grid_queen", call_grid},
};

/* Makes each call, the reader first, and prints what it takes; ends the program where that is too much or the call is refused. */
static void measure(void)
{
    size_t thread = taken(nothing);
    for (size_t i = 0; i < sizeof calls / sizeof calls[0]; i++) {
        size_t bytes = taken(calls[i].call);
        printf("%-18s %6zu bytes\n", calls[i].name, bytes > thread ? bytes - thread : 0);
        if (answer != 0 || bytes >= BOUND) {
            printf("refused %d, or more than the bound\n", answer);
            exit(1);
        }
        if (i == 0) {
            n = (size_t)six[0];
            uint64_t given[5] = {six[0], six[1], six[3], six[4], six[5]};
            memcpy(five, given, sizeof five);
        }
    }
}

/* Makes the image anew. */
static void write_image(void)
{
    if (call_write() != 0)
        exit(2);
    image_len = (size_t)length[0];
    memcpy(image, out, image_len);
}

/* Takes all weight from the last zone. */
static void leave_out_last(void)
{
    for (size_t zone = 0; zone < n; zone++)
        weights[n * (n - 1) + zone] = weights[n * zone + n - 1] = 0;
    write_image();
}

/* The first zone sends no value. */
static void miss_first(void)
{
    values[0] = DCA_NOT_RETURNED;
    write_image();
}

/* The rows alternate over the desks. */
static void fill_desks(void)
{
    for (size_t row = 0; row < sizeof desks; row++)
        desks[row] = (uint8_t)(row % DCA_DESKS);
}

int main(int words, char **word)
{
    FILE *file = words > 1 ? fopen(word[1], "rb") : NULL;
    if (file == NULL) {
        fprintf(stderr, "usage: stack IMAGE\n");
        return 2;
    }
    image_len = fread(image, 1, sizeof image, file);
    fclose(file);
    fill_desks();
    printf("the image's job\n");
    measure();
    leave_out_last();
    printf("its last zone left out\n");
    measure();
    miss_first();
    printf("its first zone not returned besides\n");
    measure();
    return 0;
}
