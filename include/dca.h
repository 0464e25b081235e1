/*
 * The district clustering account, for C and C++.
 *
 * What this is: the calls of the proved library, as the archive libexports.a has them (`rt lib` in crates/exports). Each call is proved, in
 * crates/exports/src, to answer and to store what the definitions of document 01 say, as requests A.2, A.6, A.7, A.9 and A.10 of document
 * 02 changed them.
 * This header and what follows from a promise broken by the caller are not part of the proof.
 *
 * Lists: each list is a pointer and then a length, which is the number of entries, not of bytes. An `out` list is written by the call,
 * every other list is only read.
 *
 * Answer: each call returns a number. 0: done, the out lists are filled. Any other: refused, the number is that of document 01's table,
 * or 24 by request A.9 (enum dca_refusal), and all lent memory holds what it held before. No value that is lent, and no length, makes a call
 * fail in any other way: there is no precondition besides the duties below. A call gives the least number that applies to what it
 * was lent, and once 1 or 2 applies nothing further is judged; dca_read, dca_write and dca_report judge by place, as said there.
 *
 * Values not returned: the value DCA_NOT_RETURNED marks a zone that sent none. It is never refused with 3. All weights of such a zone, those
 * of its row and of its column, count as 0 in every figure, the join table too; but 4 and 5, and 16 of a join, judge them as they are lent,
 * and an image keeps the mark and the joins. 6 is given where nothing is left of the weights.
 *
 * Zones left out: a zone whose row and column then hold no weight touches nobody and is left out; so is a zone not returned, and a zone that
 * touches no others. S, d, M, P and G are taken over the zones kept, and the n of d, of Geary's c and of the expected value is their number.
 * A zone that only gets weight, or only gives it, is kept. Lengths, the counts of an image and every refusal but 6 and 7 count all zones: a
 * bad value is refused with 3 also at a zone left out, and a bad weight with 4 or 5 also at one not returned. The join table, the networks
 * and the bands leave out nothing.
 *
 * Sides: each float that a call works is the one nearest to an exact ratio, and comes with its side in a list of its own: DCA_SIDE_EQUAL,
 * the float equals the ratio; DCA_SIDE_BELOW, it is less than the ratio; DCA_SIDE_ABOVE, it is greater. That is by value, not by size: of a
 * ratio below 0 the float on the side above is the one nearer to 0, as BFD5555555555555 is of -1/3. A ratio of 0 is equal to +0.
 *
 * Floats that a call leaves as they were, all of a refused call and the pair of a class without weight, are kept to the bit: a NaN, quiet
 * or signalling, keeps its sign and its payload. Their sides are left too.
 *
 * Duties of the caller:
 * - A pointer is valid for as many entries as its length says, aligned for its type, and never null, not even of a list of length 0.
 * - A list that the call writes overlaps no other list of the same call. Lists that are only read may overlap.
 * - The entries of the lists that are read have been given a value, also where only a part of a list is used.
 * - Nobody else writes to a lent list, nor reads an out list, until the call has returned.
 *
 * Machine: x86-64 Linux. The library has no global state, so calls from several threads on lists of their own are fine. It allocates no
 * memory, keeps no pointer, and calls nothing but memcpy and memset. The stack that a call takes is below 256 KiB (bindings/c/stack.c
 * measures it).
 */
#ifndef DCA_H
#define DCA_H

#include <stddef.h>
#include <stdint.h>

#ifdef __cplusplus
extern "C" {
#endif

/* The sizes of document 01. */
#define DCA_ZONES_LEAST 2
#define DCA_ZONES_MOST 64
#define DCA_VALUE_MOST 100000               /* a value is from -this to this, */
#define DCA_NOT_RETURNED INT32_MIN          /* or this, -2147483648: not returned */
#define DCA_WEIGHT_MOST 9                   /* a weight is 0 to this, and 0 on the diagonal */
#define DCA_CATEGORY_MOST 7                 /* a category is 0 to this */
#define DCA_CLASS_MOST 8                    /* a class is 0 to this, 0 being unclassed */
#define DCA_COORDINATE_MOST 30000           /* a coordinate is from -this to this */
#define DCA_BANDS_MOST 8
#define DCA_SHUFFLES_MOST 499
#define DCA_DESKS 4                         /* a desk is 0 to 3 */
#define DCA_JOINS_MOST 4032                 /* joins of an image */
#define DCA_RATIO_MOST INT64_C(6000000000000000000) /* p and q of dca_nearest are from -this to this, q above 0 */

/* The lengths of lists whose length is fixed. */
#define DCA_SUMS 7                          /* S M W P G, zones kept, values not returned */
#define DCA_CLASSES 9
#define DCA_CLASS_ROWS 27                   /* W P G of each class */
#define DCA_GLOBALS 2                       /* Moran, Geary */
#define DCA_PAIRS 18                        /* Moran, Geary of each class */
#define DCA_RANK_COUNTS 12                  /* less, equal, greater of each desk */
#define DCA_JOIN_TABLE 64                   /* T(r,s) at 8 * r + s */

/* The six buffers of dca_read and dca_write, their counts, an image and a report. */
#define DCA_BUFFER_VALUES 64
#define DCA_BUFFER_CATEGORIES 64
#define DCA_BUFFER_WEIGHTS 4096
#define DCA_BUFFER_PLACES 128
#define DCA_BUFFER_BANDS 8
#define DCA_BUFFER_SHUFFLES 31936
#define DCA_READ_COUNTS 6                   /* values categories joins places bands shuffles */
#define DCA_WRITE_COUNTS 5                  /* values categories places bands shuffles */
#define DCA_IMAGE_MOST 44908                /* bytes of the longest image */
#define DCA_REPORT_TEXT 16384               /* bytes lent for a report */

/* The causes of refusal, in document 01's words; 7 as request A.6 has it, 3 and 6 as request A.7, 24 as request A.9. */
enum dca_refusal {
    DCA_REFUSED_NOTHING = 0,      /* done */
    DCA_REFUSED_ZONES = 1,        /* n, or r x c, outside 2 to 64 */
    DCA_REFUSED_LENGTH = 2,       /* a lent slice not of its exact length (the image, the output of a writer and the band list have none) */
    DCA_REFUSED_VALUE = 3,        /* a value beyond 100,000 in size, other than DCA_NOT_RETURNED */
    DCA_REFUSED_WEIGHT = 4,       /* a weight above 9, or 0 in an image join */
    DCA_REFUSED_DIAGONAL = 5,     /* a weight on the diagonal */
    DCA_REFUSED_NO_WEIGHT = 6,    /* W is 0: no weight is left between zones whose values are returned */
    DCA_REFUSED_NO_SPREAD = 7,    /* M of the zones kept is 0 */
    DCA_REFUSED_CATEGORY = 8,     /* a category above 7 */
    DCA_REFUSED_CLASS = 9,        /* a class above 8 */
    DCA_REFUSED_COORDINATE = 10,  /* a coordinate beyond 30,000 in size */
    DCA_REFUSED_ONE_PLACE = 11,   /* two zones at one place */
    DCA_REFUSED_BANDS = 12,       /* bands not strictly rising, a band of 0, a count outside 1 to 8 (an image or the writer may have 0), or
                                     bands without places */
    DCA_REFUSED_SHUFFLE = 13,     /* a shuffle that lacks some zone number */
    DCA_REFUSED_CUT = 14,         /* the image ends inside a section or its count */
    DCA_REFUSED_COUNT = 15,       /* another count not allowed in an image */
    DCA_REFUSED_JOINS = 16,       /* joins not rising, or an end not below n */
    DCA_REFUSED_BYTES_AFTER = 17, /* bytes after the last section */
    DCA_REFUSED_RATIO = 18,       /* divisor below 1, or p or q beyond 6x10^18 in size */
    DCA_REFUSED_OUTPUT = 19,      /* the writer's output is shorter than the image */
    DCA_REFUSED_DESK = 24         /* a desk number above 3 */
};

/* Where a float lies beside the exact ratio that it is nearest to: by value, not by size. */
enum dca_side {
    DCA_SIDE_EQUAL = 0, /* the float equals the ratio: `=` in a report */
    DCA_SIDE_BELOW = 1, /* the float is less than the ratio: `<` */
    DCA_SIDE_ABOVE = 2  /* the float is greater than the ratio: `>` */
};

/*
 * The account of a job.
 *   n             zones, 2 to 64
 *   values        n: the value of each zone, -100,000 to 100,000 or DCA_NOT_RETURNED
 *   weights       n * n: w(i,j) at n * i + j, 0 to 9, 0 on the diagonal
 *   locals  out   n: the local numerator L(i) of each zone, 0 at a zone left out
 *   sums    out   7: S M W P G, then the number of zones kept, then the number of values not returned
 * Refusals: 1 2 3 4 5 6 7.
 */
uint8_t dca_account(size_t n,
                    const int32_t *values, size_t values_len,
                    const uint8_t *weights, size_t weights_len,
                    int64_t *locals, size_t locals_len,
                    int64_t *sums, size_t sums_len);

/*
 * The account of each class of pairs; d and M stay those of the whole job.
 *   n, values, weights   as dca_account
 *   classes              n * n: the class of the pair (i,j) at n * i + j, 0 to 8
 *   rows          out    27: W P G of class 0, of class 1, and so on to class 8
 *   class_locals  out    9 * n: L of class k and zone i at n * k + i, 0 at a zone left out
 * Refusals: 1 2 3 4 5 6 7 9.
 */
uint8_t dca_class_account(size_t n,
                          const int32_t *values, size_t values_len,
                          const uint8_t *weights, size_t weights_len,
                          const uint8_t *classes, size_t classes_len,
                          int64_t *rows, size_t rows_len,
                          int64_t *class_locals, size_t class_locals_len);

/*
 * The float report of a job under one assignment of classes. Each float is the one nearest to the exact ratio, and its side (enum dca_side)
 * is at the same place of the list of sides behind it.
 *   n, values, weights, classes   as dca_class_account
 *   globals       out   2: Moran's I and Geary's c of the job
 *   global_sides  out   2
 *   locals        out   n: the local Moran L(i) / M of each zone, +0 at a zone left out
 *   local_sides   out   n; DCA_SIDE_EQUAL at a zone left out
 *   pairs         out   18: Moran's I and Geary's c of class k at 2 * k and 2 * k + 1; a class without weight leaves its two as they were,
 *                       to the bit
 *   pair_sides    out   18; a class without weight leaves its two as they were
 *   has_pair      out   9: 1 where class k has weight, else 0
 * Refusals: 1 2 3 4 5 6 7 9.
 */
uint8_t dca_float_report(size_t n,
                         const int32_t *values, size_t values_len,
                         const uint8_t *weights, size_t weights_len,
                         const uint8_t *classes, size_t classes_len,
                         double *globals, size_t globals_len,
                         uint8_t *global_sides, size_t global_sides_len,
                         double *locals, size_t locals_len,
                         uint8_t *local_sides, size_t local_sides_len,
                         double *pairs, size_t pairs_len,
                         uint8_t *pair_sides, size_t pair_sides_len,
                         uint8_t *has_pair, size_t has_pair_len);

/*
 * The 64-bit float nearest to p over q, at a tie the one with an even mantissa; 0 over q is +0. And its side.
 *   p     -6x10^18 to 6x10^18
 *   q     1 to 6x10^18
 *   out   out   1: the float
 *   side  out   1: enum dca_side
 * Refusals: 2 18.
 */
uint8_t dca_nearest(int64_t p, int64_t q,
                    double *out, size_t out_len,
                    uint8_t *side, size_t side_len);

/*
 * The hot list of a job.
 *   n, values, weights   as dca_account
 *   zones  out           n: the numbers of the zones kept by falling L(i), equal ones by falling row sum, the sum over j of the w(i,j) that
 *                        count, then by rising zone number; behind them all those left out by rising zone number
 * Refusals: 1 2 3 4 5 6 7.
 */
uint8_t dca_hot_list(size_t n,
                     const int32_t *values, size_t values_len,
                     const uint8_t *weights, size_t weights_len,
                     uint8_t *zones, size_t zones_len);

/*
 * The rank of a job's P among shuffles of the values of the zones kept, for each of four desks that contribute them.
 *   n, values, weights   as dca_account
 *   shuffles             0 to 499 whole rows of n, each with each zone once, also those left out. The numbers of zones left out are struck
 *                        from a row; the i-th zone kept takes the value of the zone that the i-th number left names
 *   desks                the desk of each row, 0 to 3; as many entries as shuffles has rows
 *   counts  out          12: of the shuffles of desk k those whose P is less than, equal to, greater than the job's own at 3 * k, 3 * k + 1,
 *                        3 * k + 2; 0 0 0 of a desk that has none. The rows of the other desks have no part in them
 * Refusals: 1 2 (also where shuffles is not 0 to 499 whole rows, or desks has not an entry for each) 3 4 5 6 7 13 24.
 */
uint8_t dca_rank(size_t n,
                 const int32_t *values, size_t values_len,
                 const uint8_t *weights, size_t weights_len,
                 const uint8_t *shuffles, size_t shuffles_len,
                 const uint8_t *desks, size_t desks_len,
                 uint64_t *counts, size_t counts_len);

/*
 * The join table of a job. The values only say which zones are not returned, so that their weights count as 0.
 *   n, values, weights   as dca_account, but the values may be equal, and W may be 0
 *   categories           n: the category of each zone, 0 to 7
 *   table   out          64: T(r,s), the weight from category r to category s, at 8 * r + s
 * Refusals: 1 2 3 4 5 8.
 */
uint8_t dca_join_table(size_t n,
                       const int32_t *values, size_t values_len,
                       const uint8_t *categories, size_t categories_len,
                       const uint8_t *weights, size_t weights_len,
                       int64_t *table, size_t table_len);

/*
 * The Gabriel network of places: weight 1 both ways where no third place is inside or on the circle on the pair as diameter, else 0.
 *   n              zones, 2 to 64
 *   places         2 * n: across and up of each zone, -30,000 to 30,000, no two zones at one place
 *   weights  out   n * n
 * Refusals: 1 2 10 11.
 */
uint8_t dca_gabriel(size_t n,
                    const int32_t *places, size_t places_len,
                    uint8_t *weights, size_t weights_len);

/*
 * The classes of the pairs of places by bands of squared distance: the first band that a pair's squared distance does not exceed,
 * counted from 1, else 0; the diagonal is 0.
 *   n, places      as dca_gabriel
 *   bands          1 to 8 entries: strictly rising squared distances, each 1 to 4,294,967,295
 *   classes  out   n * n
 * Refusals: 1 2 10 11 12 (also where bands has not 1 to 8 entries).
 */
uint8_t dca_bands(size_t n,
                  const int32_t *places, size_t places_len,
                  const uint32_t *bands, size_t bands_len,
                  uint8_t *classes, size_t classes_len);

/*
 * The grid networks: the zones of a grid, row by row, joined with weight 1 by a rook's, a bishop's or a queen's moves of one step.
 *   rows, columns   rows * columns is 2 to 64
 *   weights  out    (rows * columns) * (rows * columns)
 * Refusals: 1 2.
 */
uint8_t dca_grid_rook(size_t rows, size_t columns, uint8_t *weights, size_t weights_len);
uint8_t dca_grid_bishop(size_t rows, size_t columns, uint8_t *weights, size_t weights_len);
uint8_t dca_grid_queen(size_t rows, size_t columns, uint8_t *weights, size_t weights_len);

/*
 * Reads a job image into six buffers. Entries that the job does not use keep what they held; of weights the first n * n are used.
 *   image             any length
 *   values      out   64       categories  out   64       weights   out   4,096
 *   places      out   128      bands       out   8        shuffles  out   31,936
 *   counts      out   6: values (n), categories, joins, places (zones, not coordinates), bands, shuffles (rows)
 * Refusals: 2 first, then by place in the image: 1 3 4 5 6 7 8 10 11 12 13 14 15 16 17. What it stores and counts are all zones and all
 * joins, a value not returned by its mark; only 6 looks at the weights left alone, and only 7 at the zones kept.
 */
uint8_t dca_read(const uint8_t *image, size_t image_len,
                 int32_t *values, size_t values_len,
                 uint8_t *categories, size_t categories_len,
                 uint8_t *weights, size_t weights_len,
                 int32_t *places, size_t places_len,
                 uint32_t *bands, size_t bands_len,
                 uint8_t *shuffles, size_t shuffles_len,
                 uint64_t *counts, size_t counts_len);

/*
 * Writes the image of the job in six buffers, which are those of dca_read. Entries that the job does not use are not judged.
 *   values, categories, weights, places, bands, shuffles   the buffers, of the lengths of dca_read
 *   counts       5: values (n), categories (0 or n), places (0 or n), bands (0 to 8, 0 without places), shuffles (0 to 499)
 *   out     out  any length from the image's up, 44,908 is always enough; only the image's length of it is filled
 *   length  out  1: the image's length in bytes
 * Refusals: 2 where counts has not 5 entries, then 1, then 2, then by place in the image: 3 4 5 8 10 11 12 13 15, then 6 7 19. The image
 * has all zones, a value not returned by its mark, and a join for each weight that is lent; only 6 looks at the weights left alone, and only
 * 7 at the zones kept.
 */
uint8_t dca_write(const int32_t *values, size_t values_len,
                  const uint8_t *categories, size_t categories_len,
                  const uint8_t *weights, size_t weights_len,
                  const int32_t *places, size_t places_len,
                  const uint32_t *bands, size_t bands_len,
                  const uint8_t *shuffles, size_t shuffles_len,
                  const uint64_t *counts, size_t counts_len,
                  uint8_t *out, size_t out_len,
                  uint64_t *length, size_t length_len);

/*
 * The report of an image as text. The text is ASCII, each line ends with a newline, and no 0 byte closes it. Its lines `zones` and
 * `expected` count the zones kept, and a zone left out has no line `local`; these lines are in the order of dca_hot_list. It does not say
 * how many values are not returned. Right behind the 16 digits of a float is the sign of its side; the `-` of a class without weight has
 * none. An image has no desks: its line `rank` counts all shuffles, as dca_rank does where each is of desk 0.
 *   image         any length
 *   text    out   16,384: the text is at the front, the rest is kept
 *   length  out   1: the bytes of the text
 * Refusals: 2 first, then by place in the image, as dca_read: 1 3 4 5 6 7 8 10 11 12 13 14 15 16 17. A refused image has no text: the line
 * `refused` and the number is what the report program prints of it.
 */
uint8_t dca_report(const uint8_t *image, size_t image_len,
                   uint8_t *text, size_t text_len,
                   uint64_t *length, size_t length_len);

#ifdef __cplusplus
}
#endif

#endif
