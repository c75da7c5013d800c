/*
 * Zintukor: licence and feature decisions over groups that keep splitting.
 * C declarations of libzintukor.a, which `sh tools/library` builds for x86-64 Linux.
 *
 * Every call answers one number, kind * 4294967296 + value: take it apart with
 * ZINTUKOR_KIND and ZINTUKOR_VALUE. Every call is proved to answer or refuse on any
 * input, and to return.
 *
 * A slice is a pointer and then a length in elements. The pointer is aligned for its
 * elements and is not null, also where the length is 0.
 * - A slice that a call writes overlaps no other slice of the call: the columns do not
 *   overlap each other, the request, the bytes or the buffer, nor the buffer the grants or the
 *   bytes.
 * - Nobody else writes a slice, or reads one that is written, while a call runs.
 * - Past its length nothing of a slice is read or written.
 *
 * A refused call leaves every column and buffer as it found it.
 *
 * The library keeps no state: calls on different tables may run at the same time.
 * It allocates nothing and makes no system call. Of the C library it uses memcpy and memset.
 * Stack need in bytes (measured): fresh 89, decide 112, page 200, small_requests 792,
 * order 4664, store 4744, reflected 5872, read 8840, refine 15080.
 *
 * The table is four columns of 32-bit numbers: id, l, r and q (quota). All have one length,
 * 1 to 256. A count says how many rows are in use; rows past it have no meaning. The caller
 * keeps the columns and the count, and gives each call the count that the last accepted
 * fresh, refine or read answered.
 */
#ifndef ZINTUKOR_H
#define ZINTUKOR_H

#include <stddef.h>
#include <stdint.h>

#ifdef __cplusplus
extern "C" {
#endif

/* The version of the library. */
#define ZINTUKOR_VERSION_MAJOR 0
#define ZINTUKOR_VERSION_MINOR 6
#define ZINTUKOR_VERSION_PATCH 0
#define ZINTUKOR_VERSION "0.6.0"

/* The most rows that columns have. */
#define ZINTUKOR_MOST_ROWS 256

/* A buffer of so many bytes holds any stored table: 2 for the count, 20 for each row. */
#define ZINTUKOR_MOST_STORED 5122

/* The bytes of a page's line. A page has a line for each grant that applies; a grant has 5 bytes
   at least. */
#define ZINTUKOR_PAGE_LINE 41

/* A buffer of so many bytes holds the small requests of any size: 22 for each of the 264 of size 6. */
#define ZINTUKOR_MOST_SMALL_REQUESTS 5808

/* The most nodes of a reflected tree. */
#define ZINTUKOR_MOST_NODES 64

/* A buffer of so many bytes holds the list of any reflected tree: 29 for each node but the root,
   and 6. */
#define ZINTUKOR_MOST_REFLECTED 1833

/* The two parts of an answer. */
#define ZINTUKOR_KIND(answer) ((uint32_t)((uint64_t)(answer) >> 32))
#define ZINTUKOR_VALUE(answer) ((uint32_t)((uint64_t)(answer) & 4294967295u))

/* Kinds. */
#define ZINTUKOR_REFUSED 0      /* value: the refusal's number */
#define ZINTUKOR_COUNT 1        /* value: the count of rows, or the byte count */
#define ZINTUKOR_SAME 2         /* one group named twice */
#define ZINTUKOR_FIRST 3        /* the first is a subgroup of the second */
#define ZINTUKOR_SECOND 4       /* the second is a subgroup of the first */
#define ZINTUKOR_INCOMPARABLE 5 /* neither is a subgroup of the other */
#define ZINTUKOR_ON_OPEN 6      /* on, without an end */
#define ZINTUKOR_ON_UNTIL 7     /* on; value: the last day of the unbroken run of days */
#define ZINTUKOR_ENDED 8        /* ended; value: the last day */
#define ZINTUKOR_AHEAD 9        /* yet to begin; value: the first day */
#define ZINTUKOR_NEVER 10       /* no grant applies */

/* Refusals: the first condition that is met counts. */
#define ZINTUKOR_NO_NUMBER_CUT 1      /* bytes end before a number does */
#define ZINTUKOR_NO_NUMBER_FORM 2     /* fifth byte above 15, or a last byte 00 that isn't the only one */
#define ZINTUKOR_NO_DIRECTION 3       /* direction above 1 */
#define ZINTUKOR_NO_ZERO 4            /* exploded id, tree count, entry id, quota or a node's upper id is 0 */
#define ZINTUKOR_NO_DEPTH 5           /* an entry's or a node's depth is 17 */
#define ZINTUKOR_NO_BYTES_REMAIN 6    /* bytes remain at the end of a request, stored table or reflected tree */
#define ZINTUKOR_NO_ENTRIES 7         /* an entry is the 257th */
#define ZINTUKOR_NO_COLUMNS 10        /* lengths differ or not 1 to 256; count 0 or above length */
#define ZINTUKOR_NO_ROW_VALUE 11      /* a value 0, or a range past the greatest number */
#define ZINTUKOR_NO_ROW_IDS 12        /* two equal ids */
#define ZINTUKOR_NO_ROW_RANGES 13     /* ranges of two rows meet in l or in r */
#define ZINTUKOR_NO_GRANT 14          /* a grant's feature, l, r or first is 0, or last is not 0 and below first */
#define ZINTUKOR_NO_QUESTION 15       /* feature, pass l or r, or day is 0 */
#define ZINTUKOR_NO_ID_UNKNOWN 20     /* id named isn't in the table */
#define ZINTUKOR_NO_EXPLODED_ENTRY 21 /* exploded id isn't exactly one entry */
#define ZINTUKOR_NO_ID_TAKEN 22       /* another entry's id is in the table */
#define ZINTUKOR_NO_QUOTA_SUM 23      /* quotas don't add up to the exploded quota */
#define ZINTUKOR_NO_ROWS_FULL 24      /* count + entries - 1 exceeds the column length */
#define ZINTUKOR_NO_ID_TWICE 26       /* another entry's id comes twice */
#define ZINTUKOR_NO_BUFFER_SHORT 30   /* buffer shorter than the bytes needed */
#define ZINTUKOR_NO_UNDATED 31        /* a grant's first or last day has no date: it is above 36525 */
#define ZINTUKOR_NO_NODES 32          /* not one whole reflected tree of 1 to 64 nodes, or a lower id is 0 in
                                         a node with children or isn't in one without */
#define ZINTUKOR_NO_ID_REPEATS 33     /* an id of a reflected tree repeats */

/*
 * Writes row 0: the group at l = 1 and r = 1 with the quota. Other rows stay.
 * Answers COUNT 1. Refusals: 10 for lengths, then 11 for id or quota 0.
 */
uint64_t zintukor_fresh(uint32_t *id, size_t id_length,
                        uint32_t *l, size_t l_length,
                        uint32_t *r, size_t r_length,
                        uint32_t *q, size_t q_length,
                        uint32_t group, uint32_t quota);

/*
 * Explodes a group as the request's bytes say: id of the group, direction (0 upright,
 * 1 inverted), number of trees, then each tree in left pre-order, an entry being id, quota,
 * number of children. The exploded id keeps its row, the other entries take the next rows,
 * and no other row is written.
 * Answers COUNT and the new count. Refusals: 10 to 13, then those of the request's bytes
 * from left to right (1 to 7), then 20, 21, 22, 26, 23, 24.
 */
uint64_t zintukor_refine(uint32_t *id, size_t id_length,
                         uint32_t *l, size_t l_length,
                         uint32_t *r, size_t r_length,
                         uint32_t *q, size_t q_length,
                         size_t count,
                         const uint8_t *request, size_t request_length);

/*
 * How two groups stand to each other, by their ids. g is a subgroup of h when
 * l(g) <= l(h) and r(g) <= r(h).
 * Answers SAME, FIRST, SECOND or INCOMPARABLE. Refusals: 10 to 13, then 20 for either id.
 */
uint64_t zintukor_order(const uint32_t *id, size_t id_length,
                        const uint32_t *l, size_t l_length,
                        const uint32_t *r, size_t r_length,
                        const uint32_t *q, size_t q_length,
                        size_t count, uint32_t first, uint32_t second);

/*
 * Decides on a feature for a pass (l, r) and a day from 1 on. The grants' bytes are grants
 * until they end; a grant is feature, l, r, first day, last day (0: without an end), each a
 * stored number. There may be none.
 * Answers ON_OPEN, ON_UNTIL, ENDED, AHEAD or NEVER. Refusals: 15, then 1, 2 and 14 from left
 * to right.
 * ON_UNTIL has the last day of the unbroken run of days, beginning with the day asked about,
 * on each of which some grant that applies runs: a grant that begins on the day after another
 * ends continues it. ON_OPEN says that the run meets a grant without an end.
 * The list is read once where the grants that apply stand in the order of their first days, or
 * where those of them that begin after the day asked about begin later than the day after the
 * last day of those that run on it. Else it may be read again, in all at most once more than
 * there are grants that apply: a long list that follows on out of order takes time with the
 * square of its length.
 */
uint64_t zintukor_decide(uint32_t feature, uint32_t l, uint32_t r, uint32_t day,
                         const uint8_t *grants, size_t grants_length);

/*
 * Writes a page for the shift board, for a pass (l, r) and a day from 1 on: a line for each grant
 * that applies to the pass, of any feature, in the order of the list. The grants' bytes are as
 * for zintukor_decide. Bytes after the page stay; no 0 is put after it.
 * A line has ZINTUKOR_PAGE_LINE bytes: the feature, right-aligned in 10 columns; the first day's
 * date, as 2000-01-31; the last day's, or `open`, left-aligned in 10; `on`, `ended` or `ahead`,
 * of this grant by itself, left-aligned in 7; one space between them; and a line feed. Day 1 is
 * 2000-01-01 and day 36525 is 2099-12-31; the day asked about may be later.
 * Answers COUNT and the byte count. Refusals: 15 for l, r or day 0; then 1, 2, 14 and 31 from
 * left to right, also for a grant that does not apply; then 30.
 * Of a buffer longer than 4294967295 bytes the first 4294967295 are used: 30 for a longer page.
 */
uint64_t zintukor_page(uint32_t l, uint32_t r, uint32_t day,
                       const uint8_t *grants, size_t grants_length,
                       uint8_t *buffer, size_t buffer_length);

/*
 * Writes the table as bytes: count, then id, l, r, q of each row. Bytes after them stay.
 * Answers COUNT and the byte count. Refusals: 10 to 13, then 30.
 */
uint64_t zintukor_store(const uint32_t *id, size_t id_length,
                        const uint32_t *l, size_t l_length,
                        const uint32_t *r, size_t r_length,
                        const uint32_t *q, size_t q_length,
                        size_t count, uint8_t *buffer, size_t buffer_length);

/*
 * Reads a stored table into the columns. Rows past it stay.
 * Answers COUNT and the count. Refusals: 10 for lengths; 1 or 2, then 10, for the count;
 * 1 or 2 for the rows; 6; then 11, 12, 13.
 */
uint64_t zintukor_read(uint32_t *id, size_t id_length,
                       uint32_t *l, size_t l_length,
                       uint32_t *r, size_t r_length,
                       uint32_t *q, size_t q_length,
                       const uint8_t *bytes, size_t bytes_length);

/*
 * Writes every small request of a size from 1 to 6, in order: each request that explodes group 1
 * into exactly so many entries, with ids 1 upward in left pre-order and quota 1 each. Upright
 * come before inverted, then the smaller tree count, then the smaller child counts from left to
 * right. There are 2, 4, 10, 28, 84 and 264. Other sizes have none. Bytes after them stay.
 * Each is written after its length, one byte, and zintukor_refine accepts it from a fresh group 1
 * whose quota is the size, in columns of at least so many rows.
 * Answers COUNT and the byte count, 0 for other sizes. Refusals: 30. A buffer of
 * ZINTUKOR_MOST_SMALL_REQUESTS bytes is long enough for every size.
 */
uint64_t zintukor_small_requests(uint32_t size, uint8_t *buffer, size_t buffer_length);

/*
 * Reads a reflected tree of the old product and writes the list that makes its groups. The tree's
 * bytes are the number of nodes, 1 to ZINTUKOR_MOST_NODES, then each node in left pre-order: upper
 * id, lower id, number of children. A node with children has a lower group, the mirror image of its
 * upper one; a leaf has none, and its lower id is 0.
 * The list is the fresh pair, which is the root's upper id and the number of groups, then requests,
 * each after its length, a stored number. Columns of 256 rows accept zintukor_fresh of the pair and
 * zintukor_refine of each request, and zintukor_order then answers of any two groups how they stand
 * in the reflected tree, by Table 2 of its paper. Bytes after the list stay.
 * Answers COUNT and the byte count. Refusals, from left to right: 1 or 2 for a number; 32 for the
 * number of nodes; before each node 32 where the tree is whole already, then 5; 4; 32 for a lower
 * id, once the number of children is read; 32 where the nodes end before the tree is whole; 6; then
 * 33; then 30. A buffer of ZINTUKOR_MOST_REFLECTED bytes is long enough for every tree.
 */
uint64_t zintukor_reflected(const uint8_t *bytes, size_t bytes_length,
                            uint8_t *buffer, size_t buffer_length);

#ifdef __cplusplus
}
#endif

#endif
