/* A host in C: document 01's Figure 9(b) log, an order, decisions, a page, the table stored and read back, small requests, and a carrier that moves over from
   the old product. */
#include <stdio.h>

#include "zintukor.h"

#define ROWS ZINTUKOR_MOST_ROWS

/* The table: four columns, and the count of rows in use. */
struct table {
    uint32_t id[ROWS], l[ROWS], r[ROWS], q[ROWS];
    size_t count;
};

/* A table's columns as arguments. */
#define COLUMNS(t) (t)->id, ROWS, (t)->l, ROWS, (t)->r, ROWS, (t)->q, ROWS

/* What a call on a table answered; an accepted one gives the new count. */
static void take(struct table *t, uint64_t answer)
{
    if (ZINTUKOR_KIND(answer) == ZINTUKOR_COUNT) {
        t->count = ZINTUKOR_VALUE(answer);
        printf("ok %u\n", (unsigned)t->count);
    } else {
        printf("no %u\n", (unsigned)ZINTUKOR_VALUE(answer));
    }
}

static void print_table(const struct table *t)
{
    size_t i;
    printf("group l r quota\n");
    for (i = 0; i < t->count; i++)
        printf("%u %u %u %u\n", (unsigned)t->id[i], (unsigned)t->l[i], (unsigned)t->r[i], (unsigned)t->q[i]);
}

/* Whether both tables have the same rows in use; if not, the first row that differs is printed. */
static int same_table(const struct table *a, const struct table *b)
{
    size_t i;
    if (a->count != b->count) {
        printf("%u rows and %u rows\n", (unsigned)a->count, (unsigned)b->count);
        return 0;
    }
    for (i = 0; i < a->count; i++)
        if (a->id[i] != b->id[i] || a->l[i] != b->l[i] || a->r[i] != b->r[i] || a->q[i] != b->q[i]) {
            printf("row %u differs\n", (unsigned)i);
            return 0;
        }
    return 1;
}

static void print_order(const struct table *t, uint32_t first, uint32_t second)
{
    uint64_t answer = zintukor_order(COLUMNS(t), t->count, first, second);
    printf("order of %u and %u: ", (unsigned)first, (unsigned)second);
    switch (ZINTUKOR_KIND(answer)) {
    case ZINTUKOR_SAME: printf("same\n"); break;
    case ZINTUKOR_FIRST: printf("first is a subgroup\n"); break;
    case ZINTUKOR_SECOND: printf("second is a subgroup\n"); break;
    case ZINTUKOR_INCOMPARABLE: printf("incomparable\n"); break;
    default: printf("no %u\n", (unsigned)ZINTUKOR_VALUE(answer));
    }
}

/* The decision for the pass of a row. */
static void print_decision(const struct table *t, size_t row, uint32_t feature, uint32_t day,
                           const uint8_t *grants, size_t length)
{
    uint64_t answer = zintukor_decide(feature, t->l[row], t->r[row], day, grants, length);
    printf("feature %u for %u on day %u: ", (unsigned)feature, (unsigned)t->id[row], (unsigned)day);
    switch (ZINTUKOR_KIND(answer)) {
    case ZINTUKOR_ON_OPEN: printf("on open\n"); break;
    case ZINTUKOR_ON_UNTIL: printf("on %u\n", (unsigned)ZINTUKOR_VALUE(answer)); break;
    case ZINTUKOR_ENDED: printf("ended %u\n", (unsigned)ZINTUKOR_VALUE(answer)); break;
    case ZINTUKOR_AHEAD: printf("ahead %u\n", (unsigned)ZINTUKOR_VALUE(answer)); break;
    case ZINTUKOR_NEVER: printf("never\n"); break;
    default: printf("no %u\n", (unsigned)ZINTUKOR_VALUE(answer));
    }
}

/* The requests as bytes: numbers below 128 are one byte each. */
static const uint8_t over[] = {1, 0, 1, 1, 5, 1, 2, 90, 1, 5, 5, 0};
static const uint8_t beside[] = {2, 0, 3, 2, 15, 0, 3, 15, 0, 4, 60, 0};
static const uint8_t upright[] = {4, 0, 2, 4, 42, 0, 9, 6, 2, 10, 6, 0, 11, 6, 0};
static const uint8_t inverted[] = {4, 1, 1, 8, 6, 1, 4, 24, 2, 6, 6, 0, 7, 6, 0};

/* An id typed twice: 12. */
static const uint8_t typed_twice[] = {4, 0, 3, 4, 12, 0, 12, 6, 0, 12, 6, 0};

/* A grant of feature 7 at (96, 96), group 5's numbers, from day 10 to 20. */
static const uint8_t grants[] = {7, 96, 96, 10, 20};

/* The same with a renewal that follows on, from day 21 to 30. */
static const uint8_t renewed[] = {7, 96, 96, 10, 20, 7, 96, 96, 21, 30};

/* A number from 128 to 16383 as bytes. */
#define TWO(number) (number) % 128 + 128, (number) / 128

/* Grants to group 5, and one to group 2 at (6, 81), which doesn't apply to group 4. */
static const uint8_t board[] = {
    7, 96, 96, TWO(9133), TWO(9497),
    7, 96, 96, TWO(9498), TWO(9862),
    9, 6, 81, TWO(9498), 0,
    12, 96, 96, TWO(9679), TWO(10043),
    TWO(300), 96, 96, TWO(8826), 0,
};

/* The shift board's page for the pass of a row. A grant has 5 bytes at least. */
static void print_page(const struct table *t, size_t row, uint32_t day)
{
    uint8_t page[sizeof board / 5 * ZINTUKOR_PAGE_LINE];
    uint64_t answer = zintukor_page(t->l[row], t->r[row], day, board, sizeof board, page, sizeof page);
    printf("page for %u on day %u:\n", (unsigned)t->id[row], (unsigned)day);
    if (ZINTUKOR_KIND(answer) == ZINTUKOR_COUNT)
        fwrite(page, 1, ZINTUKOR_VALUE(answer), stdout);
    else
        printf("no %u\n", (unsigned)ZINTUKOR_VALUE(answer));
}

/* Every small request of a size as numbers, each carried out on a fresh group 1 with the size as its quota. */
static void print_small_requests(uint32_t size)
{
    static struct table t;
    uint8_t list[ZINTUKOR_MOST_SMALL_REQUESTS];
    uint64_t answer = zintukor_small_requests(size, list, sizeof list);
    size_t at, i;
    printf("small requests of size %u:\n", (unsigned)size);
    if (ZINTUKOR_KIND(answer) == ZINTUKOR_REFUSED) {
        printf("no %u\n", (unsigned)ZINTUKOR_VALUE(answer));
        return;
    }
    /* Each request stands after its length. */
    for (at = 0; at < ZINTUKOR_VALUE(answer); at += 1 + list[at]) {
        for (i = 1; i <= list[at]; i++)
            printf(i % 3 ? "%u " : "%u  ", (unsigned)list[at + i]);
        /* Not refused: a size with requests isn't 0. */
        t.count = ZINTUKOR_VALUE(zintukor_fresh(COLUMNS(&t), 1, size));
        take(&t, zintukor_refine(COLUMNS(&t), t.count, list + at + 1, list[at]));
    }
}

/* The old product's tree of document 000's Figure 1(c): the number of nodes, then upper id, lower id and number of children of each.
   D is 1 and d 11, P1 is 2 and p1 12, P2 is 6 and p2 16; the tasks are 3 to 5, 7 and 8. */
static const uint8_t old_tree[] = {
    8,
    1, 11, 2,
    2, 12, 3,  3, 0, 0,  4, 0, 0,  5, 0, 0,
    6, 16, 2,  7, 0, 0,  8, 0, 0,
};

/* A carrier moves over: the list of its old tree, carried out. */
static void move_over(void)
{
    static struct table t;
    uint8_t list[ZINTUKOR_MOST_REFLECTED];
    uint64_t answer = zintukor_reflected(old_tree, sizeof old_tree, list, sizeof list);
    size_t at;
    printf("the old tree moves over:\n");
    if (ZINTUKOR_KIND(answer) == ZINTUKOR_REFUSED) {
        printf("no %u\n", (unsigned)ZINTUKOR_VALUE(answer));
        return;
    }
    /* The fresh pair, and then each request after its length: in this list each number has one byte. */
    take(&t, zintukor_fresh(COLUMNS(&t), list[0], list[1]));
    for (at = 2; at < ZINTUKOR_VALUE(answer); at += 1 + list[at])
        take(&t, zintukor_refine(COLUMNS(&t), t.count, list + at + 1, list[at]));
    print_table(&t);
    print_order(&t, 3, 12);
}

int main(void)
{
    static struct table t, back;
    uint8_t buffer[ZINTUKOR_MOST_STORED];
    uint64_t answer;

    answer = zintukor_fresh(COLUMNS(&t), 1, 100);
    if (ZINTUKOR_KIND(answer) == ZINTUKOR_REFUSED) {
        printf("no %u\n", (unsigned)ZINTUKOR_VALUE(answer));
        return 1;
    }
    t.count = ZINTUKOR_VALUE(answer);
    take(&t, zintukor_refine(COLUMNS(&t), t.count, over, sizeof over));
    take(&t, zintukor_refine(COLUMNS(&t), t.count, beside, sizeof beside));
    take(&t, zintukor_refine(COLUMNS(&t), t.count, upright, sizeof upright));
    take(&t, zintukor_refine(COLUMNS(&t), t.count, inverted, sizeof inverted));
    print_table(&t);

    /* The first request once more: the id 2 is taken by now. */
    take(&t, zintukor_refine(COLUMNS(&t), t.count, over, sizeof over));
    /* An id that comes twice in a request is another refusal. */
    take(&t, zintukor_refine(COLUMNS(&t), t.count, typed_twice, sizeof typed_twice));

    print_order(&t, 4, 5);
    print_order(&t, 2, 4);
    print_decision(&t, 4, 7, 9, grants, sizeof grants);
    print_decision(&t, 4, 7, 20, grants, sizeof grants);
    print_decision(&t, 4, 7, 21, grants, sizeof grants);
    print_decision(&t, 4, 8, 20, grants, sizeof grants);
    print_decision(&t, 4, 7, 20, renewed, sizeof renewed);
    print_page(&t, 4, 9640);

    answer = zintukor_store(COLUMNS(&t), t.count, buffer, sizeof buffer);
    if (ZINTUKOR_KIND(answer) == ZINTUKOR_REFUSED) {
        printf("no %u\n", (unsigned)ZINTUKOR_VALUE(answer));
        return 1;
    }
    printf("stored in %u bytes\n", (unsigned)ZINTUKOR_VALUE(answer));
    take(&back, zintukor_read(COLUMNS(&back), buffer, ZINTUKOR_VALUE(answer)));
    if (!same_table(&t, &back))
        return 1;
    printf("read back as the same table\n");
    print_small_requests(3);
    move_over();
    return 0;
}
