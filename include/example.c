/*
 * Reads a book, checks it, judges three plans, holds, commits and drops some from Monday to Saturday, asks
 * of each rule whether it is idle, whether it is blocked and by which rules, prints a plan's lineage trees, and
 * edits the book with the idle marks showing.
 *
 *   (cd crates/capi && rt lib)
 *   mkdir -p target
 *   cc -Iinclude include/example.c crates/capi/out/libcapi.a -o target/example
 *   target/example crates/policyreport/data/small.book
 *
 * For that book it prints include/example.out. Exit status 0; 1 where the book is refused; 2 where the
 * file can't be read.
 */
#include "pspec.h"

#include <stdio.h>

static void print_refusal(uint64_t answer)
{
    printf("refused %u place %u\n", pspec_number(answer), pspec_place(answer));
}

static void print_rules(uint32_t mask)
{
    for (int rule = 0; rule < 32; rule++)
        if (mask >> rule & 1)
            printf(" %d", rule);
}

static void judge(const uint8_t *book, size_t length, uint32_t user, const char *name, const uint8_t *plan,
                  size_t plan_length)
{
    uint64_t answer = pspec_judge(book, length, user, plan, plan_length);
    printf("user %u, %s: ", user, name);
    if (pspec_number(answer) != PSPEC_NOT_REFUSED) {
        print_refusal(answer);
        return;
    }
    if (pspec_mask(answer) == 0) {
        printf("no rule broken\n");
        return;
    }
    printf("breaks");
    print_rules(pspec_mask(answer));
    printf("\n");
}

/* Columns 0 and 2 shown side by side; then column 2 through function 1, and through function 2. */
static void plans(const uint8_t *book, size_t length)
{
    static const uint8_t plain[] = {1, 0, 0, 0, 1, 2, 0, 0, 4, 0, 0, 0, 4, 1, 0, 0};
    static const uint8_t by_1[] = {1, 0, 0, 0, 1, 2, 0, 0, 2, 1, 1, 255, 4, 0, 0, 0, 4, 2, 0, 0};
    static const uint8_t by_2[] = {1, 0, 0, 0, 1, 2, 0, 0, 2, 2, 1, 255, 4, 0, 0, 0, 4, 2, 0, 0};
    judge(book, length, 1, "plain", plain, sizeof plain);
    judge(book, length, 1, "by function 1", by_1, sizeof by_1);
    judge(book, length, 1, "by function 2", by_2, sizeof by_2);
    judge(book, length, 2, "by function 2", by_2, sizeof by_2);
    judge(book, length, 0, "plain", plain, sizeof plain);
    judge(book, length, 1, "cut off", plain, sizeof plain - 1);
}

/* What is kept between the days; at first all zero. */
static uint64_t ledger[PSPEC_LEDGER_WORDS];
static struct pspec_tally tally;
static struct pspec_holds holds;

static uint32_t held_of(uint32_t user)
{
    uint32_t held = 0;
    for (int place = 0; place < PSPEC_HOLDS_MOST; place++)
        if (holds.numbers[place] != 0 && holds.users[place] == user)
            held++;
    return held;
}

/* Where nothing is refused, the user is a leaf and his number below 32. */
static void print_counts(uint32_t user)
{
    printf("; %u admitted, %u declined, %u dropped, %u held\n", tally.admitted[user], tally.declined[user],
           tally.dropped[user], held_of(user));
}

/* The number under which the plan is held, or 0. */
static uint32_t ask(const uint8_t *book, size_t length, uint32_t user, const char *name, const uint8_t *plan,
                    size_t plan_length)
{
    uint64_t answer =
        pspec_ask(book, length, user, plan, plan_length, ledger, PSPEC_LEDGER_WORDS, &tally, &holds);
    printf("%s, user %u asks: ", name, user);
    if (pspec_number(answer) != PSPEC_NOT_REFUSED) {
        print_refusal(answer);
        return 0;
    }
    if (pspec_is_held(answer))
        printf("held as %u", pspec_hold_number(answer));
    else
        printf("declined, mask %u", pspec_declined_mask(answer));
    print_counts(user);
    return pspec_hold_number(answer);
}

/* A program that keeps the records in a file stores them here, before the plan is run. */
static void commit(const uint8_t *book, size_t length, uint32_t user, const char *name, uint32_t number)
{
    uint64_t answer = pspec_commit(book, length, user, number, ledger, PSPEC_LEDGER_WORDS, &tally, &holds);
    printf("%s, user %u commits %u: ", name, user, number);
    if (pspec_number(answer) != PSPEC_NOT_REFUSED) {
        print_refusal(answer);
        return;
    }
    printf("admitted");
    print_counts(user);
}

static void drop(const uint8_t *book, size_t length, uint32_t user, const char *name, uint32_t number)
{
    uint64_t answer = pspec_drop(book, length, user, number, ledger, PSPEC_LEDGER_WORDS, &tally, &holds);
    printf("%s, user %u drops %u: ", name, user, number);
    if (pspec_number(answer) != PSPEC_NOT_REFUSED) {
        print_refusal(answer);
        return;
    }
    printf("dropped");
    print_counts(user);
}

/*
 * Column 0 is held on Monday, and column 2 declined beside it on Tuesday; with column 0 dropped, column 2 breaks a
 * rule less. On Wednesday column 0 is held again, under another number, and on Thursday committed with column 2
 * through function 1. What user 2 does is counted for him alone, and the numbers of user 1 are not his.
 */
static void week(const uint8_t *book, size_t length)
{
    static const uint8_t state[] = {1, 0, 0, 0, 4, 0, 0, 0};
    static const uint8_t price[] = {1, 2, 0, 0, 4, 0, 0, 0};
    static const uint8_t average[] = {1, 2, 0, 0, 2, 1, 0, 255, 4, 1, 0, 0};
    uint32_t first = ask(book, length, 1, "Monday", state, sizeof state);
    ask(book, length, 1, "Tuesday", price, sizeof price);
    drop(book, length, 1, "Tuesday", first);
    ask(book, length, 1, "Tuesday", price, sizeof price);
    uint32_t second = ask(book, length, 1, "Wednesday", state, sizeof state);
    uint32_t third = ask(book, length, 1, "Wednesday", average, sizeof average);
    commit(book, length, 2, "Thursday", second);
    commit(book, length, 1, "Thursday", second);
    commit(book, length, 1, "Thursday", third);
    commit(book, length, 1, "Thursday", third);
    ask(book, length, 2, "Friday", price, sizeof price);
    ask(book, length, 0, "Friday", state, sizeof state);
    ask(book, length, 1, "Saturday", price, sizeof price);
}

static void idle(const uint8_t *book, size_t length, uint32_t rule)
{
    uint8_t plan[PSPEC_BUFFER_LEAST];
    uint64_t answer = pspec_idle(book, length, rule, plan, sizeof plan);
    printf("rule %u: ", rule);
    if (pspec_number(answer) != PSPEC_NOT_REFUSED) {
        print_refusal(answer);
        return;
    }
    if (pspec_is_idle(answer)) {
        printf("idle\n");
        return;
    }
    printf("user %u plan", pspec_user(answer));
    for (uint32_t i = 0; i < 4 * pspec_rows(answer); i++)
        printf("%s%02x", i % 4 == 0 ? " " : "", plan[i]);
    printf("\n");
}

static void blocked(const uint8_t *book, size_t length, uint32_t rule)
{
    uint64_t answer = pspec_blocked(book, length, rule);
    printf("rule %u: ", rule);
    if (pspec_number(answer) != PSPEC_NOT_REFUSED) {
        print_refusal(answer);
        return;
    }
    if (pspec_is_open(answer)) {
        printf("open\n");
        return;
    }
    printf("closed to user %u:", pspec_closed_user(answer));
    for (unsigned i = 0; i < 3 && pspec_closed_byte(answer, i) != 0; i++) {
        uint32_t byte = pspec_closed_byte(answer, i);
        printf(" %s %u", pspec_is_condition(byte) ? "condition" : "projection", pspec_leaf(byte));
    }
    /* Of the same book and rule, so neither refused nor unblocked. */
    uint32_t others = pspec_other_rules(pspec_culprits(book, length, rule), rule);
    printf(others == 0 ? ", alone" : (others & (others - 1)) == 0 ? ", with rule" : ", with rules");
    print_rules(others);
    printf("\n");
}

static void tree(const uint8_t *book, size_t length, const uint8_t *plan, size_t plan_length, uint32_t row)
{
    static uint8_t text[PSPEC_TREE_MOST];
    uint64_t answer = pspec_tree(book, length, plan, plan_length, row, text, sizeof text);
    printf("tree of row %u: ", row);
    if (pspec_number(answer) != PSPEC_NOT_REFUSED) {
        print_refusal(answer);
        return;
    }
    printf("%u nodes, %u bytes\n", pspec_nodes(answer), pspec_length(answer));
    fwrite(text, 1, pspec_length(answer), stdout);
}

/* A rule in a block of zeros: user 1 may have category 4 only under operation 2. */
static void write_rule(uint8_t *block)
{
    block[0] = 5;
    block[1] = 1;  /* one reference */
    block[2] = 1;  /* user category 1 */
    block[8] = 1;  /* one restriction */
    block[16] = 4; /* category 4, access */
    block[17] = 3;
    block[65] = 4; /* operation 2 */
    pspec_seal(block, PSPEC_BLOCK);
}

/* By column 2 it is chosen between column 2 through function 1 and column 0; then that is put out. */
static void trees(const uint8_t *book, size_t length)
{
    static const uint8_t chosen[] = {1, 0, 0, 0, 1, 2, 0, 0, 2, 1, 1, 255, 3, 1, 2, 0, 4, 3, 0, 0};
    for (uint32_t row = 2; row < 5; row++)
        tree(book, length, chosen, sizeof chosen, row);
}

/* The rules of the book, and all again with another one; there is room for it behind the book. */
static void blocked_rules(uint8_t *book, size_t length, uint32_t count)
{
    for (uint32_t rule = 0; rule < count; rule++)
        blocked(book, length, rule);
    write_rule(book + length);
    printf("with a rule that user 1 may have category 4 only under operation 2:\n");
    for (uint32_t rule = 0; rule <= count; rule++)
        blocked(book, length + PSPEC_BLOCK, rule);
}

/* What is edited: the book at the front, its number of rules, and the marks of the idle ones. */
static uint8_t blocks[PSPEC_BOOK_MOST];
static uint32_t rules, marks;

static void print_edited(uint64_t answer)
{
    if (pspec_number(answer) != PSPEC_NOT_REFUSED) {
        print_refusal(answer);
        return;
    }
    printf("%u rule%s, idle:", rules, rules == 1 ? "" : "s");
    print_rules(pspec_mask(answer));
    printf("%s\n", pspec_mask(answer) == 0 ? " none" : "");
}

static void arrive(const char *name, const uint8_t *block, size_t length)
{
    uint64_t answer = pspec_arrive(blocks, &rules, &marks, block, length);
    printf("%s arrives: ", name);
    print_edited(answer);
}

static void depart(uint32_t rule)
{
    uint64_t answer = pspec_depart(blocks, &rules, &marks, rule);
    printf("rule %u leaves: ", rule);
    print_edited(answer);
}

/* The rules of a checked book arrive one by one at its first four blocks; then another does, and rule 1 leaves. */
static void edits(const uint8_t *book, size_t length)
{
    uint8_t block[PSPEC_BLOCK] = {0};
    for (size_t i = 0; i < PSPEC_BOOK_LEAST; i++)
        blocks[i] = book[i];
    for (size_t start = PSPEC_BOOK_LEAST; start < length; start += PSPEC_BLOCK)
        arrive("a rule of the book", book + start, PSPEC_BLOCK);
    write_rule(block);
    arrive("another rule", block, sizeof block);
    arrive("a block cut off", block, sizeof block - 1);
    depart(1);
    depart(3);
}

int main(int count, char **arguments)
{
    /* One byte more than the longest book: a longer file is refused for its length. */
    static uint8_t book[PSPEC_BOOK_MOST + 1 + PSPEC_BLOCK];
    FILE *file = count == 2 ? fopen(arguments[1], "rb") : NULL;
    if (file == NULL) {
        fprintf(stderr, "usage: example BOOK\n");
        return 2;
    }
    size_t length = fread(book, 1, PSPEC_BOOK_MOST + 1, file);
    fclose(file);

    uint64_t checked = pspec_check(book, length);
    if (pspec_number(checked) != PSPEC_NOT_REFUSED) {
        printf("book ");
        print_refusal(checked);
        return 1;
    }
    printf("book accepted, %u rules\n", pspec_value(checked));

    plans(book, length);
    week(book, length);

    for (uint32_t rule = 0; rule < pspec_value(checked); rule++)
        idle(book, length, rule);
    idle(book, length, pspec_value(checked));

    trees(book, length);
    blocked_rules(book, length, pspec_value(checked));
    edits(book, length);
    return 0;
}
