// The cases of library_cases.c that hand in prices and no card: price lists, the rows that are used of two of them, and
// passive runs.
#ifndef LIBRARY_PRICE_CASES_H
#define LIBRARY_PRICE_CASES_H

#include "library_expected.h"

static const char Q_TEXT[] = "0 1 10\n0 2 10\n0 3 8\n1 2 1\n1 3 4\n2 1 2\n2 3 9\n3 1 7\n";
static const char ANY_ORDER[] = "3 1 7\n2 1 2\n0 1 10\n1 2 1\n0 2 10\n2 3 9\n1 3 4\n0 3 8\n";
static const char OWN[] = "0 1 6\n0 2 9\n"; // examples/own.prices, and what README says of it with Q
static const char MERGED[] = "0 1 6\n0 2 9\n1 2 1\n1 3 4\n2 1 2\n2 3 9\n3 1 7\n";

// Refused by a line: the words that say so are the only ones written.
static int is_faulty(uint32_t answer, uint32_t expected, size_t line) {
    int is_told = out.line == line;
    memset(&out.line, UNTOUCHED, sizeof out.line);
    return is_told && is_refused(answer, expected);
}

static uint32_t read_prices(const char *text, uint32_t n, uint32_t console, size_t room) {
    return feed_read_prices(TEXT(text), n, console, out.prices, room, &out.line);
}

static void read_cases(void) {
    struct sheet q = sheet_q(16);
    const uint32_t pair[] = {NONE, NONE, 5, NONE};
    expect("feed_read_prices: Q", read_prices(Q_TEXT, 4, 0, 16) == FEED_ACCEPTED && out.line == 0 &&
           is_words(out.prices, q.prices, 16));
    expect("feed_read_prices: in any order", read_prices(ANY_ORDER, 4, 0, 17) == FEED_ACCEPTED && out.line == 0 &&
           is_words(out.prices, q.prices, 16) && out.prices[16] == 0xEEEEEEEE);
    expect("feed_read_prices: console 1", read_prices("1 0 5\n", 2, 1, 4) == FEED_ACCEPTED && out.line == 0 &&
           is_words(out.prices, pair, 4));
    expect("feed_read_prices: no line feed", is_faulty(read_prices("0 1 10\n0 2 10", 4, 0, 16), FEED_BAD_LINE, 2));
    expect("feed_read_prices: a needless 0", is_faulty(read_prices("0 1 010\n", 4, 0, 16), FEED_BAD_LINE, 1));
    expect("feed_read_prices: 0 to 4",
           is_faulty(read_prices("0 1 10\n0 4 10\n", 4, 0, 16), FEED_LINE_NO_POSITION, 2));
    expect("feed_read_prices: into the console",
           is_faulty(read_prices("0 1 10\n0 2 10\n1 0 5\n", 4, 0, 16), FEED_LINE_NO_LINK, 3));
    expect("feed_read_prices: README's line 3",
           is_faulty(read_prices("0 1 10\n0 2 10\n0 3 1048575\n", 4, 0, 16), FEED_PRICE_TOO_HIGH, 3));
    expect("feed_read_prices: named before",
           is_faulty(read_prices("0 1 10\n1 2 1\n2 1 2\n1 2 1\n", 4, 0, 16), FEED_NAMED_BEFORE, 4));
    expect("feed_read_prices: 33 positions", is_faulty(read_prices(Q_TEXT, 33, 0, 16), FEED_BAD_COUNT, 0));
    expect("feed_read_prices: console 4", is_faulty(read_prices(Q_TEXT, 4, 4, 16), FEED_BAD_CONSOLE, 0));
    expect("feed_read_prices: 15 words", is_faulty(read_prices(Q_TEXT, 4, 0, 15), FEED_BUFFER_SHORT, 0));
}

static void write_cases(void) {
    struct sheet q = sheet_q(16), high = q, passed = q;
    const uint32_t pair[] = {7, 6, 5, 4};
    high.prices[SMALL * 3 + 2] = NONE + 1;
    passed.prices[SMALL * 2] = passed.prices[SMALL * 2 + 2] = NONE + 1;
    expect("feed_write_prices: Q", is_text(feed_write_prices(LIST(q.prices), 4, 0, OUT), Q_TEXT));
    expect("feed_write_prices: console 1", is_text(feed_write_prices(LIST(pair), 2, 1, OUT), "1 0 5\n"));
    expect("feed_write_prices: passed over", is_text(feed_write_prices(LIST(passed.prices), 4, 0, OUT), Q_TEXT));
    expect("feed_write_prices: no price",
           is_refused(feed_write_prices(LIST(high.prices), 4, 0, OUT), FEED_PRICE_TOO_HIGH));
    expect("feed_write_prices: 15 prices", is_refused(feed_write_prices(q.prices, 15, 4, 0, OUT), FEED_BUFFER_SHORT));
}

static uint32_t card_from(const char *text, uint32_t n, uint32_t console, uint32_t budget) {
    return feed_card_from_prices(TEXT(text), n, console, budget, OUT, &out.line);
}

static void price_card_cases(void) {
    struct card pinned = with_link(history(marked(sheet_q(16), 2, 1, FEED_MARK_PINNED), 1), 2, 1, FEED_MARK_FREE);
    struct card p1 = plain(sheet_q(16));
    expect("feed_card_from_prices: P1", is_card(card_from(Q_TEXT, 4, 0, 16), p1) && out.line == 0);
    expect("feed_card_from_prices: any order", is_card(card_from(ANY_ORDER, 4, 0, 16), p1) && out.line == 0);
    expect("feed_card_from_prices: console 1", is_card(card_from("1 0 5\n", 2, 1, 9), plain(pair(1, 5, 9))));
    expect("feed_card_from_prices: line 2",
           is_faulty(card_from("0 1 10\n2 2 10\n", 4, 0, 16), FEED_LINE_NO_LINK, 2));
    expect("feed_card_from_prices: the budget",
           is_faulty(card_from(Q_TEXT, 4, 0, 32505795), FEED_BAD_CARD_BUDGET, 0));
    expect("feed_prices_from_card: P1", is_text(feed_prices_from_card(CARD(p1), OUT), Q_TEXT));
    expect("feed_prices_from_card: no mark, no record", is_text(feed_prices_from_card(CARD(pinned), OUT), Q_TEXT));
    expect("feed_prices_from_card: few bytes",
           is_refused(feed_prices_from_card(CARD(p1), out.bytes, strlen(Q_TEXT) - 1, &out.length), FEED_BUFFER_SHORT));
    expect("feed_prices_from_card: 29 bytes", is_refused(feed_prices_from_card(p1.bytes, 29, OUT), FEED_BAD_LENGTH));
}

static uint32_t merge(const char *school, const char *shipped, uint32_t n) {
    return feed_merge_lists(TEXT(school), TEXT(shipped), n, 0, OUT, &out.list, &out.line);
}

static int is_faulty_list(uint32_t answer, uint32_t expected, uint32_t list, size_t line) {
    int is_told = out.list == list;
    memset(&out.list, UNTOUCHED, sizeof out.list);
    return is_told && is_faulty(answer, expected, line);
}

static void merge_cases(void) {
    expect("feed_merge_lists: own rows first", is_text(merge(OWN, Q_TEXT, 4), MERGED) && out.list == 0 &&
           out.line == 0);
    expect("feed_merge_lists: nothing of its own", is_text(merge("", ANY_ORDER, 4), Q_TEXT) && out.list == 0);
    expect("feed_merge_lists: the school's line 2",
           is_faulty_list(merge("0 1 6\n0 2\n", "1 4 1\n", 4), FEED_BAD_LINE, 1, 2));
    expect("feed_merge_lists: the shipped line 3",
           is_faulty_list(merge(OWN, "0 1 10\n0 2 10\n1 4 1\n", 4), FEED_LINE_NO_POSITION, 2, 3));
    expect("feed_merge_lists: 33 positions", is_faulty_list(merge(OWN, Q_TEXT, 33), FEED_BAD_COUNT, 1, 0));
    expect("feed_merge_lists: few bytes",
           is_faulty_list(feed_merge_lists(TEXT(OWN), TEXT(Q_TEXT), 4, 0, out.bytes, strlen(MERGED) - 1, &out.length,
                                           &out.list, &out.line), FEED_BUFFER_SHORT, 0, 0));
}

static uint32_t row_used(const uint32_t *school, uint32_t n, uint32_t feeder) {
    struct sheet q = sheet_q(16);
    return feed_row_used(school, 16, LIST(q.prices), n, feeder, &out.own, &out.place);
}

// The school has a row of its own for 2, and one for 3 with a number that is no price.
static void row_cases(void) {
    const uint32_t school[] = {NONE, NONE, NONE, NONE, NONE, NONE, NONE, NONE,
                               NONE, 6, NONE, 9, NONE, 7, NONE + 1, NONE};
    struct sheet q = sheet_q(16);
    expect("feed_row_used: 0", row_used(school, 4, 0) == FEED_ACCEPTED && out.own == 0 && out.place == 0);
    expect("feed_row_used: 1", row_used(school, 4, 1) == FEED_ACCEPTED && out.own == 0 && out.place == 4);
    expect("feed_row_used: 2", row_used(school, 4, 2) == FEED_ACCEPTED && out.own == 1 && out.place == 8);
    expect("feed_row_used: 3", is_refused(row_used(school, 4, 3), FEED_OUT_OF_RANGE));
    expect("feed_row_used: 4", is_refused(row_used(school, 4, 4), FEED_NO_POSITION));
    expect("feed_row_used: 33 positions", is_refused(row_used(school, 33, 2), FEED_COUNT_OUT_OF_RANGE));
    expect("feed_row_used: 5 positions", is_refused(row_used(school, 5, 2), FEED_BUFFER_SHORT));
    expect("feed_row_used: the other row is not judged",
           feed_row_used(LIST(q.prices), LIST(school), 4, 3, &out.own, &out.place) == FEED_ACCEPTED &&
           out.own == 1 && out.place == 12);
}

// README's hall: 0-1 at 1, 0-2 at 2 and 1-2 at 4; what is on the diagonal is not looked at.
static const uint32_t HALL[] = {9, 1, 2, 1, UINT32_MAX, 4, 2, 4, 0};

static uint32_t plan_runs(const uint32_t *prices, const uint8_t *marks, uint32_t n, uint32_t budget) {
    return feed_plan_runs(prices, 9, marks, 9, n, budget, out.states, 9 + 1, out.replacements, 9, &out.outcome,
                          &out.total);
}

// The replacement prices of 0-1, 0-2 and 1-2, both ways alike, and the diagonal, which is in no tree.
static int is_runs(uint32_t answer, uint32_t outcome, uint32_t total, const char *states, const uint32_t *r) {
    const uint32_t none = FEED_NOT_IN_TREE, all[] = {none, r[0], r[1], r[0], none, r[2], r[1], r[2], none};
    return answer == FEED_ACCEPTED && out.outcome == outcome && out.total == total && is_states(states) &&
           is_words(out.replacements, all, 9);
}

static void run_cases(void) {
    const uint8_t unmarked[9] = {3, 0, 0, 0, 3, 0, 0, 0, 3}, first[9] = {0, 1, 0, 1};
    const uint8_t ring[9] = {0, 1, 1, 1, 0, 1, 1, 1}, skewed[9] = {0, 0, 0, 0, 0, 2}, three[9] = {0, 0, 3, 0, 0, 0, 3};
    const uint32_t gap[] = {0, NONE, 2, NONE, 0, 4, 2, 4, 0}, skew[] = {0, 1, 2, 1, 0, 4, 2, 5, 0};
    const uint32_t no = FEED_NOT_IN_TREE;
    expect("feed_plan_runs: README's hall", is_runs(plan_runs(HALL, unmarked, 3, 5), FEED_OUTCOME_PLAN, 3, "032302220",
           (const uint32_t[]){3, 2, no}));
    expect("feed_plan_runs: over", is_runs(plan_runs(HALL, unmarked, 3, 2), FEED_OUTCOME_OVER, 3, "033301310",
           (const uint32_t[]){3, 2, no}));
    expect("feed_plan_runs: 0-1 pinned", is_runs(plan_runs(HALL, first, 3, 5), FEED_OUTCOME_PLAN, 3, "032302220",
           (const uint32_t[]){FEED_NO_REPLACEMENT, 2, no}));
    expect("feed_plan_runs: a ring of pins", is_runs(plan_runs(HALL, ring, 3, 5), FEED_OUTCOME_NONE, 0, "011101110",
           (const uint32_t[]){no, no, no}));
    expect("feed_plan_runs: no run 0-1", is_runs(plan_runs(gap, unmarked, 3, 9), FEED_OUTCOME_PLAN, 6, "003003330",
           (const uint32_t[]){no, FEED_NO_REPLACEMENT, FEED_NO_REPLACEMENT}));
    expect("feed_plan_runs: mark 3", is_refused(plan_runs(HALL, three, 3, 5), FEED_OUT_OF_RANGE));
    expect("feed_plan_runs: a mark on no run", is_refused(plan_runs(gap, first, 3, 5), FEED_OUT_OF_RANGE));
    expect("feed_plan_runs: a price one way", is_refused(plan_runs(skew, unmarked, 3, 5), FEED_UNEQUAL_PAIR));
    expect("feed_plan_runs: a mark one way", is_refused(plan_runs(HALL, skewed, 3, 5), FEED_UNEQUAL_PAIR));
    expect("feed_plan_runs: 0 positions", is_refused(plan_runs(HALL, unmarked, 0, 5), FEED_COUNT_OUT_OF_RANGE));
    expect("feed_plan_runs: 4 positions", is_refused(plan_runs(HALL, unmarked, 4, 5), FEED_BUFFER_SHORT));
}

#endif
