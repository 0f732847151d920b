// Every function of the library as one kind of call, for library_test.c and bench/stack.c: what it is lent and the
// numbers that it is handed, each told by a letter, and the answers that it may give.
#ifndef LIBRARY_CALLS_H
#define LIBRARY_CALLS_H

#include "feed_planner.h"

enum { MAX_LENT = 11, MAX_NUMBERS = 3 };

// What a call is handed.
struct call {
    uint8_t *at[MAX_LENT];
    size_t bytes[MAX_LENT];
    uint32_t numbers[MAX_NUMBERS];
};

struct function {
    const char *name;
    uint32_t (*make)(const struct call *);
    // Read: c card, t text, p prices, m marks, k kinds, f numbers of the kinds, F feeders and C cuts of a plan.
    // Written: o bytes and x a text, as many as the word l behind them says; P prices, M marks, a answers, d feeders,
    // s states, u cuts, R replacements, T trees; the words w (32 bits) and z (size_t), W and Z, which a refusal writes
    // too, and y, a reason, with which d and u are written only where it is FEED_REASON_PRICED.
    const char *lent;
    // v position, h set of positions, b budget, n number of positions, r console, l try limit, t total, q pairs.
    const char *numbers;
    uint64_t answers; // bit k: it may answer k
};

#define BYTES(k) c->at[k], c->bytes[k]
#define WORDS(k) (uint32_t *)(void *)c->at[k], c->bytes[k] / sizeof(uint32_t)
#define WORD(k) (uint32_t *)(void *)c->at[k]
#define SIZE(k) (size_t *)(void *)c->at[k]
#define NUMBER(k) c->numbers[k]
#define CALL(name, ...) \
    static uint32_t call_##name(const struct call *c) { return feed_##name(__VA_ARGS__); }

CALL(judge, BYTES(0))
CALL(write_card, BYTES(0), BYTES(1), SIZE(2))
CALL(to_history_card, BYTES(0), BYTES(1), SIZE(2))
CALL(to_plain_card, BYTES(0), BYTES(1), SIZE(2))
CALL(sheet, BYTES(0), WORDS(1), BYTES(2), WORD(3), WORD(4), WORD(5), SIZE(6))
CALL(pin, BYTES(0), NUMBER(0), NUMBER(1), BYTES(1), SIZE(2))
CALL(ban, BYTES(0), NUMBER(0), NUMBER(1), BYTES(1), SIZE(2))
CALL(clear, BYTES(0), NUMBER(0), NUMBER(1), BYTES(1), SIZE(2))
CALL(pin_group, BYTES(0), NUMBER(0), NUMBER(1), BYTES(1), SIZE(2))
CALL(ban_group, BYTES(0), NUMBER(0), NUMBER(1), BYTES(1), SIZE(2))
CALL(clear_group, BYTES(0), NUMBER(0), NUMBER(1), BYTES(1), SIZE(2))
CALL(set_budget, BYTES(0), NUMBER(0), BYTES(1), SIZE(2))
CALL(take_back, BYTES(0), BYTES(1), SIZE(2))
CALL(press_list, BYTES(0), BYTES(1), WORDS(2), WORDS(3), BYTES(4), SIZE(5), SIZE(6), WORD(7))
CALL(look, BYTES(0), BYTES(1), BYTES(2), WORDS(3), WORD(4), WORD(5), WORD(6))
CALL(replay, BYTES(0), BYTES(1), WORDS(2), WORDS(3), WORDS(4), BYTES(5), BYTES(6), WORDS(7), WORD(8), WORD(9), WORD(10))
CALL(print, BYTES(0), BYTES(1), SIZE(2))
CALL(check_plan, BYTES(0), BYTES(1), NUMBER(0), NUMBER(1), WORDS(2))
CALL(list_plans, BYTES(0), NUMBER(0), BYTES(1), WORD(2), WORD(3), WORD(4))
CALL(why, BYTES(0), NUMBER(0), NUMBER(1), BYTES(1), WORDS(2), WORD(3), WORD(4), WORD(5), WORD(6), WORD(7), WORD(8))
CALL(plan_without, BYTES(0), NUMBER(0), NUMBER(1), BYTES(1), WORDS(2), WORD(3), WORD(4), WORD(5))
CALL(read_prices, BYTES(0), NUMBER(0), NUMBER(1), WORDS(1), SIZE(2))
CALL(write_prices, WORDS(0), NUMBER(0), NUMBER(1), BYTES(1), SIZE(2))
CALL(card_from_prices, BYTES(0), NUMBER(0), NUMBER(1), NUMBER(2), BYTES(1), SIZE(2), SIZE(3))
CALL(prices_from_card, BYTES(0), BYTES(1), SIZE(2))
CALL(merge_lists, BYTES(0), BYTES(1), NUMBER(0), NUMBER(1), BYTES(2), SIZE(3), WORD(4), SIZE(5))
CALL(row_used, WORDS(0), WORDS(1), NUMBER(0), NUMBER(1), WORD(2), SIZE(3))
CALL(plan_runs, WORDS(0), BYTES(1), NUMBER(0), NUMBER(1), BYTES(2), WORDS(3), WORD(4), WORD(5))

#undef BYTES
#undef WORDS
#undef WORD
#undef SIZE
#undef NUMBER
#undef CALL

// The sets of answers that the header names.
#define BIT(k) (UINT64_C(1) << (k))
#define PLAIN_CARD                                                                                                \
    (BIT(FEED_CARD_SHORT) | BIT(FEED_BAD_COUNT) | BIT(FEED_BAD_LENGTH) | BIT(FEED_BAD_CONSOLE) |                  \
     BIT(FEED_BAD_CARD_BUDGET) | BIT(FEED_BAD_MARK) | BIT(FEED_BAD_FILLING))
#define CARD (BIT(FEED_ACCEPTED) | PLAIN_CARD | BIT(FEED_BAD_RECORD))
#define SHORT BIT(FEED_BUFFER_SHORT)
#define LINK (CARD | BIT(FEED_NO_POSITION) | BIT(FEED_NO_SUCH_LINK) | SHORT)
#define PRESS (LINK | BIT(FEED_HISTORY_FULL))
#define COUNTS (BIT(FEED_ACCEPTED) | BIT(FEED_BAD_COUNT) | BIT(FEED_BAD_CONSOLE) | SHORT)
#define LINES                                                                                                     \
    (COUNTS | BIT(FEED_BAD_LINE) | BIT(FEED_LINE_NO_POSITION) | BIT(FEED_LINE_NO_LINK) | BIT(FEED_PRICE_TOO_HIGH) | \
     BIT(FEED_NAMED_BEFORE))
#define PLAN                                                                                                      \
    (BIT(FEED_NO_FEED_TREE) | BIT(FEED_WRONG_TOTAL) | BIT(FEED_BAD_CUT) | BIT(FEED_OVERCHARGED) |                 \
     BIT(FEED_WRONG_AMOUNTS))
#define RANGES (BIT(FEED_ACCEPTED) | BIT(FEED_COUNT_OUT_OF_RANGE) | BIT(FEED_OUT_OF_RANGE) | SHORT)

#define FUNCTION(name, lent, numbers, answers) { "feed_" #name, call_##name, lent, numbers, answers }
static const struct function FUNCTIONS[] = {
    FUNCTION(judge, "c", "", CARD),
    FUNCTION(write_card, "col", "", CARD | SHORT),
    FUNCTION(to_history_card, "col", "", BIT(FEED_ACCEPTED) | PLAIN_CARD | SHORT),
    FUNCTION(to_plain_card, "col", "", CARD | BIT(FEED_HAS_RECORDS) | SHORT),
    FUNCTION(sheet, "cPMwwwz", "", CARD | SHORT),
    FUNCTION(pin, "col", "vv", PRESS),
    FUNCTION(ban, "col", "vv", PRESS),
    FUNCTION(clear, "col", "vv", PRESS),
    FUNCTION(pin_group, "col", "vh", PRESS),
    FUNCTION(ban_group, "col", "vh", PRESS),
    FUNCTION(clear_group, "col", "vh", PRESS),
    FUNCTION(set_budget, "col", "b", CARD | BIT(FEED_BAD_BUDGET) | BIT(FEED_HISTORY_FULL) | SHORT),
    FUNCTION(take_back, "col", "", CARD | BIT(FEED_HISTORY_EMPTY) | SHORT),
    FUNCTION(press_list, "ckffolzw", "", CARD | SHORT),
    FUNCTION(look, "cdsuwww", "", CARD | SHORT),
    FUNCTION(replay, "ckffadsuwww", "", CARD | SHORT),
    FUNCTION(print, "cxl", "", BIT(FEED_ACCEPTED) | SHORT),
    FUNCTION(check_plan, "cFC", "tq", CARD | SHORT | PLAN),
    FUNCTION(list_plans, "cTwww", "l", CARD | BIT(FEED_BAD_TRY_LIMIT)),
    FUNCTION(why, "cduywwwww", "vv", LINK),
    FUNCTION(plan_without, "cduwww", "vv", LINK),
    FUNCTION(read_prices, "tPZ", "nr", LINES),
    FUNCTION(write_prices, "pol", "nr", COUNTS | BIT(FEED_PRICE_TOO_HIGH)),
    FUNCTION(card_from_prices, "tolZ", "nrb", LINES | BIT(FEED_BAD_CARD_BUDGET)),
    FUNCTION(prices_from_card, "col", "", CARD | SHORT),
    FUNCTION(merge_lists, "ttolWZ", "nr", LINES),
    FUNCTION(row_used, "ppwz", "nv", RANGES | BIT(FEED_NO_POSITION)),
    FUNCTION(plan_runs, "pmsRww", "nb", RANGES | BIT(FEED_UNEQUAL_PAIR)),
};
#undef FUNCTION

enum { FUNCTION_COUNT = sizeof FUNCTIONS / sizeof FUNCTIONS[0] };

#endif
