// The feed planner as a library for C, C++ and Rust: libfeed_planner.a, for x86-64 with the System V ABI (ELF). It
// keeps nothing between calls, takes no memory from a heap, has no writable data and calls memcpy and memset alone.
//
// A card is the state. A plain card holds prices, marks and the budget; a history card holds the recorded presses too.
// A press reads a card of either kind from one buffer and writes the next card, a history card, into another; a look, a
// text or a price list is made of any card.
//
// Every function answers 0 (FEED_ACCEPTED) or the number of a refusal, whatever it is handed. Refused, all that was
// lent is as it was, but for the words `line` and `list` of the price lists, which say where the fault is. Accepted,
// the bytes and words that are named below are written, and those behind them in a longer buffer stay. The answers of a
// function are listed in the order in which it judges.
//
// WHAT THE CALLER HAS TO KEEP, since no proof can see it:
// - A list or buffer is a pointer and the number of its elements, bytes or words of 32 bits. So many are really there,
//   at an address that suits their type, and they take no more than PTRDIFF_MAX bytes. A single word (uint32_t or
//   size_t) is there too, at an address that suits its type.
// - No pointer is NULL, not even of an empty list.
// - What a call writes (buffers and single words) overlaps nothing else that the same call is lent. What it only reads
//   may overlap. So the next card goes into another buffer than the card.
// - While a call runs, nobody else writes what it is lent or reads what it writes. Calls that share only what they read
//   may run at once.
// - 64 KiB of stack are free.
#ifndef FEED_PLANNER_H
#define FEED_PLANNER_H

#include <stddef.h>
#include <stdint.h>

#ifdef __cplusplus
extern "C" {
#endif

// SIZES AND LIMITS
#define FEED_MAX_POSITIONS 32
#define FEED_MAX_STATES 1024 // places for the states of any card, and for its prices and marks: 32 * 32
#define FEED_MAX_PLAIN_CARD 2648 // bytes of the longest plain card
#define FEED_MAX_CARD 5174 // bytes of the longest card: a history card with 200 records
#define FEED_MAX_TEXT 2241 // bytes of the longest text of feed_print
#define FEED_MAX_PRICE_LIST 13454 // bytes are room enough for the price list of any card
#define FEED_CUT_WORDS 122 // words for the cuts of a look: 61 pairs
#define FEED_MAX_CUTS 61
#define FEED_MAX_RECORDS 200
#define FEED_MAX_TRIES 1000000
#define FEED_MAX_PRICE 1048574 // pence
#define FEED_NO_LINK 1048575 // stands for a price where there is no link, and no run
#define FEED_MAX_BUDGET 32505794 // pence
#define FEED_BY_CARD 0 // in place of a recorded press: the mark came on the card
#define FEED_NO_FEEDER 255 // in place of the console's feeder, and of every feeder where there is no feed tree
#define FEED_NO_REPLACEMENT UINT32_C(4294967295) // passive runs: no tree does without the run, or it is pinned
#define FEED_NOT_IN_TREE UINT32_C(4294967294) // passive runs: the run is not in the tree that is shown

// The answers.
enum feed_answer {
    FEED_ACCEPTED = 0,
    FEED_CARD_SHORT = 1, // a card has at least 5 bytes
    FEED_BAD_COUNT = 2, // the number of positions is not 1 to 32; of a move: the card is of the other kind
    FEED_BAD_LENGTH = 3, // the card is too short or too long for its positions and records
    FEED_BAD_CONSOLE = 4, // the console is not below the number of positions
    FEED_BAD_CARD_BUDGET = 5, // the budget on a card, or for one, is above FEED_MAX_BUDGET
    FEED_BAD_PRICE = 6, // retired, never answered: every price that a card can hold is within the limit
    FEED_BAD_MARK = 7, // a mark is 3, or stands on no link
    FEED_BAD_FILLING = 8, // a filling bit at the card's end is 1
    FEED_NO_POSITION = 9, // a position, or one of a set, is not below the number of positions
    FEED_NO_SUCH_LINK = 10, // there is no such link; of a group: none of its members is one
    FEED_BAD_BUDGET = 11, // the budget of a press is above FEED_MAX_BUDGET
    FEED_HISTORY_FULL = 12, // 200 presses are recorded
    FEED_HISTORY_EMPTY = 13, // no press is recorded that could be taken back
    FEED_BUFFER_SHORT = 14, // a list or buffer is too short
    FEED_DAMAGED_BOARD = 15, // never answered: a card that opens is no damaged board
    FEED_BAD_LINE = 16, // a line of a price list is not feeder, space, fed, space, pence, line feed
    FEED_LINE_NO_POSITION = 17, // it names a position that is not below the number of positions
    FEED_LINE_NO_LINK = 18, // its feeder is its fed position, or that is the console
    FEED_PRICE_TOO_HIGH = 19, // its price is above FEED_MAX_PRICE; a price to be written is above FEED_NO_LINK
    FEED_NAMED_BEFORE = 20, // it names a link that an earlier line named
    FEED_NO_FEED_TREE = 21, // a plan made elsewhere: the feeders are no feed tree
    FEED_WRONG_TOTAL = 22, // its total is wrong
    FEED_BAD_CUT = 23, // a cut is empty, holds the console or a position that is not there; or there are more than 61
    FEED_OVERCHARGED = 24, // a remaining link (see feed_look) is charged above its price
    FEED_WRONG_AMOUNTS = 25, // the amounts do not add to the total
    FEED_BAD_TRY_LIMIT = 26, // the try limit is not 1 to FEED_MAX_TRIES
    FEED_BAD_RECORD = 27, // a history card has a faulty record, or more than FEED_MAX_RECORDS
    FEED_HAS_RECORDS = 28, // a card with records cannot be moved to a plain one
    FEED_COUNT_OUT_OF_RANGE = 29, // passive runs, row of prices: the number of positions is not 1 to 32
    // passive runs: a price or mark is out of range, or a mark is on no run; row of prices: a number that is neither a
    // price nor FEED_NO_LINK
    FEED_OUT_OF_RANGE = 30,
    FEED_UNEQUAL_PAIR = 31, // passive runs: a price or mark is not equal both ways
    FEED_NO_SUCH_PRESS = 32 // in `stopped` of feed_press_list alone: a kind that presses nothing
};

enum feed_mark { FEED_MARK_FREE = 0, FEED_MARK_PINNED = 1, FEED_MARK_BANNED = 2 };

// A link's state, over the feed trees within the budget; the cheapest total stands for a budget below it.
enum feed_state {
    FEED_STATE_NO_LINK = 0,
    FEED_STATE_CLOSED = 1, // no tree uses it
    FEED_STATE_OPEN = 2, // some use it and some don't
    FEED_STATE_SURE = 3 // there is a tree, and all use it
};

// What a plan comes to. With FEED_OUTCOME_NONE there is no feed tree, the total is 0 and every link is closed.
enum feed_outcome {
    FEED_OUTCOME_NONE = 0,
    FEED_OUTCOME_PLAN = 1, // the total is within the budget
    FEED_OUTCOME_OVER = 2 // the cheapest total is above the budget
};

// Why a link is closed, or what decides that: the first that holds.
enum feed_reason {
    FEED_REASON_BANNED = 1, // it is banned
    FEED_REASON_RIVAL = 2, // another link into the same position is pinned
    FEED_REASON_PRICED = 3 // neither: what it comes to with this link as the only one into its position
};

// How a list of all plans ended.
enum feed_ended {
    FEED_ENDED_COMPLETE = 0, // all were tried
    FEED_ENDED_AT_LIMIT = 1, // one more try was due
    FEED_ENDED_NO_ROOM = 2 // the next tree had no room
};

// The kinds of a list of presses, each with two numbers.
enum feed_kind {
    FEED_KIND_PIN = 0, // feeder, fed
    FEED_KIND_BAN = 1, // feeder, fed
    FEED_KIND_CLEAR = 2, // feeder, fed
    FEED_KIND_SET_BUDGET = 3, // budget, not looked at
    FEED_KIND_TAKE_BACK = 4, // neither is looked at
    FEED_KIND_LOOK = 5, // in feed_replay alone
    FEED_KIND_WRITE = 6, // in feed_replay alone; so is every kind above 9
    FEED_KIND_PIN_GROUP = 7, // feeder, set of fed positions
    FEED_KIND_BAN_GROUP = 8, // feeder, set of fed positions
    FEED_KIND_CLEAR_GROUP = 9 // feeder, set of fed positions
};

// CARDS
// Whether a card opens. It touches nothing.
// Answers: 0, or A PLAIN CARD'S ANSWERS: FEED_CARD_SHORT, FEED_BAD_COUNT, FEED_BAD_LENGTH, FEED_BAD_CONSOLE,
// FEED_BAD_CARD_BUDGET, FEED_BAD_MARK, FEED_BAD_FILLING; for a history card the same, and before FEED_BAD_FILLING, in
// this order: FEED_BAD_LENGTH and FEED_BAD_RECORD by the number of records, the same two by the first faulty record,
// FEED_BAD_LENGTH for whole bytes left over after them. Those of both kinds are THE CARD'S ANSWERS.
uint32_t feed_judge(const uint8_t *card, size_t card_length);

// The plain card of a card's present marks and budget; its records are left out.
// Writes the first *length bytes of `out`, at most FEED_MAX_PLAIN_CARD, and `length`.
// Answers: the card's answers, FEED_BUFFER_SHORT.
uint32_t feed_write_card(const uint8_t *card, size_t card_length, uint8_t *out, size_t out_length, size_t *length);

// A plain card as a history card with no record.
// Writes the first *length bytes of `out`, and `length`; FEED_MAX_CARD bytes are room enough.
// Answers: a plain card's answers (FEED_BAD_COUNT for a history card), FEED_BUFFER_SHORT.
uint32_t feed_to_history_card(const uint8_t *card, size_t card_length, uint8_t *out, size_t out_length, size_t *length);

// A history card that has no record as a plain card.
// Writes the first *length bytes of `out`, and `length`.
// Answers: the card's answers (FEED_BAD_COUNT for a plain card), FEED_HAS_RECORDS, FEED_BUFFER_SHORT.
uint32_t feed_to_plain_card(const uint8_t *card, size_t card_length, uint8_t *out, size_t out_length, size_t *length);

// What a card says.
// Writes the first n * n words of `prices` and bytes of `marks` (enum feed_mark), feeder by feeder, for n positions:
// the link from feeder i to fed position j is at i * n + j, FEED_NO_LINK and free where there is none; and the four
// words: number of positions, console, budget, number of recorded presses.
// Answers: the card's answers, FEED_BUFFER_SHORT (n * n words, n * n bytes).
uint32_t feed_sheet(const uint8_t *card, size_t card_length, uint32_t *prices, size_t prices_length, uint8_t *marks,
                    size_t marks_length, uint32_t *positions, uint32_t *console, uint32_t *budget, size_t *recorded);

// PRESSES
// Each writes the next card, a history card on which the press is recorded (a take-back is not), into the first *length
// bytes of `out`, and `length`; FEED_MAX_CARD bytes are room enough.

// The mark of the link from `feeder` to `fed`.
// Answers: the card's answers, FEED_NO_POSITION, FEED_NO_SUCH_LINK, FEED_HISTORY_FULL, FEED_BUFFER_SHORT.
uint32_t feed_pin(const uint8_t *card, size_t card_length, uint32_t feeder, uint32_t fed, uint8_t *out,
                  size_t out_length, size_t *length);
uint32_t feed_ban(const uint8_t *card, size_t card_length, uint32_t feeder, uint32_t fed, uint8_t *out,
                  size_t out_length, size_t *length);
uint32_t feed_clear(const uint8_t *card, size_t card_length, uint32_t feeder, uint32_t fed, uint8_t *out,
                    size_t out_length, size_t *length);

// The marks of several links of one feeder as one press. `fed_set` has bit k for position k; members that are no link
// are skipped.
// Answers: the card's answers, FEED_NO_POSITION (also for a bit of the set), FEED_NO_SUCH_LINK (no member is a link),
// FEED_HISTORY_FULL, FEED_BUFFER_SHORT.
uint32_t feed_pin_group(const uint8_t *card, size_t card_length, uint32_t feeder, uint32_t fed_set, uint8_t *out,
                        size_t out_length, size_t *length);
uint32_t feed_ban_group(const uint8_t *card, size_t card_length, uint32_t feeder, uint32_t fed_set, uint8_t *out,
                        size_t out_length, size_t *length);
uint32_t feed_clear_group(const uint8_t *card, size_t card_length, uint32_t feeder, uint32_t fed_set, uint8_t *out,
                          size_t out_length, size_t *length);

// The budget in pence.
// Answers: the card's answers, FEED_BAD_BUDGET, FEED_HISTORY_FULL, FEED_BUFFER_SHORT.
uint32_t feed_set_budget(const uint8_t *card, size_t card_length, uint32_t budget, uint8_t *out, size_t out_length,
                         size_t *length);

// The last recorded press taken back, and its record with it.
// Answers: the card's answers, FEED_HISTORY_EMPTY, FEED_BUFFER_SHORT.
uint32_t feed_take_back(const uint8_t *card, size_t card_length, uint8_t *out, size_t out_length, size_t *length);

// A list of presses, made in order up to the first refused one: `kinds` (enum feed_kind) has `kinds_length` of them,
// and `firsts` and `seconds` a number for each; more numbers are not looked at.
// Writes the card after the applied presses into the first *length bytes of `out`; `length`; `applied`, how many these
// are; and `stopped`, 0 or the number that the next one is refused by. A refused press of the list is no refusal of the
// call: `stopped` takes FEED_NO_POSITION to FEED_HISTORY_EMPTY, as single presses answer, or FEED_NO_SUCH_PRESS for
// FEED_KIND_LOOK, FEED_KIND_WRITE and every kind above FEED_KIND_CLEAR_GROUP.
// Answers: the card's answers, FEED_BUFFER_SHORT (for `firsts` and `seconds`, then for `out`).
uint32_t feed_press_list(const uint8_t *card, size_t card_length, const uint8_t *kinds, size_t kinds_length,
                         const uint32_t *firsts, size_t firsts_length, const uint32_t *seconds, size_t seconds_length,
                         uint8_t *out, size_t out_length, size_t *length, size_t *applied, uint32_t *stopped);

// LOOKS
// A look at a card of n positions.
// Writes the first n bytes of `feeders`, each position's feeder in the first of the cheapest feed trees (FEED_NO_FEEDER
// for the console, and for all where there is no tree); the first n * n bytes of `states` (enum feed_state), feeder by
// feeder; the first FEED_CUT_WORDS words of `cuts`, pairs of a set (bit k for position k) and an amount, then zeros;
// and the words `outcome` (enum feed_outcome), `total` and `pairs`, how many pairs there are. The cuts prove that no
// feed tree is cheaper; where there is none, the one pair is a set of positions without the console that no remaining
// link enters (one that is not banned, and no other link into its end is pinned), and 0.
// Answers: the card's answers, FEED_BUFFER_SHORT (n bytes, n * n bytes, FEED_CUT_WORDS words).
uint32_t feed_look(const uint8_t *card, size_t card_length, uint8_t *feeders, size_t feeders_length, uint8_t *states,
                   size_t states_length, uint32_t *cuts, size_t cuts_length, uint32_t *outcome, uint32_t *total,
                   uint32_t *pairs);

// A list of calls on a card, then a look. The list is that of feed_press_list, with FEED_KIND_LOOK, a look into the
// same buffers, and FEED_KIND_WRITE, which changes nothing; after a refused press the list goes on.
// Writes the first `kinds_length` words of `answers`, each call's answer, and what the last look writes (feed_look).
// Answers: the card's answers, FEED_BUFFER_SHORT (for `firsts`, `seconds`, `answers` and the buffers of a look).
uint32_t feed_replay(const uint8_t *card, size_t card_length, const uint8_t *kinds, size_t kinds_length,
                     const uint32_t *firsts, size_t firsts_length, const uint32_t *seconds, size_t seconds_length,
                     uint32_t *answers, size_t answers_length, uint8_t *feeders, size_t feeders_length, uint8_t *states,
                     size_t states_length, uint32_t *cuts, size_t cuts_length, uint32_t *outcome, uint32_t *total,
                     uint32_t *pairs);

// The text of a card: what a look shows, or the line of its refusal, such as "refused 3", so that every card has one.
// Writes the first *length bytes of `out`, with no 0 behind them, and `length`.
// Answers: 0, FEED_BUFFER_SHORT for fewer than FEED_MAX_TEXT bytes, however short the text is.
uint32_t feed_print(const uint8_t *card, size_t card_length, uint8_t *out, size_t out_length, size_t *length);

// A plan made elsewhere, judged for a card of n positions: n feeders (FEED_NO_FEEDER at the console), the total, and
// `pairs` pairs of words, a set and an amount, in `cuts`. Accepted, it is a cheapest feed tree that keeps the marks;
// the budget is not judged. It touches nothing.
// Answers: the card's answers, FEED_BUFFER_SHORT (n bytes, 2 * pairs words), FEED_NO_FEED_TREE, FEED_WRONG_TOTAL,
// FEED_BAD_CUT, FEED_OVERCHARGED, FEED_WRONG_AMOUNTS.
uint32_t feed_check_plan(const uint8_t *card, size_t card_length, const uint8_t *feeders, size_t feeders_length,
                         uint32_t total, uint32_t pairs, const uint32_t *cuts, size_t cuts_length);

// All feed trees within marks and budget, in ascending order, as far as `limit` tries and the buffer go.
// Writes `ended` (enum feed_ended), `trees`, `tries`, and the first *trees * n bytes of `out`: n feeders for each tree,
// FEED_NO_FEEDER at the console. A short buffer is no fault, not even an empty one.
// Answers: the card's answers, FEED_BAD_TRY_LIMIT.
uint32_t feed_list_plans(const uint8_t *card, size_t card_length, uint32_t limit, uint8_t *out, size_t out_length,
                         uint32_t *ended, uint32_t *trees, uint32_t *tries);

// LINKS
// Why the link from `feeder` to `fed` is closed, open or sure, for a card of n positions.
// Writes six words: `reason` (enum feed_reason), and by it
// - FEED_REASON_BANNED: `by`, who banned the link: the place of the latest recorded press that names it, from 1 for the
//   oldest press that is recorded, or FEED_BY_CARD where none names it; `rival`, `outcome`, `total` and `pairs` are 0;
// - FEED_REASON_RIVAL: `rival`, the smallest other feeder with a pinned link into `fed`, and `by`, who pinned it, told
//   in the same way; `outcome`, `total` and `pairs` are 0;
// - FEED_REASON_PRICED: `outcome` (enum feed_outcome), `total` and `pairs` of the plan with this link as the only one
//   into `fed`, as those of a look; `by` and `rival` are 0.
// With FEED_REASON_PRICED it writes the first n bytes of `feeders` and FEED_CUT_WORDS words of `cuts` too, as feed_look
// does; with the other reasons both buffers stay as they were.
// Answers: the card's answers, FEED_NO_POSITION, FEED_NO_SUCH_LINK, FEED_BUFFER_SHORT (n bytes, FEED_CUT_WORDS words).
uint32_t feed_why(const uint8_t *card, size_t card_length, uint32_t feeder, uint32_t fed, uint8_t *feeders,
                  size_t feeders_length, uint32_t *cuts, size_t cuts_length, uint32_t *reason, uint32_t *by,
                  uint32_t *rival, uint32_t *outcome, uint32_t *total, uint32_t *pairs);

// The plan of a card with that link taken out of the remaining ones (see feed_look). A pin keeps the other links out
// all the same, so without a pinned link there is no feed tree.
// Writes `feeders`, `cuts`, `outcome`, `total` and `pairs` of that plan, as feed_look does.
// The state of a link in a look follows from both plans, with it (feed_why) and without it. The bound is the budget, or
// the cheapest total where that is more: the smaller of the two plans' totals, or that of the one which has a tree. The
// link is closed where it is banned, has a rival, or its own plan has no tree or a total above the bound; else it is
// open where the plan without it has a total within the bound, and sure where that has none or one above it.
// Answers: the card's answers, FEED_NO_POSITION, FEED_NO_SUCH_LINK, FEED_BUFFER_SHORT (n bytes, FEED_CUT_WORDS words).
uint32_t feed_plan_without(const uint8_t *card, size_t card_length, uint32_t feeder, uint32_t fed, uint8_t *feeders,
                           size_t feeders_length, uint32_t *cuts, size_t cuts_length, uint32_t *outcome,
                           uint32_t *total, uint32_t *pairs);

// PRICE LISTS
// A price list is text, a line for each link: feeder, space, fed position, space, pence, line feed, as in "0 1 10"; the
// numbers are decimal, with no needless leading zero. The word `line` is always written: the number of the faulty line,
// from 1, or 0 where no line is at fault.

// Reads a list for n = `positions` positions.
// Writes the first n * n words of `prices`, feeder by feeder, FEED_NO_LINK where no line names a link; and `line`.
// Answers: FEED_BAD_COUNT, FEED_BAD_CONSOLE, FEED_BUFFER_SHORT (n * n words), and by the first faulty line THE LINE'S
// ANSWERS: FEED_BAD_LINE, FEED_LINE_NO_POSITION, FEED_LINE_NO_LINK, FEED_PRICE_TOO_HIGH, FEED_NAMED_BEFORE.
uint32_t feed_read_prices(const uint8_t *text, size_t text_length, uint32_t positions, uint32_t console,
                          uint32_t *prices, size_t prices_length, size_t *line);

// The list of n * n prices, by feeder, then fed position; places that can never be a link, whatever they hold, and
// those with FEED_NO_LINK are passed over.
// Writes the first *length bytes of `out`, with no 0 behind them, and `length`.
// Answers: FEED_BAD_COUNT, FEED_BAD_CONSOLE, FEED_BUFFER_SHORT (n * n prices), FEED_PRICE_TOO_HIGH, FEED_BUFFER_SHORT.
uint32_t feed_write_prices(const uint32_t *prices, size_t prices_length, uint32_t positions, uint32_t console,
                           uint8_t *out, size_t out_length, size_t *length);

// The plain card of a list, with every mark free.
// Writes the first *length bytes of `out`, at most FEED_MAX_PLAIN_CARD, `length`, and `line`.
// Answers: FEED_BAD_COUNT, FEED_BAD_CONSOLE, FEED_BAD_CARD_BUDGET, the line's answers, FEED_BUFFER_SHORT.
uint32_t feed_card_from_prices(const uint8_t *text, size_t text_length, uint32_t positions, uint32_t console,
                               uint32_t budget, uint8_t *out, size_t out_length, size_t *length, size_t *line);

// The price list of a card. Marks and records are not in it.
// Writes the first *length bytes of `out`, with no 0 behind them, and `length`.
// Answers: the card's answers, FEED_BUFFER_SHORT.
uint32_t feed_prices_from_card(const uint8_t *card, size_t card_length, uint8_t *out, size_t out_length,
                               size_t *length);

// The school's own list merged with the shipped one: a feeder that a line of the school's list names gets its links
// from there and no other, every other feeder has the shipped list's.
// Writes the first *length bytes of `out`, with no 0 behind them, and `length`; and always `line` and `list`: 1 where
// the school's list is refused (also by FEED_BAD_COUNT and FEED_BAD_CONSOLE, with line 0), 2 where the shipped one is,
// else 0.
// Answers: FEED_BAD_COUNT, FEED_BAD_CONSOLE, the line's answers of the school's list, then of the shipped one,
// FEED_BUFFER_SHORT.
uint32_t feed_merge_lists(const uint8_t *school, size_t school_length, const uint8_t *shipped, size_t shipped_length,
                          uint32_t positions, uint32_t console, uint8_t *out, size_t out_length, size_t *length,
                          uint32_t *list, size_t *line);

// The row of prices that is used for a feeder, of two lists of n * n prices: the school's where one of its n numbers is
// not FEED_NO_LINK, and else the shipped one's. Nothing is copied: the row is the n numbers from
// (*own ? school : shipped) + *place on.
// Writes `own`, 1 for the school's list and 0 for the shipped one, and `place`.
// Answers: FEED_COUNT_OUT_OF_RANGE, FEED_NO_POSITION, FEED_BUFFER_SHORT (either list), FEED_OUT_OF_RANGE (a number of
// the row that is used).
uint32_t feed_row_used(const uint32_t *school, size_t school_length, const uint32_t *shipped, size_t shipped_length,
                       uint32_t positions, uint32_t feeder, uint32_t *own, size_t *place);

// PASSIVE RUNS
// A hall whose cable has one price both ways, with no console: n * n prices and marks, equal both ways; the places on
// the diagonal are not looked at. The budget is any number.
// Writes the first n * n bytes of `states` (enum feed_state) and words of `replacements` (what a cheapest tree without
// the run costs more, FEED_NO_REPLACEMENT or FEED_NOT_IN_TREE), both ways alike, and the words `outcome` (enum
// feed_outcome) and `total`.
// Answers: FEED_COUNT_OUT_OF_RANGE, FEED_BUFFER_SHORT (any of the four), and by the first faulty place
// FEED_OUT_OF_RANGE, FEED_UNEQUAL_PAIR.
uint32_t feed_plan_runs(const uint32_t *prices, size_t prices_length, const uint8_t *marks, size_t marks_length,
                        uint32_t positions, uint32_t budget, uint8_t *states, size_t states_length,
                        uint32_t *replacements, size_t replacements_length, uint32_t *outcome, uint32_t *total);

#ifdef __cplusplus
}
#endif

#endif
