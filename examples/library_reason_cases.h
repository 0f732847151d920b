// The cases of library_cases.c that ask why a link is closed, open or sure: sheet Q with budgets 16, 15 and 14, marks
// of the card and of recorded presses; and of every link of some sheets that its state in a look follows from the plans
// with it and without it, as the header says, and that feed_check_plan accepts these.
#ifndef LIBRARY_REASON_CASES_H
#define LIBRARY_REASON_CASES_H

#include "library_expected.h"

// With room for so many feeders and words of cuts.
static uint32_t why_within(struct card c, uint32_t feeder, uint32_t fed, size_t feeders, size_t words) {
    return feed_why(CARD(c), feeder, fed, out.feeders, feeders, out.cuts, words, &out.reason, &out.by, &out.rival,
                    &out.outcome, &out.total, &out.pairs);
}

static uint32_t without_within(struct card c, uint32_t feeder, uint32_t fed, size_t feeders, size_t words) {
    return feed_plan_without(CARD(c), feeder, fed, out.feeders, feeders, out.cuts, words, &out.outcome, &out.total,
                             &out.pairs);
}

static uint32_t why(struct card c, uint32_t feeder, uint32_t fed) {
    return why_within(c, feeder, fed, FEED_MAX_POSITIONS, FEED_CUT_WORDS);
}

static uint32_t without(struct card c, uint32_t feeder, uint32_t fed) {
    return without_within(c, feeder, fed, FEED_MAX_POSITIONS, FEED_CUT_WORDS);
}

// The sheet with the link as the only one into its position, and without it; its mark stays, for what a pin keeps out.
static struct sheet alone(struct sheet s, uint32_t feeder, uint32_t fed) {
    for (uint32_t other = 0; other < s.n; other++) {
        if (other == feeder) continue;
        s.prices[SMALL * other + fed] = NONE;
        s.marks[SMALL * other + fed] = FEED_MARK_FREE;
    }
    return s;
}

static struct sheet lacking(struct sheet s, uint32_t feeder, uint32_t fed) {
    s.prices[SMALL * feeder + fed] = NONE;
    return s;
}

// The six words are written, and nothing else.
static int is_marked(uint32_t answer, uint32_t reason, uint32_t by, uint32_t rival) {
    const uint32_t expected[] = {reason, by, rival, 0, 0, 0};
    uint32_t *const words[] = {&out.reason, &out.by, &out.rival, &out.outcome, &out.total, &out.pairs};
    for (size_t k = 0; k < 6; k++) {
        if (*words[k] != expected[k]) return 0;
        memset(words[k], UNTOUCHED, sizeof *words[k]);
    }
    return is_refused(answer, FEED_ACCEPTED);
}

static int is_priced(void) { return out.reason == FEED_REASON_PRICED && out.by == 0 && out.rival == 0; }

static int is_why(struct sheet s, uint32_t feeder, uint32_t fed, uint32_t outcome, uint32_t total,
                  const char *feeders) {
    struct sheet with = alone(s, feeder, fed);
    return is_plan(why(plain(s), feeder, fed), outcome, total, feeders) && is_priced() && is_proof(&with, total);
}

static int is_without(struct sheet s, uint32_t feeder, uint32_t fed, uint32_t outcome, uint32_t total,
                      const char *feeders) {
    struct sheet left = lacking(s, feeder, fed);
    return is_plan(without(plain(s), feeder, fed), outcome, total, feeders) && is_proof(&left, total);
}

// The records: 3 to 1 pinned, the budget set from 20 to 16, 2 to 1 pinned, 0 to 1 and 0 to 3 banned as a group. What
// came on the card: 2 to 3 banned.
static struct card recorded(void) {
    struct sheet s = marked(marked(sheet_q(16), 3, 1, FEED_MARK_PINNED), 2, 1, FEED_MARK_PINNED);
    s = marked(marked(marked(s, 0, 1, FEED_MARK_BANNED), 0, 3, FEED_MARK_BANNED), 2, 3, FEED_MARK_BANNED);
    struct card c = with_budget(with_link(history(s, 4), 3, 1, FEED_MARK_FREE), 20);
    return with_group(with_link(c, 2, 1, FEED_MARK_FREE), 0, 10, FEED_MARK_FREE, FEED_MARK_FREE);
}

static void why_cases(void) {
    struct sheet q = sheet_q(16), pinned = marked(q, 2, 1, FEED_MARK_PINNED);
    struct sheet ring = marked(pinned, 1, 2, FEED_MARK_PINNED), both = marked(pinned, 3, 1, FEED_MARK_PINNED);
    struct card p1 = plain(q), banned = plain(marked(pinned, 0, 1, FEED_MARK_BANNED));
    expect("feed_why: 0 to 1, P1", is_why(q, 0, 1, FEED_OUTCOME_PLAN, 15, "-011"));
    expect("feed_why: 2 to 1, P1", is_why(q, 2, 1, FEED_OUTCOME_PLAN, 16, "-201"));
    expect("feed_why: 3 to 1, P1", is_why(q, 3, 1, FEED_OUTCOME_PLAN, 16, "-310"));
    expect("feed_why: 2 to 3, P1", is_why(q, 2, 3, FEED_OUTCOME_OVER, 20, "-012"));
    expect("feed_why: 0 to 3, P3", is_why(sheet_q(15), 0, 3, FEED_OUTCOME_OVER, 16, "-310"));
    expect("feed_why: 1 to 3, P4", is_why(sheet_q(14), 1, 3, FEED_OUTCOME_OVER, 15, "-011"));
    expect("feed_why: banned on the card, whatever is pinned",
           is_marked(why(banned, 0, 1), FEED_REASON_BANNED, FEED_BY_CARD, 0));
    expect("feed_why: banned on the card, under records", is_marked(why(recorded(), 2, 3), FEED_REASON_BANNED, 0, 0));
    expect("feed_why: banned by press 4", is_marked(why(recorded(), 0, 3), FEED_REASON_BANNED, 4, 0));
    expect("feed_why: a rival on the card", is_marked(why(plain(pinned), 3, 1), FEED_REASON_RIVAL, FEED_BY_CARD, 2));
    expect("feed_why: the smaller of two rivals", is_marked(why(plain(both), 0, 1), FEED_REASON_RIVAL, 0, 2));
    expect("feed_why: a rival of a pinned link, by press 3",
           is_marked(why(recorded(), 3, 1), FEED_REASON_RIVAL, 3, 2));
    expect("feed_why: and the other way, by press 1", is_marked(why(recorded(), 2, 1), FEED_REASON_RIVAL, 1, 3));
    expect("feed_why: none, P7", is_plan(why(plain(ring), 2, 1), FEED_OUTCOME_NONE, 0, "----") && is_priced() &&
           is_no_entry(6));
    expect("feed_why: 2 to 4", is_refused(why(p1, 2, 4), FEED_NO_POSITION));
    expect("feed_why: 4 to 1, and no room", is_refused(why_within(p1, 4, 1, 0, 0), FEED_NO_POSITION));
    expect("feed_why: 3 to 2, and no room", is_refused(why_within(p1, 3, 2, 0, 0), FEED_NO_SUCH_LINK));
    expect("feed_why: 1 to 0", is_refused(why(p1, 1, 0), FEED_NO_SUCH_LINK));
    expect("feed_why: 3 feeders, banned", is_refused(why_within(banned, 0, 1, 3, 122), FEED_BUFFER_SHORT));
    expect("feed_why: 121 words", is_refused(why_within(p1, 0, 1, 4, 121), FEED_BUFFER_SHORT));
    p1.length = 29;
    expect("feed_why: 29 bytes", is_refused(why_within(p1, 4, 4, 0, 0), FEED_BAD_LENGTH));
}

static void without_cases(void) {
    struct sheet q = sheet_q(16), pinned = marked(q, 2, 1, FEED_MARK_PINNED), p9 = pair(0, 5, 5);
    struct card p1 = plain(q);
    expect("feed_plan_without: 0 to 1, P1", is_without(q, 0, 1, FEED_OUTCOME_PLAN, 16, "-201"));
    expect("feed_plan_without: 2 to 1, P1", is_without(q, 2, 1, FEED_OUTCOME_PLAN, 15, "-011"));
    expect("feed_plan_without: 1 to 3, P3", is_without(sheet_q(15), 1, 3, FEED_OUTCOME_OVER, 16, "-310"));
    expect("feed_plan_without: 3 to 1, P4", is_without(sheet_q(14), 3, 1, FEED_OUTCOME_OVER, 15, "-011"));
    expect("feed_plan_without: a banned link",
           is_without(marked(q, 0, 1, FEED_MARK_BANNED), 0, 1, FEED_OUTCOME_PLAN, 16, "-201"));
    expect("feed_plan_without: a link with a rival", is_without(pinned, 3, 1, FEED_OUTCOME_PLAN, 16, "-201"));
    expect("feed_plan_without: a pinned link", is_plan(without(plain(pinned), 2, 1), FEED_OUTCOME_NONE, 0, "----") &&
           is_no_entry(2));
    expect("feed_plan_without: P9", is_plan(without(plain(p9), 0, 1), FEED_OUTCOME_NONE, 0, "--") && is_no_entry(2));
    expect("feed_plan_without: 2 to 4", is_refused(without(p1, 2, 4), FEED_NO_POSITION));
    expect("feed_plan_without: 4 to 1, and no room", is_refused(without_within(p1, 4, 1, 0, 0), FEED_NO_POSITION));
    expect("feed_plan_without: 3 to 2, and no room", is_refused(without_within(p1, 3, 2, 0, 0), FEED_NO_SUCH_LINK));
    expect("feed_plan_without: 1 to 0", is_refused(without(p1, 1, 0), FEED_NO_SUCH_LINK));
    expect("feed_plan_without: 3 feeders", is_refused(without_within(p1, 0, 1, 3, 122), FEED_BUFFER_SHORT));
    expect("feed_plan_without: 121 words", is_refused(without_within(p1, 0, 1, 4, 121), FEED_BUFFER_SHORT));
    p1.length = 29;
    expect("feed_plan_without: 29 bytes", is_refused(without_within(p1, 4, 4, 0, 0), FEED_BAD_LENGTH));
}

// STATES: what was planned is accepted by whoever checks it, for the sheet that it is of
static int is_accepted(struct sheet s) {
    struct card c = plain(s);
    return feed_check_plan(CARD(c), out.feeders, s.n, out.total, out.pairs, LIST(out.cuts)) == FEED_ACCEPTED;
}

static uint32_t state_by_plans(struct sheet s, uint32_t feeder, uint32_t fed) {
    struct card c = plain(s);
    uint32_t bound, total;
    if (why(c, feeder, fed) != FEED_ACCEPTED || out.reason != FEED_REASON_PRICED) return FEED_STATE_CLOSED;
    if (out.outcome == FEED_OUTCOME_NONE) return FEED_STATE_CLOSED;
    if (!is_accepted(alone(s, feeder, fed))) return FEED_STATE_NO_LINK;
    total = bound = out.total;
    if (without(c, feeder, fed) != FEED_ACCEPTED) return FEED_STATE_NO_LINK;
    if (out.outcome != FEED_OUTCOME_NONE && !is_accepted(lacking(s, feeder, fed))) return FEED_STATE_NO_LINK;
    if (out.outcome != FEED_OUTCOME_NONE && out.total < bound) bound = out.total;
    if (bound < s.budget) bound = s.budget;
    if (total > bound) return FEED_STATE_CLOSED;
    return out.outcome != FEED_OUTCOME_NONE && out.total <= bound ? FEED_STATE_OPEN : FEED_STATE_SURE;
}

static int are_states(struct sheet s, const char *digits) {
    for (uint32_t k = 0; k < s.n * s.n; k++) {
        uint32_t feeder = k / s.n, fed = k % s.n;
        int is_link = s.prices[SMALL * feeder + fed] != NONE;
        if ((is_link ? state_by_plans(s, feeder, fed) : FEED_STATE_NO_LINK) != (uint32_t)(digits[k] - '0')) return 0;
    }
    return 1;
}

// The states that feed_look is held to in look_cases.
static void state_cases(void) {
    struct sheet q = sheet_q(16), pinned = marked(q, 2, 1, FEED_MARK_PINNED);
    expect("states by both plans: P1, P2", are_states(q, "0222002202010200"));
    expect("states by both plans: P3", are_states(sheet_q(15), "0311003301010100"));
    expect("states by both plans: P4", are_states(sheet_q(14), "0311003301010100"));
    expect("states by both plans: P5", are_states(pinned, "0131001303010100"));
    expect("states by both plans: P6", are_states(marked(q, 0, 1, FEED_MARK_BANNED), "0122002202010200"));
    expect("states by both plans: P7", are_states(marked(pinned, 1, 2, FEED_MARK_PINNED), "0111001101010100"));
    expect("states by both plans: P9", are_states(pair(0, 5, 5), "0300"));
    expect("states by both plans: P10", are_states(pair(0, 5, 4), "0300"));
}

#endif
