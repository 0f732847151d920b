// Fixed cases of every function of the library, with the values that documents 01 and 02 and README give: sheet Q and
// its outcomes, the lists, plans and runs of the requests. For each function there is a case in which feeder and fed
// position, and all words that are written, differ, so that none can stand for another. Prints 'N cases agree', and
// exits with 1 where one does not, naming each.
#include "library_price_cases.h"
#include "library_reason_cases.h"

#define LOOK                                                                                                        \
    out.feeders, FEED_MAX_POSITIONS, out.states, FEED_MAX_STATES, out.cuts, FEED_CUT_WORDS, &out.outcome, &out.total, \
        &out.pairs

static const char P1_TEXT[] = "positions 4 root 0 budget 16\nplan 15\nfeed 1 from 0 price 10\nfeed 2 from 1 price 1\n"
                              "feed 3 from 1 price 4\nrow 0 0222\nrow 1 0022\nrow 2 0201\nrow 3 0200\n";

static struct sheet q, q_pinned; // Q with budget 16 (P1), and the same with 2 to 1 pinned (P5)
static struct card p1, p1_history, pinned, p9;

static void make_cards(void) {
    q = sheet_q(16);
    q_pinned = marked(q, 2, 1, FEED_MARK_PINNED);
    p1 = plain(q);
    p1_history = history(q, 0);
    pinned = with_link(history(q_pinned, 1), 2, 1, FEED_MARK_FREE);
    p9 = plain(pair(0, 5, 5));
}

static uint32_t judged(struct card c, size_t at, uint8_t bits) {
    c.bytes[at] |= bits;
    return feed_judge(CARD(c));
}

static void judge_cases(void) {
    const uint8_t p9_bytes[] = {0x08, 0, 0, 0, 0x50, 0, 0x05, 0};
    struct card filled = pinned, longer = pinned;
    put(&filled, 3, 2);
    put(&longer, 1023, 10);
    expect("feed_judge: P9, as document 01 prints it", feed_judge(LIST(p9_bytes)) == FEED_ACCEPTED &&
           p9.length == sizeof p9_bytes && memcmp(p9.bytes, p9_bytes, sizeof p9_bytes) == 0);
    expect("feed_judge: P1", feed_judge(CARD(p1)) == FEED_ACCEPTED && p1.length == 30);
    expect("feed_judge: a history card", feed_judge(CARD(pinned)) == FEED_ACCEPTED);
    expect("feed_judge: 4 bytes", feed_judge(p1.bytes, 4) == FEED_CARD_SHORT);
    expect("feed_judge: 36 positions", judged(p1, 0, 0x80) == FEED_BAD_COUNT);
    expect("feed_judge: a byte too few", feed_judge(p1.bytes, 29) == FEED_BAD_LENGTH);
    expect("feed_judge: console 4", judged(p1, 1, 0x80) == FEED_BAD_CONSOLE);
    expect("feed_judge: the budget", judged(p1, 1, 0x1F) == FEED_BAD_CARD_BUDGET);
    expect("feed_judge: mark 3", judged(p1, 7, 0xC0) == FEED_BAD_MARK);
    expect("feed_judge: a filling bit", judged(p1, 29, 0x20) == FEED_BAD_FILLING);
    expect("feed_judge: 255 records", judged(p1_history, 30, 0xFF) == FEED_BAD_RECORD);
    expect("feed_judge: a record's end", judged(p1_history, 30, 1) == FEED_BAD_LENGTH);
    expect("feed_judge: record of kind 3", judged(pinned, 31, 0xC0) == FEED_BAD_RECORD);
    expect("feed_judge: filling bits behind a record", feed_judge(CARD(filled)) == FEED_BAD_FILLING);
    expect("feed_judge: a byte left over before them", feed_judge(CARD(longer)) == FEED_BAD_LENGTH);
    expect("feed_judge: a record of 2 to 0", judged(with_link(p1_history, 2, 0, 0), 30, 1) == FEED_BAD_RECORD);
}

static void card_cases(void) {
    expect("feed_write_card: P1", is_card(feed_write_card(CARD(p1), OUT), p1));
    expect("feed_write_card: records left out", is_card(feed_write_card(CARD(pinned), OUT), plain(q_pinned)));
    expect("feed_write_card: 29 bytes",
           is_refused(feed_write_card(CARD(p1), out.bytes, 29, &out.length), FEED_BUFFER_SHORT));
    expect("feed_to_history_card: P1", is_card(feed_to_history_card(CARD(p1), OUT), p1_history));
    expect("feed_to_history_card: a history card",
           is_refused(feed_to_history_card(CARD(p1_history), OUT), FEED_BAD_COUNT));
    expect("feed_to_plain_card: P1, and back", is_card(feed_to_plain_card(CARD(p1_history), OUT), p1));
    expect("feed_to_plain_card: a plain card", is_refused(feed_to_plain_card(CARD(p1), OUT), FEED_BAD_COUNT));
    expect("feed_to_plain_card: a record", is_refused(feed_to_plain_card(CARD(pinned), OUT), FEED_HAS_RECORDS));
}

static uint32_t sheet_of(struct card c, size_t places) {
    return feed_sheet(CARD(c), out.prices, places, out.marks, places, &out.positions, &out.console, &out.budget,
                      &out.recorded);
}

static int is_sheet(uint32_t answer, uint32_t n, uint32_t console, uint32_t budget, size_t recorded) {
    return answer == FEED_ACCEPTED && out.positions == n && out.console == console && out.budget == budget &&
           out.recorded == recorded && out.marks[n * n] == UNTOUCHED;
}

static void sheet_cases(void) {
    const uint32_t prices[] = {NONE, NONE, 5, NONE};
    expect("feed_sheet: P1 after a pin", is_sheet(sheet_of(pinned, 16), 4, 0, 16, 1) &&
           is_words(out.prices, q.prices, 16) && memcmp(out.marks, q_pinned.marks, 16) == 0);
    expect("feed_sheet: console 1", is_sheet(sheet_of(plain(pair(1, 5, 9)), FEED_MAX_STATES), 2, 1, 9, 0) &&
           is_words(out.prices, prices, 4) && memcmp(out.marks, (const uint8_t[4]){0}, 4) == 0);
    expect("feed_sheet: 15 places", is_refused(sheet_of(p1, 15), FEED_BUFFER_SHORT));
}

static void press_cases(void) {
    struct sheet banned = marked(q, 3, 1, FEED_MARK_BANNED), both = marked(q, 2, 1, FEED_MARK_BANNED);
    struct card replaced = with_link(with_link(history(q_pinned, 2), 2, 1, FEED_MARK_FREE), 2, 1, FEED_MARK_BANNED);
    expect("feed_pin: 2 to 1", is_card(feed_pin(CARD(p1), 2, 1, OUT), pinned));
    expect("feed_pin: 3 to 2", is_refused(feed_pin(CARD(p1), 3, 2, OUT), FEED_NO_SUCH_LINK));
    expect("feed_pin: 2 to 4", is_refused(feed_pin(CARD(p1), 2, 4, OUT), FEED_NO_POSITION));
    expect("feed_ban: 3 to 1", is_card(feed_ban(CARD(p1), 3, 1, OUT), with_link(history(banned, 1), 3, 1, 0)));
    expect("feed_ban: 3 to 2", is_refused(feed_ban(CARD(p1), 3, 2, OUT), FEED_NO_SUCH_LINK));
    expect("feed_clear: a pin", is_card(feed_clear(CARD(pinned), 2, 1, OUT),
           with_link(with_link(history(q, 2), 2, 1, FEED_MARK_FREE), 2, 1, FEED_MARK_PINNED)));
    expect("feed_clear: 1 to 0", is_refused(feed_clear(CARD(p1), 1, 0, OUT), FEED_NO_SUCH_LINK));
    expect("feed_set_budget: 20", is_card(feed_set_budget(CARD(p1), 20, OUT),
           with_budget(history(sheet_q(20), 1), 16)));
    expect("feed_set_budget: the greatest", is_card(feed_set_budget(CARD(p1), FEED_MAX_BUDGET, OUT),
           with_budget(history(sheet_q(32505794), 1), 16)));
    expect("feed_set_budget: above it", is_refused(feed_set_budget(CARD(p1), 32505795, OUT), FEED_BAD_BUDGET));
    expect("feed_take_back: a pin", is_card(feed_take_back(CARD(pinned), OUT), p1_history));
    expect("feed_take_back: a pin where a ban stood", is_card(feed_take_back(CARD(replaced), OUT),
           with_link(history(both, 1), 2, 1, FEED_MARK_FREE)));
    expect("feed_take_back: no record", is_refused(feed_take_back(CARD(p1), OUT), FEED_HISTORY_EMPTY));
}

// The console and the feeder itself are in the set 15 too, and are skipped.
static void group_cases(void) {
    struct sheet ones = marked(marked(q, 1, 2, FEED_MARK_PINNED), 1, 3, FEED_MARK_PINNED);
    struct sheet twos = marked(marked(q, 2, 1, FEED_MARK_BANNED), 2, 3, FEED_MARK_BANNED);
    struct card group = with_group(history(ones, 1), 1, 12, FEED_MARK_FREE, FEED_MARK_FREE);
    struct card after = with_group(with_link(history(twos, 2), 2, 1, 0), 2, 10, FEED_MARK_PINNED, FEED_MARK_FREE);
    struct card freed = with_group(with_link(history(q, 3), 2, 1, 0), 2, 10, FEED_MARK_PINNED, FEED_MARK_FREE);
    freed = with_group(freed, 2, 10, FEED_MARK_BANNED, FEED_MARK_BANNED);
    expect("feed_pin_group: of 1", is_card(feed_pin_group(CARD(p1), 1, 15, OUT), group));
    expect("feed_pin_group: position 4", is_refused(feed_pin_group(CARD(p1), 1, 28, OUT), FEED_NO_POSITION));
    expect("feed_ban_group: of 2, over a pin", is_card(feed_ban_group(CARD(pinned), 2, 15, OUT), after));
    expect("feed_ban_group: no member", is_refused(feed_ban_group(CARD(p1), 2, 0, OUT), FEED_NO_SUCH_LINK));
    expect("feed_clear_group: of 2", is_card(feed_clear_group(CARD(after), 2, 10, OUT), freed));
    expect("feed_clear_group: no link", is_refused(feed_clear_group(CARD(p1), 3, 13, OUT), FEED_NO_SUCH_LINK));
    expect("feed_take_back: a group, at once", is_card(feed_take_back(CARD(after), OUT), pinned));
    expect("feed_take_back: a cleared group", is_card(feed_take_back(CARD(freed), OUT), after));
}

static uint32_t press_list(struct card c, const uint8_t *kinds, size_t count, const uint32_t *firsts,
                           const uint32_t *seconds) {
    return feed_press_list(CARD(c), kinds, count, firsts, 3, seconds, 4, OUT, &out.applied, &out.stopped);
}

static void press_list_cases(void) {
    const uint8_t lesson[] = {FEED_KIND_PIN, FEED_KIND_SET_BUDGET, FEED_KIND_BAN_GROUP};
    const uint8_t refused[] = {FEED_KIND_PIN, FEED_KIND_BAN, FEED_KIND_TAKE_BACK};
    const uint8_t looking[] = {FEED_KIND_PIN, FEED_KIND_TAKE_BACK, FEED_KIND_LOOK};
    const uint32_t firsts[] = {2, 16, 0}, seconds[] = {1, 0, 10, 0}, feeders[] = {2, 3, 0}, feds[] = {1, 2, 0, 0};
    struct sheet end = marked(marked(q_pinned, 0, 1, FEED_MARK_BANNED), 0, 3, FEED_MARK_BANNED);
    struct card presses = with_budget(with_link(history(end, 3), 2, 1, FEED_MARK_FREE), 20);
    presses = with_group(presses, 0, 10, FEED_MARK_FREE, FEED_MARK_FREE);
    expect("feed_press_list: all", is_card(press_list(plain(sheet_q(20)), LIST(lesson), firsts, seconds), presses) &&
           out.applied == 3 && out.stopped == 0);
    expect("feed_press_list: no presses", is_card(press_list(p1, lesson, 0, firsts, seconds), p1_history) &&
           out.applied == 0 && out.stopped == 0);
    expect("feed_press_list: 3 to 2", is_card(press_list(p1, LIST(refused), feeders, feds), pinned) &&
           out.applied == 1 && out.stopped == FEED_NO_SUCH_LINK);
    expect("feed_press_list: a look", is_card(press_list(p1, LIST(looking), feeders, feds), p1_history) &&
           out.applied == 2 && out.stopped == FEED_NO_SUCH_PRESS);
    expect("feed_press_list: few numbers", is_refused(press_list(p1, refused, 4, feeders, feds), FEED_BUFFER_SHORT));
}

// "press 200 / press 201: accepted / 12"
static void full_cases(void) {
    uint8_t kinds[201] = {FEED_KIND_PIN};
    uint32_t firsts[201], seconds[201], answer;
    struct card full = with_link(history(q_pinned, 200), 2, 1, FEED_MARK_FREE);
    for (size_t k = 0; k < 201; k++) {
        firsts[k] = 2;
        seconds[k] = 1;
        if (k > 1) full = with_link(full, 2, 1, FEED_MARK_PINNED);
    }
    answer = feed_press_list(CARD(p1), LIST(kinds), LIST(firsts), LIST(seconds), OUT, &out.applied, &out.stopped);
    expect("feed_press_list: press 201", is_card(answer, full) && out.applied == 200 &&
           out.stopped == FEED_HISTORY_FULL);
    expect("feed_pin: press 201", is_refused(feed_pin(CARD(full), 0, 3, OUT), FEED_HISTORY_FULL));
    expect("feed_ban_group: press 201", is_refused(feed_ban_group(CARD(full), 0, 8, OUT), FEED_HISTORY_FULL));
    expect("feed_set_budget: press 201", is_refused(feed_set_budget(CARD(full), 9, OUT), FEED_HISTORY_FULL));
}

static int is_view(uint32_t answer, uint32_t outcome, uint32_t total, const char *feeders, const char *states) {
    return is_plan(answer, outcome, total, feeders) && is_states(states);
}

static int is_look(struct sheet s, uint32_t outcome, uint32_t total, const char *feeders, const char *states) {
    return is_view(feed_look(CARD(plain(s)), LOOK), outcome, total, feeders, states) && is_proof(&s, total);
}

static void look_cases(void) {
    struct sheet one = {1, 0, 0, {NONE}, {0}}, ring = marked(q_pinned, 1, 2, FEED_MARK_PINNED);
    struct sheet shut = marked(pair(0, 5, 5), 0, 1, FEED_MARK_BANNED);
    expect("feed_look: P1, P2", is_look(q, FEED_OUTCOME_PLAN, 15, "-011", "0222002202010200"));
    expect("feed_look: P3", is_look(sheet_q(15), FEED_OUTCOME_PLAN, 15, "-011", "0311003301010100"));
    expect("feed_look: P4", is_look(sheet_q(14), FEED_OUTCOME_OVER, 15, "-011", "0311003301010100"));
    expect("feed_look: P5", is_look(q_pinned, FEED_OUTCOME_PLAN, 16, "-201", "0131001303010100"));
    expect("feed_look: P6",
           is_look(marked(q, 0, 1, FEED_MARK_BANNED), FEED_OUTCOME_PLAN, 16, "-201", "0122002202010200"));
    expect("feed_look: P7", is_view(feed_look(CARD(plain(ring)), LOOK), FEED_OUTCOME_NONE, 0, "----",
           "0111001101010100") && is_no_entry(6));
    expect("feed_look: P8", is_look(one, FEED_OUTCOME_PLAN, 0, "-", "0"));
    expect("feed_look: P9", is_look(pair(0, 5, 5), FEED_OUTCOME_PLAN, 5, "-0", "0300"));
    expect("feed_look: P10", is_look(pair(0, 5, 4), FEED_OUTCOME_OVER, 5, "-0", "0300"));
    expect("feed_look: console 1", is_look(pair(1, 5, 9), FEED_OUTCOME_PLAN, 5, "1-", "0030"));
    expect("feed_look: the link banned", is_view(feed_look(CARD(plain(shut)), LOOK), FEED_OUTCOME_NONE, 0, "--",
           "0100") && is_no_entry(2));
    expect("feed_look: 29 bytes", is_refused(feed_look(p1.bytes, 29, LOOK), FEED_BAD_LENGTH));
    expect("feed_look: 15 states", is_refused(feed_look(CARD(p1), out.feeders, 4, out.states, 15, LIST(out.cuts),
           &out.outcome, &out.total, &out.pairs), FEED_BUFFER_SHORT));
}

static void replay_cases(void) {
    const uint8_t kinds[] = {FEED_KIND_TAKE_BACK, FEED_KIND_PIN, FEED_KIND_BAN, FEED_KIND_LOOK, FEED_KIND_CLEAR,
                             FEED_KIND_SET_BUDGET, FEED_KIND_WRITE, FEED_KIND_BAN_GROUP, FEED_KIND_TAKE_BACK, 255};
    const uint32_t firsts[] = {0, 2, 3, 0, 1, 32505795, 0, 0, 0, 0}, seconds[] = {0, 1, 2, 0, 4, 0, 0, 14, 0, 0};
    const uint32_t answers[] = {13, 0, 10, 0, 9, 11, 0, 0, 0, 0};
    uint32_t answer = feed_replay(CARD(p1), LIST(kinds), LIST(firsts), LIST(seconds), LIST(out.answers), LOOK);
    expect("feed_replay: ten calls", is_view(answer, FEED_OUTCOME_PLAN, 16, "-201", "0131001303010100") &&
           is_proof(&q_pinned, 16) && is_words(out.answers, answers, 10) && out.answers[10] == 0xEEEEEEEE);
    answer = feed_replay(CARD(plain(sheet_q(14))), kinds, 0, firsts, 0, seconds, 0, out.answers, 0, LOOK);
    expect("feed_replay: no call", is_view(answer, FEED_OUTCOME_OVER, 15, "-011", "0311003301010100") &&
           is_proof(&q, 15) && out.answers[0] == 0xEEEEEEEE);
    answer = feed_replay(CARD(p1), LIST(kinds), LIST(firsts), LIST(seconds), out.answers, 9, LOOK);
    expect("feed_replay: nine answers", is_refused(answer, FEED_BUFFER_SHORT));
}

static void print_cases(void) {
    expect("feed_print: P1", is_text(feed_print(CARD(p1), OUT), P1_TEXT));
    expect("feed_print: a refused card", is_text(feed_print(p1.bytes, 29, OUT), "refused 3\n"));
    expect("feed_print: 2,240 bytes", is_refused(feed_print(CARD(p1), out.bytes, 2240, &out.length),
           FEED_BUFFER_SHORT));
}

static uint32_t checked(const char *feeders, uint32_t total, uint32_t pairs, size_t at, uint32_t word) {
    uint32_t cuts[] = {2, 2, 4, 1, 8, 4, 6, 5, 14, 3}; // {1} 2, {2} 1, {3} 4, {1,2} 5, {1,2,3} 3, as document 01
    uint8_t bytes[] = {FEED_NO_FEEDER, 0, 0, 0};
    for (size_t k = 1; k < 4; k++) bytes[k] = (uint8_t)(feeders[k] - '0');
    cuts[at] = word;
    return feed_check_plan(CARD(p1), bytes, 4, total, pairs, LIST(cuts));
}

static void check_plan_cases(void) {
    uint32_t answer;
    expect("feed_check_plan: document 01's cuts", checked("-011", 15, 5, 0, 2) == FEED_ACCEPTED);
    expect("feed_check_plan: a ring", checked("-211", 15, 5, 0, 2) == FEED_NO_FEED_TREE);
    expect("feed_check_plan: total 16", checked("-011", 16, 5, 0, 2) == FEED_WRONG_TOTAL);
    expect("feed_check_plan: the console in a cut", checked("-011", 15, 5, 0, 3) == FEED_BAD_CUT);
    expect("feed_check_plan: 2 to 1 charged 3", checked("-011", 15, 5, 1, 3) == FEED_OVERCHARGED);
    expect("feed_check_plan: amounts of 14", checked("-011", 15, 5, 5, 3) == FEED_WRONG_AMOUNTS);
    expect("feed_check_plan: four of five cuts", checked("-011", 15, 4, 0, 2) == FEED_WRONG_AMOUNTS);
    expect("feed_check_plan: six pairs of five", checked("-011", 15, 6, 0, 2) == FEED_BUFFER_SHORT);
    answer = feed_look(CARD(p1), LOOK);
    expect("feed_check_plan: that of a look", answer == FEED_ACCEPTED &&
           feed_check_plan(CARD(p1), out.feeders, 4, 15, out.pairs, out.cuts, FEED_CUT_WORDS) == FEED_ACCEPTED &&
           feed_check_plan(CARD(p1), out.feeders, 4, 14, out.pairs, out.cuts, FEED_CUT_WORDS) == FEED_WRONG_TOTAL);
}

static int is_listing(struct card c, uint32_t limit, size_t room, uint32_t ended, uint32_t trees, uint32_t tries) {
    const uint8_t all[] = {255, 0, 1, 1, 255, 2, 0, 1, 255, 3, 1, 0};
    uint32_t answer = feed_list_plans(CARD(c), limit, out.bytes, room, &out.ended, &out.trees, &out.tries);
    size_t length = c.length == 5 ? 1 : 4 * (size_t)trees;
    return answer == FEED_ACCEPTED && out.ended == ended && out.trees == trees && out.tries == tries &&
           memcmp(out.bytes, all, length) == 0 && out.bytes[length] == UNTOUCHED;
}

static uint32_t limited(uint32_t limit) {
    return feed_list_plans(CARD(p1), limit, out.bytes, 12, &out.ended, &out.trees, &out.tries);
}

static void list_plans_cases(void) {
    struct sheet one = {1, 0, 0, {NONE}, {0}};
    expect("feed_list_plans: P1", is_listing(p1, FEED_MAX_TRIES, 12, FEED_ENDED_COMPLETE, 3, 24));
    expect("feed_list_plans: 24 tries", is_listing(p1, 24, 100, FEED_ENDED_COMPLETE, 3, 24));
    expect("feed_list_plans: 23 tries", is_listing(p1, 23, 100, FEED_ENDED_AT_LIMIT, 3, 23));
    expect("feed_list_plans: 11 bytes", is_listing(p1, 100, 11, FEED_ENDED_NO_ROOM, 2, 22));
    expect("feed_list_plans: over", is_listing(plain(sheet_q(14)), 100, 12, FEED_ENDED_COMPLETE, 0, 24));
    expect("feed_list_plans: P8", is_listing(plain(one), 1, 12, FEED_ENDED_COMPLETE, 1, 0));
    expect("feed_list_plans: limit 0", is_refused(limited(0), FEED_BAD_TRY_LIMIT));
    expect("feed_list_plans: limit 1,000,001", is_refused(limited(1000001), FEED_BAD_TRY_LIMIT));
}

int main(void) {
    memset(&out, UNTOUCHED, sizeof out);
    make_cards();
    judge_cases();
    card_cases();
    sheet_cases();
    press_cases();
    group_cases();
    press_list_cases();
    full_cases();
    look_cases();
    replay_cases();
    print_cases();
    check_plan_cases();
    list_plans_cases();
    why_cases();
    without_cases();
    state_cases();
    read_cases();
    write_cases();
    price_card_cases();
    merge_cases();
    row_cases();
    run_cases();
    if (disagreeing > 0) return 1;
    printf("%u cases agree\n", agreeing);
    return 0;
}
