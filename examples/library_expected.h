// What library_cases.c expects: the sheets of document 01 and their cards, packed here bit by bit as documents 01 and
// 02 have them, and the comparisons with what the library wrote.
#ifndef LIBRARY_EXPECTED_H
#define LIBRARY_EXPECTED_H

#include "feed_planner.h"

#include <stdio.h>
#include <string.h>

enum { NONE = FEED_NO_LINK, SMALL = 4, UNTOUCHED = 0xEE };

// Up to four positions, the link from i to j at SMALL * i + j, whatever n is.
struct sheet {
    uint32_t n, console, budget, prices[SMALL * SMALL];
    uint8_t marks[SMALL * SMALL];
};

struct card {
    uint8_t bytes[400];
    size_t length, bits;
};

// All that a call can write, with no result in it before the call, so that what is not written is not taken for one.
static struct written {
    uint8_t bytes[FEED_MAX_PRICE_LIST], feeders[FEED_MAX_POSITIONS], states[FEED_MAX_STATES], marks[FEED_MAX_STATES];
    uint32_t prices[FEED_MAX_STATES], cuts[FEED_CUT_WORDS], answers[16], replacements[FEED_MAX_STATES];
    uint32_t outcome, total, pairs, positions, console, budget, stopped, ended, trees, tries, list, own;
    uint32_t reason, by, rival;
    size_t length, recorded, applied, line, place;
} out;

// How what is handed in and lent stands in a call.
#define CARD(c) (c).bytes, (c).length
#define LIST(words) words, sizeof words / sizeof *words
#define TEXT(text) (const uint8_t *)(text), strlen(text)
#define OUT out.bytes, sizeof out.bytes, &out.length

static unsigned agreeing, disagreeing;

static void expect(const char *name, int holds) {
    if (holds) {
        agreeing++;
    } else {
        disagreeing++;
        fprintf(stderr, "does not agree: %s\n", name);
    }
    memset(&out, UNTOUCHED, sizeof out);
}

// SHEETS AND CARDS
static struct sheet sheet_q(uint32_t budget) {
    struct sheet s = {4, 0, budget, {NONE, 10, 10, 8, NONE, NONE, 1, 4, NONE, 2, NONE, 9, NONE, 7, NONE, NONE}, {0}};
    return s;
}

static struct sheet marked(struct sheet s, uint32_t feeder, uint32_t fed, uint8_t mark) {
    s.marks[SMALL * feeder + fed] = mark;
    return s;
}

// Two positions and the one link that there can be, from the console to the other.
static struct sheet pair(uint32_t console, uint32_t price, uint32_t budget) {
    struct sheet s = {2, console, budget, {NONE, NONE, NONE, NONE, NONE, NONE}, {0}};
    s.prices[console == 0 ? 1 : SMALL] = price;
    return s;
}

static void put(struct card *c, uint32_t value, unsigned width) {
    for (; width > 0; c->bits++) {
        width--;
        c->bytes[c->bits / 8] |= (uint8_t)((value >> width & 1) << (7 - c->bits % 8));
    }
    c->length = (c->bits + 7) / 8;
}

static void put_sheet(struct card *c, const struct sheet *s) {
    put(c, s->n, 6);
    put(c, s->console, 5);
    put(c, s->budget, 25);
    for (uint32_t feeder = 0; feeder < s->n; feeder++) {
        for (uint32_t fed = 0; fed < s->n; fed++) {
            if (fed == feeder || fed == s->console) continue;
            put(c, s->prices[SMALL * feeder + fed], 20);
            put(c, s->marks[SMALL * feeder + fed], 2);
        }
    }
}

static struct card plain(struct sheet s) {
    struct card c = {{0}, 0, 0};
    put_sheet(&c, &s);
    return c;
}

// A history card that says how many records it has; they are put behind it.
static struct card history(struct sheet s, uint32_t records) {
    struct card c = {{0}, 0, 0};
    put(&c, 63, 6);
    put_sheet(&c, &s);
    put(&c, records, 8);
    return c;
}

static struct card with_link(struct card c, uint32_t feeder, uint32_t fed, uint32_t replaced) {
    put(&c, 0, 2);
    put(&c, feeder, 5);
    put(&c, fed, 5);
    put(&c, replaced, 2);
    return c;
}

static struct card with_budget(struct card c, uint32_t replaced) {
    put(&c, 1, 2);
    put(&c, replaced, 25);
    return c;
}

// Of two links: the marks that were replaced, that of the lower position first.
static struct card with_group(struct card c, uint32_t feeder, uint32_t set, uint32_t lower, uint32_t higher) {
    put(&c, 2, 2);
    put(&c, feeder, 5);
    put(&c, set, 32);
    put(&c, lower, 2);
    put(&c, higher, 2);
    return c;
}

// COMPARISONS
static int is_refused(uint32_t answer, uint32_t expected) {
    for (size_t k = 0; k < sizeof out; k++) {
        if (((const uint8_t *)&out)[k] != UNTOUCHED) return 0;
    }
    return answer == expected;
}

static int is_bytes(uint32_t answer, const void *expected, size_t length) {
    return answer == FEED_ACCEPTED && out.length == length && memcmp(out.bytes, expected, length) == 0 &&
           out.bytes[length] == UNTOUCHED;
}

static int is_card(uint32_t answer, struct card expected) { return is_bytes(answer, expected.bytes, expected.length); }

static int is_text(uint32_t answer, const char *expected) { return is_bytes(answer, expected, strlen(expected)); }

// The outcome with its tree; feeders as digits, '-' where there is none.
static int is_plan(uint32_t answer, uint32_t outcome, uint32_t total, const char *feeders) {
    size_t n = strlen(feeders);
    for (size_t k = 0; k < n; k++) {
        if (out.feeders[k] != (feeders[k] == '-' ? FEED_NO_FEEDER : feeders[k] - '0')) return 0;
    }
    return answer == FEED_ACCEPTED && out.outcome == outcome && out.total == total && out.feeders[n] == UNTOUCHED;
}

// States as digits, feeder by feeder.
static int is_states(const char *digits) {
    size_t count = strlen(digits);
    for (size_t k = 0; k < count; k++) {
        if (out.states[k] != digits[k] - '0') return 0;
    }
    return out.states[count] == UNTOUCHED;
}

static int is_remaining(const struct sheet *s, uint32_t feeder, uint32_t fed) {
    for (uint32_t other = 0; other < s->n; other++) {
        if (other != feeder && s->marks[SMALL * other + fed] == FEED_MARK_PINNED) return 0;
    }
    return s->prices[SMALL * feeder + fed] != NONE && s->marks[SMALL * feeder + fed] != FEED_MARK_BANNED;
}

static int is_charged_within(const struct sheet *s, uint32_t feeder, uint32_t fed) {
    uint32_t charged = 0;
    for (uint32_t k = 0; k < out.pairs; k++) {
        uint32_t set = out.cuts[2 * k];
        if ((set >> fed & 1) && !(set >> feeder & 1)) charged += out.cuts[2 * k + 1];
    }
    return !is_remaining(s, feeder, fed) || charged <= s->prices[SMALL * feeder + fed];
}

// Which cuts a look gives is free: what document 01 says of them is held to here.
static int is_proof(const struct sheet *s, uint32_t total) {
    uint32_t sum = 0, all = ((1u << s->n) - 1) & ~(1u << s->console);
    if (out.pairs > (s->n > 1 ? 2 * s->n - 3 : 0)) return 0;
    for (uint32_t k = 0; k < out.pairs; k++) {
        if (out.cuts[2 * k] == 0 || (out.cuts[2 * k] & ~all) || out.cuts[2 * k + 1] == 0) return 0;
        sum += out.cuts[2 * k + 1];
    }
    for (size_t k = 2 * (size_t)out.pairs; k < FEED_CUT_WORDS; k++) {
        if (out.cuts[k] != 0) return 0;
    }
    for (uint32_t k = 0; k < s->n * s->n; k++) {
        if (!is_charged_within(s, k / s->n, k % s->n)) return 0;
    }
    return sum == total;
}

static int is_no_entry(uint32_t set) {
    for (size_t k = 1; k < FEED_CUT_WORDS; k++) {
        if (out.cuts[k] != 0) return 0;
    }
    return out.pairs == 1 && out.cuts[0] == set;
}

static int is_words(const uint32_t *got, const uint32_t *expected, size_t count) {
    return memcmp(got, expected, count * sizeof *got) == 0;
}

#endif
