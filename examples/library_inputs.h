// What library_test.c hands to the library: cards, price lists, halls, plans and lists of presses, drawn at random from
// a fixed seed. Many are sound, most others have one thing changed, some are any bytes at all.
#ifndef LIBRARY_INPUTS_H
#define LIBRARY_INPUTS_H

#include "library_calls.h"

#include <stdio.h>
#include <string.h>

enum { HUGE_BYTES = 1 << 18, CARDS = 40, CELLS = FEED_MAX_POSITIONS * FEED_MAX_POSITIONS };

// The cards to draw from: the examples' stay, and behind them those that presses and moves have written.
static struct {
    uint8_t bytes[FEED_MAX_CARD];
    size_t length;
} cards[CARDS];
static size_t card_count, kept_cards;

// What the next call is handed, and the number of positions and the console of the card that it was made of.
static uint8_t input[MAX_LENT][HUGE_BYTES];
static size_t input_bytes[MAX_LENT];
static uint32_t numbers[MAX_NUMBERS], positions, console;

static uint64_t seed = UINT64_C(0x9E3779B97F4A7C15);

static uint64_t next_random(void) {
    seed ^= seed << 13;
    seed ^= seed >> 7;
    seed ^= seed << 17;
    return seed;
}

static uint32_t below(uint32_t bound) { return (uint32_t)((next_random() >> 11) % bound); }

static void fill(uint8_t *to, size_t bytes) {
    uint64_t random;
    for (; bytes >= sizeof random; bytes -= sizeof random, to += sizeof random) {
        random = next_random();
        memcpy(to, &random, sizeof random);
    }
    random = next_random();
    memcpy(to, &random, bytes);
}

// One draw a statement, so that every compiler draws in the same order.
static uint32_t any_number(void) {
    const uint32_t edges[] = {0, 1, 31, 32, 33, 63, FEED_NO_LINK, FEED_NO_LINK + 1, FEED_MAX_BUDGET + 1, UINT32_MAX};
    uint32_t random = below(UINT32_MAX), shift = below(42);
    return shift < 32 ? random >> shift : edges[shift - 32];
}

static void put_word(uint8_t *to, size_t k, uint32_t value) { memcpy(to + 4 * k, &value, sizeof value); }

static uint32_t word_at(const uint8_t *from, size_t k) {
    uint32_t value;
    memcpy(&value, from + 4 * k, sizeof value);
    return value;
}

static int is_history(const uint8_t *card) { return card[0] >> 2 == 63; }

// The positions (6 bits) and the console (5) of a card of at least 3 bytes, without the library.
static uint32_t head_of(const uint8_t *card) {
    uint32_t bits = (uint32_t)card[0] << 16 | (uint32_t)card[1] << 8 | card[2];
    return bits >> (is_history(card) ? 7 : 13) & 0x7FF;
}

static void keep_card(const uint8_t *card, size_t length) {
    size_t k = card_count < CARDS ? card_count++ : kept_cards + below((uint32_t)(CARDS - kept_cards));
    memcpy(cards[k].bytes, card, length);
    cards[k].length = length;
}

// Flips a bit of one of the last `among` bytes, or of all.
static void flip(uint8_t *bytes, size_t length, size_t among) {
    size_t back = below((uint32_t)(among < length ? among : length));
    bytes[length - 1 - back] ^= (uint8_t)(1u << below(8));
}

// Sets bits of a field of the card's front: those of the console, the budget or the first mark.
static void spoil(uint8_t *card) {
    const size_t fields[3][2] = {{6, 5}, {11, 25}, {56, 2}};
    size_t field = below(positions > 1 ? 3 : 2), start = fields[field][0] + (is_history(card) ? 6 : 0);
    for (size_t k = start; k < start + fields[field][1]; k++) card[k / 8] |= (uint8_t)(0x80u >> k % 8);
}

static size_t sound_card(uint8_t *to) {
    size_t k = below((uint32_t)card_count);
    memcpy(to, cards[k].bytes, cards[k].length);
    positions = head_of(to) >> 5;
    console = head_of(to) & 31;
    return cards[k].length;
}

static size_t draw_card(uint8_t *to) {
    size_t length = sound_card(to), more = 1 + below(40);
    switch (below(16)) {
    case 0: return 0;
    case 1: length = below(below(2) ? 8 : 6000); fill(to, length); return length;
    case 2: return below((uint32_t)length);
    case 3: return length - 1;
    case 4: memset(to + length, 0, more); return length + more;
    case 5: fill(to + length, HUGE_BYTES - length); return HUGE_BYTES;
    case 6: flip(to, length, length); break;
    case 7: flip(to, 5, 5); break;
    case 8: flip(to, length, 1); break;
    case 9: flip(to, length, 80); flip(to, length, 80); break;
    case 10: case 11: spoil(to); break;
    default: break;
    }
    return length;
}

// Lines behind a list: some that are none, and a great many.
static size_t add_lines(uint8_t *text, size_t length, size_t up_to) {
    do {
        uint32_t feeder = below(positions + 1), fed = below(positions + 1);
        uint32_t price = below(3) ? below(5000) : any_number();
        length += (size_t)sprintf((char *)text + length, "%u %u %u\n", feeder, fed, price);
    } while (length + 40 < up_to);
    return length;
}

// The price list of a card, or one with something changed.
static size_t draw_text(uint8_t *to) {
    static uint8_t card[FEED_MAX_CARD];
    size_t length = 0, card_length = sound_card(card);
    if (feed_prices_from_card(card, card_length, to, HUGE_BYTES, &length) != FEED_ACCEPTED) length = 0;
    switch (below(10)) {
    case 0: return 0;
    case 1: length = below(300); fill(to, length); return length;
    case 2: return length - (length > 0);
    case 3: fill(to + length, HUGE_BYTES - length); return HUGE_BYTES;
    case 4: return add_lines(to, length, HUGE_BYTES);
    case 5: if (length > 0) flip(to, length, length); return length;
    case 6: case 7: return add_lines(to, length, 0);
    default: return length;
    }
}

// Prices of a hall, equal both ways, some rows without any, and often one place changed; the marks are in `marks`, if
// that is not NULL.
static size_t draw_prices(uint8_t *to, uint8_t *marks) {
    uint32_t n = positions, empty = below(n + 1);
    for (uint32_t i = 0; i < n; i++) {
        for (uint32_t j = 0; j <= i; j++) {
            uint32_t price = i == empty || j == empty || below(4) == 0 ? FEED_NO_LINK : below(1000);
            put_word(to, i * n + j, price);
            put_word(to, j * n + i, price);
            uint32_t mark = price == FEED_NO_LINK || below(6) ? FEED_MARK_FREE : below(3);
            if (marks) marks[i * n + j] = marks[j * n + i] = (uint8_t)mark;
        }
    }
    uint32_t place = below(n * n);
    if (below(4) == 0) put_word(to, place, any_number());
    if (marks && below(4) == 0) marks[place] = (uint8_t)below(4);
    return 4 * (size_t)n * n;
}

// Kinds, and two numbers for each.
static void draw_presses(size_t first) {
    uint32_t count = below(below(4) ? 12 : 300);
    for (uint32_t k = 0; k < count; k++) {
        uint8_t kind = (uint8_t)(below(40) ? below(10) : below(256));
        int is_rare = kind == FEED_KIND_LOOK || kind == FEED_KIND_WRITE;
        input[first][k] = is_rare && below(8) ? FEED_KIND_TAKE_BACK : kind;
        put_word(input[first + 1], k, below(40) ? below(positions) : any_number());
        put_word(input[first + 2], k, below(40) ? below(positions + 1) : any_number());
    }
    input_bytes[first] = count;
    input_bytes[first + 1] = input_bytes[first + 2] = 4 * (size_t)count;
}

// The plan of a look at the card, with one thing changed more often than not.
static void draw_plan(void) {
    static uint8_t states[CELLS];
    static uint32_t cuts[FEED_CUT_WORDS];
    uint32_t outcome, total = 0, pairs = 0, changed = below(FEED_CUT_WORDS);
    fill(input[1], FEED_MAX_POSITIONS);
    feed_look(input[0], input_bytes[0], input[1], FEED_MAX_POSITIONS, states, CELLS, cuts, FEED_CUT_WORDS, &outcome,
              &total, &pairs);
    switch (below(8)) {
    case 0: input[1][below(FEED_MAX_POSITIONS)] ^= (uint8_t)(1 + below(3)); break;
    case 1: total += 1 + below(3); break;
    case 2: cuts[changed] ^= 1u << below(32); break;
    case 3: pairs += below(3) ? 1 : FEED_MAX_CUTS; break;
    case 4: cuts[1] += 1; break;
    case 5: cuts[1] -= cuts[1] > 0; break;
    default: break;
    }
    memcpy(input[2], cuts, sizeof cuts);
    numbers[0] = total;
    numbers[1] = pairs;
    input_bytes[1] = positions;
    input_bytes[2] = 8 * (size_t)pairs;
}

static uint32_t draw_number(char letter) {
    if (below(12) == 0) return any_number();
    uint32_t all = positions >= 32 ? UINT32_MAX : (1u << positions) - 1;
    switch (letter) {
    case 'n': return positions;
    case 'r': return console;
    case 'v': return below(positions + 1);
    case 'h': return below(UINT32_MAX) & all;
    case 'l': return 1 + below(below(50) ? 3000 : FEED_MAX_TRIES);
    default: return below(below(2) ? 60 : FEED_MAX_BUDGET);
    }
}

static void draw_input(const struct function *f, size_t k) {
    switch (f->lent[k]) {
    case 'c': input_bytes[k] = draw_card(input[k]); break;
    case 't': input_bytes[k] = draw_text(input[k]); break;
    case 'k': draw_presses(k); break;
    case 'F': draw_plan(); break;
    case 'p': input_bytes[k] = draw_prices(input[k], f->lent[k + 1] == 'm' ? input[k + 1] : NULL); break;
    case 'm': input_bytes[k] = (size_t)positions * positions; break;
    default: break;
    }
}

// All that a function reads. A list of words or bytes is sometimes shorter or longer than it should be.
static void draw(const struct function *f) {
    static uint8_t card[FEED_MAX_CARD];
    sound_card(card);
    for (size_t k = 0; f->lent[k]; k++) draw_input(f, k);
    for (size_t k = 0; f->numbers[k]; k++) {
        if (!strchr("tq", f->numbers[k])) numbers[k] = draw_number(f->numbers[k]);
    }
    for (size_t k = 0; f->lent[k]; k++) {
        size_t element = strchr("fpC", f->lent[k]) ? 4 : 1;
        if (!strchr("fpmFC", f->lent[k]) || below(4)) continue;
        switch (below(3)) {
        case 0: input_bytes[k] = 0; break;
        case 1: input_bytes[k] -= input_bytes[k] ? element : 0; break;
        default: input_bytes[k] += element * below(9); break;
        }
    }
}

#endif
