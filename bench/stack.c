// The deepest stack of each function of the library, in bytes, by painting: a call runs on a stack of its own, whose
// bytes are all known before, and what holds the same still from the far end was not reached. Taken off is what a call
// of nothing takes. Each function is called on every card that is named (the examples'), on a card of nested cycles,
// whose planning is the deepest, on both with presses recorded, and with lists that are made of these cards. Prints a
// table, and exits with 1 where a call takes more than it may.
#define _XOPEN_SOURCE 700
#include "../examples/library_calls.h"

#include <stdio.h>
#include <stdlib.h>
#include <string.h>
#include <ucontext.h>

enum { STACK = 1 << 18, PAINT = 0xA5, LIMIT = 65536, ROOM = 16384, CELLS = 1024, LIST = 8, N = FEED_MAX_POSITIONS };

static uint8_t stack[STACK];
static ucontext_t outside, inside;
static const struct function *called;
static struct call handed;
static uint32_t answer;

// What is read, made of the card at hand.
static uint8_t card[FEED_MAX_CARD + 1], text[ROOM], feeders[N], marks[CELLS];
static size_t card_length, text_length;
static uint32_t prices[CELLS], cuts[FEED_CUT_WORDS], total, pairs;
static uint8_t kinds[LIST] = {FEED_KIND_PIN, FEED_KIND_BAN_GROUP, FEED_KIND_SET_BUDGET, FEED_KIND_TAKE_BACK,
                              FEED_KIND_CLEAR, FEED_KIND_LOOK, FEED_KIND_WRITE, FEED_KIND_BAN};
static uint32_t firsts[LIST], seconds[LIST] = {1, 2, 3, 4, 1, 0, 0, 2};

// What is written: 16 KiB for each.
static uint64_t room[MAX_LENT][ROOM / 8];

static uint32_t call_nothing(const struct call *c) {
    (void)c;
    return FEED_ACCEPTED;
}

static void fail(const char *what) {
    fprintf(stderr, "stack: %s\n", what);
    exit(2);
}

static void make_call(void) { answer = called->make(&handed); }

static size_t depth_of(const struct function *f) {
    size_t untouched = 0;
    called = f;
    memset(stack, PAINT, STACK);
    if (getcontext(&inside) != 0) fail("no context");
    inside.uc_stack.ss_sp = stack;
    inside.uc_stack.ss_size = STACK;
    inside.uc_link = &outside;
    makecontext(&inside, make_call, 0);
    swapcontext(&outside, &inside);
    while (untouched < STACK && stack[untouched] == PAINT) untouched++;
    return STACK - untouched;
}

static void hand(size_t k, void *at, size_t bytes) {
    handed.at[k] = at;
    handed.bytes[k] = bytes;
}

static void hand_all(const struct function *f, uint32_t first, uint32_t second) {
    int is_second = 0;
    for (size_t k = 0; f->lent[k]; k++) {
        switch (f->lent[k]) {
        case 'c': hand(k, card, card_length); break;
        case 't': hand(k, text, text_length); break;
        case 'p': hand(k, prices, sizeof prices); break;
        case 'm': hand(k, marks, sizeof marks); break;
        case 'k': hand(k, kinds, sizeof kinds); break;
        case 'f': hand(k, is_second ? seconds : firsts, sizeof firsts); is_second = 1; break;
        case 'F': hand(k, feeders, sizeof feeders); break;
        case 'C': hand(k, cuts, sizeof cuts); break;
        default: hand(k, room[k], ROOM); break;
        }
    }
    for (size_t k = 0; f->numbers[k]; k++) {
        switch (f->numbers[k]) {
        case 'n': handed.numbers[k] = N; break;
        case 'l': handed.numbers[k] = FEED_MAX_TRIES; break;
        case 'h': handed.numbers[k] = UINT32_MAX - 1; break;
        case 't': handed.numbers[k] = total; break;
        case 'q': handed.numbers[k] = pairs; break;
        default: handed.numbers[k] = k == 0 ? first : second; break;
        }
    }
}

// The deepest of some presses on the card at hand.
static size_t deepest_on(const struct function *f) {
    size_t deepest = 0;
    for (uint32_t first = 0; first < 2; first++) {
        for (uint32_t second = 0; second < 3; second++) {
            hand_all(f, first, second);
            size_t depth = depth_of(f);
            if (depth > deepest) deepest = depth;
            if (!f->numbers[0]) return deepest;
        }
    }
    return deepest;
}

// The price list and the plan of the card, and a hall with the paths of its prices.
static void take_card(const uint8_t *bytes, size_t length) {
    uint8_t states[CELLS];
    uint32_t outcome;
    memmove(card, bytes, length);
    card_length = length;
    if (feed_prices_from_card(card, length, text, ROOM, &text_length) != FEED_ACCEPTED) fail("it is no card");
    feed_look(card, length, feeders, N, states, CELLS, cuts, FEED_CUT_WORDS, &outcome, &total, &pairs);
    for (uint32_t k = 0; k < CELLS; k++) prices[k] = k / N > k % N ? (k / N - k % N) * 1000 : (k % N - k / N) * 1000;
}

// Each contraction takes in one position more, so that planning goes as deep as can be.
static void take_nested(void) {
    static uint32_t nested[CELLS];
    uint8_t made[FEED_MAX_PLAIN_CARD];
    size_t length, line, list = 0;
    for (uint32_t k = 0; k < CELLS; k++) {
        uint32_t feeder = k / N, fed = k % N;
        nested[k] = feeder == 0 ? 900000 : fed == 1 ? 100 * feeder : feeder + 1 == fed ? 1 : 500000;
    }
    if (feed_write_prices(nested, CELLS, N, 0, text, ROOM, &list) != FEED_ACCEPTED ||
        feed_card_from_prices(text, list, N, 0, 1000000, made, sizeof made, &length, &line) != FEED_ACCEPTED) {
        fail("no nested cycles");
    }
    take_card(made, length);
}

static void take_file(const char *name) {
    static uint8_t bytes[FEED_MAX_CARD];
    FILE *file = fopen(name, "rb");
    if (!file) fail("a card cannot be read");
    size_t length = fread(bytes, 1, sizeof bytes, file);
    fclose(file);
    take_card(bytes, length);
}

// The card after a press, or after one is taken back: either way one with records, where there is room for one more.
static void press_card(void) {
    static uint8_t next[FEED_MAX_CARD];
    size_t length;
    if (feed_set_budget(card, card_length, 20, next, sizeof next, &length) == FEED_ACCEPTED ||
        feed_take_back(card, card_length, next, sizeof next, &length) == FEED_ACCEPTED) {
        take_card(next, length);
    }
}

int main(int count, char **names) {
    const struct function nothing = {"nothing", call_nothing, "c", "", 1};
    size_t depths[FUNCTION_COUNT] = {0}, deepest = 0;
    for (int k = 0; k < count; k++) {
        if (k == 0) take_nested(); else take_file(names[k]);
        for (int is_pressed = 0; is_pressed < 2; is_pressed++) {
            if (is_pressed) press_card();
            size_t least = deepest_on(&nothing);
            for (size_t i = 0; i < FUNCTION_COUNT; i++) {
                size_t depth = deepest_on(&FUNCTIONS[i]) - least;
                if (depth > depths[i]) depths[i] = depth;
            }
        }
    }
    puts("| Function | Deepest stack, bytes |\n|---|---|");
    for (size_t i = 0; i < FUNCTION_COUNT; i++) {
        printf("| `%s` | %zu |\n", FUNCTIONS[i].name, depths[i]);
        if (depths[i] > deepest) deepest = depths[i];
    }
    printf("deepest stack of a call: %zu bytes; it may be %d\n", deepest, LIMIT);
    return deepest > LIMIT;
}
