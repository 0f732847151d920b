// A lesson at a console, by the library: opens a card, looks, pins the link from 2 to 1, looks, takes the pin back and
// looks again. Argument: a card, as examples/p1.card. console.rs is the same in Rust, and console.txt what both print.
#include "feed_planner.h"

#include <stdio.h>
#include <stdlib.h>

// A press reads one card and writes the next into another buffer, so there are two, by turns.
struct lesson {
    uint8_t cards[2][FEED_MAX_CARD];
    size_t length;
    unsigned now; // which of the two is the state
    uint32_t positions;
};

static const uint8_t *card(const struct lesson *l) { return l->cards[l->now]; }

static uint8_t *next_card(struct lesson *l) { return l->cards[1 - l->now]; }

static void fail(const char *what) {
    fprintf(stderr, "console: %s\n", what);
    exit(1);
}

static void read_card(struct lesson *l, const char *name) {
    FILE *file = fopen(name, "rb");
    if (!file) fail("the card cannot be read");
    l->length = fread(l->cards[0], 1, FEED_MAX_CARD, file);
    l->now = 0;
    fclose(file);
}

static void open_card(struct lesson *l) {
    uint32_t prices[FEED_MAX_STATES], console, budget;
    uint8_t marks[FEED_MAX_STATES];
    size_t recorded;
    if (feed_sheet(card(l), l->length, prices, FEED_MAX_STATES, marks, FEED_MAX_STATES, &l->positions, &console,
                   &budget, &recorded) != FEED_ACCEPTED) {
        fail("it is no card");
    }
    printf("positions %u console %u budget %u recorded %zu\n", (unsigned)l->positions, (unsigned)console,
           (unsigned)budget, recorded);
}

static void look(const struct lesson *l) {
    static const char *const outcomes[] = {"none", "plan", "over"};
    uint8_t feeders[FEED_MAX_POSITIONS], states[FEED_MAX_STATES];
    uint32_t cuts[FEED_CUT_WORDS], outcome, total, pairs, n = l->positions;
    if (feed_look(card(l), l->length, feeders, sizeof feeders, states, sizeof states, cuts, FEED_CUT_WORDS, &outcome,
                  &total, &pairs) != FEED_ACCEPTED) {
        fail("the look is refused");
    }
    printf("%s %u\n", outcomes[outcome], (unsigned)total);
    for (uint32_t fed = 0; fed < n; fed++) {
        if (feeders[fed] != FEED_NO_FEEDER) printf("feed %u from %u\n", (unsigned)fed, feeders[fed]);
    }
    for (uint32_t feeder = 0; feeder < n; feeder++) {
        printf("row %u ", (unsigned)feeder);
        for (uint32_t fed = 0; fed < n; fed++) putchar('0' + states[feeder * n + fed]);
        putchar('\n');
    }
}

// After a refused press the card before it is the state still, so a console would show the number and go on.
static void pressed(struct lesson *l, const char *press, uint32_t answer) {
    if (answer != FEED_ACCEPTED) {
        printf("%s: refused by %u\n", press, (unsigned)answer);
        return;
    }
    l->now = 1 - l->now;
    puts(press);
}

int main(int count, char **words) {
    static struct lesson lesson;
    struct lesson *l = &lesson;
    if (count != 2) fail("usage: console CARD");
    read_card(l, words[1]);
    open_card(l);
    look(l);
    pressed(l, "pin 2 to 1", feed_pin(card(l), l->length, 2, 1, next_card(l), FEED_MAX_CARD, &l->length));
    look(l);
    pressed(l, "take back", feed_take_back(card(l), l->length, next_card(l), FEED_MAX_CARD, &l->length));
    look(l);
    pressed(l, "take back", feed_take_back(card(l), l->length, next_card(l), FEED_MAX_CARD, &l->length));
    return 0;
}
