#include "feed_planner.h"
#include <stdio.h>
int main(void) {
    const uint8_t card[] = {8, 0, 0, 0, 0x50, 0, 5, 0}; // two positions, a link of 5 pence, budget 5
    uint8_t next[FEED_MAX_CARD], text[FEED_MAX_TEXT];
    size_t length, printed;
    if (feed_pin(card, sizeof card, 0, 1, next, sizeof next, &length) != FEED_ACCEPTED) return 1;
    if (feed_print(next, length, text, sizeof text, &printed) != FEED_ACCEPTED) return 1;
    return fwrite(text, 1, printed, stdout) != printed;
}
