// Hands every function of the library empty, short, exact, longer and huge buffers, and cards, price lists, halls,
// plans and presses that are sound, damaged or any bytes (library_inputs.h). After a refusal all that was lent must be
// as it was, but for the words that say where a price list is faulty; after acceptance all but what the header names.
// What is lent lies at a page that can be neither read nor written, by turns behind it and in front of it, with a zone
// of known bytes on its other side. Each call is made twice, in buffers of different lengths and contents, and must
// write the same. Every answer that the header names for a function must be met, and no other (check_library.sh holds
// the answers of library_calls.h to the header). Then, for each function, a change of each kind is planted in each
// thing that it was lent, and must be noticed.
//
// Arguments: example cards, each with its text beside it as NAME.txt. Prints one line, and exits with 1 where something
// is not as it should be.
#define _DEFAULT_SOURCE
#include "library_lent.h"

#include <signal.h>

enum { ROUNDS = 500, PLANTED_ROUNDS = 500, TURN = 60 };

// What is changed after a call, to see that it is noticed: nothing, the zone in front or at the end, or a byte behind
// what is written or within it.
enum plant { NOTHING, IN_FRONT, AT_END, BEHIND, WITHIN };
static const char *const PLANTS[] = {"", "in front", "at the end", "behind what is written", "within it"};

// What a function wrote with room enough.
static struct {
    uint32_t answer;
    uint8_t bytes[MAX_LENT][4 * CELLS + 4 * FEED_MAX_CARD];
    size_t length[MAX_LENT];
} roomy;

static enum plant planted;
static size_t planted_at;
static int is_planted, is_noticed;
static unsigned faults, calls, accepted;
static uint64_t seen[FUNCTION_COUNT];

static const char *called = "";

static void fault(const struct function *f, const char *what, size_t k) {
    if (is_planted) {
        is_noticed = 1;
        return;
    }
    faults++;
    fprintf(stderr, "%s: %s: %zu of '%s'\n", f->name, what, k, f->lent);
}

static void stop(int signal) {
    fprintf(stderr, "%s: it reads or writes outside what it is lent (signal %d)\n", called, signal);
    _exit(1);
}

static size_t positions_of(const struct function *f, const struct call *c) {
    uint32_t n = f->numbers[0] == 'n' ? c->numbers[0] : c->bytes[0] < 3 ? 0 : head_of(c->at[0]) >> 5;
    return n <= FEED_MAX_POSITIONS ? n : 0;
}

// The bytes that something lent has to have; of what is written, those that an accepted call may change.
static size_t needed(const struct function *f, const struct call *c, size_t k) {
    size_t n = positions_of(f, c), word = size_of_word(f->lent[k]);
    switch (f->lent[k]) {
    case 'P': case 'p': case 'R': return 4 * n * n;
    case 'M': case 'm': case 's': return n * n;
    case 'd': case 'F': return n;
    case 'u': return 4 * FEED_CUT_WORDS;
    case 'a': case 'f': return 4 * c->bytes[1];
    case 'C': return 8 * (size_t)c->numbers[1];
    case 'x': return FEED_MAX_TEXT;
    case 'o': case 'T': return roomy.length[k];
    default: return word;
    }
}

static size_t written(const struct function *f, const struct call *c, uint32_t answer, size_t k) {
    char letter = f->lent[k];
    if (answer != FEED_ACCEPTED) return letter == 'W' || letter == 'Z' ? size_of_word(letter) : 0;
    if (is_read(letter)) return 0;
    if (letter == 'T') return word_at(c->at[3], 0) * positions_of(f, c);
    const char *reason = strchr(f->lent, 'y');
    if (reason && strchr("du", letter) && word_at(c->at[reason - f->lent], 0) != FEED_REASON_PRICED) return 0;
    if (letter != 'o' && letter != 'x') return needed(f, c, k);
    size_t length;
    memcpy(&length, c->at[k + 1], sizeof length);
    return length;
}

static int is_short(const struct function *f, const struct call *c) {
    for (size_t k = 0; f->lent[k]; k++) {
        if (f->lent[k] != 'T' && c->bytes[k] < needed(f, c, k)) return 1;
    }
    return 0;
}

// Whether a call that was made again in other buffers wrote what the first one did: a list of trees goes by its room.
static int is_again(const struct function *f, const struct call *c, uint32_t answer) {
    const char *trees = strchr(f->lent, 'T');
    size_t k = trees ? (size_t)(trees - f->lent) : 0;
    return answer == roomy.answer && !is_short(f, c) && (!trees || written(f, c, answer, k) == roomy.length[k]);
}

// What is within what is written can be told only where the first call wrote the same.
static void plant_change(const struct function *f, const struct call *c, uint32_t answer) {
    size_t k = planted_at, changed = written(f, c, answer, k);
    uint8_t *byte = NULL;
    if (planted == IN_FRONT && is_at_end) byte = c->at[k] - 1;
    if (planted == AT_END && !is_at_end) byte = c->at[k] + c->bytes[k];
    if (planted == BEHIND && changed < c->bytes[k]) byte = c->at[k] + changed;
    if (planted == WITHIN && changed > 0 && is_again(f, c, answer)) byte = c->at[k];
    is_planted = byte != NULL;
    if (byte) *byte ^= 1;
}

static void compare(const struct function *f, const struct call *c, uint32_t answer) {
    for (size_t k = 0; f->lent[k]; k++) {
        size_t changed = written(f, c, answer, k);
        if (changed > c->bytes[k]) {
            fault(f, "more was written than there is room for", k);
        } else if (!is_kept(c, k, changed)) {
            fault(f, "what must stay was changed", k);
        }
    }
}

// One call, with what it left held to what was there before.
static uint32_t make(const struct function *f, const struct call *c, int is_last) {
    called = f->name;
    uint32_t answer = f->make(c);
    called = "library_test";
    calls++;
    accepted += answer == FEED_ACCEPTED;
    if (planted != NOTHING && is_last) plant_change(f, c, answer);
    compare(f, c, answer);
    if (answer > 63 || !(f->answers & BIT(answer))) {
        fault(f, "an answer that the header does not name", answer);
    } else {
        seen[f - FUNCTIONS] |= BIT(answer);
    }
    return answer;
}

// A press that is taken back leaves the card that it was made on, as a history card.
static void take_back(const struct function *f, const struct call *c) {
    static uint8_t back[FEED_MAX_CARD], first[FEED_MAX_CARD];
    size_t length = 0, expected = c->bytes[0];
    memcpy(first, c->at[0], expected);
    if (!is_history(first)) feed_to_history_card(c->at[0], c->bytes[0], first, sizeof first, &expected);
    if (feed_take_back(c->at[1], roomy.length[1], back, sizeof back, &length) != FEED_ACCEPTED || length != expected ||
        memcmp(back, first, length) != 0) {
        fault(f, "a press is not taken back", 0);
    }
}

static void make_roomy(const struct function *f) {
    size_t bytes[MAX_LENT];
    struct call c;
    memset(roomy.length, 0, sizeof roomy.length);
    for (size_t k = 0; f->lent[k]; k++) {
        size_t word = size_of_word(f->lent[k]), more = 4 * (size_t)below(3);
        bytes[k] = word ? word : 4 * CELLS + more;
        if (strchr("oTx", f->lent[k])) bytes[k] += 3 * FEED_MAX_CARD;
    }
    lend(f, &c, bytes);
    roomy.answer = make(f, &c, 0);
    for (size_t k = 0; f->lent[k]; k++) {
        roomy.length[k] = written(f, &c, roomy.answer, k);
        if (roomy.length[k] <= c.bytes[k]) memcpy(roomy.bytes[k], c.at[k], roomy.length[k]);
    }
    if (roomy.answer == FEED_BUFFER_SHORT && !is_short(f, &c)) fault(f, "nothing was too short", 0);
    if (roomy.answer == FEED_ACCEPTED && is_short(f, &c)) fault(f, "a list was too short", 0);
    const char *out = strchr(f->lent, 'o');
    if (!out || roomy.answer != FEED_ACCEPTED) return;
    size_t k = (size_t)(out - f->lent);
    if (f->numbers[0] && f->lent[0] == 'c') take_back(f, &c);
    if (feed_judge(c.at[k], roomy.length[k]) == FEED_ACCEPTED) keep_card(c.at[k], roomy.length[k]);
}

// The length of a buffer in the second call: one of them empty, one too short, exact, longer or huge, by turns.
static void tight_bytes(const struct function *f, size_t round, size_t *bytes) {
    size_t buffers = 0, k, chosen = 0;
    struct call c;
    memcpy(c.numbers, numbers, sizeof numbers);
    for (k = 0; f->lent[k]; k++) {
        c.at[k] = input[k];
        c.bytes[k] = input_bytes[k];
        buffers += !is_read(f->lent[k]) && !size_of_word(f->lent[k]);
    }
    for (k = 0; f->lent[k]; k++) {
        size_t element = strchr("PRau", f->lent[k]) ? 4 : 1, exact = needed(f, &c, k);
        bytes[k] = exact;
        if (is_read(f->lent[k]) || size_of_word(f->lent[k])) continue;
        if (chosen++ != round % buffers) continue;
        switch (round / buffers % 5) {
        case 0: bytes[k] = 0; break;
        case 1: bytes[k] -= exact ? element : 0; break;
        case 2: break;
        case 3: bytes[k] += element * (1 + below(50)); break;
        default: bytes[k] = HUGE_BYTES; break;
        }
    }
}

static void make_tight(const struct function *f, size_t round) {
    size_t bytes[MAX_LENT];
    struct call c;
    tight_bytes(f, round, bytes);
    lend(f, &c, bytes);
    uint32_t answer = make(f, &c, 1);
    if (is_short(f, &c)) {
        if (answer != FEED_BUFFER_SHORT && (answer == FEED_ACCEPTED || answer != roomy.answer)) {
            fault(f, "the answer is not that of a short buffer", answer);
        }
    } else if (answer != roomy.answer) {
        fault(f, "the answer is not that of a longer buffer", answer);
    } else if (is_again(f, &c, answer)) {
        for (size_t k = 0; f->lent[k]; k++) {
            if (memcmp(roomy.bytes[k], c.at[k], roomy.length[k]) != 0) fault(f, "not what was written before", k);
        }
    }
}

// Each length of each of up to four buffers has its turn at one end of the memory, then at the other.
static void try_function(const struct function *f, size_t round) {
    is_at_end = round / TURN % 2 != 0;
    draw(f);
    make_roomy(f);
    make_tight(f, round);
}

// Nothing is written within what is only read, and the words that every call writes have nothing behind that.
static int can_be_planted(char letter) {
    if (planted == WITHIN) return !is_read(letter);
    return planted != BEHIND || !strchr("WZ", letter);
}

// Calls a function until there was a place for the change, which must then be noticed. Whether there is one goes by
// what was drawn and written.
static int is_plant_noticed(const struct function *f) {
    is_noticed = 0;
    for (size_t round = 0; round < PLANTED_ROUNDS && !is_planted; round++) try_function(f, round * (TURN + 1));
    if (!is_noticed) {
        faults++;
        fprintf(stderr, "%s: a change %s, %zu of '%s', %s\n", f->name, PLANTS[planted], planted_at, f->lent,
                is_planted ? "was not noticed" : "could not be planted");
    }
    is_planted = 0;
    return is_noticed;
}

static unsigned plant_all(const struct function *f) {
    unsigned noticed = 0;
    for (planted_at = 0; f->lent[planted_at]; planted_at++) {
        for (planted = IN_FRONT; planted <= WITHIN; planted++) {
            if (can_be_planted(f->lent[planted_at])) noticed += (unsigned)is_plant_noticed(f);
        }
    }
    planted = NOTHING;
    return noticed;
}

static void read_card(const char *name) {
    static uint8_t card[FEED_MAX_CARD + 1], text[FEED_MAX_TEXT], expected[FEED_MAX_TEXT + 1];
    char beside[4096];
    size_t length, printed = 0, stem = strlen(name) - strlen(".card");
    FILE *file = fopen(name, "rb");
    if (!file || strlen(name) < strlen(".card") || stem >= sizeof beside - 8) fail("a card cannot be read");
    length = fread(card, 1, sizeof card, file);
    fclose(file);
    if (feed_judge(card, length) != FEED_ACCEPTED || kept_cards == CARDS / 2) fail("an example is no card");
    keep_card(card, length);
    kept_cards++;
    sprintf(beside, "%.*s.txt", (int)stem, name);
    file = fopen(beside, "rb");
    if (!file) fail("a card has no text beside it");
    length = fread(expected, 1, sizeof expected, file);
    fclose(file);
    if (feed_print(card, cards[card_count - 1].length, text, sizeof text, &printed) != FEED_ACCEPTED ||
        printed != length || memcmp(text, expected, length) != 0) {
        fprintf(stderr, "feed_print: not the text of %s\n", name);
        faults++;
    }
}

int main(int count, char **names) {
    unsigned noticed = 0, answers = 0;
    map_memory();
    signal(SIGSEGV, stop);
    for (int k = 1; k < count; k++) read_card(names[k]);
    if (kept_cards == 0) fail("name the example cards");
    for (size_t round = 0; round < ROUNDS; round++) {
        for (size_t k = 0; k < FUNCTION_COUNT; k++) try_function(&FUNCTIONS[k], round);
    }
    unsigned made = calls, taken = accepted;
    for (size_t k = 0; k < FUNCTION_COUNT; k++) {
        for (uint32_t answer = 0; answer < 64; answer++) {
            answers += (seen[k] & BIT(answer)) != 0;
            if (!(FUNCTIONS[k].answers & ~seen[k] & BIT(answer))) continue;
            fprintf(stderr, "%s: answer %u was never met\n", FUNCTIONS[k].name, answer);
            faults++;
        }
        noticed += plant_all(&FUNCTIONS[k]);
    }
    printf("%d functions, %u calls: %u accepted, %u refused; %u answers met; %u planted changes noticed\n",
           FUNCTION_COUNT, made, taken, made - taken, answers, noticed);
    return faults == 0 ? 0 : 1;
}
