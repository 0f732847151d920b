// The memory that library_test.c lends: each list, buffer and word lies at a page that can be neither read nor written,
// behind it or in front of it, and has a zone of known bytes on its other side.
#ifndef LIBRARY_LENT_H
#define LIBRARY_LENT_H

#include "library_inputs.h"

#include <stdlib.h>
#include <sys/mman.h>
#include <unistd.h>

enum { ZONE = 64 };

static struct {
    uint8_t *start, *end;
} memory[MAX_LENT];
static uint8_t before[MAX_LENT][HUGE_BYTES + ZONE];
static int is_at_end; // whether the page behind is the one that cannot be touched

static void fail(const char *what) {
    fprintf(stderr, "library_test: %s\n", what);
    exit(2);
}

static void map_memory(void) {
    size_t page = (size_t)sysconf(_SC_PAGESIZE), room = (HUGE_BYTES + ZONE + page - 1) / page * page;
    for (size_t k = 0; k < MAX_LENT; k++) {
        uint8_t *at = mmap(NULL, room + 2 * page, PROT_NONE, MAP_PRIVATE | MAP_ANONYMOUS, -1, 0);
        if (at == MAP_FAILED || mprotect(at + page, room, PROT_READ | PROT_WRITE) != 0) fail("no memory");
        memory[k].start = at + page;
        memory[k].end = at + page + room;
    }
}

static int is_read(char letter) { return strchr("ctpmkfFC", letter) != NULL; }

static size_t size_of_word(char letter) {
    if (strchr("wWy", letter)) return sizeof(uint32_t);
    return strchr("lzZ", letter) ? sizeof(size_t) : 0;
}

static uint8_t *low_end(const struct call *c, size_t k) { return is_at_end ? c->at[k] - ZONE : c->at[k]; }

static void lend(const struct function *f, struct call *c, const size_t *bytes) {
    is_at_end = !is_at_end;
    memcpy(c->numbers, numbers, sizeof numbers);
    for (size_t k = 0; f->lent[k]; k++) {
        c->bytes[k] = is_read(f->lent[k]) ? input_bytes[k] : bytes[k];
        c->at[k] = is_at_end ? memory[k].end - c->bytes[k] : memory[k].start;
        fill(low_end(c, k), c->bytes[k] + ZONE);
        if (is_read(f->lent[k])) memcpy(c->at[k], input[k], c->bytes[k]);
        memcpy(before[k], low_end(c, k), c->bytes[k] + ZONE);
    }
}

// Whether all but the first `changed` bytes of something lent, and its zone, is as it was.
static int is_kept(const struct call *c, size_t k, size_t changed) {
    size_t front = is_at_end ? ZONE : 0, behind = c->bytes[k] + ZONE - front - changed;
    return memcmp(before[k], low_end(c, k), front) == 0 &&
           memcmp(before[k] + front + changed, c->at[k] + changed, behind) == 0;
}

#endif
