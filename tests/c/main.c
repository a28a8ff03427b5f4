/* Calls the archive from C. Each part prints what it found wrong and ends the program with status 1. */
#include "test.h"

static uint64_t state = 0x9e3779b97f4a7c15u;

uint64_t any(void) {
    state ^= state << 13;
    state ^= state >> 7;
    state ^= state << 17;
    return state;
}

uint32_t below(uint32_t n) { return (uint32_t)((any() >> 32) % n); }

static uint8_t guard_at(size_t i) { return (uint8_t)(0xa5 + 7 * i); }

uint8_t *lend(lent *l, size_t len) {
    uint8_t *bytes = l->area + GUARD;
    l->len = len;
    for (size_t i = 0; i < GUARD; i++) {
        l->area[i] = guard_at(i);
        bytes[len + i] = guard_at(i);
    }
    for (size_t i = 0; i < len; i++)
        bytes[i] = (uint8_t)any();
    memcpy(l->was, bytes, len);
    return bytes;
}

int guarded(const lent *l) {
    for (size_t i = 0; i < GUARD; i++)
        if (l->area[i] != guard_at(i) || l->area[GUARD + l->len + i] != guard_at(i))
            return 0;
    return 1;
}

int unchanged_but(const lent *l, size_t from, size_t to) {
    const uint8_t *bytes = l->area + GUARD;
    for (size_t i = 0; i < l->len; i++)
        if ((i < from || to <= i) && bytes[i] != l->was[i])
            return 0;
    return 1;
}

int unchanged(const lent *l) { return memcmp(l->area + GUARD, l->was, l->len) == 0; }

int main(void) {
    if (examples() || layout())
        return 1;
    if (writers(10000) || judging(20000) || desk_calls(100000) || reading(10000))
        return 1;
    printf("the C tests passed: the specification's examples, the record's layout, and 140000 calls at random\n");
    return 0;
}
