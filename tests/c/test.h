/* What the tests share: a failed expectation in words, lent buffers between guard bytes, and numbers at random from a fixed seed. */
#ifndef TEST_H
#define TEST_H
#include "coe_desk.h"
#include <stdio.h>
#include <string.h>

/* Ends the test with a line that says what was expected, what came, and where. */
#define EXPECT(what, expected, got)                                                                                                  \
    do {                                                                                                                             \
        unsigned long long e_ = (unsigned long long)(expected), g_ = (unsigned long long)(got);                                      \
        if (e_ != g_) {                                                                                                              \
            printf("%s:%d: %s: expected %#llx, got %#llx\n", __FILE__, __LINE__, what, e_, g_);                                      \
            return 1;                                                                                                                \
        }                                                                                                                            \
    } while (0)

enum { GUARD = 64, MOST = 131200 };

/* The len bytes in the middle are lent; the guards stand directly before and behind them. */
typedef struct {
    uint8_t area[GUARD + MOST + GUARD];
    uint8_t was[MOST];
    size_t len;
} lent;

uint64_t any(void);
uint32_t below(uint32_t n);
uint8_t *lend(lent *l, size_t len);
int guarded(const lent *l);
int unchanged(const lent *l);
int unchanged_but(const lent *l, size_t from, size_t to);

/* That an answer to this reply has an emergency's values if it is one, and no data otherwise. */
int told_as_sent(coe_answer a, const uint8_t *reply);

int examples(void);
int layout(void);
int writers(uint32_t calls);
int judging(uint32_t calls);
int desk_calls(uint32_t calls);
int reading(uint32_t calls);
#endif
