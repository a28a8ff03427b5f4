/* The record's size, and that the archive's fields lie where the header's size has room for them; an answer's bytes. */
#include "test.h"

/* As the crates transfer and desk declare it. */
typedef struct {
    struct {
        uint8_t seat;
        struct {
            struct {
                uint8_t kind, sub;
                uint16_t index;
                uint32_t value;
                uint8_t len;
                uint16_t budget;
            } order;
            uint8_t stage, toggle;
            uint16_t left;
            uint32_t sum;
        } transfer;
    } line[8];
    size_t waiting;
    uint8_t counter;
} declared;

_Static_assert(sizeof(coe_desk) == sizeof(declared), "the header's record has the size of the declared one");
_Static_assert(_Alignof(coe_desk) == _Alignof(declared), "and its alignment");
_Static_assert(sizeof(coe_answer) == 24 && sizeof(coe_unsigned) == 8 && sizeof(coe_signed) == 8, "answers are what crosses");
_Static_assert(sizeof(coe_item) == 16 && sizeof(coe_quantities) == 12, "answers are what crosses");
_Static_assert(offsetof(coe_answer, length) == 8 && offsetof(coe_answer, data) == 16, "bytes 12 to 15 of an answer are padding");

/* The answer in which most fields are not 0, an emergency's. What the padding holds is nobody's to ask. */
static int answer(void) {
    static const uint8_t reply[16] = {0x0a, 0, 0, 0, 0, 0x13, 0, 0x10, 0x10, 0x42, 0x08, 1, 2, 3, 4, 5};
    coe_answer a = coe_judge(1, 0x1018, 1, 0, reply, sizeof reply, NULL, 0);
    uint8_t bytes[sizeof a];
    memcpy(bytes, &a, sizeof a);
    EXPECT("number, sub, index, code and length", 0, memcmp(bytes, "\x21\x08\0\0\x10\x42\0\0\0\0\0\0", 12));
    EXPECT("data: the five bytes in their order", 0, memcmp(bytes + 16, "\1\2\3\4\5\0\0\0", 8));
    return 0;
}

static int record(void) {
    coe_desk desk;
    declared seen;
    memset(&desk, 0xff, sizeof desk);
    coe_desk_fresh(&desk);
    for (int i = 0; i < 8; i++) {
        uint8_t data[4] = {0x78, 0x56, 0x34, 0x12};
        EXPECT("enter", 0x01, coe_desk_enter_within(&desk, (uint8_t)(7 - i), 3, (uint16_t)(0x6060 + i), (uint8_t)i, data, 4, 9).number);
    }
    memcpy(&seen, &desk, sizeof seen);
    EXPECT("the line's length", 8, seen.waiting);
    EXPECT("the next counter", 1, seen.counter);
    for (int i = 0; i < 8; i++) {
        EXPECT("a seat", 7 - i, seen.line[i].seat);
        EXPECT("its kind", 3, seen.line[i].transfer.order.kind);
        EXPECT("its sub-index", i, seen.line[i].transfer.order.sub);
        EXPECT("its index", 0x6060 + i, seen.line[i].transfer.order.index);
        EXPECT("its value", 0x12345678, seen.line[i].transfer.order.value);
        EXPECT("its data length", 4, seen.line[i].transfer.order.len);
        EXPECT("its budget", 9, seen.line[i].transfer.order.budget);
        EXPECT("the replies left", 9, seen.line[i].transfer.left);
        EXPECT("the sum of its chunks", 0, seen.line[i].transfer.sum);
    }
    return 0;
}

int layout(void) { return record() || answer(); }
