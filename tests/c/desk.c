/* The desk's calls at random, beside a small model of the line: who is refused and with which number, what a refusal leaves, and that
 * no guard byte changes. That each number of the table came up is part of the test. */
#include "test.h"

static struct {
    uint8_t before[GUARD];
    coe_desk desk;
    uint8_t behind[GUARD];
} held;
static lent frame, data, reply;

/* The model: the seats in line, and whether the head's reply is due. */
static uint8_t line[8];
static int waiting, reply_due;
static uint32_t seen[256];

static int place_of(uint8_t seat) {
    int i = 0;
    while (i < waiting && line[i] != seat)
        i++;
    return i;
}

static void take_out(int at) {
    for (int i = at; i + 1 < waiting; i++)
        line[i] = line[i + 1];
    waiting--;
    if (at == 0)
        reply_due = 0;
}

/* 10, 12, 13, 14: who may send, or receive. 0 where the seat may. */
static uint8_t refusal(uint8_t seat, int receives) {
    if (7 < seat)
        return 0x10;
    if (place_of(seat) == waiting)
        return 0x12;
    if (place_of(seat) != 0)
        return 0x13;
    return receives != reply_due ? 0x14 : 0;
}

/* A reply that may well be one to 0x1018:01, or to a list: most of its bytes are as they should be. An emergency has any from byte 8 on. */
uint8_t *any_reply(lent *l) {
    static const uint8_t commands[8] = {0x43, 0x4f, 0x40, 0x40, 0x60, 0x80, 0x00, 0x01};
    int list = below(3) == 0;
    uint8_t *r = lend(l, below(60) ? below(8) ? 9 + below(43) : below(20) : 1480 + below(12));
    uint8_t front[16] = {0, 0, 0, 0, 0, 3, 0, 0x30, 0, 0x18, 0x10, 1, 0, 0, 0, 0};
    front[0] = (uint8_t)below(32);
    front[7] = list ? 0x80 : below(20) ? 0x30 : 0x10;
    front[8] = list ? (uint8_t)(below(8) ? 2 | below(2) << 7 : any()) : commands[below(8)];
    front[12] = (uint8_t)below(80);
    if (below(12) == 0)
        front[below(16)] = (uint8_t)any();
    for (size_t i = 0; i < (front[7] >> 4 == 1 ? 8 : 16) && i < l->len; i++)
        r[i] = front[i];
    memcpy(l->was, r, l->len);
    return r;
}

static int entering(uint8_t seat, coe_answer *a) {
    static const uint8_t kinds[8] = {1, 1, 2, 3, 4, 4, 5, 6};
    uint8_t kind = below(10) ? kinds[below(8)] : (uint8_t)below(9), *d = lend(&data, below(6));
    uint16_t index = kind == 4 ? (uint16_t)below(7) : 0x1018, budget = (uint16_t)(below(4) ? below(6) : 65535);
    int download = kind == 3 || kind == 6, own = (int)below(4);
    int unfit = kind < 1 || 6 < kind || (own && budget == 0) || (download && (data.len < 1 || 4 < data.len))
                || (kind == 4 && (index < 1 || 5 < index));
    uint8_t expected = 7 < seat ? 0x10 : place_of(seat) < waiting ? 0x11 : unfit ? 0x15 : 0x01;
    *a = own ? coe_desk_enter_within(&held.desk, seat, kind, index, 1, d, data.len, budget)
             : coe_desk_enter(&held.desk, seat, kind, index, 1, d, data.len);
    EXPECT("enter", expected, a->number);
    if (expected == 0x01)
        line[waiting++] = seat;
    EXPECT("the data of an entry", 1, guarded(&data) && unchanged(&data));
    return 0;
}

static int sending(uint8_t seat, coe_answer *a) {
    uint8_t *f = lend(&frame, below(8) ? 16 + below(16) : below(2) ? below(17) : 1480 + below(12));
    uint8_t expected = refusal(seat, 0);
    if (expected == 0)
        expected = frame.len < 16 || 1486 < frame.len ? 0x16 : 0x02;
    *a = coe_desk_send(&held.desk, seat, f, frame.len);
    EXPECT("send", expected, a->number);
    if (expected == 0x02)
        reply_due = 1;
    EXPECT("guards of the frame buffer", 1, guarded(&frame));
    EXPECT("a refusal leaves the frame buffer", 1, expected == 0x02 || unchanged(&frame));
    return 0;
}

static int receiving(uint8_t seat, coe_answer *a) {
    uint8_t *d = lend(&data, below(200) ? below(100) : 131060 + below(20)), *r = any_reply(&reply);
    uint8_t expected = refusal(seat, 1);
    if (expected == 0 && (1486 < reply.len || 131070 < data.len))
        expected = 0x16;
    *a = coe_desk_receive(&held.desk, seat, r, reply.len, d, data.len);
    if (expected != 0)
        EXPECT("receive", expected, a->number);
    else
        EXPECT("judged: 00 to 02, or 20 to 27", 1, a->number <= 0x02 || (0x20 <= a->number && a->number <= 0x27));
    if (told_as_sent(*a, r))
        return 1;
    EXPECT("guards of the data buffer", 1, guarded(&data));
    EXPECT("the reply and its guards", 1, guarded(&reply) && unchanged(&reply));
    EXPECT("1x and 2x leave the data buffer", 1, a->number < 0x10 || unchanged(&data));
    if (expected == 0 && a->number == 0x01)
        reply_due = 0;
    else if (expected == 0 && a->number != 0x02)
        take_out(0);
    return 0;
}

static int leaving(uint8_t seat, coe_answer *a) {
    int at = place_of(seat);
    uint8_t expected = 7 < seat ? 0x10 : at == waiting ? 0x12 : 0x03;
    *a = coe_desk_leave(&held.desk, seat);
    EXPECT("leave", expected, a->number);
    if (expected == 0x03)
        take_out(at);
    return 0;
}

static int one_call(void) {
    coe_desk was = held.desk;
    coe_answer a;
    /* mostly the head, so that transfers go on; seats 8 and 9 are none */
    uint8_t seat = waiting && below(4) ? line[0] : (uint8_t)below(10);
    uint32_t call = below(16);
    if (call < 3 ? entering((uint8_t)below(10), &a) : call < 8 ? sending(seat, &a) : call < 15 ? receiving(seat, &a) : leaving(seat, &a))
        return 1;
    seen[a.number]++;
    EXPECT("data beside an emergency alone", 1, a.number == 0x21 || a.data == 0);
    EXPECT("a refusal leaves the record", 1, a.number >> 4 != 1 || memcmp(&was, &held.desk, sizeof was) == 0);
    for (size_t i = 0; i < GUARD; i++)
        EXPECT("guards of the record", 1, held.before[i] == 0x5a && held.behind[i] == 0x5a);
    return 0;
}

int desk_calls(uint32_t calls) {
    memset(&held, 0x5a, sizeof held);
    coe_desk_fresh(&held.desk);
    while (calls--)
        if (one_call()) {
            printf("with %u calls left\n", (unsigned)calls);
            return 1;
        }
    for (unsigned n = 0; n < 256; n++) {
        int in_table = n <= 0x03 || (0x10 <= n && n <= 0x16) || (0x20 <= n && n <= 0x27);
        if (in_table != (seen[n] != 0)) {
            printf("the number %#x came up %u times: the table's numbers all come up, and no other\n", n, (unsigned)seen[n]);
            return 1;
        }
    }
    return 0;
}
