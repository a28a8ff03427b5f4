/* Writers, judge and reads at random: the number, every byte that may not change, and the guards. */
#include "test.h"

static lent frame, data, reply;

static size_t any_frame_len(void) { return below(4) ? 16 + below(40) : below(2) ? below(17) : 1480 + below(12); }

static int written(uint8_t expected, uint8_t got, size_t packed) {
    EXPECT("a writer's answer", expected, got);
    EXPECT("guards of the frame buffer", 1, guarded(&frame));
    EXPECT("guards of the data", 1, guarded(&data) && unchanged(&data));
    if (got != 0x02) {
        EXPECT("a refusal leaves the frame buffer", 1, unchanged(&frame));
        return 0;
    }
    for (size_t i = packed; i < frame.len; i++)
        EXPECT("zero behind the frame", 0, frame.area[GUARD + i]);
    return 0;
}

int writers(uint32_t calls) {
    while (calls--) {
        uint8_t counter = (uint8_t)below(9), flag = (uint8_t)below(3), *f = lend(&frame, any_frame_len());
        uint16_t index = (uint16_t)any();
        const uint8_t *d = lend(&data, below(6));
        int fits = 16 <= frame.len && frame.len <= 1486, counts = 1 <= counter && counter <= 7;
        uint8_t in_range = fits ? 0x02 : 0x16, flagged = counts && flag <= 1 ? in_range : 0x15;
        int failed;
        switch (below(4)) {
        case 0: failed = written(flagged, coe_upload_frame(counter, index, 1, flag, f, frame.len), 12); break;
        case 1: failed = written(flagged, coe_segment_frame(counter, flag, f, frame.len), 9); break;
        case 2:
            index %= 8;
            failed = written(counts && index <= 5 ? in_range : 0x15, coe_list_frame(counter, index, f, frame.len), 14);
            break;
        default:
            if (data.len < 1 || 4 < data.len)
                flagged = 0x15;
            failed = written(flagged, coe_download_frame(counter, index, 1, flag, d, data.len, f, frame.len), 12 + data.len);
        }
        if (failed)
            return 1;
    }
    return 0;
}

/* The bytes that the answer lets a judged reply write. */
static void chunk_of(uint8_t kind, uint32_t earlier, coe_answer a, size_t *from, size_t *to) {
    *from = kind == 1 ? 0 : earlier;
    *to = a.number == 0x00 ? a.length : a.number <= 0x02 ? *from + a.length : *from;
}

uint8_t *any_reply(lent *l);

/* An emergency: service 1 and a listed type, where no list is asked for. */
static int is_emergency(uint8_t kind, const uint8_t *r) {
    uint8_t type = r[5] & 15;
    return kind != 4 && kind != 8 && r[7] >> 4 == 1 && (type <= 5 || type == 15);
}

int told_as_sent(coe_answer a, const uint8_t *r) {
    uint64_t data = 0;
    if (a.number == 0x21) {
        EXPECT("an emergency's code", r[8] + 256 * r[9], a.code);
        EXPECT("its register", r[10], a.sub);
        for (int i = 15; 11 <= i; i--)
            data = 256 * data + r[i];
    }
    EXPECT("an emergency's data, and 0 beside any other number", data, a.data);
    return 0;
}

int judging(uint32_t calls) {
    static const uint8_t kinds[8] = {1, 1, 3, 7, 7, 4, 8, 0};
    while (calls--) {
        uint8_t kind = below(50) ? kinds[below(8)] : (uint8_t)any();
        uint8_t *d = lend(&data, below(100) ? below(64) : 131060 + below(20));
        const uint8_t *r = any_reply(&reply);
        uint32_t earlier = below(20) ? below(80) : (uint32_t)any();
        int known = kind == 1 || kind == 3 || kind == 4 || kind == 7 || kind == 8;
        coe_answer a = coe_judge(kind, 0x1018, 1, earlier, r, reply.len, d, data.len);
        size_t from, to;
        if (!known)
            EXPECT("an unknown kind", 0x15, a.number);
        else if (1486 < reply.len || 131070 < data.len)
            EXPECT("a length out of range", 0x16, a.number);
        else if (reply.len < (kind == 7 ? 9 : 12))
            EXPECT("too short a reply", 0x20, a.number);
        else if (is_emergency(kind, r))
            EXPECT("an emergency, or too short a one", reply.len < 16 ? 0x20 : 0x21, a.number);
        else
            EXPECT("judged: 00 to 02, 20, or 22 to 26", 1, a.number <= 0x02 || a.number == 0x20 || (0x22 <= a.number && a.number <= 0x26));
        if (told_as_sent(a, r))
            return 1;
        chunk_of(kind, earlier, a, &from, &to);
        EXPECT("only the chunk is written", 1, unchanged_but(&data, from, to));
        EXPECT("guards of the data buffer", 1, guarded(&data));
        EXPECT("the reply and its guards", 1, guarded(&reply) && unchanged(&reply));
    }
    return 0;
}

int reading(uint32_t calls) {
    while (calls--) {
        const uint8_t *p = lend(&data, below(14));
        uint32_t x = 0;
        for (size_t i = 0; i < 4 && i < data.len; i++)
            x |= (uint32_t)p[i] << 8 * i;
        EXPECT("u8", data.len < 1 ? 0x20 : 0, coe_read_u8(p, data.len).number);
        EXPECT("u8", x % 256, coe_read_u8(p, data.len).value);
        EXPECT("u16", data.len < 2 ? 0x20 : 0, coe_read_u16(p, data.len).number);
        EXPECT("u16", data.len < 2 ? 0 : x % 65536, coe_read_u16(p, data.len).value);
        EXPECT("u32", data.len < 4 ? 0x20 : 0, coe_read_u32(p, data.len).number);
        EXPECT("u32", data.len < 4 ? 0 : x, coe_read_u32(p, data.len).value);
        EXPECT("i8", data.len < 1 ? 0 : (int8_t)x, coe_read_i8(p, data.len).value);
        EXPECT("i16", data.len < 2 ? 0 : (int16_t)x, coe_read_i16(p, data.len).value);
        EXPECT("i32", data.len < 4 ? 0 : (int32_t)x, coe_read_i32(p, data.len).value);
        size_t at = below(10) ? below(16) : (size_t)any();
        int there = data.len % 2 == 0 && at < data.len && 2 <= data.len - at;
        coe_item item = coe_list_item(p, data.len, at);
        EXPECT("a list item", there ? 0 : 0x20, item.number);
        EXPECT("its index", there ? p[at] + 256 * p[at + 1] : 0, item.index);
        EXPECT("the next place", there ? at + 2 : at, item.next);
        EXPECT("quantities", data.len < 10 ? 0x20 : 0, coe_read_quantities(p, data.len).number);
        EXPECT("the payload and its guards", 1, guarded(&data) && unchanged(&data));
    }
    return 0;
}
