/* The specification's examples, through C, and those of its requests [1] and [5]: a segment reply's data begin at byte 9, and an
 * emergency's code at byte 8. */
#include "test.h"

static uint8_t digit(char c) { return (uint8_t)(c <= '9' ? c - '0' : c - 'a' + 10); }

/* The bytes of lower-case hexadecimal text. */
static size_t bytes_of(const char *text, uint8_t *bytes) {
    size_t n = 0;
    for (; text[2 * n] != 0; n++)
        bytes[n] = (uint8_t)(16 * digit(text[2 * n]) + digit(text[2 * n + 1]));
    return n;
}

/* Whether the buffer begins with the text's bytes, and is 0 behind them. */
static int holds(const uint8_t *buffer, size_t len, const char *text) {
    uint8_t expected[1486] = {0};
    bytes_of(text, expected);
    return memcmp(buffer, expected, len) == 0;
}

static int frames(void) {
    uint8_t frame[20], data[1] = {0x08};
    EXPECT("complete upload 0x1018, counter 7", 0x02, coe_upload_frame(7, 0x1018, 0, 1, frame, 20));
    EXPECT("its bytes", 1, holds(frame, 20, "0a0000000073002050181001"));
    EXPECT("download 0x6060:0, byte 08, counter 2", 0x02, coe_download_frame(2, 0x6060, 0, 0, data, 1, frame, 20));
    EXPECT("its bytes", 1, holds(frame, 20, "0a000000002300202f60600008000000"));
    EXPECT("segment request, counter 3, toggle 1", 0x02, coe_segment_frame(3, 1, frame, 20));
    EXPECT("its bytes", 1, holds(frame, 20, "0a0000000033002070"));
    EXPECT("list kind 1, counter 1", 0x02, coe_list_frame(1, 1, frame, 20));
    EXPECT("its bytes", 1, holds(frame, 20, "0800000000130080010000000100"));
    EXPECT("15 before 16", 0x15, coe_upload_frame(8, 0x1018, 0, 1, frame, 15));
    return 0;
}

static coe_answer judged(uint8_t kind, uint32_t earlier, const char *text, uint8_t *data, size_t len) {
    uint8_t reply[64];
    size_t size = bytes_of(text, reply);
    return coe_judge(kind, 0x1018, 1, earlier, reply, size, data, len);
}

static int replies(void) {
    uint8_t data[64] = {0};
    EXPECT("an upload's reply of 11 bytes", 0x20, judged(1, 0, "0a00000000130030431810", data, 64).number);
    EXPECT("a download's", 0x20, judged(3, 0, "0a00000000130030601810", data, 64).number);
    EXPECT("a list's", 0x20, judged(4, 0, "0800000000130080020000", data, 64).number);
    EXPECT("a later one of a list", 0x20, judged(8, 0, "0800000000130080020000", data, 64).number);
    EXPECT("12 bytes with type 6", 0x20, judged(1, 0, "0a0000000016003043181001", data, 64).number);
    EXPECT("complete size N", 0x01, judged(1, 0, "0a000000001300304018100140000000", data, 64).number);
    EXPECT("complete size N + 1", 0x24, judged(1, 0, "0a000000001300304018100141000000", data, 64).number);
    coe_answer a = judged(7, 3, "0a000000001300300e00000000000000", data, 64);
    EXPECT("segment length 10, unused 7", 0x01, a.number);
    EXPECT("its chunk", 0, a.length);
    a = judged(7, 3, "0b000000001300300e0102030405060708", data, 64);
    EXPECT("segment length 11, unused 7", 0x01, a.number);
    EXPECT("its chunk", 8, a.length);
    EXPECT("where it lies", 0, memcmp(data, "\0\0\0\1\2\3\4\5\6\7\10\0", 12));
    EXPECT("segment length 2", 0x26, judged(7, 0, "020000000013003000", data, 64).number);
    a = judged(1, 9, "0a000000001300304e181001ff", data, 64);
    EXPECT("expedited, size 3, indicator clear", 0x00, a.number);
    EXPECT("its length", 1, a.length);
    EXPECT("at the start, whatever came earlier", 0xff, data[0]);
    a = judged(1, 0, "0a000000001300208018100100000206", data, 64);
    EXPECT("an abort", 0x22, a.number);
    EXPECT("its code", 0x06020000, a.code);
    EXPECT("its index", 0x1018, a.index);
    EXPECT("its sub-index", 1, a.sub);
    EXPECT("no data, which an emergency alone has", 0, a.data);
    return 0;
}

/* The drive's overtemperature message: code 0x4210, register 8 and the bytes 1 to 5. */
#define HOT "0a000000001300101042080102030405"

static int emergency(uint8_t kind) {
    uint8_t data[64] = {0}, untouched[64] = {0};
    coe_answer a = judged(kind, 0, HOT, data, 64);
    EXPECT("overtemperature", 0x21, a.number);
    EXPECT("its code", 0x4210, a.code);
    EXPECT("its register", 0x08, a.sub);
    EXPECT("its data, the first byte lowest", 0x0504030201, a.data);
    EXPECT("no index", 0, a.index);
    EXPECT("no length", 0, a.length);
    a = judged(kind, 0, "0a0000000013001010420801020304", data, 64);
    EXPECT("15 bytes", 0x20, a.number);
    EXPECT("and no data of it", 0, a.data);
    a = judged(kind, 0, "0a0000000013001080ff080102030405", data, 64);
    EXPECT("a code whose low byte has an abort's specifier", 0x21, a.number);
    EXPECT("the code", 0xff80, a.code);
    a = judged(kind, 0, "0a00000000130010e0ff080102030405", data, 64);
    EXPECT("a code whose low byte has an unlisted specifier", 0x21, a.number);
    EXPECT("the code", 0xffe0, a.code);
    a = judged(kind, 0, "0000000000130010104208fffefdfcfb5566778899", data, 64);
    EXPECT("a length field of 0, and bytes behind the data", 0x21, a.number);
    EXPECT("the data alone", 0xfbfcfdfeff, a.data);
    EXPECT("a listed type other than 3", 0x21, judged(kind, 0, "0a000000001400101042080102030405", data, 64).number);
    EXPECT("an unlisted type", 0x20, judged(kind, 0, "0a000000001600101042080102030405", data, 64).number);
    EXPECT("nothing is stored", 0, memcmp(data, untouched, 64));
    return 0;
}

static int emergencies(void) { return emergency(1) || emergency(3) || emergency(7); }

static int short_segments(void) {
    uint8_t data[64] = {0};
    EXPECT("a segment reply of 8 bytes", 0x20, judged(7, 0, "0300000000130030", data, 64).number);
    coe_answer a = judged(7, 3, "030000000013003000", data, 64);
    EXPECT("9 bytes, length 3", 0x01, a.number);
    EXPECT("its chunk", 0, a.length);
    a = judged(7, 0, "0a000000001300300b6162", data, 64);
    EXPECT("11 bytes of which two are used", 0x00, a.number);
    EXPECT("its length", 2, a.length);
    EXPECT("the two, and nothing behind them", 0, memcmp(data, "ab\0", 3));
    EXPECT("the second is not there", 0x25, judged(7, 0, "0a000000001300300b61", data, 64).number);
    EXPECT("an abort of 9 bytes", 0x20, judged(7, 0, "0a0000000013002080", data, 64).number);
    EXPECT("of 15 bytes", 0x20, judged(7, 0, "0a0000000013002080181001000002", data, 64).number);
    a = judged(7, 0, "0a000000001300208018100100000206", data, 64);
    EXPECT("of 16 bytes", 0x22, a.number);
    EXPECT("bytes 9 and 10 are its index", 0x1018, a.index);
    EXPECT("an emergency of 9 bytes", 0x20, judged(7, 0, "0a0000000013001010", data, 64).number);
    EXPECT("9 bytes with type 4", 0x23, judged(7, 0, "030000000014003000", data, 64).number);
    EXPECT("9 bytes with type 6", 0x20, judged(7, 0, "030000000016003000", data, 64).number);
    return 0;
}

static int lists(void) {
    uint8_t data[8] = {0};
    coe_answer a = judged(4, 0, "0a000000001300808200000001000010", data, 8);
    EXPECT("a first fragment, more to come", 0x02, a.number);
    EXPECT("the list has begun", 1, a.sub);
    EXPECT("its chunk", 2, a.length);
    a = judged(8, 2, "0a00000000130080020000001810", data, 8);
    EXPECT("the last fragment", 0x00, a.number);
    EXPECT("the payload's length", 4, a.length);
    coe_item item = coe_list_item(data, 4, 2);
    EXPECT("the second index", 0x1018, item.index);
    EXPECT("behind it", 4, item.next);
    item = coe_list_item(data, 4, item.next);
    EXPECT("the list's end", 0x20, item.number);
    EXPECT("a refusal leaves the position", 4, item.next);
    a = judged(8, 4, "0a00000000130010020000001810", data, 8);
    EXPECT("service 1 is no emergency in a list", 0x00, a.number);
    EXPECT("and has no data", 0, a.data);
    EXPECT("an unknown kind before an overlong buffer", 0x15, coe_judge(2, 0, 0, 0, NULL, 0, data, 131071).number);
    return 0;
}

static int values(void) {
    EXPECT("signed 16-bit ffff", -1, coe_read_i16((const uint8_t *)"\xff\xff", 2).value);
    EXPECT("signed 16-bit 0080", -32768, coe_read_i16((const uint8_t *)"\x00\x80", 2).value);
    EXPECT("a short payload", 0x20, coe_read_i16((const uint8_t *)"\x00", 1).number);
    coe_quantities q = coe_read_quantities((const uint8_t *)"\1\0\2\0\3\0\4\0\5\1", 10);
    EXPECT("quantities", 0x00, q.number);
    EXPECT("the first", 1, q.all);
    EXPECT("the second", 2, q.rx_pdo_mappable);
    EXPECT("the third", 3, q.tx_pdo_mappable);
    EXPECT("the fourth", 4, q.stored_for_device_replacement);
    EXPECT("the last", 0x105, q.startup_parameters);
    EXPECT("nine bytes", 0x20, coe_read_quantities((const uint8_t *)"\1\0\2\0\3\0\4\0\5", 9).number);
    return 0;
}

/* Eight frames: the eighth has counter 1 again. And the budget of 2: the first segment, not the last, is 27. */
static int turns(void) {
    coe_desk desk;
    uint8_t frame[16], data[64] = {0}, reply[64];
    size_t size;
    coe_desk_fresh(&desk);
    for (int i = 0; i < 8; i++) {
        EXPECT("enter", 0x01, coe_desk_enter(&desk, 5, 1, 0x1018, 1, NULL, 0).number);
        EXPECT("send", 0x02, coe_desk_send(&desk, 5, frame, 16).number);
        EXPECT("its counter", i % 7 + 1, frame[5] >> 4);
        EXPECT("leave", 0x03, coe_desk_leave(&desk, 5).number);
    }
    EXPECT("enter with budget 2", 0x01, coe_desk_enter_within(&desk, 0, 1, 0x1018, 1, NULL, 0, 2).number);
    EXPECT("send", 0x02, coe_desk_send(&desk, 0, frame, 16).number);
    size = bytes_of("0a000000001300304018100120000000", reply);
    EXPECT("segments follow", 0x01, coe_desk_receive(&desk, 0, reply, size, data, 64).number);
    EXPECT("send", 0x02, coe_desk_send(&desk, 0, frame, 16).number);
    size = bytes_of("0b00000000130030000102030405060708", reply);
    EXPECT("the budget is spent", 0x27, coe_desk_receive(&desk, 0, reply, size, data, 64).number);
    EXPECT("and nothing is stored", 0, data[0]);
    EXPECT("the seat is free", 0x12, coe_desk_leave(&desk, 0).number);
    return 0;
}

/* A drive's name of 18 bytes: segments of seven, and three bytes of the last unused. */
static int drive_name(void) {
    static const char *const replies_in_turn[4] = {"0a000000001300304108100012000000", "0a000000001300300041583531313220",
                                                   "0a0000000013003010736572766f2064", "0a000000001300300772697665000000"};
    coe_desk desk;
    coe_answer a;
    uint8_t frame[16], data[32] = {0}, reply[16];
    coe_desk_fresh(&desk);
    EXPECT("enter", 0x01, coe_desk_enter(&desk, 0, 1, 0x1008, 0, NULL, 0).number);
    for (int i = 0; i < 4; i++) {
        EXPECT("send", 0x02, coe_desk_send(&desk, 0, frame, 16).number);
        size_t size = bytes_of(replies_in_turn[i], reply);
        a = coe_desk_receive(&desk, 0, reply, size, data, sizeof data);
        EXPECT("receive", i < 3 ? 0x01 : 0x00, a.number);
    }
    EXPECT("its length", 18, a.length);
    EXPECT("the name without holes, and nothing behind it", 0, memcmp(data, "AX5112 servo drive\0\0\0", 21));
    return 0;
}

/* The drive grows too hot while its name comes in segments: the transfer is over, and the next one goes on. */
static int overtemperature(void) {
    coe_desk desk;
    uint8_t frame[16], data[32] = {0}, reply[16];
    coe_desk_fresh(&desk);
    EXPECT("enter", 0x01, coe_desk_enter(&desk, 0, 1, 0x1008, 0, NULL, 0).number);
    EXPECT("the next in line", 0x01, coe_desk_enter(&desk, 1, 1, 0x1018, 4, NULL, 0).number);
    EXPECT("send", 0x02, coe_desk_send(&desk, 0, frame, 16).number);
    bytes_of("0a000000001300304108100012000000", reply);
    EXPECT("segments follow", 0x01, coe_desk_receive(&desk, 0, reply, 16, data, sizeof data).number);
    EXPECT("send", 0x02, coe_desk_send(&desk, 0, frame, 16).number);
    bytes_of(HOT, reply);
    coe_answer a = coe_desk_receive(&desk, 0, reply, 16, data, sizeof data);
    EXPECT("the emergency", 0x21, a.number);
    EXPECT("its code", 0x4210, a.code);
    EXPECT("its register", 0x08, a.sub);
    EXPECT("its data", 0x0504030201, a.data);
    EXPECT("the seat is free", 0x12, coe_desk_leave(&desk, 0).number);
    EXPECT("the next one's request", 0x02, coe_desk_send(&desk, 1, frame, 16).number);
    bytes_of("0a000000001300304318100478563412", reply);
    a = coe_desk_receive(&desk, 1, reply, 16, data, sizeof data);
    EXPECT("the next one is done", 0x00, a.number);
    EXPECT("with no data of an emergency", 0, a.data);
    EXPECT("its payload, and nothing of the name", 0, memcmp(data, "\x78\x56\x34\x12\0\0\0", 7));
    return 0;
}

/* A request of seat 0, and its reply's number. */
static uint8_t exchanged(coe_desk *desk, const char *hex) {
    uint8_t frame[16], data[8], reply[16];
    size_t size = bytes_of(hex, reply);
    uint8_t sent = coe_desk_send(desk, 0, frame, 16).number;
    return sent == 0x02 ? coe_desk_receive(desk, 0, reply, size, data, sizeof data).number : sent;
}

/* A faulty drive announces segments and sends empty ones: the default budget ends that with the 1024th reply, the 1023rd segment. Where
 * that one is the last, the transfer is done. */
static int faulty_drive(void) {
    static const char *const ends[2] = {"030000000013003000", "030000000013003001"};
    static const uint8_t numbers[2] = {0x27, 0x00};
    coe_desk desk;
    coe_desk_fresh(&desk);
    for (int i = 0; i < 2; i++) {
        EXPECT("enter", 0x01, coe_desk_enter(&desk, 0, 1, 0x1018, 1, NULL, 0).number);
        EXPECT("segments follow", 0x01, exchanged(&desk, "0a000000001300304118100108000000"));
        for (int reply = 2; reply < COE_DESK_DEFAULT_BUDGET; reply++)
            EXPECT("an empty segment", 0x01, exchanged(&desk, "030000000013003000"));
        EXPECT("the 1024th reply", numbers[i], exchanged(&desk, ends[i]));
        EXPECT("the seat is free", 0x12, coe_desk_leave(&desk, 0).number);
    }
    return 0;
}

/* 1025 indices through a mailbox of 16 bytes, one in each fragment: the 1025th reply is the last. */
static int small_mailbox(void) {
    static uint8_t data[2050];
    coe_desk desk;
    coe_answer a;
    uint8_t frame[16], first[16], more[16], last[16];
    bytes_of("0a000000001300808200000001001810", first);
    bytes_of("0a00000000130080820000001810", more);
    bytes_of("0a00000000130080020000006060", last);
    coe_desk_fresh(&desk);
    EXPECT("enter without a budget", 0x01, coe_desk_enter(&desk, 0, 4, 1, 0, NULL, 0).number);
    EXPECT("and with one", 0x01, coe_desk_enter_within(&desk, 1, 4, 1, 0, NULL, 0, 65535).number);
    for (uint8_t seat = 0; seat < 2; seat++) {
        EXPECT("send", 0x02, coe_desk_send(&desk, seat, frame, 16).number);
        for (int reply = 1; reply < 1024; reply++)
            EXPECT("a fragment", 0x02, coe_desk_receive(&desk, seat, reply == 1 ? first : more, reply == 1 ? 16 : 14, data, sizeof data).number);
        EXPECT("the 1024th", seat == 0 ? 0x27 : 0x02, coe_desk_receive(&desk, seat, more, 14, data, sizeof data).number);
    }
    a = coe_desk_receive(&desk, 1, last, 14, data, sizeof data);
    EXPECT("the last", 0x00, a.number);
    EXPECT("the list's length", 2050, a.length);
    EXPECT("its last index", 0x6060, coe_list_item(data, sizeof data, 2048).index);
    return 0;
}

int examples(void) {
    return frames() || replies() || emergencies() || short_segments() || lists() || values() || turns() || drive_name()
           || overtemperature() || faulty_drive() || small_mailbox();
}
