/* coe_desk.h: the CoE mailbox desk for C and C++, in liblinked.a (`tools/archive` builds it, for x86-64).
 *
 * Answers are the specification's numbers: 0x00 done; 0x01 request due, 0x02 reply due; 0x03 left; 0x1x refused, and nothing is
 * changed; 0x2x the transfer is over, and the lent buffers are as they were.
 *
 * A buffer is a pointer and then its length in bytes. The pointer may be NULL where the length is 0, and nowhere else. What one
 * call is lent must not overlap: the record, the buffer that is written and the bytes that are read are apart. Everything else
 * that is handed in is judged, so no number and no byte can make a call read or write astray.
 */
#ifndef COE_DESK_H
#define COE_DESK_H

#include <stddef.h>
#include <stdint.h>

#ifdef __cplusplus
extern "C" {
#endif

/* An answer: `number`, and the values that go with it. 0x00: `length` is the payload's length. 0x21, emergency: `code`, the error
 * register in `sub`, and the drive's five bytes in `data`, the first lowest: in memory they are its first five bytes. 0x22, aborted:
 * `code`, for whose words see docs/ABORT_CODES.md, `index`, `sub`. What a number does not name is 0. An answer has 24 bytes. */
typedef struct {
    uint8_t number;
    uint8_t sub;
    uint16_t index;
    uint32_t code;
    uint32_t length;
    /* Bytes 12 to 15 are padding: nothing is in them yet, and a later version uses them. */
    uint64_t data;
} coe_answer;

/* ---- Request writers. 0x02: the frame stands at the front of `frame`, and zeros fill the rest. 0x15: a counter not 1 to 7, a flag
 * not 0 or 1, or what the function names. 0x16: `frame_len` not 16 to 1486. 0x15 comes before 0x16. */

/* The request for an object, or with `complete` 1 for the whole of it, whatever `sub` is. */
uint8_t coe_upload_frame(uint8_t counter, uint16_t index, uint8_t sub, uint8_t complete, uint8_t *frame, size_t frame_len);

/* The request that writes `data` to an object. 0x15 also where `data_len` is not 1 to 4. */
uint8_t coe_download_frame(uint8_t counter, uint16_t index, uint8_t sub, uint8_t complete, const uint8_t *data, size_t data_len,
                           uint8_t *frame, size_t frame_len);

/* The request for an upload's next segment. `toggle` is a flag: 0 for the first segment, then in turn. */
uint8_t coe_segment_frame(uint8_t counter, uint8_t toggle, uint8_t *frame, size_t frame_len);

/* The request for the object list of `kind` 1 to 5, or for the quantities, 0. 0x15 also for another kind. */
uint8_t coe_list_frame(uint8_t counter, uint16_t kind, uint8_t *frame, size_t frame_len);

/* ---- The reply judge, without desk and budget. It judges one reply to a request for (`index`, `sub`) and stores its chunk in
 * `data`. `kind`: 1 upload, 3 download, 7 segment, 4 list not begun, 8 list begun; 0x15 for another. `earlier`: the sum of the chunks
 * before this one, where it is stored (kinds 1 and 3 have none, and take no notice of it). 0x16: `reply_len` above 1486 or `data_len`
 * above 131070, after 0x15. A segment reply's data begin at byte 9. 0x20: undecodable, as below 9 bytes for a segment and below 12 for
 * the others. 0x21: an emergency (service 1) in an upload's, a download's or a segment's place. Its code stands in bytes 8 and 9, the error
 * register in 10, five bytes of data in 11 to 15, and one without all of these 16 bytes is 0x20. On 0x01 and 0x02 `length` is this
 * reply's chunk, and `sub` is 1 once a list has begun. */
coe_answer coe_judge(uint8_t kind, uint16_t index, uint8_t sub, uint32_t earlier, const uint8_t *reply, size_t reply_len,
                     uint8_t *data, size_t data_len);

/* ---- The desk: eight seats that take turns at one mailbox.
 *
 * The record of a desk. What it holds is the desk's own: only the calls below may alter it, and a copy of it is another desk.
 * `coe_desk_fresh` comes before any other call. Two calls on one record must not run at once. */
typedef struct {
    uint64_t opaque[26];
} coe_desk;

/* Makes a fresh desk of the record, whatever its bytes were: nobody in line, and the next frame has counter 1. */
void coe_desk_fresh(coe_desk *desk);

/* How many replies a transfer may take that is entered without a budget. One that is not finished by then ends in 0x27, so that a faulty
 * drive does not keep the line for long. A drive with a mailbox of 142 bytes or more that fills its replies needs no more for anything that
 * a data buffer holds. Who fetches a long object list, or a long object, through a smaller one passes more, to coe_desk_enter_within.
 * 65535 is enough for anything: a list has no more indices, and a reply brings one at least. Through 16 bytes it brings just one, so that
 * the full list takes 65535 replies. The rest of a list that ended in 0x27 may still come, and is the host's to read off. */
#define COE_DESK_DEFAULT_BUDGET 1024

/* Joins the end of the line at `seat`, 0 to 7, with the default budget. `kind`: 1 upload, 2 complete upload, 3 download, 4 object list (its
 * kind, 1 to 5, in `index`), 5 quantities, 6 complete download. `data` is a download's, 1 to 4 bytes, which are copied; other kinds take no
 * notice of it. 0x01: entered. In this order 0x10: `seat` above 7; 0x11: taken; 0x15: no such kind, a download's `data_len` not 1 to 4, a
 * list kind not 1 to 5. */
coe_answer coe_desk_enter(coe_desk *desk, uint8_t seat, uint8_t kind, uint16_t index, uint8_t sub, const uint8_t *data,
                          size_t data_len);

/* The same with a budget of its own, 1 to 65535 replies: more than the default for long lists and objects through a small mailbox, less
 * for a drive that is to be given up sooner. 0x15 also for 0. */
coe_answer coe_desk_enter_within(coe_desk *desk, uint8_t seat, uint8_t kind, uint16_t index, uint8_t sub, const uint8_t *data,
                                 size_t data_len, uint16_t budget);

/* Writes the head's due request, and zeros behind it. 0x02: written. In this order 0x10: `seat` above 7; 0x12: empty; 0x13: not at
 * the head; 0x14: a reply is due; 0x16: `frame_len` not 16 to 1486. */
coe_answer coe_desk_send(coe_desk *desk, uint8_t seat, uint8_t *frame, size_t frame_len);

/* Judges one reply for the head and stores its chunk in `data`, behind the chunks before it: lend the same buffer to every receive
 * of a transfer. 0x00: done, and the first `length` bytes of `data`, as far as there are so many, are the payload. 0x01: a request is
 * due. 0x02: a reply is due. 0x20 to 0x27: over. In this order 0x10, 0x12, 0x13; 0x14: a request is due; 0x16: `reply_len` above 1486 or
 * `data_len` above 131070. */
coe_answer coe_desk_receive(coe_desk *desk, uint8_t seat, const uint8_t *reply, size_t reply_len, uint8_t *data, size_t data_len);

/* Takes the transfer at `seat` out, anywhere in the line. 0x03: left. 0x10: `seat` above 7; 0x12: empty. A reply still under way is
 * the host's to read off. */
coe_answer coe_desk_leave(coe_desk *desk, uint8_t seat);

/* ---- Reads of a finished payload. `number` is 0x00, or 0x20 where the bytes do not hold it, and then every value is 0. */

typedef struct {
    uint8_t number;
    uint32_t value;
} coe_unsigned;

typedef struct {
    uint8_t number;
    int32_t value;
} coe_signed;

/* The first byte. */
coe_unsigned coe_read_u8(const uint8_t *payload, size_t len);

/* The first 2 bytes, low byte first. */
coe_unsigned coe_read_u16(const uint8_t *payload, size_t len);

/* The first 4 bytes, low byte first. */
coe_unsigned coe_read_u32(const uint8_t *payload, size_t len);

/* The first byte, in two's complement. */
coe_signed coe_read_i8(const uint8_t *payload, size_t len);

/* The first 2 bytes, low byte first, in two's complement. */
coe_signed coe_read_i16(const uint8_t *payload, size_t len);

/* The first 4 bytes, low byte first, in two's complement. */
coe_signed coe_read_i32(const uint8_t *payload, size_t len);

typedef struct {
    uint8_t number;
    uint16_t index;
    size_t next;
} coe_item;

/* The object list's index at byte `at`, and where the next one stands. 0x20: an odd `len`, or no two bytes left, as at the list's
 * end; `next` is `at` then. */
coe_item coe_list_item(const uint8_t *payload, size_t len, size_t at);

typedef struct {
    uint8_t number;
    uint16_t all;
    uint16_t rx_pdo_mappable;
    uint16_t tx_pdo_mappable;
    uint16_t stored_for_device_replacement;
    uint16_t startup_parameters;
} coe_quantities;

/* The five counts in the first 10 bytes. */
coe_quantities coe_read_quantities(const uint8_t *payload, size_t len);

#ifdef __cplusplus
}
#endif

#endif
