/*
 * Salmevidro, the core of a CAN recorder: every call of the recorder for C and C++.
 *
 * The device is kept in SV_STATE bytes that the caller lends to each call. The event table and the message table are
 * lent as well, as pointer and length: SV_EVENT bytes for each event of the queue, SV_MESSAGE for each message of the
 * send buffer. There is no heap and no global state; blocking, timeouts and locking are the shell's.
 *
 * Every call returns its number: 0 for success (a raise 100 to 103), 1 to 99 for a refusal (1 to 14 are in use).
 * A refused call leaves every byte of the state, of the tables and of the buffers, and every value behind a pointer, as
 * it was. The one exception is `used` of sv_send_text, which is written at every call.
 *
 *    1  a setting missing or out of range      8  bad identifier
 *    2  no state, or a table too short         9  rtr above 1
 *    3  output room too short                 10  dlc above 15
 *    4  nothing to read, look at, take        11  more than eight data values
 *    5  send buffer full, register occupied   12  data value above 255
 *    6  no end in the text                    13  bad format for this call or mode
 *    7  too few values                        14  damaged slot or record
 *
 * What the caller must hold to: each pointer is valid for its length (a pointer without one for the size written in
 * the brackets, or for one value), for the whole call; it is not null, even where the length is 0; and what is lent to
 * one call does not overlap, but for places that the call only reads. Calls on one state are made one at a time.
 *
 * The state: three parts, each a list of 32-bit numbers, lowest byte first, and at the end the register's data bytes.
 *
 *    shared     0 mode, 4 format, 8 align, 12 offset, 16 second low, 20 second high
 *    receive   24 mask active, 28 code, 32 mask, 36 event mask, 40 queue capacity, 44 queue first, 48 queue count,
 *              52 pending lost
 *    send      56 TxMode, 60 buffer capacity, 64 buffer first, 68 buffer count, 72 held (0 or 1), 76 register id,
 *              80 register format, 84 register rtr, 88 register dlc, 92..99 register data
 *
 * A state may be copied, stored and read. Any bytes may be handed in as one: a state of another length, held above 1 or
 * numbers that no device can have are refusal 2.
 *
 * The site: one pair for the whole device, which every event carries as it was when the event was recorded. The offset
 * is in minutes, -720 to 840, as a 32-bit number in two's complement: -1 is 4294967295. The second is the UTC second at
 * which tick zero fell, 0 to 281474976710655; where numbers have 32 bits it stands as low + 2^32 * high.
 */
#ifndef SALMEVIDRO_H
#define SALMEVIDRO_H

#include <stddef.h>
#include <stdint.h>

#ifdef __cplusplus
extern "C" {
#define SV_AT_LEAST(n) n
#else
#define SV_AT_LEAST(n) static n
#endif

/* The version of this interface: it changes when a size, a place or a call does. */
enum { SV_VERSION = 3 };

/* Bytes of a state, of an event, of a message; room that a line of text needs, whatever the line. */
enum { SV_STATE = 100, SV_EVENT = 40, SV_MESSAGE = 16, SV_EVENT_ROOM = 103, SV_MESSAGE_ROOM = 37 };

/* The most places that a queue and a send buffer can have. */
enum { SV_EVENTS = 1638, SV_MESSAGES = 1024 };

/* What a raise answers; every other call answers SV_DONE or a refusal. */
enum { SV_DONE = 0, SV_RECORDED = 100, SV_FILTERED = 101, SV_MASKED = 102, SV_LOST = 103 };

/* The refusals. */
enum {
    SV_BAD_SETTING = 1,
    SV_BAD_STATE = 2,
    SV_NO_ROOM = 3,
    SV_NOTHING = 4,
    SV_OCCUPIED = 5,
    SV_NO_END = 6,
    SV_TOO_FEW = 7,
    SV_BAD_ID = 8,
    SV_BAD_RTR = 9,
    SV_BAD_DLC = 10,
    SV_TOO_MANY = 11,
    SV_BAD_DATA = 12,
    SV_BAD_FORMAT = 13,
    SV_DAMAGED = 14
};

/* Event codes; every other code prints as "unknown event N". Bit k of the event mask lets code k be recorded, bit 0 all
 * other codes. */
enum {
    SV_RECEIVED = 1,
    SV_TRANSMITTED = 2,
    SV_ABORTED = 3,
    SV_ARBITRATION_LOST = 4,
    SV_DEVICE_CHANGED = 5,
    SV_ENTERING_STANDBY = 6,
    SV_LEAVING_STANDBY = 7,
    SV_OVERRUN = 8,
    SV_WARNING = 9,
    SV_PASSIVE = 10,
    SV_BUS_ERROR = 11
};

/* Modes, formats, and when a transmitted event is raised (TxMode; 5 is as 1). */
enum { SV_CAN_20A = 0, SV_CAN_20B = 1 };
enum { SV_DEFAULT = 0, SV_STANDARD = 1, SV_EXTENDED = 2 };
enum { SV_TX_SILENT = 1, SV_TX_AT_TAKE = 3, SV_TX_AT_DONE = 7 };

/* Where a state keeps event mask, queue count and pending lost count. */
enum { SV_AT_EVENT_MASK = 36, SV_AT_QUEUE_COUNT = 48, SV_AT_PENDING = 52 };

/* Where an event has its lost count (four bytes), its offset (two, in two's complement) and its second (six). */
enum { SV_AT_LOST = 12, SV_AT_OFFSET = 32, SV_AT_SECOND = 34 };

/* ---- opening */

/* How many numbers the settings are. */
enum { SV_SETTINGS = 13 };

/* What a device is opened with; docs/GUIDE.md has the ranges. A plain array of SV_SETTINGS uint32_t numbers in this
 * order is the same thing: what sv_open is lent is a pointer to such numbers and their count. */
struct sv_settings {
    uint32_t mode;
    uint32_t format;
    uint32_t align;
    uint32_t mask_active;
    uint32_t code;
    uint32_t mask;
    uint32_t event_mask;
    uint32_t queue_capacity;
    uint32_t tx_mode;
    uint32_t buffer_capacity;
    uint32_t offset; /* a negative one as it is, -90; in C++ (uint32_t)-90 */
    uint32_t second_low;
    uint32_t second_high;
};

/* Does not compile where the struct is not those numbers, one behind the other. */
typedef char sv_settings_checked[sizeof(struct sv_settings) == 4 * SV_SETTINGS ? 1 : -1];

/* Opens a device into the state: both rings empty. Writes no byte of the tables. settings_count is SV_SETTINGS, so a
 * caller that was built against a header with fewer settings is refused, and nothing is read past their end.
 * Refusals: 1, also for another settings_count; 2, also for a state of another length than SV_STATE. */
uint32_t sv_open(uint8_t *state, size_t state_length, const struct sv_settings *settings, size_t settings_count,
                 const uint8_t *queue, size_t queue_length, const uint8_t *send, size_t send_length);

/* ---- changes of setting */

/* Sets the mode (0 is CAN 2.0A, 1 is 2.0B) and raises code 5, even if the value is the same.
 * Refusals: 2, 1. */
uint32_t sv_set_mode(uint8_t *state, size_t state_length, uint32_t mode, uint32_t tick, uint8_t *queue,
                     size_t queue_length);

/* Sets the default format (0 default, 1 standard, 2 extended) and raises code 5.
 * Refusals: 2, 1. */
uint32_t sv_set_format(uint8_t *state, size_t state_length, uint32_t format, uint32_t tick, uint8_t *queue,
                       size_t queue_length);

/* Sets code and mask of the acceptance filter; raises nothing.
 * Refusals: 2. */
uint32_t sv_set_filter(uint8_t *state, size_t state_length, uint32_t code, uint32_t mask);

/* Sets the event mask, whose bits 12 to 31 must be 0; raises nothing.
 * Refusals: 2, 1. */
uint32_t sv_set_event_mask(uint8_t *state, size_t state_length, uint32_t event_mask);

/* Sets the site that later events carry; raises nothing and changes no queued event. A negative offset may be passed as
 * it is, for example -90: C converts it.
 * Refusals: 2, 1. */
uint32_t sv_set_site(uint8_t *state, size_t state_length, uint32_t offset, uint64_t second);

/* ---- receiving */

/* Raises an event; codes 1 to 3 hold the frame (raw identifier), other codes ignore it. Answers 100 to 103.
 * Refusals: 2; codes 1 to 3: 13, 8, 9, 10. */
uint32_t sv_raise(uint8_t *state, size_t state_length, uint32_t code, uint32_t tick, uint32_t id, uint32_t format,
                  uint32_t rtr, uint32_t dlc, const uint8_t data[SV_AT_LEAST(8)], uint8_t *queue, size_t queue_length);

/* Takes the oldest event from the queue as its SV_EVENT bytes.
 * Refusals: 2, 4, 14. */
uint32_t sv_read_record(uint8_t *state, size_t state_length, const uint8_t *queue, size_t queue_length,
                        uint8_t out[SV_AT_LEAST(40)]);

/* Takes the oldest event from the queue as a line of text, ended by LF; length is the line's.
 * Refusals: 2, 3 (room below SV_EVENT_ROOM), 4, 14. */
uint32_t sv_read_text(uint8_t *state, size_t state_length, const uint8_t *queue, size_t queue_length, uint8_t *out,
                      size_t out_length, size_t *length);

/* The number of a look at position p, 0 being the oldest event.
 * Refusals: 2, 4. */
uint32_t sv_look_number(const uint8_t *state, size_t state_length, const uint8_t *queue, size_t queue_length,
                        uint32_t p);

/* Looks at position p without taking the event: its SV_EVENT bytes begin at queue + offset. They are not judged.
 * Refusals: 2, 4. */
uint32_t sv_look(const uint8_t *state, size_t state_length, const uint8_t *queue, size_t queue_length, uint32_t p,
                 size_t *offset);

/* How many identifiers of a format (1 or 2) the filter lets through.
 * Refusals: 2, 13. */
uint32_t sv_identifiers_through(const uint8_t *state, size_t state_length, uint32_t format, uint32_t *count);

/* ---- sending */

/* Puts a message into the send buffer: format 0 is the default format, the identifier is aligned.
 * Refusals: 2, 13, 8, 9, 10, 5. */
uint32_t sv_send(uint8_t *state, size_t state_length, uint32_t id, uint32_t format, uint32_t rtr, uint32_t dlc,
                 const uint8_t data[SV_AT_LEAST(8)], uint8_t *send, size_t send_length);

/* Puts the message at the front of a text into the send buffer; used is how many bytes of the text are done with, at
 * every call: 0 on 2, 5 and 6. Refusals: 2, 6, 7, 8, 9, 10, 7, 11, 12, 5. */
uint32_t sv_send_text(uint8_t *state, size_t state_length, const uint8_t *text, size_t text_length, uint8_t *send,
                      size_t send_length, size_t *used);

/* Moves the oldest message to the transmit register and hands out its SV_MESSAGE bytes; may raise code 2 (TxMode).
 * Refusals: 2, 5, 4, 14. */
uint32_t sv_take(uint8_t *state, size_t state_length, uint32_t tick, const uint8_t *send, size_t send_length,
                 uint8_t *queue, size_t queue_length, uint8_t out[SV_AT_LEAST(16)]);

/* Empties the register: its message was transmitted; may raise code 2 (TxMode).
 * Refusals: 2, 4. */
uint32_t sv_done(uint8_t *state, size_t state_length, uint32_t tick, uint8_t *queue, size_t queue_length);

/* Empties the register, raising code 3 if it held a message, and purges the send buffer; purged is how many were in it.
 * Refusals: 2. */
uint32_t sv_abort(uint8_t *state, size_t state_length, uint32_t tick, uint8_t *queue, size_t queue_length,
                  uint32_t *purged);

/* ---- printing: Align is the state's, which stays as it is */

/* Prints a message record as a line of text, ended by LF; length is the line's.
 * Refusals: 2, 3 (room below SV_MESSAGE_ROOM), 14. */
uint32_t sv_print_message_record(const uint8_t *state, size_t state_length, const uint8_t *record, size_t record_length,
                                 uint8_t *out, size_t out_length, size_t *length);

/* Prints an event record as a line of text, ended by LF; length is the line's.
 * Refusals: 2, 3 (room below SV_EVENT_ROOM), 14. */
uint32_t sv_print_event_record(const uint8_t *state, size_t state_length, const uint8_t *record, size_t record_length,
                               uint8_t *out, size_t out_length, size_t *length);

/* Prints a message given alone, raw identifier and format 1 or 2, as a line of text ended by LF.
 * Refusals: 2, 3 (room below SV_MESSAGE_ROOM), 13, 8, 9, 10. */
uint32_t sv_print_message(const uint8_t *state, size_t state_length, uint32_t id, uint32_t format, uint32_t rtr,
                          uint32_t dlc, const uint8_t data[SV_AT_LEAST(8)], uint8_t *out, size_t out_length,
                          size_t *length);

#undef SV_AT_LEAST
#ifdef __cplusplus
}
#endif

#endif
