/* How an analyst checks that a recording is complete: the shell logs what arrived, the export has the records, and both
 * must come to the same number. What it prints is held to sum.out by examples/run. */
#include "../include/salmevidro.h"

#include <stdio.h>

enum { EVENTS = 2, MESSAGES = 1 };

static uint8_t state[SV_STATE];
static uint8_t queue[EVENTS * SV_EVENT];
static uint8_t buffer[MESSAGES * SV_MESSAGE];

/* The shell's log: how many events arrived, that is, passed filter and mask. */
static unsigned arrived = 0;

/* The export: how many records were read, and the sum of their lost counts. */
static unsigned records = 0, lost = 0;

static uint32_t word(const uint8_t *bytes) {
    return bytes[0] | (uint32_t)bytes[1] << 8 | (uint32_t)bytes[2] << 16 | (uint32_t)bytes[3] << 24;
}

/* 100 and 103 are events that arrived; 101 and 102 were turned away and are in no count. */
static void raise(uint32_t code, uint32_t tick) {
    static const uint8_t none[8];
    uint32_t number = sv_raise(state, sizeof state, code, tick, 0, 0, 0, 0, none, queue, sizeof queue);
    if (number == SV_RECORDED || number == SV_LOST) arrived++;
    printf("raise %2u at %u: %u\n", (unsigned)code, (unsigned)tick, (unsigned)number);
}

/* A change of mode raises code 5 beside its answer 0: it arrives if bit 5 of the event mask is set. */
static void set_mode(uint32_t mode, uint32_t tick) {
    uint32_t number = sv_set_mode(state, sizeof state, mode, tick, queue, sizeof queue);
    if (number == 0 && (word(state + SV_AT_EVENT_MASK) >> SV_DEVICE_CHANGED) % 2 == 1) arrived++;
    printf("set_mode at %u: %u\n", (unsigned)tick, (unsigned)number);
}

static void read_one(void) {
    uint8_t event[SV_EVENT], text[SV_EVENT_ROOM];
    size_t length = 0;
    if (sv_read_record(state, sizeof state, queue, sizeof queue, event) != 0) return;
    records++;
    lost += word(event + SV_AT_LOST);
    sv_print_event_record(state, sizeof state, event, sizeof event, text, sizeof text, &length);
    printf("read, %u lost before it: ", (unsigned)word(event + SV_AT_LOST));
    fwrite(text, 1, length, stdout);
}

/* The queued records are looked at, not read: their lost counts belong to the sum as well. */
static void check(void) {
    unsigned queued = word(state + SV_AT_QUEUE_COUNT), pending = word(state + SV_AT_PENDING), waiting = 0;
    for (uint32_t p = 0; p < queued; p++) {
        size_t offset = 0;
        if (sv_look(state, sizeof state, queue, sizeof queue, p, &offset) == 0)
            waiting += word(queue + offset + SV_AT_LOST);
    }
    printf("arrived %u: read %u + queued %u + lost %u + lost of queued %u + pending %u = %u\n", arrived, records, queued,
           lost, waiting, pending, records + queued + lost + waiting + pending);
}

int main(void) {
    const struct sv_settings settings = {
        .mask = 0xFFFFFFFF,
        .event_mask = 0xFFF,
        .queue_capacity = EVENTS,
        .tx_mode = SV_TX_SILENT,
        .buffer_capacity = MESSAGES,
    };
    if (sv_open(state, sizeof state, &settings, SV_SETTINGS, queue, sizeof queue, buffer, sizeof buffer) != 0) return 1;
    raise(9, 100);
    raise(10, 101);
    raise(11, 102);
    set_mode(1, 103);
    check();
    read_one();
    raise(8, 104);
    read_one();
    sv_set_event_mask(state, sizeof state, 0xFFF & ~(1u << 9));
    raise(9, 105);
    raise(11, 106);
    raise(11, 107);
    check();
    return 0;
}
