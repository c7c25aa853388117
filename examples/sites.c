/* How an analyst puts the events of two sites in order: a trip recorded offshore and the reply recorded onshore. By the
 * local clocks the reply stands before the trip; by UTC, which each record's site gives, the trip comes first.
 * What it prints is held to sites.out by examples/run. */
#include "../include/salmevidro.h"

#include <stdio.h>
#include <stdlib.h>

/* Where an event has its tick; a tick is a millisecond. */
enum { AT_TICK = 4 };

/* A recorder with one place in each ring, and the record that is read from it. */
struct box {
    const char *name;
    uint8_t state[SV_STATE], queue[SV_EVENT], buffer[SV_MESSAGE], event[SV_EVENT];
};

static struct box offshore = {.name = "offshore trip"}, onshore = {.name = "onshore reply"};

static int64_t number(const uint8_t *bytes, int count) {
    int64_t value = 0;
    while (count-- > 0) value = value * 256 + bytes[count];
    return value;
}

/* Milliseconds of UTC: the second at which tick zero fell, and the ticks since. The second is a whole one, so events of
 * two boxes are surely in this order if they are a second or more apart. */
static int64_t utc(const uint8_t *event) { return 1000 * number(event + SV_AT_SECOND, 6) + number(event + AT_TICK, 4); }

/* What the clock at the site showed; the offset's two bytes are in two's complement. */
static int64_t local(const uint8_t *event) {
    int64_t minutes = number(event + SV_AT_OFFSET, 2);
    return utc(event) + 60000 * (minutes < 32768 ? minutes : minutes - 65536);
}

static void must(uint32_t number, uint32_t expected) {
    if (number != expected) exit(1);
}

static void open_box(struct box *box, uint32_t offset, uint64_t second) {
    const struct sv_settings settings = {
        .mask = 0xFFFFFFFF,
        .event_mask = 0xFFF,
        .queue_capacity = 1,
        .tx_mode = SV_TX_SILENT,
        .buffer_capacity = 1,
        .offset = offset,
        .second_low = (uint32_t)second,
        .second_high = (uint32_t)(second >> 32),
    };
    must(sv_open(box->state, SV_STATE, &settings, SV_SETTINGS, box->queue, SV_EVENT, box->buffer, SV_MESSAGE), SV_DONE);
}

/* A frame is received and read: its record stays in the box, its line is shown. */
static void receive(struct box *box, uint32_t tick, uint32_t id) {
    const uint8_t data[8] = {1};
    uint8_t text[SV_EVENT_ROOM];
    size_t length = 0;
    must(sv_raise(box->state, SV_STATE, SV_RECEIVED, tick, id, SV_STANDARD, 0, 1, data, box->queue, SV_EVENT),
         SV_RECORDED);
    must(sv_read_record(box->state, SV_STATE, box->queue, SV_EVENT, box->event), SV_DONE);
    must(sv_print_event_record(box->state, SV_STATE, box->event, SV_EVENT, text, sizeof text, &length), SV_DONE);
    printf("%s: ", box->name);
    fwrite(text, 1, length, stdout);
}

static void show(const struct box *box, int64_t (*time_of)(const uint8_t *)) {
    unsigned at = (unsigned)(time_of(box->event) / 1000 % 86400);
    printf("%s %02u:%02u:%02u", box->name, at / 3600, at / 60 % 60, at % 60);
}

static void in_order(const char *by, int64_t (*time_of)(const uint8_t *)) {
    int offshore_first = time_of(offshore.event) <= time_of(onshore.event);
    printf("%s: ", by);
    show(offshore_first ? &offshore : &onshore, time_of);
    printf(", ");
    show(offshore_first ? &onshore : &offshore, time_of);
    printf("\n");
}

int main(void) {
    /* Offshore the clock is two hours ahead of UTC, and tick zero was at 06:00:00 UTC. */
    open_box(&offshore, 120, 1715666400);
    /* Onshore it is an hour behind, and tick zero was at 09:30:00 UTC, which this box is told once it is open. */
    open_box(&onshore, 0, 0);
    must(sv_set_site(onshore.state, SV_STATE, -60, 1715679000), SV_DONE);
    receive(&offshore, 14401500, 0x101);
    receive(&onshore, 1805250, 0x102);
    in_order("by local clocks", local);
    in_order("by UTC", utc);
    return 0;
}
