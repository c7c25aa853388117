/* A small shell over the C interface: opens a device, raises and sends, takes and finishes, then reads until the queue
 * is empty, in turn as text and as records. What it prints is held to shell.out by examples/run. */
#include "../include/salmevidro.h"

#include <stdio.h>
#include <string.h>

enum { EVENTS = 4, MESSAGES = 2 };

static uint8_t state[SV_STATE];
static uint8_t queue[EVENTS * SV_EVENT];
static uint8_t buffer[MESSAGES * SV_MESSAGE];

static void say(const char *call, uint32_t number) { printf("%-24s %u\n", call, (unsigned)number); }

static void hex(const uint8_t *bytes, size_t n) {
    for (size_t i = 0; i < n; i++) printf("%02X", bytes[i]);
    printf("\n");
}

static void line(const uint8_t *bytes, size_t n) { fwrite(bytes, 1, n, stdout); }

static void raise(uint32_t code, uint32_t tick, uint32_t id, uint32_t dlc, const uint8_t *data) {
    say("raise", sv_raise(state, sizeof state, code, tick, id, 1, 0, dlc, data, queue, sizeof queue));
}

static void send_text(const char *text) {
    size_t used = 0;
    const uint8_t *bytes = (const uint8_t *)text;
    uint32_t number = sv_send_text(state, sizeof state, bytes, strlen(text), buffer, sizeof buffer, &used);
    printf("%-24s %u used %u\n", "send_text", (unsigned)number, (unsigned)used);
}

/* Takes the oldest message, shows it and finishes it. */
static void transmit(uint32_t tick) {
    uint8_t message[SV_MESSAGE];
    uint8_t text[SV_MESSAGE_ROOM];
    size_t length = 0;
    uint32_t number = sv_take(state, sizeof state, tick, buffer, sizeof buffer, queue, sizeof queue, message);
    say("take", number);
    if (number != 0) return;
    hex(message, sizeof message);
    number = sv_print_message_record(state, sizeof state, message, sizeof message, text, sizeof text, &length);
    say("print_message_record", number);
    line(text, length);
    say("done", sv_done(state, sizeof state, tick + 1, queue, sizeof queue));
}

/* Reads until nothing is left, in turn as text and as a record that is then printed. */
static void drain(void) {
    for (int turn = 0;; turn++) {
        uint8_t event[SV_EVENT];
        uint8_t text[SV_EVENT_ROOM];
        size_t length = 0;
        uint32_t number;
        if (turn % 2 == 0) {
            number = sv_read_text(state, sizeof state, queue, sizeof queue, text, sizeof text, &length);
            say("read_text", number);
        } else {
            number = sv_read_record(state, sizeof state, queue, sizeof queue, event);
            say("read_record", number);
            if (number == 0) {
                hex(event, sizeof event);
                number = sv_print_event_record(state, sizeof state, event, sizeof event, text, sizeof text, &length);
                say("print_event_record", number);
            }
        }
        if (number != 0) return;
        line(text, length);
    }
}

static void open_with(const char *what, size_t length, size_t count) {
    const struct sv_settings settings = {
        .mode = SV_CAN_20A,
        .format = SV_DEFAULT,
        .align = 0,
        .mask_active = 0,
        .code = 0,
        .mask = 0xFFFFFFFF,
        .event_mask = 0xFFF,
        .queue_capacity = EVENTS,
        .tx_mode = SV_TX_AT_DONE,
        .buffer_capacity = MESSAGES,
        .offset = 120,
        .second_low = 1715666400,
        .second_high = 0,
    };
    say(what, sv_open(state, length, &settings, count, queue, sizeof queue, buffer, sizeof buffer));
}

int main(void) {
    const uint8_t data[8] = {0x11, 0x22, 0x33, 0x44, 0x55, 0x66, 0x77, 0x88};
    uint8_t before[SV_STATE];
    uint8_t text[SV_MESSAGE_ROOM];
    size_t length = 0, offset = 0;
    uint32_t count = 0, purged = 0;

    say("raise before open", sv_raise(state, sizeof state, 4, 0, 0, 0, 0, 0, data, queue, sizeof queue));
    open_with("open, short state", sizeof state - 1, SV_SETTINGS);
    open_with("open, twelve settings", sizeof state, SV_SETTINGS - 1);
    open_with("open", sizeof state, SV_SETTINGS);

    raise(1, 12568, 0x112, 5, data);
    memcpy(before, state, sizeof state);
    raise(1, 12569, 0x800, 0, data);
    printf("%-24s %s\n", "refused, state kept", memcmp(before, state, sizeof state) == 0 ? "yes" : "no");

    say("send", sv_send(state, sizeof state, 0x731, 0, 0, 4, data, buffer, sizeof buffer));
    send_text("731 0 2 AB CD\r\nrest");
    send_text("732 1 4\n");
    send_text("0x100 0 0\n");
    transmit(20000);
    transmit(20010);
    transmit(20020);

    raise(8, 30000, 0, 0, data);
    raise(9, 30001, 0, 0, data);
    say("look", sv_look(state, sizeof state, queue, sizeof queue, 1, &offset));
    hex(queue + offset, SV_EVENT);
    say("look past the count", sv_look_number(state, sizeof state, queue, sizeof queue, 4));
    drain();

    say("set_filter", sv_set_filter(state, sizeof state, 0x40000000, 0x001FFFFF));
    say("identifiers_through", sv_identifiers_through(state, sizeof state, 1, &count));
    printf("%u\n", (unsigned)count);
    raise(1, 40000, 0x201, 0, data);
    raise(1, 40001, 0x200, 8, data);
    say("set_event_mask", sv_set_event_mask(state, sizeof state, 0xFFE));
    raise(12, 40002, 0, 0, data);
    say("set_mode", sv_set_mode(state, sizeof state, 1, 40003, queue, sizeof queue));
    say("set_format", sv_set_format(state, sizeof state, 3, 40004, queue, sizeof queue));
    send_text("12345678 0 1 5A\n");
    say("abort", sv_abort(state, sizeof state, 40005, queue, sizeof queue, &purged));
    printf("%u\n", (unsigned)purged);
    say("print_message", sv_print_message(state, sizeof state, 0x731, 1, 0, 2, data, text, sizeof text, &length));
    line(text, length);
    say("set_site, 841 minutes", sv_set_site(state, sizeof state, 841, 0));
    say("set_site, -90 minutes", sv_set_site(state, sizeof state, -90, 1715700000));
    raise(9, 40006, 0, 0, data);
    drain();
    return 0;
}
