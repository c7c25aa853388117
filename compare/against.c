/* Nanoseconds a call of this build of the library beside those of another one, in one run: compare/run against LIBRARY.
 * The calls are renamed to this_sv_.. and other_sv_..; they take turns in rounds, and the median round of each counts. */
#include "../include/salmevidro.h"

#include <stdio.h>
#include <stdlib.h>
#include <time.h>

enum { STEPS = 1000, ROUNDS = 401, CODES = 12 };

/* The calls that are measured, of either build. */
struct library {
    __typeof__(sv_open) *open;
    __typeof__(sv_raise) *raise;
    __typeof__(sv_read_record) *read_record;
    __typeof__(sv_read_text) *read_text;
    __typeof__(sv_send_text) *send_text;
    __typeof__(sv_take) *take;
    __typeof__(sv_done) *done;
    __typeof__(sv_print_event_record) *print_event_record;
};

#define CALLS(build) \
    {build##_sv_open, build##_sv_raise, build##_sv_read_record, build##_sv_read_text, build##_sv_send_text, \
     build##_sv_take, build##_sv_done, build##_sv_print_event_record}

#define DECLARED(call) extern __typeof__(call) other_##call, this_##call
DECLARED(sv_open);
DECLARED(sv_raise);
DECLARED(sv_read_record);
DECLARED(sv_read_text);
DECLARED(sv_send_text);
DECLARED(sv_take);
DECLARED(sv_done);
DECLARED(sv_print_event_record);

static const struct library builds[2] = {CALLS(other), CALLS(this)};

/* What both builds keep and write, in the same places, and the records of the codes 1 to 12. */
static uint8_t state[SV_STATE], queue[SV_EVENT], buffer[SV_MESSAGE], line[SV_EVENT_ROOM], events[CODES][SV_EVENT];
static size_t length;

static void must(uint32_t number, uint32_t expected) {
    if (number != expected) {
        fprintf(stderr, "against: answered %u, not %u\n", (unsigned)number, (unsigned)expected);
        exit(1);
    }
}

static void raise(const struct library *calls, uint32_t code, uint32_t tick) {
    static const uint8_t data[8] = {1, 2, 3, 4, 5, 6, 7, 8};
    must(calls->raise(state, SV_STATE, code, tick, 0x731, SV_STANDARD, 0, 8, data, queue, SV_EVENT), SV_RECORDED);
}

static void open_and_record(const struct library *calls) {
    const struct sv_settings settings = {
        .mask = 0xFFFFFFFF,
        .event_mask = 0xFFF,
        .queue_capacity = 1,
        .tx_mode = SV_TX_SILENT,
        .buffer_capacity = 1,
        .offset = 120,
        .second_low = 1700000000,
    };
    must(calls->open(state, SV_STATE, &settings, SV_SETTINGS, queue, SV_EVENT, buffer, SV_MESSAGE), SV_DONE);
    for (uint32_t code = 1; code <= CODES; code++) {
        raise(calls, code, 1000000);
        must(calls->read_record(state, SV_STATE, queue, SV_EVENT, events[code - 1]), SV_DONE);
    }
}

/* ---- one step of each row; code 0 stands for 1 to 11 in turn */

static void record(const struct library *calls, uint32_t code, uint32_t step) {
    uint8_t out[SV_EVENT];
    raise(calls, code, step);
    must(calls->read_record(state, SV_STATE, queue, SV_EVENT, out), SV_DONE);
}

static void text(const struct library *calls, uint32_t code, uint32_t step) {
    raise(calls, code, step);
    must(calls->read_text(state, SV_STATE, queue, SV_EVENT, line, SV_EVENT_ROOM, &length), SV_DONE);
}

static void send(const struct library *calls, uint32_t code, uint32_t step) {
    static const uint8_t message[] = "731 0 8 11 22 33 44 55 66 77 88\n";
    uint8_t out[SV_MESSAGE];
    (void)code;
    must(calls->send_text(state, SV_STATE, message, sizeof message - 1, buffer, SV_MESSAGE, &length), SV_DONE);
    must(calls->take(state, SV_STATE, step, buffer, SV_MESSAGE, queue, SV_EVENT, out), SV_DONE);
    must(calls->done(state, SV_STATE, step, queue, SV_EVENT), SV_DONE);
}

static void print(const struct library *calls, uint32_t code, uint32_t step) {
    const uint8_t *event = events[code ? code - 1 : step % 11];
    must(calls->print_event_record(state, SV_STATE, event, SV_EVENT, line, SV_EVENT_ROOM, &length), SV_DONE);
}

typedef void step_of(const struct library *, uint32_t, uint32_t);

/* ---- rounds */

static double round_of(const struct library *calls, step_of *step, uint32_t code) {
    struct timespec from, to;
    clock_gettime(CLOCK_MONOTONIC, &from);
    for (uint32_t k = 0; k < STEPS; k++) step(calls, code, k);
    clock_gettime(CLOCK_MONOTONIC, &to);
    return ((double)(to.tv_sec - from.tv_sec) * 1e9 + (double)(to.tv_nsec - from.tv_nsec)) / STEPS;
}

static int smaller(const void *a, const void *b) {
    const double x = *(const double *)a, y = *(const double *)b;
    return (x > y) - (x < y);
}

static void row(const char *name, step_of *step, uint32_t code) {
    static double taken[2][ROUNDS];
    for (int round = 0; round < ROUNDS; round++) {
        const int first = round % 2;
        taken[first][round] = round_of(&builds[first], step, code);
        taken[1 - first][round] = round_of(&builds[1 - first], step, code);
    }
    for (int side = 0; side < 2; side++) qsort(taken[side], ROUNDS, sizeof(double), smaller);
    const double other = taken[0][ROUNDS / 2], here = taken[1][ROUNDS / 2];
    printf("%-28s%9.1f ns%9.1f ns%8.2f\n", name, other, here, here / other);
}

int main(void) {
    char name[29];
    open_and_record(&builds[1]);
    printf("%-28s%12s%12s%8s\n", "", "other build", "this one", "ratio");
    row("raise + read_record", record, SV_RECEIVED);
    row("raise + read_text", text, SV_RECEIVED);
    row("send_text + take + done", send, 0);
    row("print_event_record, 1 to 11", print, 0);
    for (uint32_t code = 1; code <= CODES; code++) {
        snprintf(name, sizeof name, "print_event_record, %u", (unsigned)code);
        row(name, print, code);
    }
    return 0;
}
