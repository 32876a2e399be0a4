/* A stand-in for the probe over the plain C rules, to try the tests themselves: requests from
   standard input, one reply each on standard output. */

#include "../../benchmarks/plain.h"

#include <stdio.h>
#include <stdlib.h>
#include <string.h>

enum { STATE_BYTES = 1 + PURSES * RECORD_BYTES + 2 * (2 + PLACES * PLACE_BYTES) };

static Purse table[PURSES];
static Desk desk;
static uint8_t bytes[1 << 16];

/* The next bytes of the request; a request cut short ends the program. */
static void take(void *to, size_t count) {
    if (fread(to, 1, count, stdin) != count)
        exit(0);
}

static void give(const void *from, size_t count) {
    if (fwrite(from, 1, count, stdout) != count)
        exit(1);
}

static uint8_t take8(void) {
    uint8_t byte;
    take(&byte, 1);
    return byte;
}

static size_t take16(void) {
    uint8_t two[2];
    take(two, 2);
    return get16(two);
}

static void take_state(void) {
    static uint8_t state[STATE_BYTES];
    take(state, STATE_BYTES);
    const uint8_t *from = state;
    desk.purses = *from++;
    for (unsigned i = 0; i < PURSES; i++, from += RECORD_BYTES)
        unpack_record(&table[i], from);
    desk.ether.count = (uint16_t)get16(from);
    from += 2;
    for (unsigned i = 0; i < PLACES; i++, from += PLACE_BYTES)
        unpack_message(&desk.ether.places[i], from);
    desk.archive.count = (uint16_t)get16(from);
    from += 2;
    for (unsigned i = 0; i < PLACES; i++, from += PLACE_BYTES)
        unpack_entry(&desk.archive.places[i], from);
}

static void give_state(uint8_t answer) {
    static uint8_t reply[1 + STATE_BYTES];
    uint8_t *to = reply;
    *to++ = answer;
    *to++ = desk.purses;
    for (unsigned i = 0; i < PURSES; i++, to += RECORD_BYTES)
        pack_record(to, &table[i]);
    put16(to, desk.ether.count);
    to += 2;
    for (unsigned i = 0; i < PLACES; i++, to += PLACE_BYTES)
        pack_message(to, &desk.ether.places[i]);
    put16(to, desk.archive.count);
    to += 2;
    for (unsigned i = 0; i < PLACES; i++, to += PLACE_BYTES)
        pack_entry(to, &desk.archive.places[i]);
    give(reply, sizeof reply);
}

static void event(void) {
    take_state();
    size_t length = take8();
    take(bytes, length);
    give_state(bench_event(table, PURSES, &desk, bytes, length));
}

static void opening(void) {
    static Amount balances[UINT8_MAX];
    take_state();
    size_t count = take8();
    take(bytes, 4 * count);
    for (size_t i = 0; i < count; i++)
        balances[i].value = get32(bytes + 4 * i);
    give_state(bench_open(table, PURSES, &desk, balances, count));
}

static void read_image(void) {
    take_state();
    size_t length = take16();
    take(bytes, length);
    give_state(image_read(table, PURSES, &desk, bytes, length));
}

static void write_image(void) {
    take_state();
    size_t size = take16(), length;
    memset(bytes, 0xAA, size);
    uint8_t head[3];
    head[0] = image_write(table, PURSES, &desk, bytes, size, &length);
    put16(head + 1, (uint32_t)length);
    give(head, sizeof head);
    give(bytes, size);
}

static void claims(void) {
    take_state();
    uint32_t figure;
    uint8_t reply[5];
    reply[0] = bench_claims(table, PURSES, &desk, &figure);
    put32(reply + 1, figure);
    give(reply, sizeof reply);
}

static void card(void) {
    uint8_t request[1 + RECORD_BYTES + 10 + PLACE_BYTES];
    take(request, sizeof request);
    Name own = {request[0]};
    Purse purse;
    unpack_record(&purse, request + 1);
    const uint8_t *from = request + 1 + RECORD_BYTES;
    if (from[0] < START_FROM || from[0] > LOAD || from[0] == LOSE || from[0] == ISSUE)
        exit(0);
    CardEvent told = {.kind = from[0],
                      .counterparty = {from[1]},
                      .number = {get32(from + 2)},
                      .amount = {get32(from + 6)}};
    unpack_message(&told.message, from + 10);
    CardHanded handed;
    uint8_t reply[1 + RECORD_BYTES + PLACE_BYTES + DETAILS_BYTES];
    reply[0] = card_step(&purse, own, &told, &handed);
    pack_record(reply + 1, &purse);
    pack_message(reply + 1 + RECORD_BYTES, &handed.sent);
    pack_details(reply + 1 + RECORD_BYTES + PLACE_BYTES, &handed.collected);
    give(reply, sizeof reply);
}

int main(void) {
    for (;;) {
        switch (getchar()) {
        case 'E': event(); break;
        case 'O': opening(); break;
        case 'R': read_image(); break;
        case 'W': write_image(); break;
        case 'C': claims(); break;
        case 'P': card(); break;
        default: return 0;
        }
        if (fflush(stdout) != 0)
            return 1;
    }
}
