/* A stand-in for the bench program over the plain C rules, to try the tests themselves. */

#include "../../benchmarks/plain.h"

#include <stdio.h>
#include <stdlib.h>

/* All of standard input. */
static uint8_t *whole_input(size_t *length) {
    size_t room = 1 << 16, count = 0, got;
    uint8_t *bytes = malloc(room);
    while (bytes != NULL && (got = fread(bytes + count, 1, room - count, stdin)) > 0) {
        count += got;
        if (count == room)
            bytes = realloc(bytes, room *= 2);
    }
    *length = count;
    return bytes;
}

int main(void) {
    static Purse table[PURSES];
    static Desk desk;
    static Amount balances[UINT8_MAX];
    size_t length;
    uint8_t *input = whole_input(&length);
    if (input == NULL)
        return 1;
    size_t purses = length > 0 ? input[0] : 0, opening = 1 + 4 * purses;
    uint8_t answer = 20;
    if (length >= opening) {
        for (size_t i = 0; i < purses; i++)
            balances[i].value = get32(input + 1 + 4 * i);
        answer = bench_open(table, PURSES, &desk, balances, purses);
    }
    puts("PRS 1");
    if (answer != 0) {
        printf("opening %d\n", answer);
        return 0;
    }
    uint8_t *answers = malloc(length);
    if (answers == NULL)
        return 1;
    size_t count = bench_run(table, PURSES, &desk, input + opening, length - opening, answers);
    for (size_t i = 0; i < count; i++)
        printf("%zu %d\n", i + 1, answers[i]);
    for (unsigned i = 0; i < desk.purses; i++)
        printf("purse %u %u %u %d %d\n", i, table[i].balance.value, table[i].next.value,
               table[i].status, table[i].logged);
    uint32_t figure;
    bench_claims(table, PURSES, &desk, &figure);
    printf("messages %d archive %d claims %u\n", desk.ether.count, desk.archive.count, figure);
    return 0;
}
