/* The plain C of plain.c with the one idea of the table's test more: equal messages, and equal entries, are looked for by a 32-bit key
   first, and compared whole only where a key is found again. Beside plain.c it shows what the idea gives; ours beside it shows what
   the proof costs. */

/* Names of its own, since plain.c is linked beside. */
#define purse_ok keyed_purse_ok
#define table_ok keyed_table_ok
#define card_step keyed_card_step
#define bench_event keyed_bench_event
#define bench_run keyed_bench_run
#define bench_open keyed_bench_open
#define bench_claims keyed_bench_claims
#define image_write keyed_image_write
#define image_read keyed_image_read
#define pack_details keyed_pack_details
#define unpack_details keyed_unpack_details
#define pack_record keyed_pack_record
#define unpack_record keyed_unpack_record
#define pack_message keyed_pack_message
#define unpack_message keyed_unpack_message
#define pack_entry keyed_pack_entry
#define unpack_entry keyed_unpack_entry
#define get32 keyed_get32
#define put32 keyed_put32
#define get16 keyed_get16
#define put16 keyed_put16

#include "plain.h"

#include "keyed.h"

/* The formula of `key` in crates/table_records/src/places.rt; benchmarks/run holds its numbers to that file. */
uint32_t keyed_key(uint8_t tag, const Details *d) {
    return d->payee.value * 16777216u + d->payer.value * 524288u + tag * 4194304u +
           d->payeeseq.value + d->payerseq.value * 2654435761u + d->amount.value * 40503u;
}

/* Keeps the key at place i; whether none before is the same. Without a branch and at -O3, so that several keys are compared at once, as ours. */
__attribute__((optimize("O3"))) static bool key_is_new(uint32_t *keys, unsigned i, uint32_t key) {
    unsigned hit = 0;
    for (unsigned j = 0; j < i; j++)
        hit |= keys[j] == key;
    keys[i] = key;
    return !hit;
}

#define KEYED
#define KEYS(keys) uint32_t keys[PLACES]
#define KEY_IS_NEW(keys, i, tag, details) key_is_new(keys, i, keyed_key(tag, details))
#include "plain.c"
