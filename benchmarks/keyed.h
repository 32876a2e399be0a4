/* The functions of plain.h with the names that keyed.c gives them. */

#ifndef KEYED_H
#define KEYED_H

#include "plain.h"

__typeof__(card_step) keyed_card_step;
__typeof__(bench_open) keyed_bench_open;
__typeof__(bench_event) keyed_bench_event;
__typeof__(bench_run) keyed_bench_run;
__typeof__(bench_claims) keyed_bench_claims;
__typeof__(image_write) keyed_image_write;
__typeof__(image_read) keyed_image_read;

/* The key of a message (its kind before) or an entry (the purse that logged it). */
uint32_t keyed_key(uint8_t tag, const Details *details);

#endif
