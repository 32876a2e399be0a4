/* The transfer rules of document 01, and what document 02 changes of them, in plain C, without proof:
   the yardstick of the benchmarks, and a second reading of the documents for the tests
   (tests/standin).

   Every function works in place on what the caller lends. Answers are document 01's numbers; an
   answer from 2 up leaves everything as it was. */

#ifndef PLAIN_H
#define PLAIN_H

#include <stdbool.h>
#include <stddef.h>
#include <stdint.h>

enum { PURSES = 32, PLACES = 256, LOG_PLACES = 8, CEILING = 5000000, EVENT_BYTES = 12 };
enum { PERSON = 0 }; /* the one class until A2 */
enum { IMAGE_HEAD = 10, RECORD_BYTES = 136, DETAILS_BYTES = 14, PLACE_BYTES = 15 };

typedef struct { uint8_t value; } Name;
typedef struct { uint32_t value; } Seq;
typedef struct { uint32_t value; } Amount;

typedef struct {
    Name payer;
    Seq payerseq;
    Name payee;
    Seq payeeseq;
    Amount amount;
} Details;

typedef enum { REQUEST = 1, VALUE = 2, ACKNOWLEDGE = 3 } MessageKind;
typedef struct { uint8_t kind; Details details; } Message;

typedef enum { IDLE, EPR, EPV, EPA } Status;
typedef struct {
    Amount balance;
    Seq next;
    uint8_t status;
    Details details;
    Details log[LOG_PLACES];
    uint8_t logged;
} Purse;

typedef struct { Name by; Details details; } Entry;
typedef struct { Message places[PLACES]; uint16_t count; } Ether;
typedef struct { Entry places[PLACES]; uint16_t count; } Archive;
typedef struct { uint8_t purses; Ether ether; Archive archive; } Desk;

typedef enum { START_FROM = 1, START_TO, DELIVER, ABORT, LOSE, COLLECT, ISSUE, LOAD } EventKind;

/* What a card is told: kind is START_FROM, START_TO, DELIVER, ABORT, COLLECT or LOAD. */
typedef struct {
    EventKind kind;
    Name counterparty; /* starts */
    Seq number;        /* starts */
    Amount amount;     /* starts, load */
    Message message;   /* deliver */
} CardEvent;

/* What it hands out, all zero where there is nothing to hand out. */
typedef struct {
    Message sent;
    Details collected;
} CardHanded;

/* The rules about one purse alone; names run from 0 below `names`. */
bool purse_ok(const Purse *purse, Name own, unsigned names);

/* The rules of a table of 32 records and its desk. */
bool table_ok(const Purse *table, const Desk *desk);

/* The card's step on its own record. */
uint8_t card_step(Purse *purse, Name own, const CardEvent *event, CardHanded *handed);

/* One event at a table of `records` records, the rules tested first. */
uint8_t bench_event(Purse *table, size_t records, Desk *desk, const uint8_t *bytes, size_t length);

/* A piece of input, the rules tested once: one answer for each 12 bytes and for a last event cut
   short. Gives back how many answers. */
size_t bench_run(Purse *table, size_t records, Desk *desk, const uint8_t *bytes, size_t length,
                 uint8_t *answers);

uint8_t bench_open(Purse *table, size_t records, Desk *desk, const Amount *balances, size_t count);

uint8_t image_write(const Purse *table, size_t records, const Desk *desk, uint8_t *buffer,
                    size_t size, size_t *length);
uint8_t image_read(Purse *table, size_t records, Desk *desk, const uint8_t *image, size_t length);

/* The claims figure of a table that keeps the rules, over every matched pair, on cards and in the
   archive; 2 and figure 0 otherwise. */
uint8_t bench_claims(const Purse *table, size_t records, const Desk *desk, uint32_t *figure);

/* Records, messages and entries as in an image; unpack takes any bytes. */
void pack_details(uint8_t *to, const Details *details);
void unpack_details(Details *details, const uint8_t *from);
void pack_record(uint8_t *to, const Purse *purse);
void unpack_record(Purse *purse, const uint8_t *from);
void pack_message(uint8_t *to, const Message *message);
void unpack_message(Message *message, const uint8_t *from);
void pack_entry(uint8_t *to, const Entry *entry);
void unpack_entry(Entry *entry, const uint8_t *from);
uint32_t get32(const uint8_t *from);
void put32(uint8_t *to, uint32_t number);
uint32_t get16(const uint8_t *from);
void put16(uint8_t *to, uint32_t number);

#endif
