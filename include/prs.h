/* prs.h: purse transfers, proved. The entries of libprs.a for C and C++.

   A card holds one purse record (prs_card). A bench holds a table of 32 purse records and a desk, which is the messages under
   way and the issuer's archive (prs_opening, prs_event, prs_run, prs_claims), and has a stored image (prs_write, prs_read).
   All of it is the caller's memory, lent to each call: the library allocates nothing, keeps nothing between calls, and does
   no input or output. Calls on different memory may run at the same time.

   What a caller owes to every call:
   - A pointer is valid for as many elements as the length after it says. NULL is allowed only where that length is 0; NULL
     with a length above 0, or for a desk or a card's record, crashes.
   - What a call may change overlaps nothing else that is lent to the same call.
   - Pointers are aligned as their C types are.
   What the memory holds is never a debt of the caller: any bytes are tested before they are used.

   What every call keeps:
   - An answer from 2 up changes nothing: no record, no desk, no byte of a buffer.
   - A table of another length than 32 records is answered 2, whatever else is wrong.
   - Of several answers that apply, the first in the order told at the entry is given.
   - Padding bytes inside the structs are neither read nor kept. Compare fields, or images (prs_write), never structs by memcmp.

   Stack: a call needs at most so many bytes below its caller's frame (PRS_STACK_...). */
#ifndef PRS_H
#define PRS_H

#include <stddef.h>
#include <stdint.h>

#ifdef __cplusplus
extern "C" {
#endif

/* ---- Numbers ---- */

#define PRS_RECORDS 32       /* records of a table */
#define PRS_PLACES 256       /* places for messages, and for archive entries */
#define PRS_LOG 8            /* places of a purse's log */
#define PRS_CEILING 5000000  /* the largest balance and the largest amount */
#define PRS_EVENT_BYTES 12   /* an event */
#define PRS_IMAGE_MAX 12042  /* bytes of the largest image */

/* The stack of each entry in bytes, measured by benchmarks/run and rounded up. */
#define PRS_STACK_CARD 1408
#define PRS_STACK_OPENING 31744
#define PRS_STACK_EVENT 15872
#define PRS_STACK_RUN 131584
#define PRS_STACK_CLAIMS 41472
#define PRS_STACK_WRITE 39424
#define PRS_STACK_READ 106496

/* What a call answers. */
enum prs_answer {
    PRS_DONE = 0,                   /* done */
    PRS_DONE_LOST = 1,              /* done and the message was lost */
    PRS_NOT_WELL_FORMED = 2,        /* table not well formed */
    PRS_BAD_EVENT = 3,              /* event not 12 bytes, bad kind, spare or unused field not 0 */
    PRS_NO_PURSE = 4,               /* no such purse */
    PRS_NO_MESSAGE = 5,             /* no message at that place */
    PRS_BAD_COUNTERPARTY = 6,       /* counterparty not in the table, or the purse itself */
    PRS_BAD_AMOUNT = 7,             /* amount 0 or above 5,000,000 */
    PRS_BUSY = 8,                   /* start at a busy purse; load too */
    PRS_NUMBERS_USED_UP = 9,        /* next sequence number is 4,294,967,295 */
    PRS_LOG_FULL = 10,              /* start with 8 log entries */
    PRS_ABOVE_BALANCE = 11,         /* start-from, amount above the balance */
    PRS_ABOVE_CEILING = 12,         /* start-to, balance plus amount above 5,000,000; load too */
    PRS_NOT_EXPECTED = 13,          /* delivered message not the one expected */
    PRS_LOG_EMPTY = 14,             /* collect: log empty */
    PRS_ARCHIVE_FULL = 15,          /* collect: archive full */
    PRS_BAD_LENGTH = 16,            /* image shorter than 10 bytes, or length not as its counts say */
    PRS_WRONG_MARK = 17,            /* wrong mark */
    PRS_WRONG_VERSION = 18,         /* wrong version */
    PRS_BUFFER_TOO_SHORT = 19,      /* output buffer too short */
    PRS_BAD_COUNT = 20,             /* opening: not 1 to 32 purses */
    PRS_BALANCE_ABOVE_CEILING = 21, /* opening: a balance above 5,000,000; issue too */
    PRS_BAD_CLASS = 22,             /* issue: a class other than 0 */
    PRS_TABLE_FULL = 24             /* issue: 32 purses stand already */
};

/* The kind of an event (its first byte) and of a card's order; a card is never told to lose or to issue. */
enum prs_event_kind {
    PRS_START_FROM = 1,
    PRS_START_TO = 2,
    PRS_DELIVER = 3,
    PRS_ABORT = 4,
    PRS_LOSE = 5,
    PRS_COLLECT = 6,
    PRS_ISSUE = 7,
    PRS_LOAD = 8
};

enum prs_message_kind {
    PRS_REQUEST = 1,
    PRS_VALUE = 2,
    PRS_ACKNOWLEDGE = 3
};

enum prs_status {
    PRS_IDLE = 0,
    PRS_EPR = 1, /* payer, expecting the request */
    PRS_EPV = 2, /* payee, expecting the value */
    PRS_EPA = 3  /* payer, expecting the acknowledge */
};

/* ---- Records. Everything unused in them is zero. ---- */

/* Names, sequence numbers and amounts are types of their own, so that none is taken for another. A name is a place in the
   table, from 0. */
typedef struct { uint8_t n; } prs_name;
typedef struct { uint32_t n; } prs_seq;
typedef struct { uint32_t n; } prs_amount;

/* Payment details. */
typedef struct {
    prs_name payer;
    prs_seq payerseq;
    prs_name payee;
    prs_seq payeeseq;
    prs_amount amount;
} prs_details;

typedef struct {
    uint8_t kind; /* enum prs_message_kind */
    prs_details details;
} prs_message;

typedef struct {
    prs_amount balance;
    prs_seq next;        /* the next sequence number, at least 1 */
    uint8_t status;      /* enum prs_status */
    prs_details details; /* of the running payment */
    prs_details log[PRS_LOG];
    uint8_t logged;      /* so many places of the log are used */
} prs_purse;

/* An archive entry: the purse that logged it, and what. */
typedef struct {
    prs_name by;
    prs_details details;
} prs_entry;

/* The messages under way, from place 0. */
typedef struct {
    prs_message places[PRS_PLACES];
    uint16_t count;
} prs_ether;

/* The entries collected, from place 0. */
typedef struct {
    prs_entry places[PRS_PLACES];
    uint16_t count;
} prs_archive;

/* All that a bench holds beside its table. */
typedef struct {
    uint8_t purses; /* so many records of the table are used */
    prs_ether ether;
    prs_archive archive;
} prs_desk;

/* ---- The card ---- */

/* What a card is told. Fields that the kind does not use are not looked at. */
typedef struct {
    uint8_t kind;        /* PRS_START_FROM, PRS_START_TO, PRS_ABORT, PRS_COLLECT or PRS_LOAD; every other number delivers the
                            message */
    prs_name other;      /* starts: the counterparty */
    prs_seq seq;         /* starts: the counterparty's sequence number */
    prs_amount amount;   /* starts, load */
    prs_message message; /* the message delivered */
} prs_order;

typedef struct {
    uint8_t answer;
    prs_message message; /* the message to send, or all zero */
    prs_details entry;   /* the entry collected, or all zero */
} prs_handed;

/* One step of the card `own`, on its record where it stands.
   Reads and changes the record.
   Answers 0, or 2 (the record breaks a rule about one purse alone), 4 (own name above 31), then
   a start 6, 7, 8, 9, 10, then 11 or 12; a delivery 13; a collect 14; a load 7, 8, 12. An abort has no more. Never 1, 3, 5
   or 15. */
prs_handed prs_card(prs_purse *purse, prs_name own, prs_order order);

/* ---- The bench ---- */

/* Opens a bench of `count` purses: these balances, next sequence number 1, all idle, no entries, no messages.
   Reads the balances alone; what table and desk held does not matter. Changes all of the table and the desk.
   Answers 0, or 2 (table not of 32 records), 20, 21. */
uint8_t prs_opening(prs_purse *table, size_t records, prs_desk *desk, const uint32_t *balances, size_t count);

/* One event of 12 bytes: kind, purse, counterparty, spare (0), number (4), amount (4), numbers big-endian. Number is the
   counterparty's sequence number (starts) or a message's place (deliver, lose). An issue has the new purse's class (0) as
   counterparty and its first balance as amount; the purse stands behind those of the table, whose number grows by 1. Fields
   that a kind does not use are 0: counterparty outside starts and issue, number in abort, collect, issue and load, amount
   outside starts, issue and load, purse in lose and issue.
   Reads table, desk and event; changes one record of the table, and the messages, the archive or the number of purses.
   Answers 0, 1, or 2 (table or desk not well formed), 3 (any length but 12 too), then
   starts 4, 6, 7, 8, 9, 10, then 11 or 12; deliver 4, 5, 13; abort 4; lose 5; collect 4, 14, 15; issue 24, 22, 21; load 4,
   7, 8, 12. */
uint8_t prs_event(prs_purse *table, size_t records, prs_desk *desk, const uint8_t *event, size_t length);

/* The whole events of a list, one after the other, as many as there are places for answers: the smaller of length / 12 and
   places. Gives back how many it took. Every answer is the one that prs_event would give, and what the bench then holds is the same;
   table and desk are tested once. A last event cut short is not taken: hand it to prs_event, which answers 3.
   Reads table, desk and list; changes the table, the desk and as many answers as it took. Where table and desk are not well
   formed every answer is 2. */
size_t prs_run(prs_purse *table, size_t records, prs_desk *desk, const uint8_t *list, size_t length, uint8_t *answers,
               size_t places);

typedef struct {
    uint8_t answer;
    uint32_t claims;
} prs_figure;

/* The claims figure: what is owed to payers, summed over every matched pair: payer and payee have each logged the same
   details, in the record or in the archive. At most 1,280,000,000.
   Reads table and desk; changes nothing.
   Answers 0, or 2 with the figure 0. */
prs_figure prs_claims(const prs_purse *table, size_t records, const prs_desk *desk);

/* ---- Stored images ---- */

typedef struct {
    uint8_t answer;
    size_t length; /* of the image; 0 when refused */
} prs_written;

/* The bench as an image, at the start of the buffer; PRS_IMAGE_MAX bytes are always enough.
   Reads table and desk; changes the first bytes of the buffer, as many as the image has, and none past them.
   Answers 0, or 2, 19. */
prs_written prs_write(const prs_purse *table, size_t records, const prs_desk *desk, uint8_t *out, size_t length);

/* The bench that an image gives.
   Reads the bytes alone; what table and desk held does not matter. Changes all of the table and the desk.
   Answers 0, or 2 (table not of 32 records), 16 (under 10 bytes), 17, 18, 2 (a count), 16 (length), 2 (any other rule). */
uint8_t prs_read(prs_purse *table, size_t records, prs_desk *desk, const uint8_t *bytes, size_t length);

#ifdef __cplusplus
}
#endif

/* ---- Layout: what libprs.a was built for. A compiler or an option that lays the structs out otherwise is stopped here. ---- */

#if defined __cplusplus && __cplusplus >= 201103L
#define PRS_LAID(claim) static_assert(claim, "prs.h: libprs.a was built for another layout")
#elif defined __STDC_VERSION__ && __STDC_VERSION__ >= 201112L
#define PRS_LAID(claim) _Static_assert(claim, "prs.h: libprs.a was built for another layout")
#endif

#ifdef PRS_LAID

PRS_LAID(sizeof(prs_name) == 1);
PRS_LAID(offsetof(prs_name, n) == 0);

PRS_LAID(sizeof(prs_seq) == 4);
PRS_LAID(offsetof(prs_seq, n) == 0);

PRS_LAID(sizeof(prs_amount) == 4);
PRS_LAID(offsetof(prs_amount, n) == 0);

PRS_LAID(sizeof(prs_details) == 20);
PRS_LAID(offsetof(prs_details, payer) == 0);
PRS_LAID(offsetof(prs_details, payerseq) == 4);
PRS_LAID(offsetof(prs_details, payee) == 8);
PRS_LAID(offsetof(prs_details, payeeseq) == 12);
PRS_LAID(offsetof(prs_details, amount) == 16);

PRS_LAID(sizeof(prs_message) == 24);
PRS_LAID(offsetof(prs_message, kind) == 0);
PRS_LAID(offsetof(prs_message, details) == 4);

PRS_LAID(sizeof(prs_handed) == 48);
PRS_LAID(offsetof(prs_handed, answer) == 0);
PRS_LAID(offsetof(prs_handed, message) == 4);
PRS_LAID(offsetof(prs_handed, entry) == 28);

PRS_LAID(sizeof(prs_purse) == 196);
PRS_LAID(offsetof(prs_purse, balance) == 0);
PRS_LAID(offsetof(prs_purse, next) == 4);
PRS_LAID(offsetof(prs_purse, status) == 8);
PRS_LAID(offsetof(prs_purse, details) == 12);
PRS_LAID(offsetof(prs_purse, log) == 32);
PRS_LAID(offsetof(prs_purse, logged) == 192);

PRS_LAID(sizeof(prs_order) == 36);
PRS_LAID(offsetof(prs_order, kind) == 0);
PRS_LAID(offsetof(prs_order, other) == 1);
PRS_LAID(offsetof(prs_order, seq) == 4);
PRS_LAID(offsetof(prs_order, amount) == 8);
PRS_LAID(offsetof(prs_order, message) == 12);

PRS_LAID(sizeof(prs_figure) == 8);
PRS_LAID(offsetof(prs_figure, answer) == 0);
PRS_LAID(offsetof(prs_figure, claims) == 4);

PRS_LAID(sizeof(prs_ether) == 6148);
PRS_LAID(offsetof(prs_ether, places) == 0);
PRS_LAID(offsetof(prs_ether, count) == 6144);

PRS_LAID(sizeof(prs_entry) == 24);
PRS_LAID(offsetof(prs_entry, by) == 0);
PRS_LAID(offsetof(prs_entry, details) == 4);

PRS_LAID(sizeof(prs_archive) == 6148);
PRS_LAID(offsetof(prs_archive, places) == 0);
PRS_LAID(offsetof(prs_archive, count) == 6144);

PRS_LAID(sizeof(prs_desk) == 12300);
PRS_LAID(offsetof(prs_desk, purses) == 0);
PRS_LAID(offsetof(prs_desk, ether) == 4);
PRS_LAID(offsetof(prs_desk, archive) == 6152);

PRS_LAID(sizeof(prs_written) == 16);
PRS_LAID(offsetof(prs_written, answer) == 0);
PRS_LAID(offsetof(prs_written, length) == 8);
#undef PRS_LAID
#endif

#endif
