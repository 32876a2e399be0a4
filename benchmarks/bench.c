/* What a call costs: the entries of prs.h, the plain C of plain.c and the C with keys of keyed.c, in one process, on the same states.

   bench check        all three answer the same and leave the same bytes
   bench count        each call once on each side, for callgrind: the counts are dumped at each
   bench time         interleaved timing, the least of many runs
   bench stack        how deep each call's stack goes; exit status 1 where it is above what prs.h says

   The records of all sides are laid out alike, so a state is made once and handed to each. */

#define _GNU_SOURCE
#include "../include/prs.h"
#include "keyed.h"
#include "plain.h"

#include <stdio.h>
#include <stdlib.h>
#include <string.h>
#include <time.h>
#include <ucontext.h>
#if __has_include(<valgrind/callgrind.h>)
#include <valgrind/callgrind.h>
#else
#define CALLGRIND_ZERO_STATS
#define CALLGRIND_DUMP_STATS_AT(name) (void)(name)
#endif

typedef struct { Purse table[PURSES]; Desk desk; } Held;

_Static_assert(sizeof(Purse) == sizeof(prs_purse) && sizeof(Desk) == sizeof(prs_desk) &&
                   sizeof(Message) == sizeof(prs_message) && sizeof(Details) == sizeof(prs_details),
               "one state for all sides");

/* ---- States: 32 purses or fewer, so many messages and archive entries, log entries up to a count ---- */

enum { NEXT = 100000 };

static Details details(unsigned payer, unsigned payerseq, unsigned payee, unsigned payeeseq,
                       unsigned amount) {
    return (Details){{(uint8_t)payer}, {payerseq}, {(uint8_t)payee}, {payeeseq}, {amount}};
}

/* Busy purses (every odd one) hold one log entry less than the count, purse 0 too, so that it can
   start. Message 0 is the request that purse 1 waits for. */
static void fill(Held *held, unsigned purses, unsigned messages, unsigned entries, unsigned logged) {
    memset(held, 0, sizeof *held);
    held->desk.purses = (uint8_t)purses;
    for (unsigned i = 0; i < purses; i++) {
        Purse *p = &held->table[i];
        unsigned other = (i + 1) % PURSES;
        p->balance.value = 1000000;
        p->next.value = NEXT;
        if (logged == 0)
            continue;
        if (i % 2 == 1) {
            p->status = (uint8_t)(i % 4 == 1 ? EPR : EPA);
            p->details = details(i, NEXT - 1, other, 1, 100 + i);
        }
        p->logged = (uint8_t)(logged - (i % 2 == 1 || i == 0));
        for (unsigned k = 0; k < p->logged; k++)
            p->log[k] = details(i, 1 + k, other, 1, 1 + k);
    }
    for (unsigned i = 0; i < messages; i++) {
        Details d = details(i % PURSES, 1000 + i, (i + 7) % PURSES, 1000 + i, 1 + i);
        held->desk.ether.places[i] = (Message){(uint8_t)(1 + i % 3), d};
    }
    if (messages > 0 && logged > 0)
        held->desk.ether.places[0] = (Message){REQUEST, held->table[1].details};
    held->desk.ether.count = (uint16_t)messages;
    for (unsigned i = 0; i < entries; i++) {
        unsigned pair = i / 2, payer = pair % PURSES, payee = (pair + 3) % PURSES;
        Details d = details(payer, 2000 + pair, payee, 3000 + pair, 1 + pair);
        held->desk.archive.places[i] = (Entry){{(uint8_t)(i % 2 ? payee : payer)}, d};
    }
    held->desk.archive.count = (uint16_t)entries;
}

/* Every message, and every entry, with the key of the first: the payee's number is what the key has as it stands, so it makes up for the
   rest. The next numbers go up, so that all such numbers are used ones. At worst the payer's numbers, compared first, are all equal too. */
static void collide(Held *held, bool worst) {
    Ether *ether = &held->desk.ether;
    Archive *archive = &held->desk.archive;
    uint32_t message = keyed_key(ether->places[0].kind, &ether->places[0].details);
    uint32_t entry = keyed_key(archive->places[0].by.value, &archive->places[0].details);
    for (unsigned i = 0; i < PURSES; i++)
        held->table[i].next.value = UINT32_MAX - 1;
    for (unsigned i = 1; i < PLACES; i++) {
        Message *m = &ether->places[i];
        Entry *e = &archive->places[i];
        if (worst) {
            m->details.payerseq = ether->places[0].details.payerseq;
            e->details.payerseq = archive->places[0].details.payerseq;
        }
        m->details.payeeseq.value += message - keyed_key(m->kind, &m->details);
        e->details.payeeseq.value += entry - keyed_key(e->by.value, &e->details);
    }
}

/* The details with a payee's number by which every key looked for is found among those of log_all's archive. */
static Details keyed_alike(Details d) {
    static const Details none;
    d.payeeseq.value += keyed_key(d.payee.value, &none) - keyed_key(d.payee.value, &d);
    return d;
}

/* Every log full and the archive full, for the claims figure: each card has its purse's 8 payments to the next one. Paired, the archive has
   the payees' entries of the same payments: 256 pairs, as many as can stand. Else it has the payers' entries of 256 other payments: 512
   entries whose partner is looked for and stands nowhere, though its key is found. */
static void log_all(Held *held, bool paired) {
    Archive *archive = &held->desk.archive;
    for (unsigned i = 0; i < PLACES; i++) {
        unsigned payer = i / LOG_PLACES, payee = (payer + 1) % PURSES, k = i % LOG_PLACES;
        Details on_card = details(payer, 1 + k, payee, 1 + LOG_PLACES + k, CEILING), other = on_card;
        if (!paired) {
            other.payerseq.value += LOG_PLACES;
            on_card = keyed_alike(on_card);
            other = keyed_alike(other);
        }
        Purse *p = &held->table[payer];
        p->status = IDLE;
        p->details = (Details){0};
        p->logged = LOG_PLACES;
        p->log[k] = on_card;
        archive->places[PLACES - 1 - i] = (Entry){{(uint8_t)(paired ? payee : payer)}, other};
    }
    archive->count = PLACES;
}

typedef enum { APART, SAME_KEY, SAME_KEY_AND_PAYERSEQ, ALL_PAIRED, ALL_ALONE, FEW_PURSES } Kind;
typedef struct { const char *name; unsigned messages, entries, logged; Kind kind; } Size;
static const Size SIZES[] = {
    {"empty", 0, 0, 0, APART},
    {"middling", 128, 128, 4, APART},
    {"full", PLACES, PLACES, LOG_PLACES, APART},
    {"messages", PLACES, 0, 0, APART},
    {"archive", 0, PLACES, 0, APART},
    {"colliding", PLACES, PLACES, LOG_PLACES, SAME_KEY},
    {"colliding_worst", PLACES, PLACES, LOG_PLACES, SAME_KEY_AND_PAYERSEQ},
    {"paired", PLACES, PLACES, LOG_PLACES, ALL_PAIRED},
    {"alone", PLACES, PLACES, LOG_PLACES, ALL_ALONE},
    {"few_purses", 0, 0, 0, FEW_PURSES}};
enum { EMPTY, MIDDLING, FULL, MESSAGES, ARCHIVE, COLLIDING, COLLIDING_WORST, PAIRED, ALONE, FEW, SIZE_COUNT };

/* One event of each kind; what a full bench answers stands beside. */
static const uint8_t EVENTS[][EVENT_BYTES] = {
    {1, 0, 1, 0, 0, 0, 0, 9, 0, 0, 1, 44}, /* start-from: 0 */
    {2, 0, 1, 0, 0, 0, 0, 9, 0, 0, 1, 44}, /* start-to: 1, the request is lost */
    {3, 1, 0, 0, 0, 0, 0, 0, 0, 0, 0, 0},  /* the request delivered: 1, the value is lost */
    {4, 3, 0, 0, 0, 0, 0, 0, 0, 0, 0, 0},  /* abort in epa: 0 */
    {5, 0, 0, 0, 0, 0, 0, 0, 0, 0, 0, 0},  /* the first message lost: 0 */
    {6, 2, 0, 0, 0, 0, 0, 0, 0, 0, 0, 0},  /* collect: 15 */
    {7, 0, 0, 0, 0, 0, 0, 0, 0, 0, 1, 44}, /* issue: 24; with few purses 0 */
    {8, 0, 0, 0, 0, 0, 0, 0, 0, 0, 1, 44}, /* load: 0 */
};
enum { EVENT_COUNT = sizeof EVENTS / sizeof *EVENTS, RUN_EVENTS = 256 };

static uint8_t run_input[RUN_EVENTS * EVENT_BYTES];

/* A run: starts, deliveries, aborts, losses, collects and, up to that kind, issues and loads in turn, over all purses. */
static void fill_run(EventKind last) {
    for (unsigned i = 0; i < RUN_EVENTS; i++) {
        uint8_t *e = run_input + i * EVENT_BYTES;
        unsigned kind = 1 + i % last, purse = (i / last) % PURSES;
        memset(e, 0, EVENT_BYTES);
        e[0] = (uint8_t)kind;
        e[1] = (uint8_t)(kind == LOSE || kind == ISSUE ? 0 : purse);
        if (kind == ISSUE || kind == LOAD) {
            put32(e + 8, 100000 * (i % 11));
        } else if (kind <= START_TO) {
            e[2] = (uint8_t)((purse + 1) % PURSES);
            put32(e + 4, 9);
            put32(e + 8, 300);
        } else if (kind == DELIVER || kind == LOSE) {
            put32(e + 4, (i * 37) % PLACES);
        }
    }
}

/* ---- The sides of each call ---- */

enum { CARDS = 16 }; /* a card's step is short: beside one alone, so many in one call, that the clock's reading hardly counts */

typedef struct {
    Held held; /* the state, before and after */
    Purse cards[CARDS];
    uint8_t answer;
    uint8_t bytes[PRS_IMAGE_MAX];
    size_t length;
    uint32_t figure;
    uint8_t answers[RUN_EVENTS];
    CardHanded handed;
} World;

static Held before;
static const uint8_t *event;
static uint8_t image[PRS_IMAGE_MAX];
static size_t image_length;
static unsigned run_events;
static unsigned card_steps;
static Name own;       /* the card's name, */
static CardEvent told; /* what it is told, */
static prs_order order; /* and the same for ours */
static const Amount balances[PURSES] = {{1000}, {200}, {CEILING}};

#define OUR_TABLE(w) ((prs_purse *)(w)->held.table)
#define OUR_DESK(w) ((prs_desk *)&(w)->held.desk)

static void our_event(World *w) {
    w->answer = prs_event(OUR_TABLE(w), PURSES, OUR_DESK(w), event, EVENT_BYTES);
}
static void our_run(World *w) {
    w->length = prs_run(OUR_TABLE(w), PURSES, OUR_DESK(w), run_input, run_events * EVENT_BYTES,
                        w->answers, run_events);
}
static void our_write(World *w) {
    prs_written written = prs_write(OUR_TABLE(w), PURSES, OUR_DESK(w), w->bytes, sizeof w->bytes);
    w->answer = written.answer;
    w->length = written.length;
}
static void our_read(World *w) {
    w->answer = prs_read(OUR_TABLE(w), PURSES, OUR_DESK(w), image, image_length);
}
static void our_claims(World *w) {
    prs_figure owed = prs_claims(OUR_TABLE(w), PURSES, OUR_DESK(w));
    w->answer = owed.answer;
    w->figure = owed.claims;
}
static void our_card(World *w) {
    prs_name name = {own.value};
    prs_handed handed;
    for (unsigned i = 0; i < card_steps; i++)
        handed = prs_card((prs_purse *)&w->cards[i], name, order);
    w->answer = handed.answer;
    memcpy(&w->handed.sent, &handed.message, sizeof handed.message);
    memcpy(&w->handed.collected, &handed.entry, sizeof handed.entry);
}
static void our_opening(World *w) {
    w->answer = prs_opening(OUR_TABLE(w), PURSES, OUR_DESK(w), (const uint32_t *)balances, PURSES);
}

/* Plain C and the C with keys have the same functions, but for the names. */
#define C_SIDES(side, prefix)                                                                          \
    static void side##_event(World *w) {                                                               \
        w->answer = prefix##bench_event(w->held.table, PURSES, &w->held.desk, event, EVENT_BYTES);     \
    }                                                                                                  \
    static void side##_run(World *w) {                                                                 \
        w->length = prefix##bench_run(w->held.table, PURSES, &w->held.desk, run_input,                 \
                                      run_events * EVENT_BYTES, w->answers);                           \
    }                                                                                                  \
    static void side##_write(World *w) {                                                               \
        w->answer = prefix##image_write(w->held.table, PURSES, &w->held.desk, w->bytes,                \
                                        sizeof w->bytes, &w->length);                                  \
    }                                                                                                  \
    static void side##_read(World *w) {                                                                \
        w->answer =                                                                                    \
            prefix##image_read(w->held.table, PURSES, &w->held.desk, image, image_length);             \
    }                                                                                                  \
    static void side##_claims(World *w) {                                                              \
        w->answer = prefix##bench_claims(w->held.table, PURSES, &w->held.desk, &w->figure);            \
    }                                                                                                  \
    static void side##_card(World *w) {                                                                \
        for (unsigned i = 0; i < card_steps; i++)                                                      \
            w->answer = prefix##card_step(&w->cards[i], own, &told, &w->handed);                       \
    }                                                                                                  \
    static void side##_opening(World *w) {                                                             \
        w->answer = prefix##bench_open(w->held.table, PURSES, &w->held.desk, balances, PURSES);        \
    }
C_SIDES(plain, )
C_SIDES(keyed, keyed_)

static void nothing(World *w) {
    (void)w;
}

typedef void Side(World *);
enum { OURS, PLAIN, KEYED, SIDE_COUNT };
static const char *const SIDES[] = {"ours", "plain", "keyed"};
typedef struct { const char *name; unsigned stack; Side *sides[SIDE_COUNT]; } Call;
static const Call CALLS[] = {
    {"checked", PRS_STACK_EVENT, {our_event, plain_event, keyed_event}},
    {"run", PRS_STACK_RUN, {our_run, plain_run, keyed_run}},
    {"image_write", PRS_STACK_WRITE, {our_write, plain_write, keyed_write}},
    {"image_read", PRS_STACK_READ, {our_read, plain_read, keyed_read}},
    {"claims", PRS_STACK_CLAIMS, {our_claims, plain_claims, keyed_claims}},
    {"card_step", PRS_STACK_CARD, {our_card, plain_card, keyed_card}},
    {"opening", PRS_STACK_OPENING, {our_opening, plain_opening, keyed_opening}}};
enum { CHECKED, RUN, IMAGE_WRITE, IMAGE_READ, CLAIMS, CARD_STEP, OPENING, CALL_COUNT };

static World worlds[SIDE_COUNT];

static void tell(uint8_t name, EventKind kind, uint8_t other, uint32_t seq, uint32_t amount, Message message) {
    own.value = name;
    told = (CardEvent){kind, {other}, {seq}, {amount}, message};
    order = (prs_order){(uint8_t)kind, {other}, {seq}, {amount}, {0}};
    memcpy(&order.message, &message, sizeof message);
}

/* What the figures tell the card. */
static void tell_start(void) {
    tell(0, START_FROM, 1, 9, 300, (Message){0});
}

static void ready(World *w) {
    memset(w, 0, sizeof *w);
    memcpy(&w->held, &before, sizeof before);
    for (unsigned i = 0; i < CARDS; i++)
        w->cards[i] = before.table[own.value % PURSES];
}

static void set_size(const Size *size) {
    fill(&before, size->kind == FEW_PURSES ? 4 : PURSES, size->messages, size->entries, size->logged);
    if (size->kind == SAME_KEY || size->kind == SAME_KEY_AND_PAYERSEQ)
        collide(&before, size->kind == SAME_KEY_AND_PAYERSEQ);
    if (size->kind == ALL_PAIRED || size->kind == ALL_ALONE)
        log_all(&before, size->kind == ALL_PAIRED);
    if (image_write(before.table, PURSES, &before.desk, image, sizeof image, &image_length) != 0) {
        printf("the state %s breaks the rules\n", size->name);
        exit(1);
    }
}

/* ---- All answer the same ---- */

/* Field by field, since padding may differ. */
static bool alike_purse(const Purse *a, const Purse *b) {
    uint8_t x[RECORD_BYTES], y[RECORD_BYTES];
    pack_record(x, a);
    pack_record(y, b);
    return memcmp(x, y, sizeof x) == 0;
}

static bool alike_held(const Held *a, const Held *b) {
    if (a->desk.purses != b->desk.purses || a->desk.ether.count != b->desk.ether.count ||
        a->desk.archive.count != b->desk.archive.count)
        return false;
    for (unsigned i = 0; i < PURSES; i++)
        if (!alike_purse(&a->table[i], &b->table[i]))
            return false;
    for (unsigned i = 0; i < PLACES; i++) {
        uint8_t x[PLACE_BYTES], y[PLACE_BYTES];
        pack_message(x, &a->desk.ether.places[i]);
        pack_message(y, &b->desk.ether.places[i]);
        if (memcmp(x, y, sizeof x) != 0)
            return false;
        pack_entry(x, &a->desk.archive.places[i]);
        pack_entry(y, &b->desk.archive.places[i]);
        if (memcmp(x, y, sizeof x) != 0)
            return false;
    }
    return true;
}

static bool alike(const World *a, const World *b) {
    if (a->answer != b->answer || a->length != b->length || a->figure != b->figure ||
        memcmp(a->bytes, b->bytes, sizeof a->bytes) != 0 ||
        memcmp(a->answers, b->answers, sizeof a->answers) != 0)
        return false;
    uint8_t x[PLACE_BYTES + DETAILS_BYTES], y[PLACE_BYTES + DETAILS_BYTES];
    pack_message(x, &a->handed.sent);
    pack_message(y, &b->handed.sent);
    pack_details(x + PLACE_BYTES, &a->handed.collected);
    pack_details(y + PLACE_BYTES, &b->handed.collected);
    if (memcmp(x, y, sizeof x) != 0)
        return false;
    for (unsigned i = 0; i < CARDS; i++)
        if (!alike_purse(&a->cards[i], &b->cards[i]))
            return false;
    return alike_held(&a->held, &b->held);
}

static unsigned long compared;

static void compare(const Call *call, const char *at) {
    for (unsigned s = 0; s < SIDE_COUNT; s++) {
        ready(&worlds[s]);
        call->sides[s](&worlds[s]);
    }
    for (unsigned s = 0; s < SIDE_COUNT; s++)
        if (!alike(&worlds[s], &worlds[PLAIN])) {
            printf("%s differs at %s: %s answers %u, plain %u\n", call->name, at, SIDES[s],
                   worlds[s].answer, worlds[PLAIN].answer);
            exit(1);
        }
    compared++;
}

static uint32_t drawn = 1;
static uint32_t draw(uint32_t below) {
    drawn = drawn * 1664525 + 1013904223;
    return (uint32_t)(((uint64_t)(drawn >> 8) * below) >> 24);
}

/* An event that is often accepted, sometimes damaged. */
static void draw_event(uint8_t *e) {
    memset(e, 0, EVENT_BYTES);
    e[0] = (uint8_t)(1 + draw(LOAD));
    if (e[0] == ISSUE && draw(8) != 0)
        e[0] = LOAD; /* so that the table fills slowly */
    if (e[0] != LOSE && e[0] != ISSUE)
        e[1] = (uint8_t)draw(draw(20) == 0 ? 40 : 4);
    if (e[0] == ISSUE) {
        e[2] = (uint8_t)(draw(4) == 0 ? draw(3) : 0);
        put32(e + 8, draw(6000000));
    } else if (e[0] == LOAD) {
        put32(e + 8, draw(8) == 0 ? draw(6000000) : draw(4));
    } else if (e[0] <= START_TO) {
        e[2] = (uint8_t)draw(4);
        put32(e + 4, NEXT + draw(4));
        put32(e + 8, draw(20) == 0 ? draw(6000000) : 1 + draw(3));
    } else if (e[0] == DELIVER || e[0] == LOSE) {
        put32(e + 4, draw(draw(4) == 0 ? 300 : 8));
    }
    if (draw(50) == 0)
        e[draw(EVENT_BYTES)] = (uint8_t)draw(256);
}

/* An order of every kind to a card, its own name now and then too high or another's; the message is one that stands, or a damaged one. */
static void draw_order(void) {
    static const EventKind kinds[] = {START_FROM, START_TO, DELIVER, ABORT, COLLECT, LOAD};
    uint8_t name = (uint8_t)draw(draw(20) == 0 ? 40 : 4);
    Message message = before.desk.ether.places[draw(8)];
    if (draw(4) == 0) {
        message.kind = (uint8_t)draw(5);
        message.details = before.table[name % PURSES].details;
    }
    tell(name, kinds[draw(6)], (uint8_t)draw(draw(20) == 0 ? 40 : 4), NEXT + draw(4),
         draw(20) == 0 ? draw(6000000) : 1 + draw(3), message);
}

static void check(void) {
    uint8_t e[EVENT_BYTES];
    fill_run(LOAD);
    for (unsigned s = 0; s < SIZE_COUNT; s++) {
        set_size(&SIZES[s]);
        for (unsigned k = 0; k < CALL_COUNT; k++)
            for (unsigned i = 0; i < EVENT_COUNT; i++) {
                event = EVENTS[i];
                compare(&CALLS[k], SIZES[s].name);
            }
        /* from that state on, events one by one, and now and then every other call */
        event = e;
        for (unsigned i = 0; i < 3000; i++) {
            draw_event(e);
            compare(&CALLS[CHECKED], SIZES[s].name);
            memcpy(&before, &worlds[PLAIN].held, sizeof before);
            draw_order();
            compare(&CALLS[CARD_STEP], SIZES[s].name);
            if (i % 100 == 0) {
                image_write(before.table, PURSES, &before.desk, image, sizeof image,
                            &image_length);
                for (unsigned k = CHECKED + 1; k < CALL_COUNT; k++)
                    compare(&CALLS[k], SIZES[s].name);
            }
        }
        /* damaged states and images: one byte changed */
        set_size(&SIZES[s]);
        Held whole = before;
        for (unsigned i = 0; i < 300; i++) {
            memcpy(&before, &whole, sizeof before);
            ((uint8_t *)&before)[draw(sizeof before)] ^= (uint8_t)(1 + draw(255));
            uint32_t at = draw((uint32_t)image_length);
            uint8_t was = image[at];
            image[at] ^= (uint8_t)(1 + draw(255));
            draw_event(e);
            draw_order();
            for (unsigned k = 0; k < CALL_COUNT; k++)
                compare(&CALLS[k], "a damaged state");
            image[at] = was;
        }
    }
    printf("all sides alike in %lu calls\n", compared);
}

/* ---- Instructions, under callgrind ---- */

/* Each side twice, the second counted, so that what is loaded at first use does not count. */
static void count_call(const Call *call, const char *label) {
    char name[80];
    for (unsigned s = 0; s < SIDE_COUNT; s++)
        for (unsigned turn = 0; turn < 2; turn++) {
            ready(&worlds[s]);
            snprintf(name, sizeof name, "%s %s %s", turn ? "count" : "first", label, SIDES[s]);
            CALLGRIND_ZERO_STATS;
            call->sides[s](&worlds[s]);
            CALLGRIND_DUMP_STATS_AT(name);
        }
}

/* `many` events in a run, or steps of a card. */
static const struct { const char *name; unsigned call, size, many; } FIGURES[] = {
    {"checked_empty", CHECKED, EMPTY, 0},
    {"checked_middling", CHECKED, MIDDLING, 0},
    {"checked_full", CHECKED, FULL, 0},
    {"checked_messages", CHECKED, MESSAGES, 0},
    {"checked_archive", CHECKED, ARCHIVE, 0},
    {"checked_colliding", CHECKED, COLLIDING, 0},
    {"checked_colliding_worst", CHECKED, COLLIDING_WORST, 0},
    {"run_empty", RUN, EMPTY, 256},
    {"run_middling", RUN, MIDDLING, 256},
    {"run_full", RUN, FULL, 256},
    {"run_full_1", RUN, FULL, 1},
    {"run_full_16", RUN, FULL, 16},
    {"run_full_64", RUN, FULL, 64},
    {"image_write_empty", IMAGE_WRITE, EMPTY, 0},
    {"image_write_middling", IMAGE_WRITE, MIDDLING, 0},
    {"image_write", IMAGE_WRITE, FULL, 0},
    {"image_read_empty", IMAGE_READ, EMPTY, 0},
    {"image_read_middling", IMAGE_READ, MIDDLING, 0},
    {"image_read", IMAGE_READ, FULL, 0},
    {"claims_empty", CLAIMS, EMPTY, 0},
    {"claims_middling", CLAIMS, MIDDLING, 0},
    {"claims_full", CLAIMS, FULL, 0},
    {"claims_paired", CLAIMS, PAIRED, 0},
    {"claims_alone", CLAIMS, ALONE, 0},
    {"card_step_empty", CARD_STEP, EMPTY, 1},
    {"card_step", CARD_STEP, FULL, 1},
    {"card_step_of_16", CARD_STEP, FULL, CARDS}};
enum { FIGURE_COUNT = sizeof FIGURES / sizeof *FIGURES };

static void count(void) {
    for (unsigned f = 0; f < FIGURE_COUNT; f++) {
        set_size(&SIZES[FIGURES[f].size]);
        run_events = card_steps = FIGURES[f].many;
        unsigned many = FIGURES[f].call == CHECKED ? EVENT_COUNT : 1;
        for (unsigned i = 0; i < many; i++) {
            event = EVENTS[i];
            count_call(&CALLS[FIGURES[f].call], FIGURES[f].name);
        }
    }
}

/* ---- Time ---- */

static double seconds(void) {
    struct timespec t;
    clock_gettime(CLOCK_MONOTONIC, &t);
    return (double)t.tv_sec + 1e-9 * (double)t.tv_nsec;
}

static double once(Side *side, World *w) {
    ready(w);
    double start = seconds();
    side(w);
    return seconds() - start;
}

enum { TURNS = 1000 };

static void time_all(void) {
    for (unsigned f = 0; f < FIGURE_COUNT; f++) {
        const Call *call = &CALLS[FIGURES[f].call];
        set_size(&SIZES[FIGURES[f].size]);
        run_events = card_steps = FIGURES[f].many;
        unsigned many = FIGURES[f].call == CHECKED ? EVENT_COUNT : 1;
        double sum[SIDE_COUNT] = {0};
        for (unsigned i = 0; i < many; i++) {
            double least[SIDE_COUNT] = {1, 1, 1};
            event = EVENTS[i];
            for (unsigned turn = 0; turn < TURNS; turn++)
                for (unsigned s = 0; s < SIDE_COUNT; s++) {
                    double t = once(call->sides[s], &worlds[s]);
                    least[s] = t < least[s] ? t : least[s];
                }
            for (unsigned s = 0; s < SIDE_COUNT; s++)
                sum[s] += least[s];
        }
        double each = 1e9 / (FIGURES[f].call == CARD_STEP ? card_steps : many);
        printf("time %s %.1f %.1f %.1f\n", FIGURES[f].name, each * sum[OURS], each * sum[PLAIN],
               each * sum[KEYED]);
    }
}

/* ---- Stack ---- */

static ucontext_t outside, inside;
static Side *deep;
static World *deep_world;
enum { STACK = 1 << 20, PAINT = 0xA5 };

static void run_deep(void) {
    deep(deep_world);
}

/* Run on a stack of its own, painted; the painted bytes left are those never reached. */
static size_t depth(Side *side, World *w) {
    static uint8_t stack[STACK];
    memset(stack, PAINT, sizeof stack);
    deep = side;
    deep_world = w;
    getcontext(&inside);
    inside.uc_stack.ss_sp = stack;
    inside.uc_stack.ss_size = sizeof stack;
    inside.uc_link = &outside;
    makecontext(&inside, run_deep, 0);
    swapcontext(&outside, &inside);
    size_t left = 0;
    while (left < sizeof stack && stack[left] == PAINT)
        left++;
    return sizeof stack - left;
}

/* The deepest of each call, over all states and events. */
static bool stack_all(void) {
    bool kept = true;
    run_events = RUN_EVENTS;
    size_t none = depth(nothing, &worlds[OURS]);
    for (unsigned k = 0; k < CALL_COUNT; k++) {
        size_t most[SIDE_COUNT] = {0};
        for (unsigned z = 0; z < SIZE_COUNT; z++) {
            set_size(&SIZES[z]);
            for (unsigned i = 0; i < EVENT_COUNT; i++)
                for (unsigned s = 0; s < SIDE_COUNT; s++) {
                    event = EVENTS[i];
                    /* once before, so that no function of the C library is looked up on the painted stack */
                    ready(&worlds[s]);
                    CALLS[k].sides[s](&worlds[s]);
                    ready(&worlds[s]);
                    size_t deepest = depth(CALLS[k].sides[s], &worlds[s]) - none;
                    most[s] = deepest > most[s] ? deepest : most[s];
                }
        }
        printf("stack %s %zu %zu %zu %u\n", CALLS[k].name, most[OURS], most[PLAIN], most[KEYED],
               CALLS[k].stack);
        kept = kept && most[OURS] <= CALLS[k].stack;
    }
    return kept;
}

int main(int argc, char **argv) {
    const char *what = argc > 1 ? argv[1] : "check";
    fill_run(COLLECT); /* the figures of a run stay those of the same list */
    run_events = RUN_EVENTS;
    card_steps = CARDS;
    tell_start();
    if (strcmp(what, "count") == 0)
        count();
    else if (strcmp(what, "time") == 0)
        time_all();
    else if (strcmp(what, "stack") == 0)
        return !stack_all();
    else
        check();
    return 0;
}
