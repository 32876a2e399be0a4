/* The entries of prs.h called from C, or from C++: the same text is built as both.

   replay               the bench program: its input on standard input, its listing on standard output (document 01, "The bench program's
                        listing"). Beside the bench each purse has a card of its own, which is told what the bench was told of it. After
                        every event an image of the bench is written, read into another bench and written again. At the end the whole
                        list is run on a second bench.
   replay refusals      direct calls that must be refused and leave everything as it was

   What is not as it must be is told on standard error, and the exit status is 1. */
#include <prs.h>
#include <stdio.h>
#include <stdlib.h>
#include <string.h>

typedef struct {
    prs_purse table[PRS_RECORDS];
    prs_desk desk;
} bench;

static char where[80]; /* what is being done, for the failures */
static unsigned long compared, failures;

/* ---- Comparing, field by field: padding bytes are not kept ---- */

static void same(const char *what, unsigned at, const char *field, unsigned long is, unsigned long wanted)
{
    compared++;
    if (is != wanted) {
        failures++;
        fprintf(stderr, "%s: %s %u: %s is %lu, wanted %lu\n", where, what, at, field, is, wanted);
    }
}

static void same_details(const char *what, unsigned at, prs_details is, prs_details wanted)
{
    same(what, at, "payer", is.payer.n, wanted.payer.n);
    same(what, at, "payer's number", is.payerseq.n, wanted.payerseq.n);
    same(what, at, "payee", is.payee.n, wanted.payee.n);
    same(what, at, "payee's number", is.payeeseq.n, wanted.payeeseq.n);
    same(what, at, "amount", is.amount.n, wanted.amount.n);
}

static void same_purse(const char *what, unsigned at, const prs_purse *is, const prs_purse *wanted)
{
    same(what, at, "balance", is->balance.n, wanted->balance.n);
    same(what, at, "next", is->next.n, wanted->next.n);
    same(what, at, "status", is->status, wanted->status);
    same(what, at, "log count", is->logged, wanted->logged);
    same_details(what, at, is->details, wanted->details);
    for (unsigned i = 0; i < PRS_LOG; i++)
        same_details(what, at, is->log[i], wanted->log[i]);
}

static void same_bench(const bench *is, const bench *wanted)
{
    for (unsigned i = 0; i < PRS_RECORDS; i++)
        same_purse("purse", i, &is->table[i], &wanted->table[i]);
    same("desk", 0, "purses", is->desk.purses, wanted->desk.purses);
    same("desk", 0, "messages", is->desk.ether.count, wanted->desk.ether.count);
    same("desk", 0, "archive", is->desk.archive.count, wanted->desk.archive.count);
    for (unsigned i = 0; i < PRS_PLACES; i++) {
        const prs_message *m = &is->desk.ether.places[i], *n = &wanted->desk.ether.places[i];
        const prs_entry *e = &is->desk.archive.places[i], *f = &wanted->desk.archive.places[i];
        same("message", i, "kind", m->kind, n->kind);
        same_details("message", i, m->details, n->details);
        same("entry", i, "purse", e->by.n, f->by.n);
        same_details("entry", i, e->details, f->details);
    }
}

static void same_bytes(const char *what, const uint8_t *is, const uint8_t *wanted, size_t count)
{
    for (size_t i = 0; i < count; i++)
        if (is[i] != wanted[i]) {
            same(what, (unsigned)i, "byte", is[i], wanted[i]);
            return;
        }
    compared++;
}

/* ---- Images ---- */

static size_t image_length(const prs_desk *desk)
{
    return 10 + 136 * (size_t)desk->purses + 15 * ((size_t)desk->ether.count + desk->archive.count);
}

/* The image of a bench that keeps the rules: its length, nothing past it touched, and the way back. */
static void there_and_back(const bench *b)
{
    static uint8_t first[PRS_IMAGE_MAX], second[PRS_IMAGE_MAX], untouched[PRS_IMAGE_MAX];
    static bench other;

    memset(untouched, 0xC3, sizeof untouched);
    memset(first, 0xC3, sizeof first);
    memset(second, 0x3C, sizeof second);
    memset(&other, 0xFF, sizeof other); /* reading ignores what was held */
    prs_written written = prs_write(b->table, PRS_RECORDS, &b->desk, first, sizeof first);
    same("prs_write", 0, "answer", written.answer, PRS_DONE);
    same("prs_write", 0, "length", written.length, image_length(&b->desk));
    if (written.length > sizeof first)
        return;
    same_bytes("past the image", first + written.length, untouched, sizeof first - written.length);
    same("prs_read", 0, "answer", prs_read(other.table, PRS_RECORDS, &other.desk, first, written.length), PRS_DONE);
    same_bench(&other, b);
    prs_written again = prs_write(other.table, PRS_RECORDS, &other.desk, second, written.length);
    same("prs_write again", 0, "answer", again.answer, PRS_DONE);
    same("prs_write again", 0, "length", again.length, written.length);
    same_bytes("image", second, first, written.length);
}

/* ---- The listing ---- */

static uint32_t big(const uint8_t *b)
{
    return (uint32_t)b[0] << 24 | (uint32_t)b[1] << 16 | (uint32_t)b[2] << 8 | (uint32_t)b[3];
}

static void out_of_memory(const void *memory)
{
    if (memory == NULL) {
        fputs("replay: no memory\n", stderr);
        exit(2);
    }
}

static uint8_t *whole_input(size_t *length)
{
    size_t room = 1 << 16, got;
    uint8_t *bytes = (uint8_t *)malloc(room);

    out_of_memory(bytes);
    *length = 0;
    while ((got = fread(bytes + *length, 1, room - *length, stdin)) != 0) {
        *length += got;
        if (*length == room) {
            bytes = (uint8_t *)realloc(bytes, room *= 2);
            out_of_memory(bytes);
        }
    }
    return bytes;
}

/* "Too few opening bytes count as 20"; `used` becomes the opening's bytes. */
static uint8_t opening(bench *b, const uint8_t *input, size_t length, size_t *used)
{
    uint32_t balances[UINT8_MAX];
    size_t count = length == 0 ? 0 : input[0];

    *used = 1 + 4 * count;
    if (length < *used)
        return PRS_BAD_COUNT;
    for (size_t i = 0; i < count; i++)
        balances[i] = big(input + 1 + 4 * i);
    return prs_opening(b->table, PRS_RECORDS, &b->desk, balances, count);
}

/* Tells the card of the event's purse what the bench was told, where the bench asked it: not where it tested the table (2, 3, 4), the
   messages (5, or a loss), a counterparty that is not in the table (6) or the archive (15). `stood` is the message at the event's place.
   An issue asks no card: where it is done, the next card, after so many purses, is a new one with the first balance and next number 1. */
static void tell_card(prs_purse *cards, unsigned purses, const uint8_t *event, size_t length, prs_message stood, uint8_t answer)
{
    if (length != PRS_EVENT_BYTES || event[0] == PRS_LOSE || (answer >= 2 && answer <= 6) || answer == PRS_ARCHIVE_FULL)
        return;
    if (event[0] == PRS_ISSUE) {
        if (answer == PRS_DONE && purses < PRS_RECORDS) {
            cards[purses].balance.n = big(event + 8);
            cards[purses].next.n = 1;
        }
        return;
    }
    prs_name own = {event[1]};
    prs_order order = {event[0], {event[2]}, {big(event + 4)}, {big(event + 8)}, stood};
    prs_handed handed = prs_card(&cards[own.n], own, order);
    same("card", own.n, "answer", handed.answer, answer == PRS_DONE_LOST ? 0 : answer);
}

/* The events of the list in one call, from the same opening; the last one, if it is cut short, by itself. */
static void run_whole(const uint8_t *input, size_t length, const uint8_t *answers, const bench *wanted)
{
    static bench b;
    size_t used, whole;

    strcpy(where, "the whole list");
    memset(&b, 0xFF, sizeof b);
    same("prs_opening", 0, "answer", opening(&b, input, length, &used), PRS_DONE);
    const uint8_t *list = input + used;
    length -= used;
    whole = length / PRS_EVENT_BYTES;
    uint8_t *said = (uint8_t *)malloc(whole + 2);
    out_of_memory(said);
    said[whole] = 99;
    same("prs_run", 0, "count", prs_run(b.table, PRS_RECORDS, &b.desk, list, length, said, whole), whole);
    same_bytes("answers", said, answers, whole);
    same("prs_run", 0, "byte past the answers", said[whole], 99);
    if (whole * PRS_EVENT_BYTES < length)
        same("event cut short", (unsigned)whole, "answer",
             prs_event(b.table, PRS_RECORDS, &b.desk, list + whole * PRS_EVENT_BYTES, length - whole * PRS_EVENT_BYTES), answers[whole]);
    same_bench(&b, wanted);
    free(said);
}

static void replay(void)
{
    static bench b;
    static prs_purse cards[PRS_RECORDS];
    size_t length, at, events = 0;
    uint8_t *input = whole_input(&length);

    strcpy(where, "opening");
    memset(&b, 0xA5, sizeof b);
    bench before = b;
    puts("PRS 1");
    uint8_t refused = opening(&b, input, length, &at);
    if (refused != PRS_DONE) {
        printf("opening %u\n", refused);
        same_bench(&b, &before);
        free(input);
        return;
    }
    uint8_t *answers = (uint8_t *)malloc(length);
    out_of_memory(answers);
    memcpy(cards, b.table, sizeof cards);
    while (at < length) {
        size_t left = length - at, size = left < PRS_EVENT_BYTES ? left : PRS_EVENT_BYTES;
        const uint8_t *event = input + at;
        uint32_t place = size == PRS_EVENT_BYTES ? big(event + 4) : 0;
        prs_message stood;

        memset(&stood, 0, sizeof stood);
        if (place < b.desk.ether.count)
            stood = b.desk.ether.places[place];
        before = b;
        uint8_t answer = prs_event(b.table, PRS_RECORDS, &b.desk, event, size);
        answers[events++] = answer;
        printf("%lu %u\n", (unsigned long)events, answer);
        snprintf(where, sizeof where, "event %lu", (unsigned long)events);
        if (answer >= 2)
            same_bench(&b, &before);
        same("desk", 0, "purses", b.desk.purses,
             before.desk.purses + (unsigned)(size == PRS_EVENT_BYTES && event[0] == PRS_ISSUE && answer == PRS_DONE));
        tell_card(cards, before.desk.purses, event, size, stood, answer);
        there_and_back(&b);
        at += size;
    }
    strcpy(where, "at the end");
    for (unsigned i = 0; i < PRS_RECORDS; i++)
        same_purse("card", i, &cards[i], &b.table[i]);
    for (unsigned i = 0; i < b.desk.purses; i++)
        printf("purse %u %lu %lu %u %u\n", i, (unsigned long)b.table[i].balance.n, (unsigned long)b.table[i].next.n, b.table[i].status,
               b.table[i].logged);
    prs_figure owed = prs_claims(b.table, PRS_RECORDS, &b.desk);
    same("prs_claims", 0, "answer", owed.answer, PRS_DONE);
    printf("messages %u archive %u claims %lu\n", b.desk.ether.count, b.desk.archive.count, (unsigned long)owed.claims);
    run_whole(input, length, answers, &b);
    free(answers);
    free(input);
}

/* ---- Refusals ---- */

static const uint32_t BALANCES[] = {1000, 200};
static const uint8_t START_FROM[PRS_EVENT_BYTES] = {PRS_START_FROM, 0, 1, 0, 0, 0, 0, 1, 0, 0, 1, 44};
static const uint8_t START_TO[PRS_EVENT_BYTES] = {PRS_START_TO, 1, 0, 0, 0, 0, 0, 1, 0, 0, 1, 44};

/* A bench of two purses, both started, with a request under way. */
static void two_started(bench *b)
{
    memset(b, 0xFF, sizeof *b);
    same("two started", 0, "opening", prs_opening(b->table, PRS_RECORDS, &b->desk, BALANCES, 2), PRS_DONE);
    same("two started", 0, "start-from", prs_event(b->table, PRS_RECORDS, &b->desk, START_FROM, PRS_EVENT_BYTES), PRS_DONE);
    same("two started", 0, "start-to", prs_event(b->table, PRS_RECORDS, &b->desk, START_TO, PRS_EVENT_BYTES), PRS_DONE);
}

/* Every entry over a table that it must answer 2: of that many records, or damaged (then opening and reading, which ignore what the table
   held, are left out). */
static void all_answer_two(const bench *given, size_t records, int damaged)
{
    static bench b;
    static uint8_t image[PRS_IMAGE_MAX], out[64], untouched[64];
    uint8_t answers[3] = {99, 99, 99};
    uint8_t list[2 * PRS_EVENT_BYTES];
    bench whole;

    b = *given;
    memset(out, 0xC3, sizeof out);
    memset(untouched, 0xC3, sizeof untouched);
    memcpy(list, START_FROM, PRS_EVENT_BYTES);
    memcpy(list + PRS_EVENT_BYTES, START_TO, PRS_EVENT_BYTES);
    prs_purse *table = records == 0 ? NULL : b.table;
    same("prs_event", 0, "answer", prs_event(table, records, &b.desk, START_FROM, PRS_EVENT_BYTES), PRS_NOT_WELL_FORMED);
    same("prs_event of no bytes", 0, "answer", prs_event(table, records, &b.desk, NULL, 0), PRS_NOT_WELL_FORMED);
    same("prs_run", 0, "count", prs_run(table, records, &b.desk, list, sizeof list, answers, 2), 2);
    same("prs_run", 0, "first answer", answers[0], PRS_NOT_WELL_FORMED);
    same("prs_run", 0, "second answer", answers[1], PRS_NOT_WELL_FORMED);
    same("prs_run", 0, "byte past the answers", answers[2], 99);
    prs_figure owed = prs_claims(table, records, &b.desk);
    same("prs_claims", 0, "answer", owed.answer, PRS_NOT_WELL_FORMED);
    same("prs_claims", 0, "figure", owed.claims, 0);
    prs_written written = prs_write(table, records, &b.desk, out, sizeof out);
    same("prs_write", 0, "answer", written.answer, PRS_NOT_WELL_FORMED); /* and not 19, though the buffer is short too */
    same("prs_write", 0, "length", written.length, 0);
    same_bytes("buffer", out, untouched, sizeof out);
    if (!damaged) {
        two_started(&whole);
        written = prs_write(whole.table, PRS_RECORDS, &whole.desk, image, sizeof image);
        same("prs_opening", 0, "answer", prs_opening(table, records, &b.desk, BALANCES, 2), PRS_NOT_WELL_FORMED);
        same("prs_opening of none", 0, "answer", prs_opening(table, records, &b.desk, NULL, 0), PRS_NOT_WELL_FORMED);
        same("prs_read", 0, "answer", prs_read(table, records, &b.desk, image, written.length), PRS_NOT_WELL_FORMED);
        same("prs_read of no bytes", 0, "answer", prs_read(table, records, &b.desk, NULL, 0), PRS_NOT_WELL_FORMED);
    }
    same_bench(&b, given);
}

static void tables_of_another_length(void)
{
    static const size_t lengths[] = {0, 1, PRS_RECORDS - 1};
    static prs_purse records[PRS_RECORDS + 1], zero;
    bench b;

    two_started(&b);
    for (size_t i = 0; i < sizeof lengths / sizeof *lengths; i++) {
        snprintf(where, sizeof where, "a table of %lu records", (unsigned long)lengths[i]);
        all_answer_two(&b, lengths[i], 0);
    }
    strcpy(where, "a table of 33 records");
    memcpy(records, b.table, sizeof b.table);
    same("prs_event", 0, "answer", prs_event(records, PRS_RECORDS + 1, &b.desk, START_FROM, PRS_EVENT_BYTES), PRS_NOT_WELL_FORMED);
    same("prs_opening", 0, "answer", prs_opening(records, PRS_RECORDS + 1, &b.desk, BALANCES, 2), PRS_NOT_WELL_FORMED);
    for (unsigned i = 0; i <= PRS_RECORDS; i++)
        same_purse("purse", i, &records[i], i < PRS_RECORDS ? &b.table[i] : &zero);
}

static void damaged_benches(void)
{
    bench b;

    strcpy(where, "no purses");
    two_started(&b);
    b.desk.purses = 0;
    all_answer_two(&b, PRS_RECORDS, 1);
    strcpy(where, "257 messages");
    two_started(&b);
    b.desk.ether.count = PRS_PLACES + 1;
    all_answer_two(&b, PRS_RECORDS, 1);
    strcpy(where, "a balance above the ceiling");
    two_started(&b);
    b.table[1].balance.n = PRS_CEILING + 1;
    all_answer_two(&b, PRS_RECORDS, 1);
    strcpy(where, "a record past the purse count");
    two_started(&b);
    b.table[PRS_RECORDS - 1].logged = 1;
    all_answer_two(&b, PRS_RECORDS, 1);
    strcpy(where, "an unused message place");
    two_started(&b);
    b.desk.ether.places[PRS_PLACES - 1].kind = PRS_REQUEST;
    all_answer_two(&b, PRS_RECORDS, 1);
    strcpy(where, "any bytes at all");
    memset(&b, 0xFF, sizeof b);
    all_answer_two(&b, PRS_RECORDS, 1);
}

static void openings(void)
{
    static const uint32_t above[] = {1000, PRS_CEILING + 1};
    uint32_t many[PRS_RECORDS + 1] = {0};
    bench b, was;

    strcpy(where, "refused openings");
    two_started(&b);
    was = b;
    same("no purse", 0, "answer", prs_opening(b.table, PRS_RECORDS, &b.desk, NULL, 0), PRS_BAD_COUNT);
    same("33 purses", 0, "answer", prs_opening(b.table, PRS_RECORDS, &b.desk, many, PRS_RECORDS + 1), PRS_BAD_COUNT);
    same("a balance above", 0, "answer", prs_opening(b.table, PRS_RECORDS, &b.desk, above, 2), PRS_BALANCE_ABOVE_CEILING);
    same_bench(&b, &was);
}

static void events(void)
{
    uint8_t answers[2] = {99, 99}, list[2 * PRS_EVENT_BYTES + 1], longer[PRS_EVENT_BYTES + 1];
    bench b, was;

    strcpy(where, "refused events");
    two_started(&b);
    was = b;
    memset(longer, 0, sizeof longer);
    memcpy(longer, START_FROM, PRS_EVENT_BYTES);
    same("no bytes", 0, "answer", prs_event(b.table, PRS_RECORDS, &b.desk, NULL, 0), PRS_BAD_EVENT);
    same("11 bytes", 0, "answer", prs_event(b.table, PRS_RECORDS, &b.desk, START_FROM, PRS_EVENT_BYTES - 1), PRS_BAD_EVENT);
    same("13 bytes", 0, "answer", prs_event(b.table, PRS_RECORDS, &b.desk, longer, sizeof longer), PRS_BAD_EVENT);
    same("busy", 0, "answer", prs_event(b.table, PRS_RECORDS, &b.desk, START_FROM, PRS_EVENT_BYTES), PRS_BUSY);
    same_bench(&b, &was);

    strcpy(where, "a run of nothing");
    memset(list, 0, sizeof list);
    memcpy(list, START_FROM, PRS_EVENT_BYTES);
    same("no list", 0, "count", prs_run(b.table, PRS_RECORDS, &b.desk, NULL, 0, answers, 2), 0);
    same("no places", 0, "count", prs_run(b.table, PRS_RECORDS, &b.desk, list, sizeof list, NULL, 0), 0);
    same("11 bytes", 0, "count", prs_run(b.table, PRS_RECORDS, &b.desk, list, PRS_EVENT_BYTES - 1, answers, 2), 0);
    same("answers", 0, "first", answers[0], 99);
    same_bench(&b, &was);

    strcpy(where, "a run with one place");
    same("prs_run", 0, "count", prs_run(b.table, PRS_RECORDS, &b.desk, list, sizeof list, answers, 1), 1);
    same("answers", 0, "first", answers[0], PRS_BUSY);
    same("answers", 0, "second", answers[1], 99);
    same_bench(&b, &was);
}

/* One event at a bench, with the answer that it must give; a refused one leaves the bench as it was. */
static void answered(bench *b, const char *what, uint8_t kind, uint8_t purse, uint8_t counterparty, uint32_t amount, uint8_t answer)
{
    uint8_t event[PRS_EVENT_BYTES] = {kind, purse, counterparty, 0, 0, 0, 0, 0, (uint8_t)(amount >> 24), (uint8_t)(amount >> 16),
                                      (uint8_t)(amount >> 8), (uint8_t)amount};
    bench was = *b;

    same(what, purse, "answer", prs_event(b->table, PRS_RECORDS, &b->desk, event, PRS_EVENT_BYTES), answer);
    if (answer >= 2)
        same_bench(b, &was);
}

/* 02's A5: the table filled by issues, which then has no free record left, and loads. */
static void issues_and_loads(void)
{
    bench b, wanted;
    static prs_purse zero;

    strcpy(where, "issues and loads");
    two_started(&b);
    wanted = b;
    answered(&b, "load, busy", PRS_LOAD, 0, 0, 1, 8);
    answered(&b, "load, busy", PRS_LOAD, 1, 0, 1, 8);
    answered(&b, "load, no amount", PRS_LOAD, 1, 0, 0, 7);
    answered(&b, "load, no purse", PRS_LOAD, 2, 0, 1, 4);
    answered(&b, "load, counterparty", PRS_LOAD, 1, 1, 1, 3);
    answered(&b, "issue, purse", PRS_ISSUE, 2, 0, 1, 3);
    answered(&b, "issue, class", PRS_ISSUE, 0, 255, UINT32_MAX, 22);
    answered(&b, "issue, balance", PRS_ISSUE, 0, 0, PRS_CEILING + 1, 21);
    for (unsigned i = 2; i < PRS_RECORDS; i++) {
        answered(&b, "issue", PRS_ISSUE, 0, 0, PRS_CEILING - i, PRS_DONE);
        answered(&b, "load above the ceiling", PRS_LOAD, (uint8_t)i, 0, i + 1, 12);
        answered(&b, "load up to the ceiling", PRS_LOAD, (uint8_t)i, 0, i, PRS_DONE);
        wanted.table[i] = zero;
        wanted.table[i].balance.n = PRS_CEILING;
        wanted.table[i].next.n = 1;
        wanted.desk.purses = (uint8_t)(i + 1);
        same_bench(&b, &wanted);
    }
    answered(&b, "issue, 32 purses stand", PRS_ISSUE, 0, 0, 0, 24);
    answered(&b, "issue, 32 purses stand", PRS_ISSUE, 0, 255, UINT32_MAX, 24);
    answered(&b, "load, no purse", PRS_LOAD, PRS_RECORDS, 0, 1, 4);
}

/* An image that must be refused, with the bench left as it was. */
static void refused_image(const char *what, const uint8_t *bytes, size_t length, uint8_t answer)
{
    bench b, was;

    strcpy(where, what);
    two_started(&b);
    was = b;
    same("prs_read", 0, "answer", prs_read(b.table, PRS_RECORDS, &b.desk, bytes, length), answer);
    same_bench(&b, &was);
}

static void images(void)
{
    static uint8_t out[PRS_IMAGE_MAX], untouched[PRS_IMAGE_MAX], image[PRS_IMAGE_MAX];
    bench b, was;

    strcpy(where, "a buffer too short");
    two_started(&b);
    was = b;
    size_t length = image_length(&b.desk);
    memset(out, 0xC3, sizeof out);
    memset(untouched, 0xC3, sizeof untouched);
    for (size_t room = 0; room < length; room++) {
        prs_written written = prs_write(b.table, PRS_RECORDS, &b.desk, room == 0 ? NULL : out, room);
        same("room", (unsigned)room, "answer", written.answer, PRS_BUFFER_TOO_SHORT);
        same("room", (unsigned)room, "length", written.length, 0);
    }
    same_bytes("buffer", out, untouched, sizeof out);
    same_bench(&b, &was);

    same("prs_write", 0, "length", prs_write(b.table, PRS_RECORDS, &b.desk, image, length).length, length);
    refused_image("an image of no bytes", NULL, 0, PRS_BAD_LENGTH);
    refused_image("an image of 9 bytes", image, 9, PRS_BAD_LENGTH);
    refused_image("an image cut short", image, length - 1, PRS_BAD_LENGTH);
    refused_image("an image with a byte more", image, length + 1, PRS_BAD_LENGTH);
    image[0] ^= 1;
    refused_image("an image with another mark", image, length, PRS_WRONG_MARK);
    image[0] ^= 1;
    image[4] ^= 3;
    refused_image("an image of another version", image, length, PRS_WRONG_VERSION);
    image[4] ^= 3;
    image[5] = PRS_RECORDS + 1;
    refused_image("an image of 33 purses", image, length, PRS_NOT_WELL_FORMED);
    image[5] = 2;
    image[10 + 8] = 4;
    refused_image("an image with a status of 4", image, length, PRS_NOT_WELL_FORMED);
}

static void card(void)
{
    bench b, was;
    prs_order order;
    prs_name own = {0}, none = {PRS_RECORDS};
    prs_details zero;

    strcpy(where, "refused orders");
    two_started(&b);
    was = b;
    memset(&zero, 0, sizeof zero);
    memset(&order, 0, sizeof order);
    order.kind = PRS_COLLECT;
    prs_handed handed = prs_card(&b.table[0], own, order);
    same("collect", 0, "answer", handed.answer, PRS_LOG_EMPTY);
    same_details("entry", 0, handed.entry, zero);
    order.kind = PRS_DELIVER;
    order.message.kind = PRS_VALUE;
    order.message.details = b.table[0].details;
    handed = prs_card(&b.table[0], own, order);
    same("deliver", 0, "answer", handed.answer, PRS_NOT_EXPECTED);
    same("message", 0, "kind", handed.message.kind, 0);
    same_details("message", 0, handed.message.details, zero);
    order.kind = PRS_START_TO;
    same("start-to", 0, "answer", prs_card(&b.table[0], own, order).answer, PRS_BAD_COUNTERPARTY);
    order.kind = PRS_LOAD;
    same("load of nothing", 0, "answer", prs_card(&b.table[0], own, order).answer, PRS_BAD_AMOUNT);
    order.amount.n = 1;
    same("load", 0, "answer", prs_card(&b.table[0], own, order).answer, PRS_BUSY);
    order.amount.n = 0;
    order.kind = PRS_START_TO;
    same("own name", 0, "answer", prs_card(&b.table[2], own, order).answer, PRS_NOT_WELL_FORMED);
    same_bench(&b, &was);
    two_started(&b);
    order.kind = PRS_ABORT;
    same("abort", 0, "answer", prs_card(&b.table[0], own, order).answer, PRS_DONE);
    same("own name above 31", 0, "answer", prs_card(&b.table[0], none, order).answer, PRS_NO_PURSE);

    /* a load hands out nothing and changes the balance alone, whatever else the order says */
    strcpy(where, "loads of a card");
    was = b;
    order.kind = PRS_LOAD;
    order.other.n = 255;
    order.seq.n = 7;
    order.amount.n = PRS_CEILING - 1000 + 1;
    same("load", 0, "answer", prs_card(&b.table[0], own, order).answer, PRS_ABOVE_CEILING);
    same("own name above 31", 0, "answer", prs_card(&b.table[0], none, order).answer, PRS_NO_PURSE);
    same_bench(&b, &was);
    order.amount.n = PRS_CEILING - 1000;
    handed = prs_card(&b.table[0], own, order);
    same("load", 0, "answer", handed.answer, PRS_DONE);
    same("message", 0, "kind", handed.message.kind, 0);
    same_details("message", 0, handed.message.details, zero);
    same_details("entry", 0, handed.entry, zero);
    was.table[0].balance.n = PRS_CEILING;
    same_bench(&b, &was);
}

int main(int argc, char **argv)
{
    if (argc > 1 && strcmp(argv[1], "refusals") == 0) {
        tables_of_another_length();
        damaged_benches();
        openings();
        events();
        issues_and_loads();
        images();
        card();
        printf("%lu comparisons\n", compared);
    } else {
        replay();
    }
    return failures != 0;
}
