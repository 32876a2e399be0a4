/* The transfer rules in plain C: see plain.h. */

#include "plain.h"

#include <string.h>

/* keyed.c builds this file with keys of messages and entries; here there are none. */
#ifndef KEYED
#define KEYS(keys)
#define KEY_IS_NEW(keys, i, tag, details) false
#endif

/* ---- Payment details ---- */

static bool same(const Details *a, const Details *b) {
    return a->payerseq.value == b->payerseq.value && a->payeeseq.value == b->payeeseq.value &&
           a->payer.value == b->payer.value && a->payee.value == b->payee.value &&
           a->amount.value == b->amount.value;
}

static bool zero(const Details *d) {
    return !(d->payer.value | d->payerseq.value | d->payee.value | d->payeeseq.value |
             d->amount.value);
}

static bool amount_ok(Amount amount) {
    return amount.value - 1 < CEILING;
}

/* Two different purses below `names` and a legal amount. */
static bool details_ok(const Details *d, unsigned names) {
    return d->payer.value < names && d->payee.value < names && d->payer.value != d->payee.value &&
           amount_ok(d->amount);
}

static bool seq_used(Seq seq, Seq next) {
    return seq.value != 0 && seq.value < next.value;
}

/* Details logged by `own`, whose next number is `next`. */
static bool logged_ok(const Details *d, Name own, Seq next, unsigned names) {
    if (!details_ok(d, names))
        return false;
    if (d->payer.value == own.value)
        return seq_used(d->payerseq, next);
    return d->payee.value == own.value && seq_used(d->payeeseq, next);
}

/* ---- The rules ---- */

static bool running_ok(const Purse *purse, Name own, unsigned names) {
    const Details *d = &purse->details;
    if (!logged_ok(d, own, purse->next, names) || purse->logged == LOG_PLACES)
        return false;
    switch (purse->status) {
    case EPR:
        return d->payer.value == own.value && d->amount.value <= purse->balance.value;
    case EPV:
        return d->payee.value == own.value && purse->balance.value + d->amount.value <= CEILING;
    default:
        return d->payer.value == own.value;
    }
}

bool purse_ok(const Purse *purse, Name own, unsigned names) {
    if (purse->balance.value > CEILING || purse->next.value == 0 || purse->status > EPA ||
        purse->logged > LOG_PLACES)
        return false;
    if (purse->status == IDLE ? !zero(&purse->details) : !running_ok(purse, own, names))
        return false;
    for (unsigned i = 0; i < purse->logged; i++) {
        const Details *d = &purse->log[i];
        if (!logged_ok(d, own, purse->next, names) || same(d, &purse->details))
            return false;
        for (unsigned j = 0; j < i; j++)
            if (same(d, &purse->log[j]))
                return false;
    }
    for (unsigned i = purse->logged; i < LOG_PLACES; i++)
        if (!zero(&purse->log[i]))
            return false;
    return true;
}

static bool ether_ok(const Purse *table, const Desk *desk) {
    const Ether *ether = &desk->ether;
    KEYS(keys);
    for (unsigned i = 0; i < ether->count; i++) {
        const Message *m = &ether->places[i];
        const Details *d = &m->details;
        if (m->kind < REQUEST || m->kind > ACKNOWLEDGE || !details_ok(d, desk->purses))
            return false;
        const Purse *payer = &table[d->payer.value], *payee = &table[d->payee.value];
        if (!seq_used(d->payeeseq, payee->next))
            return false;
        if (m->kind != REQUEST && (!seq_used(d->payerseq, payer->next) ||
                                   (payer->status == EPR && same(d, &payer->details))))
            return false;
        if (m->kind == ACKNOWLEDGE && payee->status == EPV && same(d, &payee->details))
            return false;
        if (KEY_IS_NEW(keys, i, m->kind, d))
            continue;
        for (unsigned j = 0; j < i; j++)
            if (ether->places[j].kind == m->kind && same(&ether->places[j].details, d))
                return false;
    }
    for (unsigned i = ether->count; i < PLACES; i++)
        if (ether->places[i].kind != 0 || !zero(&ether->places[i].details))
            return false;
    return true;
}

static bool archive_ok(const Purse *table, const Desk *desk) {
    const Archive *archive = &desk->archive;
    KEYS(keys);
    for (unsigned i = 0; i < archive->count; i++) {
        const Entry *e = &archive->places[i];
        const Details *d = &e->details;
        if (e->by.value >= desk->purses)
            return false;
        const Purse *by = &table[e->by.value];
        if (!logged_ok(d, e->by, by->next, desk->purses) || same(d, &by->details))
            return false;
        for (unsigned j = 0; j < by->logged; j++)
            if (same(d, &by->log[j]))
                return false;
        if (KEY_IS_NEW(keys, i, e->by.value, d))
            continue;
        for (unsigned j = 0; j < i; j++)
            if (archive->places[j].by.value == e->by.value && same(&archive->places[j].details, d))
                return false;
    }
    for (unsigned i = archive->count; i < PLACES; i++)
        if (archive->places[i].by.value != 0 || !zero(&archive->places[i].details))
            return false;
    return true;
}

static bool purse_zero(const Purse *purse) {
    if (purse->balance.value | purse->next.value | purse->status | purse->logged)
        return false;
    for (unsigned i = 0; i < LOG_PLACES; i++)
        if (!zero(&purse->log[i]))
            return false;
    return zero(&purse->details);
}

bool table_ok(const Purse *table, const Desk *desk) {
    if (desk->purses < 1 || desk->purses > PURSES || desk->ether.count > PLACES ||
        desk->archive.count > PLACES)
        return false;
    for (unsigned i = 0; i < PURSES; i++) {
        Name own = {(uint8_t)i};
        if (i < desk->purses ? !purse_ok(&table[i], own, desk->purses) : !purse_zero(&table[i]))
            return false;
    }
    return ether_ok(table, desk) && archive_ok(table, desk);
}

/* ---- The steps of one purse whose record keeps the rules ---- */

static uint8_t start(Purse *purse, Name own, unsigned names, bool pays, Name counterparty,
                     Seq number, Amount amount) {
    if (counterparty.value >= names || counterparty.value == own.value)
        return 6;
    if (!amount_ok(amount))
        return 7;
    if (purse->status != IDLE)
        return 8;
    if (purse->next.value == UINT32_MAX)
        return 9;
    if (purse->logged == LOG_PLACES)
        return 10;
    if (pays && amount.value > purse->balance.value)
        return 11;
    if (!pays && purse->balance.value + amount.value > CEILING)
        return 12;
    purse->details = pays ? (Details){own, purse->next, counterparty, number, amount}
                          : (Details){counterparty, number, own, purse->next, amount};
    purse->status = pays ? EPR : EPV;
    purse->next.value++;
    return 0;
}

static void rest(Purse *purse) {
    purse->status = IDLE;
    purse->details = (Details){0};
}

/* The kind of the message to send goes to *sends, 0 for none. */
static uint8_t take(Purse *purse, const Message *message, uint8_t *sends) {
    static const uint8_t expected[] = {[EPR] = REQUEST, [EPV] = VALUE, [EPA] = ACKNOWLEDGE};
    if (purse->status == IDLE || message->kind != expected[purse->status] ||
        !same(&message->details, &purse->details))
        return 13;
    uint32_t amount = purse->details.amount.value;
    switch (purse->status) {
    case EPR:
        purse->balance.value -= amount;
        purse->status = EPA;
        *sends = VALUE;
        break;
    case EPV:
        purse->balance.value += amount;
        rest(purse);
        *sends = ACKNOWLEDGE;
        break;
    default:
        rest(purse);
        *sends = 0;
    }
    return 0;
}

static void stop(Purse *purse) {
    if (purse->status == EPA || purse->status == EPV)
        purse->log[purse->logged++] = purse->details;
    rest(purse);
}

/* The oldest entry of a log that is not empty leaves it. */
static void drop_oldest(Purse *purse) {
    memmove(purse->log, purse->log + 1, (LOG_PLACES - 1) * sizeof *purse->log);
    purse->log[LOG_PLACES - 1] = (Details){0};
    purse->logged--;
}

static uint8_t load(Purse *purse, Amount amount) {
    if (!amount_ok(amount))
        return 7;
    if (purse->status != IDLE)
        return 8;
    if (purse->balance.value + amount.value > CEILING)
        return 12;
    purse->balance.value += amount.value;
    return 0;
}

uint8_t card_step(Purse *purse, Name own, const CardEvent *event, CardHanded *handed) {
    *handed = (CardHanded){0};
    if (!purse_ok(purse, own, PURSES))
        return 2;
    if (own.value >= PURSES)
        return 4;
    uint8_t answer = 0;
    switch (event->kind) {
    case START_FROM:
        return start(purse, own, PURSES, true, event->counterparty, event->number, event->amount);
    case START_TO:
        answer =
            start(purse, own, PURSES, false, event->counterparty, event->number, event->amount);
        if (answer == 0)
            handed->sent = (Message){REQUEST, purse->details};
        return answer;
    case DELIVER: {
        uint8_t sends;
        answer = take(purse, &event->message, &sends);
        if (answer == 0 && sends != 0)
            handed->sent = (Message){sends, event->message.details};
        return answer;
    }
    case ABORT:
        stop(purse);
        return 0;
    case LOAD:
        return load(purse, event->amount);
    default:
        if (purse->logged == 0)
            return 14;
        handed->collected = purse->log[0];
        drop_oldest(purse);
        return 0;
    }
}

/* ---- Events at the bench ---- */

static uint8_t send(Ether *ether, uint8_t kind, const Details *details) {
    if (ether->count == PLACES)
        return 1;
    ether->places[ether->count++] = (Message){kind, *details};
    return 0;
}

static uint8_t deliver(Purse *purse, Ether *ether, uint32_t place) {
    if (place >= ether->count)
        return 5;
    const Message *message = &ether->places[place];
    uint8_t sends;
    uint8_t answer = take(purse, message, &sends);
    if (answer != 0 || sends == 0)
        return answer;
    return send(ether, sends, &message->details);
}

static uint8_t lose(Ether *ether, uint32_t place) {
    if (place >= ether->count)
        return 5;
    ether->count--;
    Message *gap = &ether->places[place];
    memmove(gap, gap + 1, (ether->count - place) * sizeof *gap);
    ether->places[ether->count] = (Message){0};
    return 0;
}

static uint8_t collect(Purse *purse, Name own, Archive *archive) {
    if (purse->logged == 0)
        return 14;
    if (archive->count == PLACES)
        return 15;
    archive->places[archive->count++] = (Entry){own, purse->log[0]};
    drop_oldest(purse);
    return 0;
}

static void open_purse(Purse *purse, Amount balance) {
    purse->balance = balance;
    purse->next.value = 1;
}

/* The record at the purse count is all zero. */
static uint8_t issue(Purse *table, Desk *desk, uint8_t class, Amount balance) {
    if (desk->purses == PURSES)
        return 24;
    if (class != PERSON)
        return 22;
    if (balance.value > CEILING)
        return 21;
    open_purse(&table[desk->purses], balance);
    desk->purses++;
    return 0;
}

/* Whether the fields that the kind does not use are 0; not so for a kind that is none. */
static bool unused_zero(uint8_t kind, Name own, Name counterparty, uint32_t number, Amount amount) {
    switch (kind) {
    case START_FROM:
    case START_TO:
        return true;
    case DELIVER:
        return !(counterparty.value | amount.value);
    case ABORT:
    case COLLECT:
        return !(counterparty.value | number | amount.value);
    case LOSE:
        return !(own.value | counterparty.value | amount.value);
    case ISSUE:
        return !(own.value | number);
    case LOAD:
        return !(counterparty.value | number);
    default:
        return false;
    }
}

/* One event at a table known to keep the rules. */
static uint8_t act(Purse *table, Desk *desk, const uint8_t *bytes, size_t length) {
    if (length != EVENT_BYTES || bytes[3] != 0)
        return 3;
    uint8_t kind = bytes[0];
    Name own = {bytes[1]}, counterparty = {bytes[2]};
    uint32_t number = get32(bytes + 4);
    Amount amount = {get32(bytes + 8)};
    if (!unused_zero(kind, own, counterparty, number, amount))
        return 3;
    if (kind == LOSE)
        return lose(&desk->ether, number);
    if (kind == ISSUE)
        return issue(table, desk, counterparty.value, amount);
    if (own.value >= desk->purses)
        return 4;
    Purse *purse = &table[own.value];
    switch (kind) {
    case DELIVER:
        return deliver(purse, &desk->ether, number);
    case ABORT:
        stop(purse);
        return 0;
    case COLLECT:
        return collect(purse, own, &desk->archive);
    case LOAD:
        return load(purse, amount);
    default: {
        Seq theirs = {number};
        uint8_t answer =
            start(purse, own, desk->purses, kind == START_FROM, counterparty, theirs, amount);
        if (answer != 0 || kind == START_FROM)
            return answer;
        return send(&desk->ether, REQUEST, &purse->details);
    }
    }
}

uint8_t bench_event(Purse *table, size_t records, Desk *desk, const uint8_t *bytes, size_t length) {
    if (records != PURSES || !table_ok(table, desk))
        return 2;
    return act(table, desk, bytes, length);
}

size_t bench_run(Purse *table, size_t records, Desk *desk, const uint8_t *bytes, size_t length,
                 uint8_t *answers) {
    size_t count = (length + EVENT_BYTES - 1) / EVENT_BYTES;
    if (records != PURSES || !table_ok(table, desk)) {
        memset(answers, 2, count);
        return count;
    }
    for (size_t i = 0; i < count; i++) {
        size_t at = i * EVENT_BYTES, left = length - at;
        answers[i] = act(table, desk, bytes + at, left < EVENT_BYTES ? left : EVENT_BYTES);
    }
    return count;
}

uint8_t bench_open(Purse *table, size_t records, Desk *desk, const Amount *balances, size_t count) {
    if (records != PURSES)
        return 2;
    if (count < 1 || count > PURSES)
        return 20;
    for (size_t i = 0; i < count; i++)
        if (balances[i].value > CEILING)
            return 21;
    memset(table, 0, PURSES * sizeof *table);
    memset(desk, 0, sizeof *desk);
    desk->purses = (uint8_t)count;
    for (size_t i = 0; i < count; i++)
        open_purse(&table[i], balances[i]);
    return 0;
}

/* ---- Claims ---- */

/* Whether a purse has logged these details, on its card or in the archive. */
static bool has_logged(const Purse *table, const Archive *archive, Name by, const Details *details) {
    const Purse *purse = &table[by.value];
    for (unsigned i = 0; i < purse->logged; i++)
        if (same(&purse->log[i], details))
            return true;
    for (unsigned i = 0; i < archive->count; i++)
        if (archive->places[i].by.value == by.value && same(&archive->places[i].details, details))
            return true;
    return false;
}

/* What an entry adds to the figure: a pair counts once, at its payer's entry. */
static uint32_t claim(const Purse *table, const Archive *archive, Name by, const Details *details) {
    if (by.value == details->payer.value && has_logged(table, archive, details->payee, details))
        return details->amount.value;
    return 0;
}

uint8_t bench_claims(const Purse *table, size_t records, const Desk *desk, uint32_t *figure) {
    *figure = 0;
    if (records != PURSES || !table_ok(table, desk))
        return 2;
    const Archive *archive = &desk->archive;
    for (unsigned i = 0; i < desk->purses; i++)
        for (unsigned j = 0; j < table[i].logged; j++)
            *figure += claim(table, archive, (Name){(uint8_t)i}, &table[i].log[j]);
    for (unsigned i = 0; i < archive->count; i++)
        *figure += claim(table, archive, archive->places[i].by, &archive->places[i].details);
    return 0;
}

/* ---- Bytes ---- */

uint32_t get32(const uint8_t *from) {
    return (uint32_t)from[0] << 24 | (uint32_t)from[1] << 16 | (uint32_t)from[2] << 8 | from[3];
}

void put32(uint8_t *to, uint32_t number) {
    to[0] = (uint8_t)(number >> 24);
    to[1] = (uint8_t)(number >> 16);
    to[2] = (uint8_t)(number >> 8);
    to[3] = (uint8_t)number;
}

uint32_t get16(const uint8_t *from) {
    return (uint32_t)from[0] << 8 | from[1];
}

void put16(uint8_t *to, uint32_t number) {
    to[0] = (uint8_t)(number >> 8);
    to[1] = (uint8_t)number;
}

void pack_details(uint8_t *to, const Details *details) {
    to[0] = details->payer.value;
    put32(to + 1, details->payerseq.value);
    to[5] = details->payee.value;
    put32(to + 6, details->payeeseq.value);
    put32(to + 10, details->amount.value);
}

void unpack_details(Details *details, const uint8_t *from) {
    details->payer.value = from[0];
    details->payerseq.value = get32(from + 1);
    details->payee.value = from[5];
    details->payeeseq.value = get32(from + 6);
    details->amount.value = get32(from + 10);
}

void pack_record(uint8_t *to, const Purse *purse) {
    put32(to, purse->balance.value);
    put32(to + 4, purse->next.value);
    to[8] = purse->status;
    to[9] = purse->logged;
    pack_details(to + 10, &purse->details);
    for (unsigned i = 0; i < LOG_PLACES; i++)
        pack_details(to + 10 + (1 + i) * DETAILS_BYTES, &purse->log[i]);
}

void unpack_record(Purse *purse, const uint8_t *from) {
    purse->balance.value = get32(from);
    purse->next.value = get32(from + 4);
    purse->status = from[8];
    purse->logged = from[9];
    unpack_details(&purse->details, from + 10);
    for (unsigned i = 0; i < LOG_PLACES; i++)
        unpack_details(&purse->log[i], from + 10 + (1 + i) * DETAILS_BYTES);
}

void pack_message(uint8_t *to, const Message *message) {
    to[0] = message->kind;
    pack_details(to + 1, &message->details);
}

void unpack_message(Message *message, const uint8_t *from) {
    message->kind = from[0];
    unpack_details(&message->details, from + 1);
}

void pack_entry(uint8_t *to, const Entry *entry) {
    to[0] = entry->by.value;
    pack_details(to + 1, &entry->details);
}

void unpack_entry(Entry *entry, const uint8_t *from) {
    entry->by.value = from[0];
    unpack_details(&entry->details, from + 1);
}

/* ---- Images ---- */

static size_t image_bytes(size_t purses, size_t messages, size_t entries) {
    return IMAGE_HEAD + RECORD_BYTES * purses + PLACE_BYTES * (messages + entries);
}

uint8_t image_write(const Purse *table, size_t records, const Desk *desk, uint8_t *buffer,
                    size_t size, size_t *length) {
    *length = 0;
    if (records != PURSES || !table_ok(table, desk))
        return 2;
    size_t needed = image_bytes(desk->purses, desk->ether.count, desk->archive.count);
    if (size < needed)
        return 19;
    memcpy(buffer, "PRS\0\1", 5);
    buffer[5] = desk->purses;
    put16(buffer + 6, desk->ether.count);
    put16(buffer + 8, desk->archive.count);
    uint8_t *to = buffer + IMAGE_HEAD;
    for (unsigned i = 0; i < desk->purses; i++, to += RECORD_BYTES)
        pack_record(to, &table[i]);
    for (unsigned i = 0; i < desk->ether.count; i++, to += PLACE_BYTES)
        pack_message(to, &desk->ether.places[i]);
    for (unsigned i = 0; i < desk->archive.count; i++, to += PLACE_BYTES)
        pack_entry(to, &desk->archive.places[i]);
    *length = needed;
    return 0;
}

/* The image is unpacked beside the lent table, since a refusal leaves that as it was. */
uint8_t image_read(Purse *table, size_t records, Desk *desk, const uint8_t *image, size_t length) {
    if (records != PURSES)
        return 2;
    if (length < IMAGE_HEAD)
        return 16;
    if (memcmp(image, "PRS", 3) != 0)
        return 17;
    if (memcmp(image + 3, "\0\1", 2) != 0)
        return 18;
    uint32_t purses = image[5], messages = get16(image + 6), entries = get16(image + 8);
    if (purses < 1 || purses > PURSES || messages > PLACES || entries > PLACES)
        return 2;
    if (length != image_bytes(purses, messages, entries))
        return 16;
    Purse stored[PURSES] = {0};
    Desk beside = {.purses = (uint8_t)purses};
    beside.ether.count = (uint16_t)messages;
    beside.archive.count = (uint16_t)entries;
    const uint8_t *from = image + IMAGE_HEAD;
    for (unsigned i = 0; i < purses; i++, from += RECORD_BYTES)
        unpack_record(&stored[i], from);
    for (unsigned i = 0; i < messages; i++, from += PLACE_BYTES)
        unpack_message(&beside.ether.places[i], from);
    for (unsigned i = 0; i < entries; i++, from += PLACE_BYTES)
        unpack_entry(&beside.archive.places[i], from);
    if (!table_ok(stored, &beside))
        return 2;
    memcpy(table, stored, sizeof stored);
    *desk = beside;
    return 0;
}
