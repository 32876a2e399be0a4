#!/usr/bin/env python3
"""Whether the rig finds what it is there for: errors planted in the plain C rules, one at a time,
each built as a stand-in for the two programs and given to the rig, which must fail.

    planted.py [NAME ..]     all, or those whose name holds one of the words
    planted.py --drawn ..    by the drawn requests and lists alone, not the worked cases

The last line is 'N passed, M failed': passed is a planted error that was found.
"""

import os
import subprocess
import sys

from common import ROOT, finish

PLAIN = ROOT / "benchmarks" / "plain.c"
BUILT = ROOT / "target" / "planted"

# Name, old text (once in plain.c), new text. The first five are document 01's "Errors that look
# reasonable"; those named claims are of A1, those named issue or load of A5.
PLANTED = [
    (
        "log room tested at the abort",
        "    if (purse->logged == LOG_PLACES)\n"
        "        return 10;\n",
        "",
    ),
    (
        "matching without the numbers",
        "archive->places[i].by.value == by.value && same(&archive->places[i].details, details)",
        "archive->places[i].by.value == by.value && archive->places[i].details.payer.value"
        " == details->payer.value && archive->places[i].details.payee.value =="
        " details->payee.value && archive->places[i].details.amount.value == details->amount.value",
    ),
    (
        "abort logged in epr",
        "if (purse->status == EPA || purse->status == EPV)",
        "if (purse->status != IDLE)",
    ),
    (
        "payee's ceiling not tested at the start",
        "    if (!pays && purse->balance.value + amount.value > CEILING)\n"
        "        return 12;\n",
        "",
    ),
    (
        "message removed on delivery",
        "    return send(ether, sends, &message->details);",
        "    Details gone = message->details;\n"
        "    ether->count--;\n"
        "    memmove(&ether->places[place], &ether->places[place + 1], (ether->count -"
        " place) * sizeof *message);\n"
        "    ether->places[ether->count] = (Message){0};\n"
        "    return send(ether, sends, &gone);",
    ),
    (
        "details compared without the amount",
        "           a->amount.value == b->amount.value;",
        "           true;",
    ),
    (
        "details compared without the payee's number",
        "a->payeeseq.value == b->payeeseq.value &&",
        "true &&",
    ),
    ("amount 0 accepted", "return amount.value - 1 < CEILING;", "return amount.value <= CEILING;"),
    (
        "amount ceiling one too high",
        "return amount.value - 1 < CEILING;",
        "return amount.value - 1 <= CEILING;",
    ),
    (
        "own number may be the next",
        "seq.value != 0 && seq.value < next.value",
        "seq.value != 0 && seq.value <= next.value",
    ),
    (
        "own number may be 0",
        "return seq.value != 0 && seq.value < next.value;",
        "return seq.value < next.value;",
    ),
    (
        "busy with eight entries",
        " || purse->logged == LOG_PLACES)\n"
        "        return false;\n"
        "    switch",
        ")\n"
        "        return false;\n"
        "    switch",
    ),
    (
        "epr money not tested",
        "d->payer.value == own.value && d->amount.value <= purse->balance.value",
        "d->payer.value == own.value",
    ),
    (
        "epv money not tested",
        "d->payee.value == own.value && purse->balance.value + d->amount.value <= CEILING",
        "d->payee.value == own.value",
    ),
    (
        "epa on the wrong side",
        "    default:\n"
        "        return d->payer.value == own.value;",
        "    default:\n"
        "        return true;",
    ),
    (
        "running details twice",
        " || same(d, &purse->details))\n"
        "            return false;\n"
        "        for (unsigned j = 0; j < i; j++)\n"
        "            if (same(d, &purse->log[j]))",
        ")\n"
        "            return false;\n"
        "        for (unsigned j = 0; j < i; j++)\n"
        "            if (same(d, &purse->log[j]))",
    ),
    (
        "log entries twice",
        "            if (same(d, &purse->log[j]))\n"
        "                return false;\n",
        "            if (j == UINT32_MAX)\n"
        "                return false;\n",
    ),
    (
        "unused log places not looked at",
        "    for (unsigned i = purse->logged; i < LOG_PLACES; i++)\n"
        "        if (!zero",
        "    for (unsigned i = purse->logged + 1; i < LOG_PLACES; i++)\n"
        "        if (!zero",
    ),
    ("message kind 4", "m->kind > ACKNOWLEDGE", "m->kind > ACKNOWLEDGE + 1"),
    (
        "payee's number of a message",
        "        if (!seq_used(d->payeeseq, payee->next))\n"
        "            return false;\n",
        "",
    ),
    (
        "payer's number of a request",
        "        if (m->kind != REQUEST && (!seq_used",
        "        if ((!seq_used",
    ),
    (
        "value for a payer in epr",
        "(payer->status == EPR && same(d, &payer->details))",
        "(m->kind == ACKNOWLEDGE && payer->status == EPR && same(d, &payer->details))",
    ),
    (
        "acknowledge for a payer in epr",
        "(payer->status == EPR && same(d, &payer->details))",
        "(m->kind == VALUE && payer->status == EPR && same(d, &payer->details))",
    ),
    (
        "acknowledge for a payee in epv",
        "if (m->kind == ACKNOWLEDGE && payee->status == EPV",
        "if (m->kind == VALUE + 2 && payee->status == EPV",
    ),
    (
        "value for a payee in epv refused",
        "if (m->kind == ACKNOWLEDGE && payee->status == EPV",
        "if (m->kind != REQUEST && payee->status == EPV",
    ),
    ("equal messages of two kinds", "if (ether->places[j].kind == m->kind && same(", "if (same("),
    (
        "last unused message place",
        "for (unsigned i = ether->count; i < PLACES; i++)",
        "for (unsigned i = ether->count; i + 1 < PLACES; i++)",
    ),
    (
        "last unused archive place",
        "for (unsigned i = archive->count; i < PLACES; i++)",
        "for (unsigned i = archive->count; i + 1 < PLACES; i++)",
    ),
    ("archived and running", " || same(d, &by->details))", ")"),
    (
        "archived and logged",
        "            if (same(d, &by->log[j]))\n",
        "            if (j == UINT32_MAX)\n",
    ),
    (
        "archived twice by two purses",
        "if (archive->places[j].by.value == e->by.value && same(",
        "if (same(",
    ),
    ("records past the count", "!purse_zero(&table[i])", "false"),
    (
        "log count of an unused record",
        "purse->next.value | purse->status | purse->logged)",
        "purse->next.value | purse->status)",
    ),
    (
        "itself as the counterparty",
        "if (counterparty.value >= names || counterparty.value == own.value)",
        "if (counterparty.value >= names)",
    ),
    (
        "counterparty up to 31",
        "start(purse, own, desk->purses, kind == START_FROM",
        "start(purse, own, PURSES, kind == START_FROM",
    ),
    (
        "busy before amount",
        "    if (!amount_ok(amount))\n"
        "        return 7;\n"
        "    if (purse->status != IDLE)\n"
        "        return 8;\n"
        "    if (purse->next",
        "    if (purse->status != IDLE)\n"
        "        return 8;\n"
        "    if (!amount_ok(amount))\n"
        "        return 7;\n"
        "    if (purse->next",
    ),
    (
        "last number used",
        "if (purse->next.value == UINT32_MAX)\n"
        "        return 9;\n",
        "if (purse->next.value == 0)\n"
        "        return 9;\n",
    ),
    (
        "log room before the number",
        "        return 9;\n"
        "    if (purse->logged == LOG_PLACES)\n"
        "        return 10;\n",
        "        return purse->logged == LOG_PLACES ? 10 : 9;\n"
        "    if (purse->logged == LOG_PLACES)\n"
        "        return 10;\n",
    ),
    (
        "balance to be left over",
        "if (pays && amount.value > purse->balance.value)",
        "if (pays && amount.value >= purse->balance.value)",
    ),
    (
        "details stay when idle",
        "    purse->status = IDLE;\n"
        "    purse->details = (Details){0};",
        "    purse->status = IDLE;",
    ),
    (
        "abort raises the number",
        "    rest(purse);\n"
        "}\n"
        "\n"
        "/* The oldest",
        "    rest(purse);\n"
        "    purse->next.value++;\n"
        "}\n"
        "\n"
        "/* The oldest",
    ),
    ("last log place not cleared", "    purse->log[LOG_PLACES - 1] = (Details){0};\n", ""),
    ("lost place not cleared", "    ether->places[ether->count] = (Message){0};\n", ""),
    (
        "full ether refuses the step",
        "    if (ether->count == PLACES)\n"
        "        return 1;\n",
        "    if (ether->count == PLACES)\n"
        "        return 13;\n",
    ),
    (
        "one place too few",
        "    if (ether->count == PLACES)\n"
        "        return 1;\n",
        "    if (ether->count == PLACES - 1)\n"
        "        return 1;\n",
    ),
    (
        "place in eight bits",
        "static uint8_t deliver(Purse *purse, Ether *ether, uint32_t place) {\n",
        "static uint8_t deliver(Purse *purse, Ether *ether, uint32_t place) {\n"
        "    if (place > 65535)\n"
        "        place = place & 255;\n",
    ),
    (
        "archive full before log empty",
        "    if (purse->logged == 0)\n"
        "        return 14;\n"
        "    if (archive->count == PLACES)\n"
        "        return 15;\n",
        "    if (archive->count == PLACES)\n"
        "        return 15;\n"
        "    if (purse->logged == 0)\n"
        "        return 14;\n",
    ),
    (
        "purse in lose",
        "return !(own.value | counterparty.value | amount.value);",
        "return !(counterparty.value | amount.value);",
    ),
    (
        "number in collect",
        "return !(counterparty.value | number | amount.value);",
        "return !(counterparty.value | (kind == ABORT && number) | amount.value);",
    ),
    (
        "spare not tested",
        "if (length != EVENT_BYTES || bytes[3] != 0)",
        "if (length != EVENT_BYTES)",
    ),
    (
        "longer events",
        "if (length != EVENT_BYTES || bytes[3] != 0)",
        "if (length < EVENT_BYTES || bytes[3] != 0)",
    ),
    (
        "rules after the event's form",
        "    if (records != PURSES || !table_ok(table, desk))\n"
        "        return 2;\n"
        "    return act(",
        "    if (length != EVENT_BYTES)\n"
        "        return 3;\n"
        "    if (records != PURSES || !table_ok(table, desk))\n"
        "        return 2;\n"
        "    return act(",
    ),
    (
        "opening keeps the archive",
        "    memset(desk, 0, sizeof *desk);\n",
        "    memset(&desk->ether, 0, sizeof desk->ether);\n",
    ),
    (
        "21 before 20",
        "    if (count < 1 || count > PURSES)\n"
        "        return 20;\n"
        "    for",
        "    for (size_t i = 0; i < count; i++)\n"
        "        if (balances[i].value > CEILING)\n"
        "            return 21;\n"
        "    if (count < 1 || count > PURSES)\n"
        "        return 20;\n"
        "    for",
    ),
    (
        "claims counted from each side",
        "by.value == details->payer.value && has_logged(table, archive, details->payee, details)",
        "has_logged(table, archive, by.value == details->payer.value ? details->payee :"
        " details->payer, details)",
    ),
    (
        "claims of the archive alone",
        "    for (unsigned i = 0; i < desk->purses; i++)\n"
        "        for (unsigned j = 0; j < table[i].logged; j++)\n"
        "            *figure += claim(table, archive, (Name){(uint8_t)i}, &table[i].log[j]);\n",
        "    static const Purse none[PURSES];\n"
        "    table = none;\n",
    ),
    (
        "claims matched on cards without the numbers",
        "        if (same(&purse->log[i], details))\n",
        "        if (purse->log[i].payer.value == details->payer.value &&"
        " purse->log[i].payee.value == details->payee.value &&"
        " purse->log[i].amount.value == details->amount.value)\n",
    ),
    (
        "claims without payers' cards",
        "        for (unsigned j = 0; j < table[i].logged; j++)\n"
        "            *figure += claim(",
        "        for (unsigned j = 0; j < 0; j++)\n"
        "            *figure += claim(",
    ),
    (
        "claims without payees' cards",
        "        if (same(&purse->log[i], details))\n"
        "            return true;\n",
        "        if (i == UINT32_MAX)\n"
        "            return true;\n",
    ),
    (
        "claims without payees' archive entries",
        "    for (unsigned i = 0; i < archive->count; i++)\n"
        "        if (archive->places[i].by",
        "    for (unsigned i = 0; i < 0; i++)\n"
        "        if (archive->places[i].by",
    ),
    (
        "claims with a payee still busy",
        "    const Purse *purse = &table[by.value];\n"
        "    for",
        "    const Purse *purse = &table[by.value];\n"
        "    if (same(&purse->details, details))\n"
        "        return true;\n"
        "    for",
    ),
    (
        "claims without a partner",
        "by.value == details->payer.value && has_logged(table, archive, details->payee, details)",
        "by.value == details->payer.value",
    ),
    ("image one byte short", "    if (size < needed)\n", "    if (size + 1 < needed)\n"),
    ("image needs the largest buffer", "    if (size < needed)\n", "    if (size < 12042)\n"),
    (
        "image length when refused",
        "    if (size < needed)\n"
        "        return 19;\n",
        "    *length = needed;\n"
        "    if (size < needed)\n"
        "        return 19;\n",
    ),
    (
        "image longer than its counts",
        "if (length != image_bytes(purses, messages, entries))",
        "if (length < image_bytes(purses, messages, entries))",
    ),
    (
        "length before counts",
        "    if (purses < 1 || purses > PURSES || messages > PLACES || entries > PLACES)\n"
        "        return 2;\n",
        "    if (length != image_bytes(purses, messages, entries))\n"
        "        return 16;\n"
        "    if (purses < 1 || purses > PURSES || messages > PLACES || entries > PLACES)\n"
        "        return 2;\n",
    ),
    (
        "mark before 16",
        "    if (length < IMAGE_HEAD)\n"
        "        return 16;\n",
        "    if (length < 5)\n"
        "        return 16;\n"
        "    if (memcmp(image, \"PRS\", 3) != 0)\n"
        "        return 17;\n"
        "    if (length < IMAGE_HEAD)\n"
        "        return 16;\n",
    ),
    ("version's first byte", "memcmp(image + 3, \"\\0\\1\", 2) != 0", "image[4] != 1"),
    (
        "read leaves old records",
        "    memcpy(table, stored, sizeof stored);\n",
        "    memcpy(table, stored, purses * sizeof *stored);\n",
    ),
    ("card takes its own name above 31", "    if (own.value >= PURSES)\n        return 4;\n", ""),
    (
        "card's name before its record",
        "    if (!purse_ok(purse, own, PURSES))\n"
        "        return 2;\n"
        "    if (own.value >= PURSES)\n"
        "        return 4;\n",
        "    if (own.value >= PURSES)\n"
        "        return 4;\n"
        "    if (!purse_ok(purse, own, PURSES))\n"
        "        return 2;\n",
    ),
    ("card keeps the collected entry", "        handed->collected = purse->log[0];\n", ""),
    (
        "card hands out a refused request",
        "        if (answer == 0)\n"
        "            handed->sent = (Message){REQUEST",
        "        if (answer <= 8)\n"
        "            handed->sent = (Message){REQUEST",
    ),
    (
        "idle purse takes the zero message",
        "    if (purse->status == IDLE || message->kind != expected",
        "    if (message->kind != expected",
    ),
    (
        "load at a busy purse",
        "    if (purse->status != IDLE)\n"
        "        return 8;\n"
        "    if (purse->balance.value + amount.value",
        "    if (purse->balance.value + amount.value",
    ),
    (
        "load at a purse in epa",
        "    if (purse->status != IDLE)\n"
        "        return 8;\n"
        "    if (purse->balance.value + amount.value",
        "    if (purse->status != IDLE && purse->status != EPA)\n"
        "        return 8;\n"
        "    if (purse->balance.value + amount.value",
    ),
    (
        "load at a payee in epv",
        "    if (purse->status != IDLE)\n"
        "        return 8;\n"
        "    if (purse->balance.value + amount.value",
        "    if (purse->status != IDLE && purse->status != EPV)\n"
        "        return 8;\n"
        "    if (purse->balance.value + amount.value",
    ),
    (
        "load: busy before amount",
        "    if (!amount_ok(amount))\n"
        "        return 7;\n"
        "    if (purse->status != IDLE)\n"
        "        return 8;\n"
        "    if (purse->balance",
        "    if (purse->status != IDLE)\n"
        "        return 8;\n"
        "    if (!amount_ok(amount))\n"
        "        return 7;\n"
        "    if (purse->balance",
    ),
    (
        "load: ceiling before busy",
        "    if (purse->status != IDLE)\n"
        "        return 8;\n"
        "    if (purse->balance.value + amount.value > CEILING)\n"
        "        return 12;\n",
        "    if (purse->balance.value + amount.value > CEILING)\n"
        "        return 12;\n"
        "    if (purse->status != IDLE)\n"
        "        return 8;\n",
    ),
    (
        "load: amount not tested",
        "    if (!amount_ok(amount))\n"
        "        return 7;\n"
        "    if (purse->status != IDLE)\n"
        "        return 8;\n"
        "    if (purse->balance",
        "    if (purse->status != IDLE)\n"
        "        return 8;\n"
        "    if (purse->balance",
    ),
    (
        "load needs a number",
        "        return 8;\n"
        "    if (purse->balance.value",
        "        return 8;\n"
        "    if (purse->next.value == UINT32_MAX)\n"
        "        return 9;\n"
        "    if (purse->balance.value",
    ),
    (
        "load needs log room",
        "        return 8;\n"
        "    if (purse->balance.value",
        "        return 8;\n"
        "    if (purse->logged == LOG_PLACES)\n"
        "        return 10;\n"
        "    if (purse->balance.value",
    ),
    (
        "load never up to the ceiling",
        "    if (purse->balance.value + amount.value > CEILING)\n",
        "    if (purse->balance.value + amount.value >= CEILING)\n",
    ),
    (
        "load cut to the ceiling",
        "    if (purse->balance.value + amount.value > CEILING)\n"
        "        return 12;\n"
        "    purse->balance.value += amount.value;\n",
        "    purse->balance.value += amount.value;\n"
        "    if (purse->balance.value > CEILING)\n"
        "        purse->balance.value = CEILING;\n",
    ),
    (
        "load too high answered 21",
        "    if (purse->balance.value + amount.value > CEILING)\n"
        "        return 12;\n",
        "    if (purse->balance.value + amount.value > CEILING)\n"
        "        return 21;\n",
    ),
    (
        "load sets the balance",
        "    purse->balance.value += amount.value;\n"
        "    return 0;\n"
        "}\n"
        "\n"
        "uint8_t card_step",
        "    purse->balance.value = amount.value;\n"
        "    return 0;\n"
        "}\n"
        "\n"
        "uint8_t card_step",
    ),
    (
        "load answers and loads nothing",
        "    purse->balance.value += amount.value;\n"
        "    return 0;\n"
        "}\n"
        "\n"
        "uint8_t card_step",
        "    return 0;\n"
        "}\n"
        "\n"
        "uint8_t card_step",
    ),
    (
        "load uses up a number",
        "    purse->balance.value += amount.value;\n"
        "    return 0;\n",
        "    purse->balance.value += amount.value;\n"
        "    purse->next.value++;\n"
        "    return 0;\n",
    ),
    (
        "load at the bench alone",
        "    case LOAD:\n"
        "        return load(purse, event->amount);\n",
        "    case LOAD:\n"
        "        return 0;\n",
    ),
    (
        "load at the card sends",
        "    case LOAD:\n"
        "        return load(purse, event->amount);\n",
        "    case LOAD:\n"
        "        handed->sent = event->message;\n"
        "        return load(purse, event->amount);\n",
    ),
    (
        "load: number not tested",
        "return !(counterparty.value | number);",
        "return !counterparty.value;",
    ),
    (
        "load: counterparty not tested",
        "return !(counterparty.value | number);",
        "return !number;",
    ),
    ("issue: number not tested", "return !(own.value | number);", "return !own.value;"),
    ("issue: purse not tested", "return !(own.value | number);", "return !number;"),
    (
        "issue: number in eight bits",
        "return !(own.value | number);",
        "return !(own.value | (uint8_t)number);",
    ),
    (
        "issue over the last record",
        "    open_purse(&table[desk->purses], balance);\n"
        "    desk->purses++;\n",
        "    open_purse(&table[desk->purses - 1], balance);\n",
    ),
    (
        "issue over the first record",
        "open_purse(&table[desk->purses], balance);",
        "open_purse(&table[0], balance);",
    ),
    ("issue not counted", "    desk->purses++;\n", ""),
    (
        "issue up to 31 purses",
        "    if (desk->purses == PURSES)\n",
        "    if (desk->purses == PURSES - 1)\n",
    ),
    (
        "issue: 22 before 24",
        "    if (desk->purses == PURSES)\n"
        "        return 24;\n"
        "    if (class != PERSON)\n"
        "        return 22;\n",
        "    if (class != PERSON)\n"
        "        return 22;\n"
        "    if (desk->purses == PURSES)\n"
        "        return 24;\n",
    ),
    (
        "issue: 21 before 22",
        "    if (class != PERSON)\n"
        "        return 22;\n"
        "    if (balance.value > CEILING)\n"
        "        return 21;\n",
        "    if (balance.value > CEILING)\n"
        "        return 21;\n"
        "    if (class != PERSON)\n"
        "        return 22;\n",
    ),
    (
        "issue: 21 before 24",
        "    if (desk->purses == PURSES)\n"
        "        return 24;\n",
        "    if (balance.value > CEILING && class == PERSON)\n"
        "        return 21;\n"
        "    if (desk->purses == PURSES)\n"
        "        return 24;\n",
    ),
    (
        "issue of a shop before there are shops",
        "    if (class != PERSON)\n",
        "    if (class > 1)\n",
    ),
    (
        "issue: class not tested",
        "    if (class != PERSON)\n"
        "        return 22;\n",
        "",
    ),
    (
        "issue: first balance tested as an amount",
        "    if (balance.value > CEILING)\n"
        "        return 21;\n"
        "    open_purse",
        "    if (!amount_ok(balance))\n"
        "        return 7;\n"
        "    open_purse",
    ),
    (
        "issue of nothing refused",
        "    if (balance.value > CEILING)\n"
        "        return 21;\n"
        "    open_purse",
        "    if (!amount_ok(balance))\n"
        "        return 21;\n"
        "    open_purse",
    ),
    (
        "issue up to a shop's ceiling",
        "    if (balance.value > CEILING)\n"
        "        return 21;\n"
        "    open_purse",
        "    if (balance.value > 10 * CEILING)\n"
        "        return 21;\n"
        "    open_purse",
    ),
    (
        "issue with next number 0",
        "    open_purse(&table[desk->purses], balance);\n",
        "    table[desk->purses].balance = balance;\n",
    ),
    (
        "issue with the number of the purse before it",
        "    open_purse(&table[desk->purses], balance);\n",
        "    open_purse(&table[desk->purses], balance);\n"
        "    table[desk->purses].next = table[desk->purses - 1].next;\n",
    ),
    (
        "issue: rules not tested",
        "    if (records != PURSES || !table_ok(table, desk))\n"
        "        return 2;\n"
        "    return act(",
        "    bool issues = length == EVENT_BYTES && bytes[0] == ISSUE && desk->purses < PURSES;\n"
        "    if (records != PURSES || (!issues && !table_ok(table, desk)))\n"
        "        return 2;\n"
        "    return act(",
    ),
    ("kind in four bits", "    uint8_t kind = bytes[0];\n", "    uint8_t kind = bytes[0] & 15;\n"),
]


def found(name, old, new, options):
    """Whether the rig fails on the rules with this edit; words where it does not."""
    text = PLAIN.read_text()
    if text.count(old) != 1:
        return f"the text to change stands {text.count(old)} times"
    place = BUILT / name.replace(" ", "-").replace("'", "")
    place.mkdir(parents=True, exist_ok=True)
    (place / "plain.c").write_text(text.replace(old, new))
    for program in ("prs", "probe"):
        sources = [ROOT / "tests" / "standin" / f"{program}.c", place / "plain.c"]
        compiler = [os.environ.get("CC", "cc"), "-std=c11", "-O2", "-w", "-I", PLAIN.parent]
        subprocess.run([*compiler, "-o", place / program, *sources], check=True)
    rig = [sys.executable, ROOT / "tests" / "rig.py", "--short", "--stop", *options]
    run = subprocess.run(
        rig + ["--prs", place / "prs", "--probe", place / "probe"],
        stdout=subprocess.PIPE,
        text=True,
    )
    told = [line for line in run.stdout.splitlines() if line.startswith("FAILED")]
    if run.returncode != 1 or not told:
        return "the rig did not find it"
    print(f"{name}: {told[0][:150]}", flush=True)
    return None


def main():
    passed = failed = 0
    options = [word for word in sys.argv[1:] if word == "--drawn"]
    words = [word for word in sys.argv[1:] if word != "--drawn"]
    for name, old, new in PLANTED:
        if words and not any(word in name for word in words):
            continue
        fault = found(name, old, new, options)
        if fault is None:
            passed += 1
        else:
            failed += 1
            print(f"{name}: {fault}", flush=True)
    finish(passed, failed)


if __name__ == "__main__":
    main()
