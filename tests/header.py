#!/usr/bin/env python3
"""Holds include/prs.h to the Rattle source. Every function that the crates export to C must have its prototype, every struct that crosses
one its #[repr(C)], the same fields in the same order and of the same types, and an assertion of its size and of each offset with the
number that C's rules give for the Rattle struct; the header must have nothing beside. Every answer must have the words that docs/RULES.md
quotes from documents 01 and 02; the answers, the kinds of events and of messages and the statuses must be the model's. Last line 'N passed, M failed'; exit status 1 on any failure."""
import re

import model
from common import ROOT, finish

HEADER = ROOT / "include/prs.h"
NUMBERS = {"u8": ("uint8_t", 1), "u16": ("uint16_t", 2), "u32": ("uint32_t", 4), "usize": ("size_t", 8)}
STRUCT = re.compile(r"((?:#\[[^\]]*\]\s*)*)(?:pub )?struct (\w+)\s*(?:\(([^;]*)\)\s*;|\{([^}]*)\})")
EXPORT = re.compile(r'#\[unsafe\(no_mangle\)\]\s*pub extern "C" fn (\w+)\s*\(([^)]*)\)\s*->\s*(\w+)')

passed, faults = 0, []


def hold(right, fault):
    global passed
    if right:
        passed += 1
    else:
        faults.append(fault)


def listed(text):
    """The parts between the commas that stand in no bracket."""
    parts = re.split(r",(?![^\[]*\])", text)
    return [part.strip() for part in parts if part.strip()]


# ---- The Rattle source ----

structs, exports, marked = {}, {}, 0
for path in sorted((ROOT / "crates").glob("*/src/*.rt")):
    source = re.sub(r"//.*", "", path.read_text())
    for marks, name, tuple_fields, fields in STRUCT.findall(source):
        if "repr(C)" not in marks:
            continue
        hold(name not in structs, f"{path.relative_to(ROOT)}: a second struct {name} for C")
        if tuple_fields:
            structs[name] = [("n", kind.removeprefix("pub ")) for kind in listed(tuple_fields)]
        else:
            structs[name] = [tuple(re.split(r":\s*", field.removeprefix("pub "), maxsplit=1)) for field in listed(fields)]
    marked += len(re.findall(r"\bno_mangle\b", source))
    for name, parameters, result in EXPORT.findall(source):
        exports[name] = ([tuple(re.split(r":\s*", parameter, maxsplit=1)) for parameter in listed(parameters)], result)

crossing = []  # the structs that cross an entry, those inside first


def c_type(kind):
    """What C calls a Rattle type, and how many of it."""
    array = re.fullmatch(r"\[(\w+); (\d+)\]", kind)
    if array:
        return c_type(array.group(1))[0], int(array.group(2))
    if kind in NUMBERS:
        return NUMBERS[kind][0], 1
    hold(kind in structs, f"{kind} crosses an entry and is no #[repr(C)] struct")
    if kind in structs and kind not in crossing:
        for _, inner in structs[kind]:
            c_type(inner)
        crossing.append(kind)
    return "prs_" + kind.lower(), 1


def c_parameters(name, kind):
    """A parameter as C has it: a slice is a pointer, then a length."""
    lent = re.fullmatch(r"&(mut )?(\[?)(\w+)\]?", kind)
    if not lent:
        return [(c_type(kind)[0], name)]
    pointer = ("" if lent.group(1) else "const ") + c_type(lent.group(3))[0] + " *"
    return [(pointer, name)] + ([("size_t", None)] if lent.group(2) else [])


def laid(kind):
    """Size, alignment and the offsets of the fields, by C's rules."""
    array = re.fullmatch(r"\[(\w+); (\d+)\]", kind)
    if array:
        size, align, _ = laid(array.group(1))
        return size * int(array.group(2)), align, {}
    if kind in NUMBERS:
        return NUMBERS[kind][1], NUMBERS[kind][1], {}
    end, most, offsets = 0, 1, {}
    for name, inner in structs.get(kind, []):
        size, align, _ = laid(inner)
        end = -(-end // align) * align
        offsets[name] = end
        end, most = end + size, max(most, align)
    return -(-end // most) * most, most, offsets


# ---- The header beside it ----

whole = HEADER.read_text()
header = re.sub(r"/\*.*?\*/", "", whole, flags=re.S)
constants = {name: int(number) for name, number in re.findall(r"#define (PRS_\w+) (\d+)", header)}
c_structs = {}
for fields, name in re.findall(r"typedef struct \{([^}]*)\} (\w+);", header):
    c_structs[name] = []
    for kind, field, length in re.findall(r"(\w+) (\w+)(?:\[(\w+)\])?;", fields):
        c_structs[name].append((field, kind, constants.get(length, length) if length else 1))
prototypes = {}
for result, name, parameters in re.findall(r"^(\w+) (prs_\w+)\(([^)]*)\);", header, re.M):
    prototypes[name] = (result, [re.fullmatch(r"(.*?[ *])(\w+)", " ".join(part.split())).groups() for part in listed(parameters)])
asserts = re.findall(r"PRS_LAID\((\w+)\((\w+)(?:, (\w+))?\) == (\d+)\);", header)

hold(len(exports) == marked > 0, f"{marked} functions are marked no_mangle, {len(exports)} were read")
for name, (parameters, result) in sorted(exports.items()):
    wanted = (c_type(result)[0], [one for parameter in parameters for one in c_parameters(*parameter)])
    said = prototypes.pop(name, None)
    if said:
        said = (said[0], [(kind.strip(), None if want[1] is None else given) for (kind, given), want in zip(said[1], wanted[1])]
                + [(kind.strip(), given) for kind, given in said[1][len(wanted[1]):]])
    hold(said == wanted, f"{name}: the header says {said}, the crate {wanted}")
for name in prototypes:
    hold(False, f"{name}: no crate exports it")

wanted_asserts = []
for kind in crossing:
    name = "prs_" + kind.lower()
    wanted = [(field, *c_type(inner)) for field, inner in structs[kind]]
    said = c_structs.pop(name, None)
    hold(said == wanted, f"{name}: the header says {said}, the crates {wanted}")
    size, _, offsets = laid(kind)
    wanted_asserts.append(("sizeof", name, "", str(size)))
    wanted_asserts += [("offsetof", name, field, str(offset)) for field, offset in offsets.items()]
for name in c_structs:
    hold(False, f"{name}: no struct of the crates crosses an entry so")
for claim in wanted_asserts:
    what, name, field, number = claim
    hold(claim in asserts, f"not asserted: PRS_LAID({what}({name}{', ' if field else ''}{field}) == {number});")
for claim in asserts:
    hold(claim in wanted_asserts, f"asserted, but not so in the crates: {' '.join(claim)}")

rows = {}  # of each answer the words of all its rows, document 02's beside 01's
for numbers, words in re.findall(r'^\| ((?:\d+, )*\d+): "(.*?)" \|', (ROOT / "docs/RULES.md").read_text(), re.M):
    for number in numbers.split(", "):
        rows[int(number)] = rows.get(int(number), "") + words + "\n"
answers = re.search(r"enum prs_answer \{(.*?)\};", whole, re.S).group(1)
for number, words in re.findall(r"= (\d+),?\s*/\* (.*?) \*/", answers):
    row = rows.pop(int(number), "")
    hold(all(part.removesuffix(" too") in row for part in re.split("[:;] ", words)), f"answer {number}: the header says '{words}', docs/RULES.md '{row}'")
hold(not rows, f"no words in the header for the answers {sorted(rows)}")


def enumerated(name):
    """The numbers of an enum of the header, PRS_ taken off."""
    said = re.search(rf"enum {name} \{{(.*?)\}};", header, re.S).group(1)
    return {word: int(number) for word, number in re.findall(r"PRS_(\w+) = (\d+)", said)}


for name, wanted in [
    ("prs_event_kind", ["START_FROM", "START_TO", "DELIVER", "ABORT", "LOSE", "COLLECT", "ISSUE", "LOAD"]),
    ("prs_message_kind", ["REQUEST", "VALUE", "ACKNOWLEDGE"]),
    ("prs_status", ["IDLE", "EPR", "EPV", "EPA"]),
]:
    wanted = {word: getattr(model, word) for word in wanted}
    said = enumerated(name)
    hold(said == wanted, f"{name}: the header says {said}, the documents {wanted}")
said = sorted(enumerated("prs_answer").values())
hold(said == model.ANSWERS, f"answers: the header has {said}, the documents {model.ANSWERS}")

for fault in faults:
    print(f"prs.h: {fault}")
finish(passed, len(faults))
