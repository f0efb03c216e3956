"""Requests about the marked codes: Q-3 lets a journal event block only if it has a code and that code's bit is one."""

from cards import (FULL, INSPECTION, MARKED, VALIDATION, ZEROS, all_but, bits, event, listing, load_line, marking,
                   quiet_line, special_listing)
from draw import EVENT, draw, drawn_record, noise, record
from records import event_bitmap

NOTHING, EVERYTHING = marking(), all_but()


def requests(random):
    for family in (each_code, other_codes, inspected_carnet, beside_the_code, without_a_code, crowded_events,
                   special_codes, two_events, longer_journals, named_elsewhere, any_journal, unreadable_events,
                   refused_in_order, wrong_lengths):
        yield from family(random)


def named(journal, codes, **changes):
    """A full card of one erasable contract, which an event of just now names: taken, or refused with 9."""
    return quiet_line(1, (100, 60), (100, 60), journal=journal, codes=codes, **changes)


# ---------------------------------------------------------------- One event

def each_code(random):
    """Marked alone, it blocks; with all others marked, it does not. Code 0 is a code like any other."""
    for code in range(256):
        for codes in (marking(code), all_but(code)):
            yield named(event(100, 60, 1, code), codes)


def other_codes(random):
    """Only another code is marked: it differs in one bit, or its place in CODES is mirrored within the byte (the low
    three bits), over the bytes (the high five) or both."""
    for code in (0, 1, 7, 8, VALIDATION, INSPECTION, 90, 127, 128, 200, 254, 255):
        for turned in (*(1 << bit for bit in range(8)), 0b00000111, 0b11111000, 0b11111111):
            yield named(event(100, 60, 1, code), marking(code ^ turned))


def inspected_carnet(random):
    """The demand of Q-3: "An inspector's event named a used-up carnet and the counter could not load over it for six
    hours." The carnet, of type 42h, lies on the only position, a counter's. Of each mode of transport the validations
    are marked (004: transactions 1, 2, 6 and 7) and the inspections (4) are not: it is loaded over at once. A carnet
    that a validation named is loaded over after six hours."""
    validations = marking(*[16 * mode + transaction for mode in range(16) for transaction in (1, 2, 6, 7)])
    for code in (INSPECTION, VALIDATION, 0x14, 0x16):
        for waited in (0, 1, 359, 360):
            yield quiet_line(6, (100, 600), (100, 600 + waited), contract_list=listing((0, 0x42, 15, 1)), counters=1,
                             needs_counter=1, journal=event(100, 600, 1, code), codes=validations)


# ---------------------------------------------------------------- Elements beside the code

BESIDE = (0, 1, 3, 4)            # display data, network, result, provider
NUMBERS = {"date": 100, "minute": 60, "[0]": 0x32, "[1]": 0x323332, "[2]": VALIDATION, "[3]": 0x33, "[4]": 0x35,
           "[25]": 1}


def subsets():
    """Bitmaps with any of the elements beside the code, all with the contract pointer."""
    for chosen in range(16):
        yield 1 << 25 | sum(1 << element for index, element in enumerate(BESIDE) if chosen >> index & 1)


def beside_the_code(random):
    """The code's number is in no other element."""
    for bitmap in subsets():
        lent = drawn_record(random, EVENT, {**NUMBERS, "bitmap": bitmap | 1 << 2})
        for codes in (marking(VALIDATION), all_but(VALIDATION)):
            yield named(lent, codes)


def without_a_code(random):
    """It blocks nothing, whatever is marked and whatever stands in other elements."""
    for bitmap in subsets():
        lent = drawn_record(random, EVENT, {**NUMBERS, "bitmap": bitmap})
        for codes in (EVERYTHING, marking(0), MARKED):
            yield named(lent, codes)


def crowded_events(random):
    """The code among many other elements, marked and not; then the event without it."""
    left = 30
    while left:
        bitmap = event_bitmap(random, random.randint(4, 12)) | 1 << 25
        code = random.randrange(256)
        drawing = draw(random, EVENT, {**NUMBERS, "[2]": code, "bitmap": bitmap | 1 << 2})
        if drawing.place <= 232:
            left -= 1
            yield named(record(drawing.bits), marking(code))
            yield named(record(drawing.bits), all_but(code))
            yield named(drawn_record(random, EVENT, {**NUMBERS, "bitmap": bitmap & ~(1 << 2)}), EVERYTHING)


# ---------------------------------------------------------------- Special events

def special_codes(random):
    """They block as before, with any code or none, marked or not; those not listed block nothing."""
    for code in (VALIDATION, INSPECTION, 0, None):
        records = event(0, 0, 1, code) + event(100, 60, 0)
        for codes in (NOTHING, EVERYTHING, MARKED, all_but(VALIDATION)):
            for listed in ((), (1,), (2,)):
                yield named("-", codes, special_list=special_listing(*listed), specials=2, records=records)
        for journal_code in (VALIDATION, INSPECTION, None):
            for listed in ((), (1,)):
                yield load_line(contract_list=FULL, journal=event(100, 599, 3, journal_code), specials=1,
                                special_list=special_listing(*listed), records=event(0, 0, 4, code))


# ---------------------------------------------------------------- Several events

NEW, OLD, LATER = (100, 599), (90, 0), (100, 601)


def journal_line(events, **changes):
    """On a card whose plain contracts, 4 and 3, are erasable, the counter's 2 and 1 as well."""
    return load_line(contract_list=FULL, journal="".join(event(*one) for one in events), **changes)


def two_events(random):
    """New, old and later than now; marked, not marked and without a code; for one pointer and for two."""
    kinds = [(time, code) for time in (NEW, OLD, LATER) for code in (VALIDATION, INSPECTION, None)]
    for pointers in ((4, 4), (4, 3)):
        for one, one_code in kinds:
            for other, other_code in kinds:
                yield journal_line([(*one, pointers[0], one_code), (*other, pointers[1], other_code)])


def longer_journals(random):
    """One validation among inspections or among events without a code, and one inspection among validations."""
    for count in (3, 15):
        for index in (0, 1, count - 2, count - 1):
            for one, others in ((VALIDATION, INSPECTION), (VALIDATION, None), (INSPECTION, VALIDATION)):
                events = [(*NEW, 4, others)] * count
                events[index] = (*NEW, 3, one)
                yield journal_line(events)
                yield journal_line(events, codes=NOTHING)
                events[index] = (*NEW, 4, one)
                yield journal_line(events)


def named_elsewhere(random):
    """Events, marked and not, that name another pointer, a simple right or nothing."""
    for pointer in (None, 0, 1, 2, 5, 15, 16, 17, 18, 19):
        for code in (VALIDATION, INSPECTION):
            yield journal_line([(*NEW, pointer, code)])
            yield journal_line([(*NEW, pointer, code), (*NEW, 4, INSPECTION)])


def any_journal(random):
    """Few codes, about half of them marked."""
    known = [0, 7, VALIDATION, INSPECTION, 128, 255]
    for _ in range(80):
        events = [(*random.choice([NEW, NEW, OLD, LATER]), random.randint(0, 4), random.choice([None, *known]))
                  for _ in range(random.randint(1, 8))]
        yield journal_line(events, codes=marking(*random.sample(known, random.randint(1, 5))),
                           needs_counter=random.randint(0, 1))


# ---------------------------------------------------------------- Refusals

def unreadable(code):
    """Events that are refused: 4, 4, 4 and 2."""
    bitmap, boxes = (0, []) if code is None else (1 << 2, [(code, 8)])
    yield event(100, 1440, 1, code)
    yield event(100, 599, 20, code)
    for element in (27, 17):
        yield record(bits((0, 25), (bitmap | 1 << element, 28), *boxes, (0b00010, 5), (1440, 11)))


def unreadable_events(random):
    """An event that is not marked is read all the same, before or behind others; marked ones wait their turn."""
    good, bad = event(100, 599, 4), record(bits((0, 25), (1 << 17 | 1 << 2, 28), (VALIDATION, 8)))
    for code in (VALIDATION, INSPECTION, None):
        for odd in unreadable(code):
            for journal in (odd, odd + good, good + odd, odd + bad, bad + odd, good * 14 + odd):
                yield load_line(contract_list=FULL, journal=journal)
            yield named(event(100, 60, 1) + odd, MARKED)
            yield load_line(contract_list=FULL, journal=odd, codes=NOTHING)


def refused_in_order(random):
    """An event that is not marked is at fault, and so is a record before or behind it."""
    odd = event(100, 1440, 4, INSPECTION)
    for changes in (dict(contract_list=listing((0, 66, 13, 1))), dict(special_list=special_listing(2)),
                    dict(records=event(0, 0, 20)), dict(kind=67), dict(priority=13), dict(new=ZEROS[2:])):
        given = dict(contract_list=FULL, journal=odd, records=event(), specials=1)
        yield load_line(**{**given, **changes})


WRONG = (0, 1, 28, 29, 30, 31, 33, 58, 64, 256)


def wrong_lengths(random):
    """1 comes with the other lengths: before a parameter outside its limits, before any reading. Where nothing would
    be asked of the codes it comes as well."""
    for size in WRONG:
        for codes in ("FF" * size or "-", noise(random, size)):
            yield load_line(codes=codes)
            yield named(event(100, 60, 1), codes)
        for changes in (dict(day=16384), dict(priority=13), dict(counters=5), dict(network=1), dict(kind=67),
                        dict(positions=9, file="11" * 29 * 9), dict(specials=5, records=event() * 5),
                        dict(journal=event() * 16), dict(journal=event(0, 1440)), dict(new="-"),
                        dict(contract_list=ZEROS[2:]), dict(special_list="-"), dict(journal="00" * 30),
                        dict(records="00"), dict(file="-"), dict(contract_list=listing((0, 66, 13, 1)))):
            yield load_line(codes="FF" * size or "-", **changes)
    for changes in (dict(day=16384), dict(priority=13), dict(counters=5), dict(network=1), dict(journal=event() * 16)):
        for codes in (NOTHING, EVERYTHING):
            yield load_line(codes=codes, **changes)
