"""Requests about the margin: Q-7 wants the bits after the last field carried and written back, on cards as well, and a
one at any other place refused. What is drawn elsewhere often has a margin, too; here margins are chosen."""

import model
from cards import FULL, VALIDATION, event, head, load_line, own_dates, quiet_line, select_line, special_listing
from draw import (ALL_ONES, ENVIRONMENT, EVENT, MARGINS, contract, draw, drawn_record, flipped, holder, noise, ones,
                  read, record, write, write_ones)
from fields import OUT_OF_RANGE, RARE
from records import (DATA_COUNTS, HOLDER_AREAS, any_value, event_bitmap, full_values, larger_values, present_only,
                     small_values, too_wide)


def requests(random):
    for family in (single_ones, every_end, full_records, in_each_field, several_ones, past_the_area, after_the_fields,
                   after_the_data, after_the_first_checks, selected, new_contracts, journal_events, special_events):
        yield from family(random)


def with_margin(values):
    """The lists left out."""
    return [(layout, fixed) for layout, fixed in values if layout.name in MARGINS]


# ---------------------------------------------------------------- Where it begins and ends

STEPS = {"env": 3, "event": 3, "contract 66": 1, "contract 80": 3, "holder": 13}


def single_ones(random):
    """A single one after the end of a small value: at each place of a contract without data, at some places of the
    others. `margins` in records.py reads them at each."""
    for layout, fixed in with_margin(small_values()):
        yield from ones_written(random, layout, fixed, STEPS[layout.name + layout.parameters])
    for size in HOLDER_AREAS[1:]:
        yield from ones_written(random, holder(size), {"bitmap": 0}, step=83)
    lent = drawn_record(random, holder(116), {"bitmap": 0, "margin": ""})
    for place in range(8, 928, 29):
        yield read(holder(116), flipped(lent, place))


def ones_written(random, layout, fixed, step):
    drawing = draw(random, layout, fixed)
    after = range(drawing.place, 8 * layout.size)
    for place in [*after[::step], after[-1]]:
        yield write_ones(random, layout, drawing, [place])


def value_with_room(random):
    """A value of any length, most of which leave room for a margin."""
    layout = random.choice([ENVIRONMENT, EVENT, EVENT, contract(66), contract(80), contract(80),
                            holder(random.choice(HOLDER_AREAS))])
    if layout is EVENT:
        return layout, {"bitmap": event_bitmap(random, random.randint(0, 3 * random.randint(1, 5)))}
    if layout.name == "contract":
        return layout, {"groups": sum(1 << group for group in random.sample(range(16), random.randint(0, 9)))}
    bitmap = random.randrange(256 if layout.name == "holder" else 128)
    if layout is ENVIRONMENT:
        return layout, {"bitmap": bitmap, "env data bitmap": random.randrange(2) if bitmap & 64 else 0}
    return layout, {"bitmap": bitmap, "profile count": random.randrange(5) if bitmap & 64 else 0}


def lengths(start, *choices):
    """Fixed numbers by each length that they make within a record. Of each choice, pairs of bits and numbers, one is
    taken behind what stands so far; numbers of one name are added up."""
    ends = {start: {}}
    for choice in choices:
        longer = {}
        for end, fixed in ends.items():
            for bits, numbers in choice:
                if end + bits < 232:
                    longer.setdefault(end + bits, {name: fixed.get(name, 0) + numbers.get(name, 0)
                                                   for name in {**fixed, **numbers}})
        ends = longer
    return ends.values()


def optional(widths, bitmap):
    """A choice for each element of a bitmap: absent, or so many bits."""
    return [[(0, {}), (width, {bitmap: 1 << element})] for element, width in widths]


def every_length():
    """A layout and fixed numbers for each length of an Event and of a contract of type 50h."""
    event = [(element, width) for element, width in enumerate(model.EVENT) if element != model.EVENT_UNBOXED]
    inner = [(5 + sum(width for bit, (_, width, _) in enumerate(model.EVENT_DATA) if bitmap >> bit & 1),
              {"bitmap": 1 << 27, "inner bitmap": bitmap}) for bitmap in range(32)]
    for fixed in lengths(53, *optional(event, "bitmap"), [(0, {}), *inner]):
        yield EVENT, {"bitmap": 0, **fixed}
    head = optional([(0, 8), (1, 16), (2, 32), (3, 8), (5, 8)], "bitmap")
    validity = [(0, {}), *((2 + 14 * bin(dates).count("1"), {"bitmap": 16, "validity bitmap": dates})
                           for dates in range(4))]
    groups = optional([(group, sum(width for _, width, _ in fields))
                       for group, fields in enumerate(model.GROUPS_50)], "groups")
    for fixed in (*lengths(7, *head, validity), *lengths(7 + 62, [(0, {"bitmap": 64})], *head, validity, *groups)):
        yield contract(80), {"bitmap": 0, "validity bitmap": 0, "groups": 0, **fixed}


def every_end(random):
    """A value of each length (of a Holder, of each length within a byte, in each area). A margin all of ones shows where
    it begins. It is read; of every third length it is also written, as it is or with one more, at the last bit of the
    last field."""
    done = set()
    for layout, fixed in (*every_length(), *(value_with_room(random) for _ in range(15000))):
        drawing = draw(random, layout, {**fixed, "margin": ALL_ONES})
        length = drawing.place % 8 if layout.name == "holder" else drawing.place
        key = layout.name, layout.parameters, layout.size, length
        if drawing.place < 8 * layout.size and key not in done:
            done.add(key)
            yield read(layout, record(drawing.bits, layout.size))
            if len(done) % 3 == 0:
                first = drawing.place - random.randrange(2)
                yield write_ones(random, layout, drawing, range(first, 8 * layout.size))


def full_records(random):
    """The last field ends at the last bit of the record, or of a short area: a margin has no room."""
    left = {"event": 3, "contract": 3, "holder": 4}
    while any(left.values()):
        layout, fixed = any_value(random)
        drawing = draw(random, layout, fixed)
        last = 8 * layout.size - 1
        if drawing.place == last + 1 and left.get(layout.name):
            left[layout.name] -= 1
            yield read(layout, record(drawing.bits, layout.size))
            for places in ([], [last], [0, last]):
                yield write_ones(random, layout, drawing, places)
            if layout.name == "holder":
                yield write_ones(random, layout, drawing, [last + 1])
                yield write_ones(random, layout, drawing, [last, 927])


# ---------------------------------------------------------------- Ones at wrong places

def in_each_field(random):
    """A one in the place of each field: at its first, at its last or at any bit."""
    done = set()
    for layout, fixed in with_margin(full_values()):
        drawing = draw(random, layout, present_only(layout, fixed))
        for field in drawing.fields:
            key = layout.name, layout.parameters, field.name
            if field.present and key not in done:
                done.add(key)
                last = field.place + sum(field.widths) - 1
                place = random.choice([field.place, last, random.randint(field.place, last)])
                yield write_ones(random, layout, drawing, [place])


def several_ones(random):
    """Of several ones the first wrong one is named: all ones, the record as its own margin, ones on both sides of the
    end, any bits."""
    for layout, fixed in with_margin([*small_values(), *larger_values(random)]):
        drawing = draw(random, layout, {**fixed, "margin": ALL_ONES})
        end, size, most = drawing.place, 8 * layout.size, 8 * MARGINS[layout.name]
        itself = [place for place, bit in enumerate(drawing.bits) if bit == "1"]
        some = random.sample(range(end), 3) + random.sample(range(end, size), 3)
        for places in (range(most), itself, some, [end - 1, end], range(end - 2, end + 2), [0, size - 1],
                       [1, end - 1], [end - 1, size - 1], [end, size - 1], random.sample(range(most), 12)):
            yield write_ones(random, layout, drawing, places)


def past_the_area(random):
    """A Holder's margin has 928 bits in every area; those past a short one must be zero."""
    for size in HOLDER_AREAS[:3]:
        past = 8 * size
        drawing = draw(random, holder(size), {"bitmap": 0b01010010, "birth bitmap": 1, "profile count": 2})
        end = drawing.place
        for places in ([past], [927], [past + 6], [past - 1, past], [past, 927], range(past, 928), [end, 927],
                       range(end, 928), range(end, past), [end - 1, past], [0, 927], [random.randrange(past, 928)]):
            yield write_ones(random, holder(size), drawing, places)
        small = draw(random, holder(size), {"bitmap": 0, "margin": ALL_ONES})
        yield read(holder(size), record(small.bits, size))
        for places in ([past], [7, past], [past - 1, 927]):
            yield write_ones(random, holder(size), small, places)
    drawing = draw(random, holder(116), {"bitmap": 0})
    for places in ([231], [232], [927], range(drawing.place, 928), range(696, 928), [7, 927]):
        yield write_ones(random, holder(116), drawing, places)


# ---------------------------------------------------------------- After all fields

def wrong_places(layout, before):
    """Margins at fault: in all places, just before this place, past a short area or in the first bit."""
    yield range(8 * MARGINS[layout.name])
    yield [max(before - 1, 0), 231]
    yield [8 * layout.size] if layout.size < MARGINS[layout.name] else [0]


def after_the_fields(random):
    """A field is at fault and the margin as well: the field's fault is named, be it the last field's."""
    faulty = [*OUT_OF_RANGE, *RARE, (ENVIRONMENT, {"bitmap": 64, "env data bitmap": 2}), (EVENT, {"bitmap": 1 << 17})]
    for layout, fixed in with_margin(faulty):
        drawing = draw(random, layout, fixed)
        for places in wrong_places(layout, before=min(drawing.place, 8 * layout.size)):
            yield write_ones(random, layout, drawing, places)
    for layout, fixed in with_margin([*small_values(), *larger_values(random)]):
        drawing = draw(random, layout, fixed)
        for field in (drawing.fields[0], random.choice(drawing.fields), drawing.fields[-1]):
            if max(field.widths) < 32:
                for places in wrong_places(layout, before=field.place):
                    yield write_ones(random, layout, drawing, places, {field.name: too_wide(random, field)})


def after_the_data(random):
    """Data that do not agree with bit [6] and the type are a field's fault, too."""
    for kind in (66, 80):
        for bitmap in (0, 64):
            drawing = draw(random, contract(kind), {"bitmap": bitmap, "groups": 0})
            for places in ([0], [drawing.place - 1], [231], range(232)):
                *numbers, margin = drawing.words(ones(contract(kind), *places)).split(" ")
                for tag, count in DATA_COUNTS.items():
                    words = [*numbers[:9], str(tag), *["0"] * count, margin]
                    yield write(contract(kind), noise(random), " ".join(words))


def after_the_first_checks(random):
    """A wrong length and an unknown type are found before the margin is looked at."""
    for layout, fixed in with_margin(small_values()):
        drawing = draw(random, layout, fixed)
        for size in (28, 30):
            yield write(layout, noise(random, size), drawing.words(ones(layout, 0, 231)))
    drawing = draw(random, contract(67), {"bitmap": 0})
    yield write_ones(random, contract(67), drawing, [0])
    yield write_ones(random, contract(67), drawing, [231])


# ---------------------------------------------------------------- On a card

# Contracts without and with data: type and fixed numbers.
CONTRACTS = [(66, {"bitmap": 0}), (80, {"bitmap": 0}), (66, head()), (80, {**head(), **own_dates()})]


def marked(random, layout, fixed):
    """The same value without a margin, then with a one at its first place, at its last and at all."""
    drawing = draw(random, layout, {**fixed, "margin": ""})
    lent = record(drawing.bits)
    return lent, flipped(lent, drawing.place), flipped(lent, 231), flipped(lent, *range(drawing.place, 232))


def selected(random):
    """A contract with a margin alone, beside one without, and with dates and a provider."""
    for kind, fixed in CONTRACTS:
        plain, *others = marked(random, contract(kind), fixed)
        for other in others:
            yield select_line([(0, kind, 3, 1)], [other], 100, 5)
            yield select_line([(0, kind, 3, 2), (0, kind, 3, 1)], [plain, other], 100, 5)
            yield select_line([(0, kind, 4, 2), (0, kind, 3, 1)], [plain, other], 100, 5)
            yield select_line([(0, kind, 3, 2), (0, kind, 4, 1)], [plain, other], 100, 5)
            yield select_line([(0, kind, 3, 1), (0, kind, 3, 2)], [plain, other], 100, 5)
    for kind in (66, 80):
        fixed = {**head(provider=20, start=100, end=101), **own_dates(end=101, start=100)}
        for lent in marked(random, contract(kind), fixed):
            for day, operator in ((99, 20), (100, 20), (101, 20), (102, 20), (100, 21)):
                yield select_line([(15, kind, 3, 1)], [lent], day, operator)


def new_contracts(random):
    """The new record is written with its margin, at a free pointer and over an erasable contract."""
    for kind, fixed in CONTRACTS:
        for lent in marked(random, contract(kind), fixed):
            yield load_line(kind=kind, new=lent)
            yield load_line(contract_list=FULL, kind=kind, new=lent, needs_counter=1)


def marked_events(random):
    """An event that names contract 1 and two that name none; whatever the margin, they block as without it."""
    for fixed in ({"bitmap": 1 << 25 | 1 << 2, "[2]": VALIDATION, "[25]": 1}, {"bitmap": 0},
                  {"bitmap": 1 << 25 | 1 << 3, "[25]": 0}):
        yield from marked(random, EVENT, {"date": 100, "minute": 60, **fixed})


def journal_events(random):
    other = flipped(event(code=None), 53)
    for lent in marked_events(random):
        for minute in (119, 120):
            yield quiet_line(1, (100, 60), (100, minute), journal=lent)
            yield quiet_line(1, (100, 60), (100, minute), journal=other + lent)
    yield quiet_line(1, (100, 60), (100, 119), journal=other * 14 + lent)
    yield quiet_line(1, (100, 60), (100, 119), journal=other * 14 + flipped(event(100, 60, 1), 66))


def special_events(random):
    for lent in marked_events(random):
        for listed in ((), (1,), (2,)):
            yield quiet_line(1, (0, 0), (100, 60), special_list=special_listing(*listed), specials=2,
                             records=lent + flipped(event(), 231))
