"""Requests with a fault at each field that can have one: Q-2 wants the field named, and passed on by every operation
that reads the record."""

from cards import FULL, event, listing, load_line
from draw import (EVENT, contract, contract_list, counters_for, draw, holder, list_entries, noise, read, record,
                  special_list, write)
from records import any_value

FILE = "99" * 29 * 8


def requests(random):
    for family in (past_the_end, out_of_range, new_lists):
        yield from family(random)


def at_fault(random, layout, drawing):
    """A value with a fault: read, written, and met by each operation that reads such a record."""
    lent = record(drawing.bits, layout.size)
    yield read(layout, lent)
    yield write(layout, noise(random, layout.size), drawing.words())
    if layout.name == "list":
        yield f"select {lent} {FILE}{layout.parameters} 100 5"
        yield f"priority {lent}{layout.parameters} 1 1"
        yield load_line(contract_list=lent, file=FILE, positions=8)
    elif layout.name == "special":
        yield load_line(contract_list=FULL, special_list=lent, records=event() * 4, specials=4)
    elif layout.name == "event":
        yield load_line(contract_list=FULL, journal=event(1, 1, 1) + lent + event(1, 1440))
        yield load_line(contract_list=FULL, records=event() + lent, specials=2)
    elif layout.name == "contract":
        yield load_line(contract_list=FULL, kind=layout.parameters.strip(), new=lent)


# ---------------------------------------------------------------- 2

# How many fields of each structure can be the first to run past the end, event [17] apart (see `NAMED` in make.py).
FIRST_PAST = {"holder": 33, "event": 19, "list": 13, "contract": 27}

# Values of which chance makes few: [13], [14], [15]; the first profile's number; the fifth pointer; the first token.
RARE = [
    (EVENT, {"bitmap": 0x3FFF}),
    (EVENT, {"bitmap": 0x5FFF}),
    (EVENT, {"bitmap": 0xFFFD}),
    (holder(29), {"bitmap": 0b01101010, "birth bitmap": 3, "profile count": 1, "profile 1 bitmap": 0b010}),
    (contract_list(8, 2), list_entries([(7, 1), (7, 2), (3, 0), (3, 0), (7, 5)])),
    (contract(80), {"bitmap": 127, "validity bitmap": 3, "groups": 0b111}),
]


def past_the_end(random):
    """Each field that can be the first to run past the end, whatever fields are absent before it."""
    done = {name: set() for name in FIRST_PAST}
    rare = list(RARE)
    while any(len(done[name]) < count for name, count in FIRST_PAST.items()):
        layout, fixed = rare.pop() if rare else large_value(random)
        drawing = draw(random, layout, fixed)
        name = first_past(drawing, 8 * layout.size)
        if name and name not in done[layout.name]:
            done[layout.name].add(name)
            yield from at_fault(random, layout, drawing)


def large_value(random):
    """As `any_value`, but a Holder has no profiles where their bit is zero."""
    layout, fixed = any_value(random)
    if layout.name == "holder":
        bitmap = random.randrange(256)
        fixed = {"bitmap": bitmap, "profile count": 4 if bitmap & 64 else 0}
    return layout, fixed


def first_past(drawing, size):
    """The name of the first field that runs past the end, if one does."""
    return next((field.name for field in drawing.fields
                 if field.present and field.place + sum(field.widths) > size), None)


# ---------------------------------------------------------------- 4

OUT_OF_RANGE = [
    (EVENT, {"bitmap": 0, "minute": 1440}),
    (EVENT, {"bitmap": 1 << 0 | 1 << 25, "[25]": 20}),
    (EVENT, {"bitmap": 1 << 8 | 1 << 27, "inner bitmap": 0b00010, "inner minute": 1440}),
    (holder(29), {"bitmap": 64, "profile count": 5}),
    (holder(29), {"bitmap": 128, "data bitmap": 1 << 2, "residence": 100000}),
    (holder(58), {"bitmap": 192, "profile count": 1, "data bitmap": 1 << 4, "work place": 100000}),
    (holder(58), {"bitmap": 192, "profile count": 3, "data bitmap": 1 << 5, "study place": 100000}),
    (special_list(4), {"count": 5}),
    (contract_list(8, 4), {"count": 9}),
    (contract(66), {"bitmap": 72, "sale minute": 1440}),
    (contract(80), {"bitmap": 80, "groups": 1 << 7 | 1 << 13, "end minute": 1440}),
]


def out_of_range(random):
    """Each field with a range, with absent fields before it."""
    for layout, fixed in OUT_OF_RANGE:
        yield from at_fault(random, layout, draw(random, layout, fixed))
    for number in range(1, 9):
        for bitmap in (0, 6):
            entries = [(bitmap, pointer) for pointer in range(1, number)] + [(6, number)]
            fixed = {**list_entries(entries), f"entry {number} tariff": [number, 66, 13]}
            layout = contract_list(8, counters_for(8, number))
            yield from at_fault(random, layout, draw(random, layout, fixed))


# ---------------------------------------------------------------- The 2 of a new list

def new_lists(random):
    """Old lists of 196 and of 220 bits, with room for an entry more or with one to take out. A new entry that does not
    fit begins at bit 196 or 220: its tariff or its network runs past the end, never its bitmap or its pointer."""
    for count in range(5, 9):
        for with_network in (8 - count, 9 - count):
            entries = [(1, 66, 9, pointer, pointer) if pointer <= with_network else (1, 80, 9, pointer)
                       for pointer in range(1, count)] + [(1, 66, 15, count)]
            for positions in range(count, min(count + 1, 8) + 1):
                for has_network in (0, 1):
                    yield load_line(contract_list=listing(*entries), file="AA" * 29 * positions, positions=positions,
                                    counters=0, has_network=has_network, network=has_network * 77)
