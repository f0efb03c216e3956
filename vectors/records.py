"""Requests that read and write one record or Holder area."""

from draw import (ENVIRONMENT, EVENT, both, contract, contract_list, counters_for, draw, drawn_record, flipped, holder,
                  list_entries, list_fixed, noise, read, record, special_entries, special_fixed, special_list, write)

LARGEST = 4294967295
HOLDER_FULL = {"bitmap": 255, "name bitmap": 3, "birth bitmap": 3, "profile count": 4, "data bitmap": 4095,
               **{f"profile {number} bitmap": 7 for number in range(1, 5)}}
HOLDER_AREAS = (29, 58, 87, 116)
WRONG_LENGTHS = (0, 1, 28, 30, 57, 58, 59)
WRONG_AREAS = (0, 1, 28, 30, 57, 59, 86, 88, 115, 117, 145)
EVENT_ELEMENTS = [element for element in range(28) if element != 17]


def requests(random):
    for family in (subsets, width_edges, absent_fields, ranges, lists, data_agreement, margins, lengths, parameters,
                   exact_ends, overfull, element_17, two_faults, two_faults_in_a_field, faults_past_the_end, flips,
                   any_bits):
        yield from family(random)


# ---------------------------------------------------------------- Bitmaps

def subsets(random):
    for family in (environment_subsets, holder_subsets, profile_subsets, event_subsets, entry_subsets, head_subsets,
                   group_subsets):
        yield from family(random)


def environment_subsets(random):
    for bitmap in range(128):
        for inner in range(4 if bitmap & 64 else 1):
            yield from both(random, ENVIRONMENT, {"bitmap": bitmap, "env data bitmap": inner})


def fitting_holder(random, fixed):
    """The smallest area that holds such a value, now and then the next larger or smaller one."""
    drawing = draw(random, holder(116), fixed)
    smallest = next(index for index, size in enumerate(HOLDER_AREAS) if 8 * size >= drawing.place)
    index = min(max(smallest + random.choice([-1, 0, 0, 0, 0, 0, 0, 1]), 0), 3)
    lent = {field.name: drawing.value[field.name] for field in drawing.fields}
    return both(random, holder(HOLDER_AREAS[index]), lent)


def holder_subsets(random):
    for bitmap in range(256):
        yield from fitting_holder(random, {"bitmap": bitmap})
    for inner in range(4):
        yield from fitting_holder(random, {"bitmap": 0b00000001, "name bitmap": inner})
        yield from fitting_holder(random, {"bitmap": 0b00000011, "birth bitmap": inner})
    for bitmap in [0, 4095] + [1 << element for element in range(12)] + random.sample(range(4096), 45):
        yield from fitting_holder(random, {"bitmap": 128, "data bitmap": bitmap})


def profile_subsets(random):
    for bitmap in range(8):
        for number in range(1, 5):
            count = random.randint(number, 4)
            fixed = {"bitmap": 64, "profile count": count, f"profile {number} bitmap": bitmap}
            yield from fitting_holder(random, fixed)


def event_subsets(random):
    for element in EVENT_ELEMENTS:
        yield from both(random, EVENT, {"bitmap": 1 << element})
    for inner in range(32):
        yield from both(random, EVENT, {"bitmap": 1 << 27, "inner bitmap": inner})
    for _ in range(250):
        yield from both(random, EVENT, {"bitmap": event_bitmap(random, random.randint(0, 14))})


def event_bitmap(random, elements):
    return sum(1 << element for element in random.sample(EVENT_ELEMENTS, elements))


def entry_subsets(random):
    for index in range(4):
        for bitmap in range(8):
            entries = [(7, 4), (6, 1), (6, 3), (7, 2)]
            entries[index] = bitmap, entries[index][1]
            yield from both(random, contract_list(4, counters_for(4, bitmap)), list_entries(entries))
        for bitmap in range(16):
            entries = [(15, 4), (14, 1), (14, 3), (15, 2)]
            entries[index] = bitmap, entries[index][1]
            yield from both(random, special_list(4), special_entries(entries))


def head_subsets(random):
    for kind in (66, 80):
        for bitmap in range(128):
            yield from both(random, contract(kind), {"bitmap": bitmap, "groups": 1 << random.randrange(16)})
        for inner in range(4):
            for bitmap in (16, 48, 80):
                fixed = {"bitmap": bitmap, "validity bitmap": inner, "groups": 0}
                yield from both(random, contract(kind), fixed)


def group_subsets(random):
    for group in range(16):
        yield from both(random, contract(80), {"bitmap": 64, "groups": 1 << group})
    for _ in range(200):
        groups = sum(1 << group for group in random.sample(range(16), random.randint(0, 9)))
        bitmap = 64 | random.randrange(64)
        yield from both(random, contract(80), {"bitmap": bitmap, "groups": groups})


# ---------------------------------------------------------------- Widths

def full_values():
    """Pairs of layout and fixed bitmaps that between them have every field of the layouts present and fitting."""
    yield ENVIRONMENT, {"bitmap": 127, "env data bitmap": 1}
    yield holder(116), HOLDER_FULL
    for element in EVENT_ELEMENTS:
        yield EVENT, {"bitmap": 1 << element, "inner bitmap": 31}
    yield special_list(4), special_entries([(15, 3), (15, 1), (15, 4), (15, 2)])
    yield contract_list(8, 4), list_entries([(7, 5), (7, 8), (7, 1), (7, 3)])
    yield contract_list(8, 4), list_entries([(6, pointer) for pointer in (4, 3, 8, 7, 1, 2, 5, 6)])
    yield contract(66), {"bitmap": 127, "validity bitmap": 3}
    yield contract(80), {"bitmap": 127, "validity bitmap": 3, "groups": 0}
    for group in range(16):
        yield contract(80), {"bitmap": 64, "groups": 1 << group}


def width_edges(random):
    """2^w - 1 and 2^w in every number of every field."""
    done = set()
    for layout, fixed in full_values():
        for field in draw(random, layout, present_only(layout, fixed)).fields:
            key = layout.name, layout.parameters, field.name
            if field.present and key not in done:
                done.add(key)
                yield from field_edges(random, layout, present_only(layout, fixed), field)


def present_only(layout, fixed):
    """Without the fixed inner bitmap of an event whose element [27] is absent."""
    if layout is EVENT and fixed["bitmap"] != 1 << 27:
        return {"bitmap": fixed["bitmap"]}
    return fixed


def field_edges(random, layout, fixed, field):
    for index, width in enumerate(field.widths):
        for number in edge_numbers(field, width):
            if number <= LARGEST:
                changed = {**fixed, field.name: changed_numbers(random, layout, fixed, field, index, number)}
                drawing = draw(random, layout, changed)
                yield write(layout, noise(random, layout.size), drawing.words())
                if not number >> width and not is_text(field):
                    yield read(layout, record(drawing.bits, layout.size))


def edge_numbers(field, width):
    edges = [(1 << width) - 1, 1 << width]
    return edges if is_text(field) or width > 24 else edges + [LARGEST]


def is_text(field):
    return len(field.widths) > 3


def widest(field):
    """The largest number that a line can lend: a letter is at most 255."""
    return 255 if is_text(field) else LARGEST


def changed_numbers(random, layout, fixed, field, index, number):
    numbers = draw(random, layout, fixed).value[field.name]
    return numbers[:index] + [number] + numbers[index + 1:]


# ---------------------------------------------------------------- Absent fields

def sparse_values():
    """Pairs of layout and fixed bitmaps that between them have every field absent that can be so."""
    yield ENVIRONMENT, {"bitmap": 0}
    yield ENVIRONMENT, {"bitmap": 64, "env data bitmap": 0}
    yield holder(29), {"bitmap": 0}
    yield EVENT, {"bitmap": 0}
    yield EVENT, {"bitmap": 1 << 27, "inner bitmap": 0}
    yield special_list(4), {"count": 0}
    yield special_list(3), special_entries([(0, 0), (14, 2), (14, 3)])
    yield contract_list(8, 3), {"count": 0}
    yield contract_list(8, 1), list_entries([(6, 2), (0, 0), (7, 1)])
    yield contract_list(5, 0), list_entries([(6, 2), (6, 4), (6, 5), (6, 1), (6, 3)])
    yield contract(66), {"bitmap": 0}
    yield contract(66), {"bitmap": 80, "validity bitmap": 0}
    yield contract(80), {"bitmap": 0}
    yield contract(80), {"bitmap": 64, "groups": 0}
    yield contract(80), {"bitmap": 80, "validity bitmap": 0, "groups": 0x0AA5}


def absent_fields(random):
    for layout, fixed in sparse_values():
        drawing = draw(random, layout, fixed)
        for field in drawing.fields:
            if not field.present:
                yield from not_zero(random, layout, drawing, field)
    for layout, fixed in crowded_values():
        drawing = draw(random, layout, fixed)
        for field in drawing.fields:
            if not field.present:
                yield random.choice(list(not_zero(random, layout, drawing, field)))


def not_zero(random, layout, drawing, field):
    """Each number of an absent field by itself."""
    for index in range(len(field.widths)):
        numbers = [0] * len(field.widths)
        numbers[index] = random.choice([1, 1, random.randrange(1, 32), widest(field)])
        yield write(layout, noise(random, layout.size), drawing.words({field.name: numbers}))


def crowded_values():
    """Fields absent among present ones, so that the bit reached lies in the middle."""
    for layout, elements, all_bits in ((ENVIRONMENT, 7, 127), (holder(116), 8, 255), (contract(66), 6, 127)):
        for element in range(elements):
            yield layout, {"bitmap": all_bits ^ 1 << element}
    yield holder(58), {"bitmap": 255, "name bitmap": 0, "birth bitmap": 0, "profile count": 0, "data bitmap": 0}
    for count in (1, 3):
        yield holder(116), {**HOLDER_FULL, "profile count": count, **uncounted_profiles(count)}


def uncounted_profiles(count):
    return {f"profile {number} bitmap": 0 for number in range(count + 1, 5)}


# ---------------------------------------------------------------- Numbers with a range

RANGES = [
    (EVENT, {"bitmap": 0}, "minute", (0, 1438, 1439, 1440, 1441, 2047)),
    (EVENT, {"bitmap": 1 << 27, "inner bitmap": 31}, "inner minute", (0, 1438, 1439, 1440, 1441, 2047)),
    (EVENT, {"bitmap": 1 << 25}, "[25]", tuple(range(32))),
    (contract(66), {"bitmap": 64}, "sale minute", (0, 1438, 1439, 1440, 1441, 2047)),
    (contract(80), {"bitmap": 64, "groups": 1 << 13}, "end minute", (0, 1438, 1439, 1440, 1441, 2047)),
    (holder(29), {"bitmap": 128, "data bitmap": 4095}, "residence", (0, 99998, 99999, 100000, 100001, 131071)),
    (holder(29), {"bitmap": 128, "data bitmap": 4095}, "work place", (0, 99998, 99999, 100000, 100001, 131071)),
    (holder(29), {"bitmap": 128, "data bitmap": 4095}, "study place", (0, 99998, 99999, 100000, 100001, 131071)),
    (holder(58), {"bitmap": 64}, "profile count", tuple(range(16))),
    (special_list(4), special_entries([(14, 1), (14, 2), (14, 3), (14, 4)]), "count", tuple(range(16))),
]


def ranges(random):
    for layout, fixed, name, numbers in RANGES:
        for number in numbers:
            yield from both(random, layout, {**fixed, name: number})
    yield from list_counts(random)
    yield from list_priorities(random)


def list_counts(random):
    for positions in range(1, 9):
        for count in range(16):
            fixed = list_entries([(6, pointer) for pointer in range(1, min(count, 8) + 1)])
            layout = contract_list(positions, counters_for(positions, count))
            yield from both(random, layout, {**fixed, "count": count})


def list_priorities(random):
    for number in (1, 2, 4, 8):
        for priority in range(16):
            fixed = list_fixed(random, 8, count=8)
            tariff = [random.randrange(16), random.randrange(256), priority]
            layout = contract_list(8, counters_for(8, number + priority))
            yield from both(random, layout, {**fixed, f"entry {number} tariff": tariff})


# ---------------------------------------------------------------- List rules

def lists(random):
    for index in range(60):
        positions, specials = random.randint(1, 8), random.randint(0, 4)
        layout = contract_list(positions, counters_for(positions, index))
        yield from both(random, layout, list_fixed(random, positions))
        yield from both(random, special_list(specials), special_fixed(random, specials))
    for index in range(90):
        entries = broken_entries(random, 8, (4, 5, 6, 6, 6, 7, 2, 0))
        positions = random.randint(3, 8)
        yield from both(random, contract_list(positions, counters_for(positions, index)), list_entries(entries))
        entries = broken_entries(random, 4, (6, 13, 14, 14, 15))
        yield from both(random, special_list(random.randint(1, 4)), special_entries(entries))
    yield from repeated_pointers(random)
    yield from pointer_limits(random)


def broken_entries(random, most, bitmaps):
    """Any of the bitmaps, and small pointers, so that missing and repeated ones meet."""
    return [(random.choice(bitmaps), random.randrange(most + 1)) for _ in range(random.randint(1, most))]


def repeated_pointers(random):
    for first in range(8):
        for later in range(first + 1, 8):
            pointers = random.sample(range(1, 9), 8)
            pointers[later] = pointers[first]
            entries = [(6, pointer) for pointer in pointers]
            yield from both(random, contract_list(8, counters_for(8, later)), list_entries(entries))
    for first, later in ((0, 1), (0, 3), (1, 2), (2, 3)):
        pointers = [1, 2, 3, 4]
        pointers[later] = pointers[first]
        yield from both(random, special_list(4), special_entries([(15, pointer) for pointer in pointers]))


def pointer_limits(random):
    for limit in range(1, 9):
        for pointer in (0, limit, limit + 1, 31):
            layout = contract_list(limit, counters_for(limit, limit // 2 + pointer))
            yield from both(random, layout, list_entries([(6, pointer)]))
    for limit in range(5):
        for pointer in (0, limit, limit + 1, 31):
            yield from both(random, special_list(limit), special_entries([(14, pointer)]))


# ---------------------------------------------------------------- Data of a contract

DATA_COUNTS = {0: 0, 66: 9, 80: 36}


def data_agreement(random):
    """Every pairing of bit [6], the type and the kind of the lent data; data of zeros, of ones and too wide."""
    for kind in (66, 80):
        for bitmap in (0, 64, 1, 65, 63, 127):
            head = draw(random, contract(kind), {"bitmap": bitmap, "groups": 0})
            words = head.words().split(" ")
            for tag, count in DATA_COUNTS.items():
                for number in (0, 1, LARGEST):
                    data = [str(tag)] + [str(number)] * count
                    yield write(contract(kind), noise(random), " ".join(words[:9] + data + words[-1:]))


# ---------------------------------------------------------------- Margins, lengths, parameters

def small_values():
    yield ENVIRONMENT, {"bitmap": 0}
    yield holder(29), {"bitmap": 0}
    yield EVENT, {"bitmap": 0}
    yield special_list(0), {"count": 0}
    yield contract_list(4, 2), {"count": 0}
    yield contract(66), {"bitmap": 0}
    yield contract(80), {"bitmap": 64, "groups": 0}


def larger_values(random):
    yield ENVIRONMENT, {"bitmap": 127, "env data bitmap": 1}
    yield holder(116), HOLDER_FULL
    yield EVENT, {"bitmap": 0b0010_0000_0000_0000_0000_0001_0100}
    yield special_list(4), special_fixed(random, 4, count=4)
    yield contract_list(8, 4), list_fixed(random, 8, count=7)
    yield contract(66), {"bitmap": 127, "validity bitmap": 3}
    yield contract(80), {"bitmap": 99, "groups": 0xD843}


def margins(random):
    """Each single one after the last field of a small value, some after that of a larger one; then several ones. In a
    list the first of them counts, the others keep them all."""
    for layout, fixed in small_values():
        yield from ones_after(random, layout, fixed, step=1)
    for layout, fixed in larger_values(random):
        yield from ones_after(random, layout, fixed, step=4)
    lent = drawn_record(random, holder(116), {"bitmap": 9, "margin": ""})
    for place in (231, 232, 463, 464, 695, 696, 866, 867, 926, 927):
        yield read(holder(116), flipped(lent, place))


def ones_after(random, layout, fixed, step):
    drawing = draw(random, layout, {**fixed, "margin": ""})
    lent = record(drawing.bits, layout.size)
    after = range(drawing.place, 8 * layout.size)
    for place in [*after[::step], after[-1]]:
        yield read(layout, flipped(lent, place))
    for _ in range(4):
        yield read(layout, flipped(lent, *random.sample(after, 3)))


def lengths(random):
    for layout, fixed in larger_values(random):
        drawing = draw(random, layout, fixed)
        lent = record(drawing.bits, layout.size)
        for size in WRONG_AREAS if layout.name == "holder" else WRONG_LENGTHS:
            wrong = (lent * 3)[:2 * size] or "-"
            yield read(layout, wrong)
            yield write(layout, wrong, drawing.words())


def parameters(random):
    for positions in (0, 1, 2, 8, 9, 10, 255, 256, 257, 2147483648, LARGEST):
        yield from both(random, contract_list(positions, 0), list_entries([(6, 1)]))
        yield from both(random, contract_list(positions, min(positions, 4)), {"count": 0})
    for specials in (0, 1, 4, 5, 6, 255, 256, 257, 2147483648, LARGEST):
        yield from both(random, special_list(specials), special_entries([(14, 1)]))
        yield from both(random, special_list(specials), {"count": 0})
    for kind in (0, 1, 65, 66, 67, 79, 80, 81, 255, 256 + 66, 65536 + 80, LARGEST):
        yield from both(random, contract(kind), {"bitmap": 63, "groups": 0})
        yield from both(random, contract(kind), {"bitmap": 0})


# ---------------------------------------------------------------- The end of the record

def any_value(random):
    """A layout that can run past its end, with bitmaps about as large as the record."""
    layout = random.choice([EVENT, holder(29), holder(58), holder(87), contract(80), contract_list(8, 4)])
    if layout is EVENT:
        return layout, {"bitmap": event_bitmap(random, random.randint(8, 18))}
    if layout.name == "holder":
        return layout, {"profile count": 4}
    if layout.name == "contract":
        return layout, {"bitmap": 64 | random.randrange(64), "groups": random.randrange(65536)}
    count = random.randint(5, 8)
    return contract_list(8, count - 4), {"count": count}


def exact_ends(random):
    """Records whose last field ends at the last bit, and records one of whose fields would begin just past it."""
    wanted = {name: 12 for name in ("event", "holder", "contract", "list")}
    full, begun = dict(wanted), dict(wanted)
    while any(full.values()) or any(begun.values()):
        layout, fixed = any_value(random)
        drawing = draw(random, layout, fixed)
        size = 8 * layout.size
        if drawing.place == size:
            kind = full
        elif any(field.present and field.place == size for field in drawing.fields):
            kind = begun
        else:
            continue
        if kind[layout.name]:
            kind[layout.name] -= 1
            yield read(layout, record(drawing.bits, layout.size))
            yield write(layout, noise(random, layout.size), drawing.words())


def overfull(random):
    for _ in range(150):
        layout, fixed = any_value(random)
        if not (layout.name == "holder" and layout.size > 29):
            yield from both(random, layout, fixed)
    for networks in range(9):
        entries = [(7 if index < networks else 6, index + 1) for index in range(8)]
        for count in range(4, 9):
            yield from both(random, contract_list(8, counters_for(8, networks + count)), list_entries(entries[:count]))


def element_17(random):
    for bitmap in [0, 1 << 27, 1 << 16, 1 << 18] + [event_bitmap(random, random.randint(1, 12)) for _ in range(40)]:
        yield from both(random, EVENT, {"bitmap": bitmap | 1 << 17})


# ---------------------------------------------------------------- Order of refusals

def all_layouts(random):
    """A value for each layout, some of them with a fault already."""
    positions, specials = random.randint(1, 8), random.randint(0, 4)
    yield ENVIRONMENT, {"bitmap": random.randrange(128)}
    yield holder(random.choice(HOLDER_AREAS)), {}
    yield EVENT, {"bitmap": event_bitmap(random, random.randint(1, 11))}
    yield special_list(specials), special_fixed(random, specials)
    yield contract_list(positions, min(positions, specials)), list_fixed(random, positions)
    yield contract(66), {}
    yield contract(80), {"groups": 1 << random.randrange(16) | 1 << random.randrange(16)}


def two_faults(random):
    """Two fields at fault, in a value to write."""
    for _ in range(35):
        for layout, fixed in all_layouts(random):
            drawing = draw(random, layout, fixed)
            for field in random.sample(drawing.fields, 2):
                index = random.randrange(len(field.widths))
                faults = [1, 1 << min(field.widths[index], 31), widest(field), (1 << field.widths[index]) - 1]
                drawing.value[field.name][index] = random.choice(faults)
            yield write(layout, noise(random, layout.size), drawing.words())


def two_faults_in_a_field(random):
    """7 before 2 before 3 before 4 at one field; 1 before 11 before 3 before the walk; 5 before 6."""
    wide = {"bitmap": sum(1 << element for element in (0, 1, 6, 7, 8, 10, 11, 13, 14)) | 1 << 27, "inner bitmap": 31}
    for number in (1439, 1440, 2047, 2048):
        yield from both(random, EVENT, {**wide, "inner minute": number})
        fixed = {"bitmap": 127, "validity bitmap": 3, "groups": 0x2102}
        yield from both(random, contract(80), {**fixed, "end minute": number})
    for code in (99999, 100000, 131072):
        fixed = {"bitmap": 0b10000101, "name bitmap": 1, "data bitmap": 4095}
        yield from both(random, holder(29), {**fixed, "residence": code})
        yield from both(random, holder(29), {**fixed, "work place": code})
    for priority in (12, 13, 16):
        fixed = list_entries([(7, pointer) for pointer in (1, 2, 3, 4, 5)])
        yield from both(random, contract_list(8, 4), {**fixed, "entry 5 tariff": [1, 66, priority]})
    for inner in (2, 3, 4, 6, 7):
        yield from both(random, ENVIRONMENT, {"bitmap": 64, "env data bitmap": inner, "card status": 2})
    yield from first_checks(random)
    for place in (230, 231):
        twice = drawn_record(random, contract_list(4, 1), list_entries([(6, 1), (6, 1)]))
        yield read(contract_list(4, 1), flipped(twice, place))
        twice = drawn_record(random, special_list(4), special_entries([(14, 1), (14, 1)]))
        yield read(special_list(4), flipped(twice, place))


def faults_past_the_end(random):
    """The field that runs past the end is too wide as well: 7. A later field is at fault as well: 2."""
    left = {name: 12 for name in ("event", "holder", "contract", "list")}
    while any(left.values()):
        layout, fixed = any_value(random)
        drawing = draw(random, layout, fixed)
        past = [field for field in drawing.fields
                if field.present and field.place + sum(field.widths) > 8 * layout.size and max(field.widths) < 32]
        if len(past) > 1 and left[layout.name]:
            left[layout.name] -= 1
            for field in (past[0], past[-1]):
                yield write(layout, noise(random, layout.size), drawing.words({field.name: too_wide(random, field)}))


def too_wide(random, field):
    """Numbers of which one is too wide."""
    numbers = [0] * len(field.widths)
    index = random.randrange(len(numbers))
    numbers[index] = 1 << field.widths[index]
    return numbers


def first_checks(random):
    for size in (28, 29):
        for limit in (4, 9):
            for layout in (contract_list(limit, 4), special_list(limit), contract(limit), contract(66)):
                lent = noise(random, size)
                yield read(layout, lent)
                words = draw(random, layout, {"bitmap": 0, "count": 17}).words()
                yield write(layout, lent, words)


# ---------------------------------------------------------------- Chance

def flips(random):
    """Legal records with a few bits turned over."""
    for _ in range(50):
        for layout, fixed in all_layouts(random):
            lent = drawn_record(random, layout, fixed)
            places = random.sample(range(8 * layout.size), random.randint(1, 3))
            yield read(layout, flipped(lent, *places))


def any_bits(random):
    for _ in range(12):
        for layout, _ in all_layouts(random):
            yield read(layout, noise(random, layout.size))
