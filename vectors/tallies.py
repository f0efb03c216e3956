"""Requests about the tally: Q-8 wants the list value to store, for counter and for plain positions, which pointers are
in use and how many entries have priority 15, and each call that reads or writes a contract list to take C."""

import model
from cards import (LARGEST, P2_LIST, PRIORITIES, ZEROS, any_contract, broken_lists, event, good_contract, listing,
                   load_line, overfull_list, select_line)
from draw import both, contract_list, count_again, draw, drawn_record, list_entries, noise, read, write

MIXED = (15, 15, 15, 14, 12, 11, 6, 0)             # priorities, of which 15 alone is counted


def requests(random):
    for family in (each_pointer, each_priority, used_up, every_card, one_record, wrong_tallies, any_wrong_tally,
                   after_the_fields, after_the_list_rule, uncounted_entries, after_the_first_checks, limits,
                   lengths_before_limits, limits_before_reading, selected, changed_priorities, one_free_pointer,
                   used_up_and_named):
        yield from family(random)


def listed(random, entries, networks=0):
    """Fixed numbers of a contract list of these pointers and priorities, the first so many with a network. A key or a
    type of 15 is no priority."""
    fixed = list_entries([(7 if index < networks else 6, pointer) for index, (pointer, _) in enumerate(entries)])
    for number, (_, priority) in enumerate(entries, 1):
        fixed[f"entry {number} tariff"] = [random.choice([0, 2, 15]), random.choice([15, 66, 80, 255]), priority]
    return fixed


def any_listed(random, positions, count):
    """So many entries, in any order, of any priorities."""
    return [(pointer, random.choice(MIXED)) for pointer in random.sample(range(1, positions + 1), count)]


def all_cards():
    """Each N with each C."""
    return [(positions, counters) for positions in range(1, 9) for counters in range(min(positions, 4) + 1)]


# ---------------------------------------------------------------- Right tallies

def each_pointer(random):
    """A single entry at each pointer, used up and not: it is on a counter position if the pointer is at most C."""
    for counters in range(5):
        for pointer in range(1, 9):
            for priority in (15, 14):
                yield from both(random, contract_list(8, counters), listed(random, [(pointer, priority)]))


def each_priority(random):
    """On a counter position, on a plain one and on both."""
    for code in PRIORITIES:
        for here, there in ((code, 6), (6, code), (code, code)):
            yield from both(random, contract_list(6, 3), listed(random, [(2, here), (5, there)]))


def used_up(random):
    """Each number of entries with priority 15, on counter positions and on plain ones."""
    for counters in (4, 3):
        for on_counters in range(counters + 1):
            for on_plain in range(9 - counters):
                entries = [(pointer, 15 if pointer <= on_counters or counters < pointer <= counters + on_plain else 7)
                           for pointer in random.sample(range(1, 9), 8)]
                yield from both(random, contract_list(8, counters), listed(random, entries))
    for count in range(9):
        entries = [(pointer, 15) for pointer in random.sample(range(1, 9), count)]
        for counters in (0, 1, 2):
            yield from both(random, contract_list(8, counters), listed(random, entries))


def every_card(random):
    """Each N and C: a list of any length, one of all positions, and one with networks."""
    for positions, counters in all_cards():
        layout, few = contract_list(positions, counters), min(positions, 4)
        yield from both(random, layout, listed(random, any_listed(random, positions, random.randint(0, positions))))
        yield from both(random, layout, listed(random, any_listed(random, positions, positions)))
        yield from both(random, layout, listed(random, any_listed(random, positions, few), networks=few))


def one_record(random):
    """The same record with every C: read, and written from what each reading gives."""
    lists = [(4, P2_LIST), (8, ZEROS), (8, listing(*[(0, 66, 15, pointer) for pointer in (4, 5, 3, 6, 1, 8)]))]
    for count in (2, 5, 7, 8):
        fixed = listed(random, any_listed(random, 8, count))
        lists.append((8, drawn_record(random, contract_list(8, 4), fixed)))
    for positions, lent in lists:
        numbers = model.read_walk(bytes.fromhex(lent), model.walk_contract_list, positions)
        for counters in range(5):
            layout = contract_list(positions, counters)
            yield read(layout, lent)
            yield write(layout, noise(random), draw(random, layout, numbers).words())


# ---------------------------------------------------------------- Wrong tallies

# N, C, pointers and priorities. Some end at C, some have all or nothing used up, or nothing on one side.
COUNTED = [
    (4, 2, []),
    (1, 0, [(1, 15)]),
    (1, 1, [(1, 15)]),
    (4, 4, [(1, 6), (2, 9), (3, 15)]),
    (4, 2, [(1, 6), (2, 9), (3, 15)]),
    (4, 0, [(1, 6), (2, 9), (3, 15)]),
    (8, 4, [(1, 6), (2, 15), (5, 14), (3, 15), (6, 15), (7, 12), (8, 15), (4, 0)]),
    (8, 3, [(8, 15), (1, 15), (4, 15), (3, 14)]),
    (8, 2, [(3, 15), (2, 15)]),
    (8, 4, [(5, 15), (4, 14)]),
    (8, 4, [(pointer, 15) for pointer in (8, 7, 6, 5, 4, 3, 2, 1)]),
    (8, 0, [(pointer, 15) for pointer in (1, 2, 3, 4, 5, 6, 7, 8)]),
    (5, 1, [(5, 14), (1, 12), (2, 0)]),
]


def wrong_tallies(random):
    for positions, counters, entries in COUNTED:
        layout, most_networks = contract_list(positions, counters), min(len(entries), 9 - len(entries))
        drawing = draw(random, layout, listed(random, entries, networks=random.choice([0, most_networks])))
        right = count_again(drawing.value, counters)
        for tally in [right, *numbers_changed(right), *taken_for(right), *counted_otherwise(drawing.value, counters)]:
            yield write(layout, noise(random), drawing.words({"tally": tally}))


def numbers_changed(right):
    """One number by one, by a bit, shifted, as zero, and so large that what is cut off of it would be right."""
    for index, number in enumerate(right):
        others = [number + 1, number - 1, 0, 2 * number, number // 2, number + 256, number + 65536, number + (1 << 31),
                  LARGEST, *[number ^ 1 << bit for bit in range(8)]]
        for other in others:
            if other >= 0:
                yield right[:index] + [other] + right[index + 1:]


def taken_for(right):
    """Numbers taken for each other, together or left out."""
    counter, plain, counter_used_up, plain_used_up = right
    everything, all_used_up = counter | plain, counter_used_up + plain_used_up
    yield [plain, counter, counter_used_up, plain_used_up]
    yield [counter, plain, plain_used_up, counter_used_up]
    yield [plain, counter, plain_used_up, counter_used_up]
    yield [counter_used_up, plain_used_up, counter, plain]
    yield [counter, counter_used_up, plain, plain_used_up]
    yield [everything, 0, all_used_up, 0]
    yield [0, everything, 0, all_used_up]
    yield [everything, everything, all_used_up, all_used_up]
    yield [everything, plain, counter_used_up, plain_used_up]
    yield [counter, plain, counter_used_up + 1, max(plain_used_up - 1, 0)]
    yield [counter, plain, max(counter_used_up - 1, 0), plain_used_up + 1]
    yield [2 * counter, 2 * plain, counter_used_up, plain_used_up]
    yield [0, 0, counter_used_up, plain_used_up]
    yield [counter, plain, 0, 0]
    yield [0] * 4
    yield [LARGEST] * 4


def counted_otherwise(value, counters):
    """For another C, and of other priorities than 15."""
    for other in range(9):
        yield count_again(value, other)
    for codes in ((14,), (12, 14, 15), range(15), range(16)):
        yield count_again(value, counters, codes)


def any_wrong_tally(random):
    """Any list, its tally with one number or two that are wrong."""
    for positions, counters in all_cards() * 2:
        layout = contract_list(positions, counters)
        drawing = draw(random, layout, listed(random, any_listed(random, positions, random.randint(0, positions))))
        tally = count_again(drawing.value, counters)
        for index in random.sample(range(4), random.randint(1, 2)):
            tally[index] ^= 1 << random.choice([0, 0, 1, 2, 3, 4, 7, 8, 31])
        yield write(layout, noise(random), drawing.words({"tally": tally}))


# ---------------------------------------------------------------- After the other rules

def with_tallies(random, layout, drawing, changes=()):
    """A value at fault, with the tally as right as it can be and with wrong ones."""
    right = count_again({**drawing.value, **dict(changes)}, drawing.counters)
    for tally in (right, [0] * 4, [LARGEST] * 4, [right[0] ^ 1, *right[1:]], [*right[:3], right[3] + 1]):
        yield write(layout, noise(random), drawing.words({**dict(changes), "tally": tally}))


# What is refused with 7 or with 4 in a list of three entries on a card of five positions, the first with a network.
FIELD_FAULTS = [
    {"count": [16]}, {"count": [LARGEST]}, {"entry 1 bitmap": [15]}, {"entry 1 network": [1 << 24]},
    {"entry 2 network": [1]}, {"entry 1 tariff": [16, 66, 15]}, {"entry 2 tariff": [0, 256, 15]},
    {"entry 3 tariff": [0, 66, 16]}, {"entry 3 pointer": [32]}, {"entry 3 pointer": [LARGEST]},
    {"entry 4 bitmap": [6]}, {"entry 4 pointer": [3]}, {"entry 8 tariff": [0, 0, 15]}, {"entry 8 pointer": [LARGEST]},
    {"count": [6]}, {"count": [15]}, {"entry 1 tariff": [0, 66, 13]}, {"entry 3 tariff": [15, 15, 13]},
]


def after_the_fields(random):
    """7, 2 and 4 come first."""
    layout = contract_list(5, 2)
    drawing = draw(random, layout, listed(random, [(2, 15), (4, 15), (1, 6)], networks=1))
    for changes in FIELD_FAULTS:
        yield from with_tallies(random, layout, drawing, changes)
    for count, networks in ((5, 5), (8, 2), (6, 4)):
        layout = contract_list(8, count % 5)
        fixed = listed(random, any_listed(random, 8, count), networks=networks)
        yield from with_tallies(random, layout, draw(random, layout, fixed))


def after_the_list_rule(random):
    """6 at the first entry at fault: it has no pointer or no tariff, a pointer that the card has not, or one that an
    earlier entry has."""
    layout = contract_list(5, 2)
    for index in range(4):
        for bitmap, pointer in ((2, 0), (4, 1), (0, 0), (5, 3), (6, 0), (6, 6), (6, 8), (6, 31), (6, 5)):
            entries = [(6, 5), (7, 2), (6, 4), (6, 1), (6, 5)]
            entries[index] = bitmap, pointer
            yield from with_tallies(random, layout, draw(random, layout, list_entries(entries)))


def uncounted_entries(random):
    """Fewer or more entries are counted than there are: 7 at the first that is not zero, or 6 at the first that has
    nothing. The tally is that of the counted ones, or that of all."""
    layout = contract_list(8, 2)
    drawing = draw(random, layout, listed(random, [(3, 15), (1, 15), (2, 6), (6, 15)]))
    for count in (0, 1, 2, 3, 5, 8):
        yield from with_tallies(random, layout, drawing, {"count": [count]})
        everything = count_again(drawing.value, 2)
        yield write(layout, noise(random), drawing.words({"count": [count], "tally": everything}))


def after_the_first_checks(random):
    """A wrong length, and N or C outside its limits, are found before the tally is looked at."""
    for size, positions, counters in ((28, 4, 2), (30, 4, 2), (0, 4, 2), (28, 4, 5), (29, 4, 5), (29, 3, 4), (29, 9, 2),
                                      (29, 0, 0), (29, 4, LARGEST), (29, 8, 8)):
        layout = contract_list(positions, counters)
        for fixed in ({"count": 0}, listed(random, [(2, 15), (1, 6)])):
            drawing = draw(random, layout, fixed)
            right = count_again(drawing.value, counters)
            for tally in (right, [0] * 4, [right[0] ^ 4, *right[1:]], [LARGEST] * 4):
                yield write(layout, noise(random, size), drawing.words({"tally": tally}))


# ---------------------------------------------------------------- C outside its limits

def outside(positions):
    """Numbers that are no C on a card with this N. Cut off to a byte, some would be."""
    return [counters for counters in sorted({1, 2, 3, 4, 5, positions + 1, 8, 9, 255, 256, 258, 65536, LARGEST})
            if counters > min(positions, 4)]


def calls(random, lent, size, positions, counters):
    """Each call on this list, with a file of so many bytes."""
    yield f"list.read {lent} {positions} {counters}"
    yield f"select {lent} {noise(random, size)} {positions} {counters} 100 5"
    yield f"priority {lent} {positions} {counters} 1 15"


def limits(random):
    """Each N, with a good list and a good card."""
    good = good_contract(random, 66)
    for positions in range(1, 9):
        for counters in outside(positions):
            layout = contract_list(positions, counters)
            yield from both(random, layout, listed(random, [(1, 15)]))
            yield write(layout, noise(random), draw(random, layout, {"count": 0}).words())
            yield select_line([(0, 66, 3, 1)], [good] * positions, 100, 5, counters)
            yield f"priority {listing((0, 66, 3, 1))} {positions} {counters} 1 15"
            yield load_line(file="55" * 29 * positions, positions=positions, counters=counters)
    for positions, counters in ((0, 0), (0, 1), (9, 0), (9, 4), (9, 5), (9, 9), (60, 60)):
        yield from calls(random, ZEROS, 29 * positions, positions, counters)


def lengths_before_limits(random):
    """1 comes before 11: of the list, of the file, of both."""
    for counters in (4, 5, LARGEST):
        for size in (0, 1, 28, 30, 58):
            yield from calls(random, noise(random, size), 29 * 3, 3, counters)
            yield write(contract_list(3, counters), noise(random, size),
                        draw(random, contract_list(3, counters), listed(random, [(3, 15)])).words())
        for size in (0, 28, 29 * 2, 29 * 3 - 1, 29 * 3 + 1, 29 * 4):
            yield f"select {ZEROS} {noise(random, size)} 3 {counters} 100 5"
            yield f"select {ZEROS[2:]} {noise(random, size)} 3 {counters} 100 5"


def limits_before_reading(random):
    """11 comes before what the list is refused with; no contract is looked for, and no position."""
    for counters in (5, LARGEST):
        for lent in broken_lists():
            yield from calls(random, lent, 29 * 4, 4, counters)
            yield load_line(contract_list=lent, counters=counters)
        yield from calls(random, overfull_list(), 29 * 8, 8, counters)
        yield from calls(random, "FF" * 29, 29 * 8, 8, counters)
        yield from calls(random, ZEROS, 29 * 8, 8, counters)
    layout = contract_list(3, 4)
    drawing = draw(random, layout, listed(random, [(2, 15), (1, 15), (3, 6)]))
    for changes in ({"count": [16]}, {"count": [4]}, {"entry 1 bitmap": [8]}, {"entry 2 tariff": [0, 66, 13]},
                    {"entry 3 pointer": [2]}, {"entry 3 pointer": [4]}, {"entry 8 pointer": [1]}):
        yield write(layout, noise(random), drawing.words(changes))


# ---------------------------------------------------------------- On a card

def selected(random):
    """Selection takes no account of C: any card with each C, and contracts of equal priority on both sides of C."""
    for positions in range(1, 9):
        contracts = [any_contract(random) for _ in range(positions)]
        entries = [(random.choice([0, 0, 15]), contracts[pointer - 1][0], random.choice([1, 2, 8, 11, 15]), pointer)
                   for pointer in random.sample(range(1, positions + 1), positions)]
        for counters in range(min(positions, 4) + 1):
            yield select_line(entries, [made for _, made in contracts], 100, 20, counters)
    good = [good_contract(random, 66) for _ in range(6)]
    for pointers in ((5, 2), (2, 5)):
        for codes in ((3, 3), (4, 3), (15, 3), (3, 15), (15, 15)):
            for counters in range(5):
                entries = [(0, 66, code, pointer) for code, pointer in zip(codes, pointers)]
                yield select_line(entries, good, 100, 5, counters)


def changed_priorities(random):
    """To 15, from 15, from 15 to 15 and between others, on counter positions and on plain ones, with each C."""
    entries = [(15, 66, 15, 3), (0, 15, 6, 7), (2, 80, 15, 6), (0, 66, 14, 1), (15, 15, 12, 5), (4, 5, 15, 2),
               (0, 66, 0, 4), (1, 80, 15, 8)]
    for counters in range(5):
        for position in range(1, 9):
            for code in (15, 14, 6):
                yield f"priority {listing(*entries)} 8 {counters} {position} {code}"
    for positions, counters in all_cards():
        pointers = random.sample(range(1, positions + 1), random.randint(1, positions))
        lent = listing(*[(0, 66, random.choice(MIXED), pointer, pointer) if len(pointers) < 5 else
                         (0, 66, random.choice(MIXED), pointer) for pointer in pointers])
        for code in (15, 11):
            yield f"priority {lent} {positions} {counters} {random.randint(1, len(pointers))} {code}"


def one_free_pointer(random):
    """All pointers are in use but one, or but two, on a card of eight with each C."""
    for counters in range(5):
        for free in [*[(pointer,) for pointer in range(1, 9)], *[random.sample(range(1, 9), 2) for _ in range(4)]]:
            entries = [(0, 66, random.choice([15, 14, 6]), pointer) for pointer in random.sample(range(1, 9), 8)
                       if pointer not in free]
            for needs_counter in (0, 1):
                yield load_line(contract_list=listing(*entries), file="99" * 29 * 8, positions=8, counters=counters,
                                priority=random.choice([15, 8]), needs_counter=needs_counter)


def used_up_and_named(random):
    """Blocking is not in the tally: of all positions two are used up, on both sides of C or on one, and events name
    neither, one or both."""
    lent = listing(*[(0, 66, 15 if pointer in (2, 5) else 14, pointer) for pointer in (6, 5, 1, 4, 2, 3)])
    for counters in range(5):
        for pointers in ((), (2,), (5,), (2, 5)):
            for needs_counter in (0, 1):
                yield load_line(contract_list=lent, file="AA" * 29 * 6, positions=6, counters=counters,
                                journal="".join(event(100, 599, pointer) for pointer in pointers) or "-",
                                needs_counter=needs_counter)
