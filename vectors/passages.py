"""Requests for a passage: Q-1 wants one call that selects a contract, changes its priority and puts an event first in
the journal. Passages follow one another on a card, and the other calls take what they leave."""

import fields
import model
from cards import (INSPECTION, LARGEST, P2_LIST, PRIORITIES, VALIDATION, WRAPPING, ZEROS, all_but, any_selection,
                   best_of_several, bits, broken_lists, contract_types, event, good_contract, head, listing, load_line,
                   marking, odd_events, operator_keys, overfull_list, unusual_contracts, validity_dates)
from draw import contract, counters_for, drawn_record, flipped, noise, record
from tallies import all_cards, outside

# Position, pointer and priority of the chosen entry are all different: 3, 1 and 6, or with operator 2 they are 1, 4, 2.
CARD = listing((2, 66, 2, 4), (0, 66, 9, 2), (0, 80, 6, 1), (0, 66, 15, 3))
EVENTS = event(99, 1000, 2) + event(99, 700, 1) + event(98, 60, 4, INSPECTION)
DEFAULTS = dict(contract_list=CARD, file=ZEROS * 4, journal=EVENTS, positions=4, counters=2, day=100, minute=600,
                operator=5, code=VALIDATION, provider=35)


def requests(random):
    for family in (papers_list, each_priority, several_eligible, selections, each_bit, any_numbers, limits, positions,
                   counters, journal_sizes, unread_records, networks, lengths, broken, fault_pairs, single_carnets,
                   two_contracts, subscriptions, crowded_cards, any_card, loaded_again, read_again):
        yield from family(random)


def passage_line(**changes):
    return "passage " + " ".join(str(word) for word in {**DEFAULTS, **changes}.values())


# ---------------------------------------------------------------- Parts of a passage

def any_record(random):
    """An event, or bytes that may be none: a journal's records are moved unread."""
    old = event(random.randint(90, 99), random.randrange(1440), random.randint(0, 8), random.randrange(256))
    return random.choice([old, old, noise(random), "FF" * 29, ZEROS])


def any_journal(random, count=None):
    count = random.choice([1, 2, 2, 3, 4, 15]) if count is None else count
    return "".join(any_record(random) for _ in range(count))


def any_gate(random):
    """What only the event has."""
    return dict(minute=random.randrange(1440), code=random.randrange(256), provider=random.randrange(256))


def as_passage(random, request):
    """A selection, taken as the beginning of a passage."""
    _, contract_list, file, positions, counters, day, operator = request.split(" ")
    return passage_line(contract_list=contract_list, file=file, positions=positions, counters=counters, day=day,
                        operator=operator, journal=any_journal(random), **any_gate(random))


def card_of_eight(random, entries, **changes):
    """Eight contracts without dates or provider."""
    file = "".join(good_contract(random, 66) for _ in range(8))
    return passage_line(**{**dict(contract_list=listing(*entries), file=file, positions=8), **changes})


# ---------------------------------------------------------------- The entry

def papers_list(random):
    """P2's list has no type that is known; P3's has one more entry, which operator 2 may use."""
    p3 = "4C020C1C42122C40BE3C484C4" + "0" * 33
    for lent in (P2_LIST, p3):
        for operator in (0, 2, 3):
            yield passage_line(contract_list=lent, operator=operator, provider=7, counters=4)


def each_priority(random):
    """At each position each priority; the others are not eligible, or they have the last priority that is."""
    for position in range(1, 9):
        for code in PRIORITIES:
            for others in ((12, 14, 15), (11,)):
                codes = [code if number == position else random.choice(others) for number in range(1, 9)]
                entries = [(0, 66, *pair) for pair in zip(codes, random.sample(range(1, 9), 8))]
                yield card_of_eight(random, entries, counters=counters_for(8, position + code),
                                    journal=any_journal(random), **any_gate(random))


def several_eligible(random):
    """Any eligible priorities, often equal ones: of all entries just one changes."""
    for _ in range(40):
        few = random.sample(range(12), random.randint(1, 4))
        entries = [(random.choice([0, 5]), random.choice([66, 66, 80]), random.choice(few), pointer)
                   for pointer in random.sample(range(1, 9), random.randint(2, 8))]
        yield card_of_eight(random, entries, file=ZEROS * 8, counters=random.randint(0, 4),
                            journal=any_journal(random), **any_gate(random))


def selections(random):
    """It selects as 01 says: keys, types, dates, records that do not read. Taken is every second line of cards.py."""
    for family in (operator_keys, contract_types, unusual_contracts, validity_dates, best_of_several, any_selection):
        for request in list(family(random))[::2]:
            yield as_passage(random, request)


# ---------------------------------------------------------------- The event

def each_bit(random):
    """A single one in each number, and each pointer."""
    nothing = dict(day=0, minute=0, code=0, provider=0)
    for name, width in (("day", 14), ("minute", 11), ("code", 8), ("provider", 8)):
        for bit in range(width):
            yield passage_line(**{**nothing, name: 1 << bit})
    for pointer in range(1, 9):
        for code in (2, 5, 8):
            yield card_of_eight(random, [(0, 66, code, pointer)], counters=counters_for(8, pointer), **nothing)
            yield card_of_eight(random, [(0, 66, 15, 9 - pointer), (0, 66, code, pointer)], counters=4, day=16383,
                                minute=1439, code=255, provider=255)


def any_numbers(random):
    for _ in range(40):
        yield passage_line(day=random.randrange(16384), operator=random.choice([2, 5, random.randrange(256)]),
                           journal=any_journal(random), **any_gate(random))
    for one in (0, 2, 5, 100, 255):
        yield passage_line(day=one, minute=one, operator=one, code=one, provider=one)


# ---------------------------------------------------------------- Limits

# Just inside and just outside; some that would be right if they were cut off; minutes that fit into their 11 bits.
LIMITS = dict(day=(0, 1, 16382, 16383, 16384, 16385, 16484, 32768, 65536, 65636, LARGEST),
              minute=(0, 1, 1438, 1439, 1440, 1441, 1500, 2046, 2047, 2048, 2648, 65536, 66136, LARGEST),
              operator=(0, 1, 254, 255, 256, 257, 258, 261, 65536, 65538, LARGEST),
              code=(0, 1, 254, 255, 256, 257, 305, 511, 65536, 65585, LARGEST),
              provider=(0, 1, 254, 255, 256, 257, 291, 511, 65536, 65571, LARGEST))


def limits(random):
    for name, numbers in LIMITS.items():
        for number in numbers:
            yield passage_line(**{name: number})
            yield passage_line(**{"operator": 2, "journal": any_journal(random, 2), name: number})


def positions(random):
    """N outside its limits: 11 with a file of 29 x N bytes, 1 with any other."""
    for number in (0, 9, 10, 15, 16, 17, 60):
        for lent in (CARD, record(bits((number % 16, 4)))):
            for counters in sorted({0, 4, number}):
                yield passage_line(contract_list=lent, file=ZEROS * number or "-", positions=number, counters=counters)
    for number in (0, 1, 3, 5, 8, 9, 260, LARGEST):
        for counters in (0, 2):
            yield passage_line(positions=number, counters=counters)
    for number, size in WRAPPING:
        yield passage_line(file=noise(random, size), positions=number)


def counters(random):
    """Each C on a card with each N, and numbers that are none."""
    for number, right in all_cards():
        pointer = random.randint(1, number)
        others = [(0, 66, 12, other) for other in range(1, number + 1) if other != pointer]
        for code in (1, 7):
            yield passage_line(contract_list=listing(*others, (0, 66, code, pointer)), file=ZEROS * number,
                               positions=number, counters=right)
    for number in range(1, 9):
        for wrong in outside(number):
            yield passage_line(contract_list=listing((0, 66, 5, number)), file=ZEROS * number, positions=number,
                               counters=wrong)


# ---------------------------------------------------------------- The journal

def journal_sizes(random):
    """0 and more than 15 records are 11; what is no multiple of 29 bytes is 1."""
    for count in (*range(18), 29, 30, 32, 60, 100):
        yield passage_line(journal="".join(event(number, number) for number in range(count)) or "-")
        yield passage_line(journal=noise(random, 29 * count), operator=2)
    for size in (1, 2, 28, 30, 57, 59, 86, 88, 29 * 14 + 1, 29 * 15 - 1, 29 * 15 + 1, 29 * 16 - 1, 29 * 16 + 1):
        yield passage_line(journal=noise(random, size))
        yield passage_line(journal=noise(random, size), operator=2, day=16384)


def unread_records(random):
    """Records that are no events, at each place: all but the last move down as they are."""
    for odd in (*odd_events(random), "FF" * 29, ZEROS, "00" * 28 + "01", "80" + "00" * 28):
        for count, index in ((1, 0), (2, 0), (2, 1), (3, 1), (15, 0), (15, 7), (15, 13), (15, 14)):
            journal = [event(99, number, 1) for number in range(count)]
            journal[index] = odd
            yield passage_line(journal="".join(journal))
    for count in (1, 2, 3, 8, 14, 15):
        for operator in (2, 5):
            yield passage_line(journal=noise(random, 29 * count), operator=operator)


# ---------------------------------------------------------------- The list

def networks(random):
    """Lists of each size and number of networks; the longest has 220 bits."""
    for count in range(1, 9):
        for with_network in range(min(count, 9 - count) + 1):
            chosen, has_network = random.randrange(count), random.sample(range(count), with_network)
            for code in (random.randrange(4), random.randrange(4, 8), random.randrange(8, 12)):
                entries = [(0, 66, code if index == chosen else random.choice([11, 12, 15]), pointer,
                            *[random.choice([0, 250 << 12, 0xFFFFFF])] * (index in has_network))
                           for index, pointer in enumerate(random.sample(range(1, 9), count))]
                yield card_of_eight(random, entries, counters=counters_for(8, count + code), **any_gate(random))


def lengths(random):
    for size in (0, 1, 28, 30, 58):
        yield passage_line(contract_list=noise(random, size))
        yield passage_line(contract_list="00" * size or "-", journal="-")
    for size in (0, 1, 28, 29, 58, 87, 115, 117, 145, 232):
        yield passage_line(file=noise(random, size))
        yield passage_line(file="00" * size or "-", counters=5)
    yield passage_line(contract_list="-", file="-", journal="-", positions=0, counters=0)


def broken(random):
    """Whatever the list is refused with is passed on, with its place and its field."""
    for lent in broken_lists():
        yield passage_line(contract_list=lent)
        yield passage_line(contract_list=lent, file="FF" * 29 * 4, journal=any_journal(random))
    yield passage_line(contract_list=overfull_list(), file=ZEROS * 8, positions=8)
    for request in fields.requests(random):
        if request.startswith("select "):
            yield as_passage(random, request)
    for place in (76, 77, 150, 231):
        yield passage_line(contract_list=flipped(P2_LIST, place))


def faults():
    """Changes that are each a fault by itself, in the order in which they are found."""
    return [dict(contract_list=ZEROS[2:]), dict(file=ZEROS * 7), dict(journal=EVENTS + "00"),
            dict(positions=9, file=ZEROS * 9), dict(positions=0, file="-"), dict(counters=5), dict(journal="-"),
            dict(journal=event() * 16), dict(day=16384), dict(minute=1440), dict(operator=256), dict(code=256),
            dict(provider=256),
            dict(contract_list=overfull_list()), dict(contract_list=listing((5, 66, 13, 1))),
            dict(contract_list=flipped(listing((5, 66, 1, 1)), 231)),
            dict(contract_list=listing((5, 66, 1, 2), (5, 66, 1, 2))),
            dict(contract_list=listing((5, 66, 12, 1), (5, 66, 15, 2))),
            dict(file="FF" * 29 * 8), dict(operator=6), dict(day=99)]


def fault_pairs(random):
    """On a card of eight positions whose contracts are operator 5's and begin with day 100."""
    file = "".join(drawn_record(random, contract(66), head(start=100)) for _ in range(8))
    lent = listing((5, 66, 7, 3), (5, 66, 3, 8), (5, 66, 12, 1))
    given = dict(contract_list=lent, file=file, positions=8, counters=4)
    yield passage_line(**given)
    for index, one in enumerate(faults()):
        yield passage_line(**{**given, **one})
        for other in faults()[index + 1:]:
            if not one.keys() & other.keys():
                yield passage_line(**{**given, **one, **other})


# ---------------------------------------------------------------- One passage after another

def answer(request):
    return model.answer(request.encode()).split(" ")


def journey(random, gates, **card):
    """Passages on one card, as far as they are accepted: each is lent the list and the journal that the one before it
    left. Gates are day, minute, code and provider. In the end the gate writes are applied together."""
    card, writes = {**DEFAULTS, **card}, []
    first = card["contract_list"]
    for day, minute, code, provider in gates:
        card.update(day=day, minute=minute, code=code, provider=provider)
        yield passage_line(**card)
        number, _, _, position, pointer, priority, after, journal = answer(passage_line(**card))
        if number != "0":
            break
        yield from list_changed(random, card, position, priority, after)
        writes += answer(f"find {card['contract_list']} {after} {ZEROS}")[3:]
        card.update(contract_list=after, journal=journal)
        yield f"event.read {journal[:58]}"
        yield selection(card)
        yield from loadings(random, card, int(pointer), used_up=4 <= int(priority) <= 7)
    yield f"apply {first} {''.join(writes) or '-'}"


def list_changed(random, card, position, priority, after):
    """The change as a change of priority, and as a gate write."""
    before, parameters = card["contract_list"], f"{card['positions']} {card['counters']}"
    yield f"priority {before} {parameters} {position} {model.priority_after(int(priority))}"
    finding = f"find {before} {after} {noise(random)}"
    yield finding
    yield f"apply {before} {answer(finding)[3]}"
    yield f"list.read {after} {parameters}"


def selection(card):
    return "select {contract_list} {file} {positions} {counters} {day} {operator}".format(**card)


def loading(card, waited, **changes):
    """So many minutes after the passage; the new contract is of priority 0."""
    lent = {name: card[name] for name in ("contract_list", "file", "journal", "positions", "counters")}
    day, minute = divmod(1440 * card["day"] + card["minute"] + waited, 1440)
    return load_line(**{**lent, "day": day, "minute": minute, "priority": 0, **changes})


def loadings(random, card, pointer, used_up):
    """The passage's event blocks its pointer for two hours, or while it is later than now, if its code is marked; the
    provider is no code. This shows where the passage used the contract up."""
    marked, others = marking(card["code"]), all_but(card["code"])
    needs_counter = random.randint(0, 1) if pointer <= card["counters"] else 0
    yield loading(card, 0, codes=marked, needs_counter=needs_counter)
    if used_up:
        for codes, waited in ((others, 0), (marked, 119), (marked, 120), (others, 120)):
            yield loading(card, waited, codes=codes, needs_counter=needs_counter)
        for codes in (marked, others):
            yield loading(card, -1, codes=codes, hours=0, needs_counter=needs_counter)


def single_carnets(random):
    """From 0, 4 and 8 on a card with one position: used up after two passages, after one, never."""
    for code in (0, 4, 8):
        for right in (0, 1):
            yield from journey(random, [(100, 600, VALIDATION, 35), (100, 605, INSPECTION, 36), (100, 725, 0, 0),
                                        (101, 0, 255, 255)], contract_list=listing((0, 66, code, 1)), file=ZEROS,
                               positions=1, counters=right, journal=event(100, 1, 0) * (1 + right))


def two_contracts(random):
    """A carnet that is used before another is begun, and both used up; the journal keeps two events."""
    gates = [(200, 1439, 0x31, 1), (201, 0, 0x32, 2), (201, 1, 0x33, 3), (201, 2, 0x34, 4), (201, 3, 0x35, 5)]
    for right in (0, 1, 2):
        yield from journey(random, gates, contract_list=listing((0, 66, 6, 2, 77), (0, 80, 1, 1)), file=ZEROS * 2,
                           positions=2, counters=right, journal=event(199, 0, 2) * 2)


def subscriptions(random):
    """An entry that stays is chosen each time; the journal's three events fall off one by one."""
    for operator in (5, 2):
        yield from journey(random, [(100, 10 * number, number, 255 - number) for number in range(1, 6)],
                           contract_list=listing((2, 66, 10, 4), (0, 66, 11, 2), (0, 80, 15, 1), (0, 66, 15, 3)),
                           operator=operator)


def crowded_cards(random):
    """Eight positions, all in use, with as many networks as there is room for."""
    for has_network in (8, 1):
        network = [random.randrange(1 << 24)]
        entries = [(0, 66, random.choice([3, 4, 5, 7]), pointer, *network * (pointer == has_network))
                   for pointer in random.sample(range(1, 9), 8)]
        gates = [(300 + number, 720, random.randrange(256), random.randrange(256)) for number in range(4)]
        yield from journey(random, gates, contract_list=listing(*entries), file=ZEROS * 8, positions=8, counters=4,
                           journal=event(299, 0, 1) * 15)


def any_card(random):
    for _ in range(8):
        number = random.randint(2, 8)
        entries = [(random.choice([0, 0, 5]), 66, random.choice([0, 2, 3, 4, 5, 7, 8, 12, 15]), pointer)
                   for pointer in random.sample(range(1, number + 1), number)]
        gates = [(1000, minute, random.randrange(256), random.randrange(256)) for minute in (0, 60, 61)]
        yield from journey(random, gates, contract_list=listing(*entries), file=ZEROS * number, positions=number,
                           counters=counters_for(number, random.randrange(5)),
                           journal="".join(event(999, minute, minute % 3) for minute in range(random.randint(1, 4))))


def loaded_again(random):
    """A carnet is used up and at once loaded over, since inspections are not marked; the new one is used up next. The
    validation keeps its contract for two hours, in which there is none to pass with."""
    times = [(600, INSPECTION), (601, INSPECTION), (602, VALIDATION), (603, VALIDATION), (722, INSPECTION), (723, 0)]
    for right in (0, 1):
        card = {**DEFAULTS, "contract_list": listing((0, 66, 5, 1)), "file": ZEROS, "positions": 1, "counters": right,
                "journal": event(99, 0, 1, None) * 4}
        for minute, code in times:
            card.update(minute=minute, code=code)
            yield passage_line(**card)
            *_, card["contract_list"], card["journal"] = answer(passage_line(**card))
            load = loading(card, 0, codes=marking(VALIDATION), kind=80, new=good_contract(random, 80), priority=7)
            yield load
            *_, card["contract_list"], card["file"] = answer(load)
            yield selection(card)


def read_again(random):
    """What a passage moves unread is read when a contract is loaded: refused as the record that does not read is."""
    for odd in odd_events(random):
        card = {**DEFAULTS, "journal": event(99, 0, 1) + odd + noise(random)}
        for _ in range(3):
            yield passage_line(**card)
            *_, card["contract_list"], card["journal"] = answer(passage_line(**card))
            yield loading(card, 0)
            yield f"event.read {card['journal'][:58]}"


# ---------------------------------------------------------------- Lines

NAMES = ("Passage", "PASSAGE", "passages", "passag", "pass", "passage.read", "passage.write", "lab.passage", "passage.",
         ".passage", "gate", "select", "load", "priority")
BYTE_WORDS = ("0", "000", "{}0", "{}G0", "0a{}", "ff", "--", "-{}", "0x{}", "", "{}-")
NUMBER_WORDS = ("4294967296", "18446744073709551620", "+4", "-4", "-", "", "x", "0x4", "A0")
LEGAL_NUMBERS = ("4294967295", "00", "0" * 40 + "4", ZEROS)


def bad_lines():
    """Lines that are no passage, beside lines that only look so."""
    name, *words = good = passage_line().split(" ")
    yield from (" ".join([other, *words]) for other in NAMES)
    yield "passage "
    for index in range(1, 11):
        yield " ".join(good[:index] + good[index + 1:])
        yield " ".join(good[:index])
        yield " ".join(good[:index] + good[index:index + 1] * 2 + good[index + 1:])
        yield " ".join(good[:index] + [""] + good[index:])
        kinds = [word.format(good[index]) for word in BYTE_WORDS] if index <= 3 else [*NUMBER_WORDS, *LEGAL_NUMBERS]
        yield from (" ".join(good[:index] + [word] + good[index + 1:]) for word in kinds)
    whole = " ".join(good)
    yield from (whole, f"{whole} 0", f"{whole} -", f"{whole} {ZEROS}", f"{whole} ", f" {whole}", f"{whole}\r",
                f"{whole}\t", whole.replace(" ", "\t", 1), whole.lower())
    yield from other_orders(name, *words)
    yield from long_lines(whole)


def other_orders(name, contract_list, file, journal, *numbers):
    """The byte strings may stand in any order, but not behind a number."""
    for one, other, third in ((contract_list, journal, file), (file, contract_list, journal),
                              (journal, file, contract_list), (file, journal, contract_list)):
        yield " ".join([name, one, other, third, *numbers])
    yield " ".join([name, contract_list, file, *numbers, journal])
    yield " ".join([name, *numbers, contract_list, file, journal])
    yield " ".join([name, contract_list, file, numbers[0], journal, *numbers[1:]])


def long_lines(whole):
    """A line of 8,192 bytes is taken, one byte more is not, be it for a number's zeros or for a journal. The next line
    is a request again."""
    start, last = whole[:-2], whole[-2:]
    for length in (8191, 8192, 8193, 8194):
        yield start + last.rjust(length - len(start), "0")
    for count in (135, 136):
        yield passage_line(journal=ZEROS * count)
    yield passage_line(minute=601)
