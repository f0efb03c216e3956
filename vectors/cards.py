"""Requests for a card: selection, change of priority, loading, gate writes."""

from random import Random

from draw import (EVENT, contract, counters_for, draw, drawn_record, flipped, noise, own_counters, record,
                  special_entries, special_list)

LARGEST = 4294967295
WRAPPING = ((148102321, 13), (296204642, 26))      # N and 29 x N modulo 2^32
ZEROS = "00" * 29
PRIORITIES = [code for code in range(16) if code != 13]
VALIDATION, INSPECTION = 0x31, 0x34                # event codes of 004: in the metro, an entry and an inspection


def requests(random):
    for family in (papers_samples, selection, priority_changes, loading, gate):
        yield from family(random)


# ---------------------------------------------------------------- Parts of a card

def bits(*boxes):
    """Pairs of number and width."""
    return "".join(f"{number:0{width}b}" for number, width in boxes)


def listing(*entries):
    """A contract list: entries are (key, type, priority, pointer) and, where it is present, the network."""
    made = bits((len(entries), 4))
    for key, kind, priority, pointer, *network in entries:
        made += bits((7, 3), (network[0], 24)) if network else bits((6, 3))
        made += bits((key, 4), (kind, 8), (priority, 4), (pointer, 5))
    return record(made)


def special_listing(*pointers):
    """A special event list; every second entry has a network."""
    made = bits((len(pointers), 4))
    for index, pointer in enumerate(pointers):
        made += bits((15, 4), (index, 24)) if index % 2 else bits((14, 4))
        made += bits((index, 8), (index % 4, 2), (pointer, 5))
    return record(made)


def event(date=0, minute=0, pointer=None, code=VALIDATION):
    """An event that has a code and names a contract; either may be missing."""
    present = [(element, number, width) for element, number, width in ((2, code, 8), (25, pointer, 5))
               if number is not None]
    bitmap = sum(1 << element for element, _, _ in present)
    return record(bits((date, 14), (minute, 11), (bitmap, 28), *[box for _, *box in present]))


def marking(*codes):
    """The 32 bytes in which just these event codes are marked."""
    return flipped("00" * 32, *codes)


def all_but(*codes):
    return flipped("FF" * 32, *codes)


def head(provider=None, start=None, end=None):
    """Fixed numbers of a contract's head."""
    fixed = {"bitmap": 64, "validity bitmap": 0}
    for name, number, bit, inner_bit in (("provider", provider, 1, 0), ("start date", start, 16, 1),
                                         ("end date", end, 16, 2)):
        if number is not None:
            fixed[name] = number
            fixed["bitmap"] |= bit
            fixed["validity bitmap"] |= inner_bit
    return fixed


def own_dates(end=0, start=None):
    """Fixed numbers of the 50h data; a contract of 42h has no such fields."""
    if start is None:
        return {"own end date": end, "groups": 0}
    return {"own end date": end, "groups": 1 << 12, "own start date": start}


def good_contract(random, kind, **fixed):
    """A contract without dates or provider."""
    return drawn_record(random, contract(kind), {**head(), **own_dates(), **fixed})


def odd_contracts(random):
    """Pairs of type and record. The first and the last have a margin of a single one, which Q-7 lets them have; the
    others do not read under their type."""
    yield 66, flipped(good_contract(random, 66, margin=""), 231)
    yield 66, drawn_record(random, contract(66), {"bitmap": 64, "sale minute": 1440})
    yield 80, drawn_record(random, contract(80), {"bitmap": 64, "groups": 1 << 13, "end minute": 1440})
    yield 80, drawn_record(random, contract(80), {"bitmap": 127, "validity bitmap": 3, "groups": 0x0206})
    yield 80, flipped(good_contract(random, 80, margin=""), 230)


def broken_lists():
    """Contract lists of a card with N = 4 that are refused: 4, 5 and 6."""
    yield listing((0, 66, 13, 1))
    yield record(bits((5, 4)))
    yield flipped(listing((0, 66, 1, 1)), 231)
    yield listing((0, 66, 1, 1), (0, 66, 1, 1))
    yield listing((0, 66, 1, 5))
    yield listing((0, 66, 1, 0))
    yield record(bits((1, 4), (4, 3), (1, 5)))


def overfull_list():
    """Five entries with networks: the tariff of the fifth runs past the end."""
    return listing(*[(0, 66, 1, pointer, pointer) for pointer in range(1, 6)])


# ---------------------------------------------------------------- Samples of the paper

P2_LIST = "3C020C1C42122C40BE3" + "0" * 39


def papers_samples(random):
    yield f"list.read {ZEROS} 4 4"
    yield f"list.read {P2_LIST} 4 4"
    yield load_line(contract_list=P2_LIST, counters=4, key=2, priority=6)
    for needs_counter in (0, 1):
        yield p4_line((1, 2, 5, 3, 6, 7, 8, 4), range(4, 9), needs_counter)
    yield p4_line((1, 2, 7, 3, 5, 6, 8, 4), range(5, 9), 0)
    yield "list.read 1C021A1" + "0" * 51 + " 4 4"
    for groups in (0xD843, 0x810D, 0x0030):
        drawing = draw(random, contract(80), {"bitmap": 0b1100011, "groups": groups, "margin": ""})
        yield f"contract.read {record(drawing.bits)} 80"
        yield f"contract.read {flipped(record(drawing.bits), drawing.place)} 80"
        yield f"contract.write {noise(random)} 80 {drawing.words()}"
    yield f"event.read {record(bits((0, 25), (1 << 17, 28)))}"
    yield f"event.read {event(0, 1439, code=None)}"
    yield f"event.read {event(0, 1440, code=None)}"
    yield f"list.read {flipped(ZEROS, 231)} 4 4"
    for wanted in ("07", "06"):
        rest = noise(random, 28)
        yield f"find 05{rest} {wanted}{rest} {noise(random)}"
    for minute in (119, 120):
        yield from p13_lines(minute)


def p4_line(pointers, erasable, needs_counter):
    entries = [(0, 66, 15 if pointer in erasable else 6, pointer) for pointer in pointers]
    return load_line(contract_list=listing(*entries), positions=8, counters=4, file="11" * 29 * 8,
                     needs_counter=needs_counter)


def p13_lines(minute):
    """The event's code is marked; it is not marked; there is no code."""
    yield quiet_line(1, (100, 60), (100, minute))
    yield quiet_line(1, (100, 60), (100, minute), codes=flipped(MARKED, VALIDATION))
    yield quiet_line(1, (100, 60), (100, minute), journal=event(100, 60, 1, code=None))


# ---------------------------------------------------------------- Selection

def select_line(entries, records, day, operator, counters=None):
    """Where C is not given it is any that the card can have."""
    lent, positions = listing(*entries), len(records)
    counters = own_counters(positions, lent) if counters is None else counters
    return f"select {lent} {''.join(records)} {positions} {counters} {day} {operator}"


def selection(random):
    for family in (usable_priorities, operator_keys, contract_types, unusual_contracts, validity_dates,
                   best_of_several, any_selection, refused_selection):
        yield from family(random)


def usable_priorities(random):
    for code in PRIORITIES:
        yield select_line([(0, 66, code, 1)], [good_contract(random, 66)], 100, 5)
        records = [good_contract(random, 66), good_contract(random, 80)]
        yield select_line([(0, 80, code, 2), (0, 66, 11, 1)], records, 100, 5)


def operator_keys(random):
    for key in range(16):
        for operator in sorted({0, 1, key, 13, 14, 15, 16, 255}):
            records = [drawn_record(random, contract(66), head(provider=operator))]
            yield select_line([(key, 66, 3, 1)], records, 100, operator)
    for operator in (0, 1, 14, 15, 16, 200, 255):
        for provider in (None, 0, 14, 15, 16, 200, 255):
            for kind in (66, 80):
                fixed = {**head(provider=provider), **own_dates()}
                yield select_line([(15, kind, 3, 1)], [drawn_record(random, contract(kind), fixed)], 100, operator)


def contract_types(random):
    for kind in (0, 1, 2, 64, 65, 66, 67, 79, 80, 81, 127, 128, 255):
        yield select_line([(0, kind, 3, 1)], [ZEROS], 100, 5)
    for record_kind in (66, 80):
        for kind in (66, 80):
            yield select_line([(0, kind, 3, 1)], [good_contract(random, record_kind)], 100, 5)


def unusual_contracts(random):
    for kind, odd in odd_contracts(random):
        good = good_contract(random, kind)
        yield select_line([(0, kind, 3, 1)], [odd], 100, 5)
        yield select_line([(0, kind, 3, 2), (0, kind, 3, 1)], [good, odd], 100, 5)
        yield select_line([(0, kind, 3, 1)], [good, odd], 100, 5)


def validity_dates(random):
    for edge in (0, 1, 100, 16383):
        days = sorted({0, max(edge - 1, 0), edge, min(edge + 1, 16383), 16383})
        for fixed in ({"start": edge}, {"end": edge}, {"start": edge, "end": edge}):
            for kind in (66, 80):
                lent = {**head(**fixed), **own_dates()}
                made = drawn_record(random, contract(kind), lent)
                yield from (select_line([(0, kind, 3, 1)], [made], day, 5) for day in days)
        for fixed in ({"end": edge}, {"start": edge}, {"start": edge, "end": edge}):
            made = drawn_record(random, contract(80), {**head(), **own_dates(**fixed)})
            yield from (select_line([(0, 80, 3, 1)], [made], day, 5) for day in days)
    for fixed in ({**head(start=90, end=110), **own_dates(end=105, start=95)},
                  {**head(start=95, end=105), **own_dates(end=110, start=90)}):
        made = drawn_record(random, contract(80), fixed)
        yield from (select_line([(0, 80, 3, 1)], [made], day, 5) for day in (89, 90, 94, 95, 105, 106, 110, 111))


def best_of_several(random):
    """Equal priorities, of which the first listed counts, and the lowest priority at each position."""
    records = [good_contract(random, 66) for _ in range(8)]
    for lowest in range(8):
        codes = [9 if index != lowest else 8 for index in range(8)]
        pointers = random.sample(range(1, 9), 8)
        yield select_line([(0, 66, code, pointer) for code, pointer in zip(codes, pointers)], records, 100, 5)
        codes = [9 if index < lowest else 8 for index in range(8)]
        yield select_line([(0, 66, code, pointer) for code, pointer in zip(codes, pointers)], records, 100, 5)
        codes = [12 if index < lowest else 11 for index in range(8)]
        yield select_line([(0, 66, code, pointer) for code, pointer in zip(codes, pointers)], records, 100, 5)
    yield select_line([(0, 66, 4, 2), (0, 66, 4, 1)], records[:2], 100, 5)
    yield select_line([], records[:1], 100, 5)


def any_contract(random):
    """A contract whose dates and provider lie about day 100 and operator 20; now and then a bit is turned over."""
    start = random.choice([None, 0, 98, 99, 100, 101])
    end = random.choice([None, 0, 99, 100, 101, 16383])
    kind = random.choice([66, 80])
    own = own_dates(end=random.choice([0, 0, 100, 101]), start=random.choice([None, None, 0, 99, 100]))
    made = drawn_record(random, contract(kind), {**head(random.choice([None, 20, 20, 21]), start, end), **own})
    return kind, flipped(made, random.randrange(232)) if random.random() < 0.1 else made


def any_selection(random):
    for _ in range(125):
        positions = random.randint(1, 8)
        contracts = [any_contract(random) for _ in range(positions)]
        entries = []
        for pointer in random.sample(range(1, positions + 1), random.randint(0, positions)):
            kind = contracts[pointer - 1][0] if random.random() < 0.9 else random.choice([66, 80, 81])
            key, priority = random.choice([0, 0, 0, 7, 15, 15]), random.choice([1, 2, 3, 8, 11, 12, 15])
            entries.append((key, kind, priority, pointer))
        yield select_line(entries, [made for _, made in contracts], random.choice([99, 100, 101]),
                          random.choice([7, 15, 20, 20, 20, 21]))


def refused_selection(random):
    good, file = listing((0, 66, 3, 1)), good_contract(random, 66) * 4
    for size in (0, 1, 28, 30, 58):
        yield f"select {noise(random, size)} {file} 4 2 100 5"
    for size in (0, 1, 28, 30, 58, 87, 115, 117, 145):
        yield f"select {good} {noise(random, size)} 4 4 100 5"
    for positions in (0, 1, 3, 5, 8, 9, 15, 100, LARGEST):
        yield f"select {good} {file} {positions} {min(positions, 4)} 100 5"
    for positions in (0, 9, 15, 16, 60):
        yield f"select {good} {noise(random, 29 * positions)} {positions} 0 100 5"
    for positions, size in WRAPPING:
        yield f"select {good} {noise(random, size)} {positions} 4 100 5"
    for day in (0, 16383, 16384, 65536, LARGEST):
        yield f"select {good} {file} 4 {counters_for(4, day)} {day} 5"
    for operator in (0, 254, 255, 256, 257, 65536, LARGEST):
        yield f"select {good} {file} 4 {counters_for(4, operator)} 100 {operator}"
    for index, broken in enumerate(broken_lists()):
        counters = counters_for(4, index)
        yield f"select {broken} {file} 4 {counters} 100 5"
        yield f"select {broken} {file} 4 {counters} 16384 5"
        yield f"select {broken} {file[2:]} 4 {counters} 16384 5"
    yield f"select {overfull_list()} {file * 2} 8 4 100 5"


# ---------------------------------------------------------------- Change of priority

def priority_changes(random):
    plain = listing(*[(random.randrange(16), random.randrange(256), random.choice(PRIORITIES), pointer)
                      for pointer in random.sample(range(1, 9), 8)])
    for position in range(10):
        for code in [*range(18), LARGEST]:
            yield f"priority {plain} 8 {counters_for(8, position + code)} {position} {code}"
    networks = listing((1, 66, 9, 4, 5), (2, 80, 0, 1), (3, 5, 15, 3, 0xFFFFFF), (4, 66, 12, 2, 0))
    for position in (1, 2, 3, 4, 5, 8, 9, 255, 256, 257, LARGEST):
        for code in (0, 6, 15):
            yield f"priority {networks} 4 {counters_for(4, position + code)} {position} {code}"
    yield from refused_changes(random, networks)


def refused_changes(random, good):
    for size in (0, 1, 28, 30, 58):
        yield f"priority {noise(random, size)} 4 4 1 1"
        yield f"priority {noise(random, size)} 9 0 0 13"
    for positions in (0, 1, 3, 4, 8, 9, LARGEST):
        yield f"priority {good} {positions} {min(positions, 4)} 1 1"
    for index, broken in enumerate(broken_lists()):
        for position, code in ((1, 1), (0, 1), (9, 1), (1, 13), (1, 16)):
            yield f"priority {broken} 4 {counters_for(4, index)} {position} {code}"
    yield f"priority {overfull_list()} 8 4 1 1"
    yield f"priority {ZEROS} 8 2 1 1"


# ---------------------------------------------------------------- Loading

# Entries and exits in five modes of transport. Mirrored within a byte or over the bytes they are other codes.
MARKED = marking(*[16 * mode + transaction for mode in range(1, 6) for transaction in (1, 2)])
LOAD_DEFAULTS = dict(contract_list=ZEROS, file="22" * 29 * 4, special_list=ZEROS, journal="-", records="-", new=ZEROS,
                     codes=MARKED, positions=4, counters=2, specials=0, day=100, minute=600, hours=2, key=0, kind=66,
                     priority=8, has_network=0, network=0, needs_counter=0)
FULL = listing(*[(0, 66, 15, pointer) for pointer in (2, 4, 1, 3)])


def load_line(**changes):
    return "load " + " ".join(str(word) for word in {**LOAD_DEFAULTS, **changes}.values())


def quiet_line(hours, event_time, now, **changes):
    """A full card of one plain erasable contract, named by one journal event: taken or refused."""
    given = dict(contract_list=listing((0, 66, 15, 1)), file="33" * 29, positions=1, counters=0,
                 journal=event(*event_time, 1), day=now[0], minute=now[1], hours=hours)
    return load_line(**{**given, **changes})


def loading(random):
    for family in (places, new_entries, quiet_hours, several_events, special_blocks, named_but_free, networks,
                   journal_sizes, unusual_records, load_limits, load_lengths, load_fault_pairs, any_loading):
        yield from family(random)


def places(random):
    """Every C and need of a counter, on cards with each kind of room."""
    for positions in (1, 2, 3, 4, 5, 8):
        for counters in range(min(positions, 4) + 1):
            for needs_counter in (0, 1):
                for entries in rooms(random, positions, counters):
                    file = f"{positions}{counters}" * 29 * positions
                    yield load_line(contract_list=listing(*entries), file=file, positions=positions,
                                    counters=counters, needs_counter=needs_counter)


def rooms(random, positions, counters):
    pointers = random.sample(range(1, positions + 1), positions)
    yield [(0, 66, random.choice([6, 12, 14, 15]), pointer) for pointer in pointers]
    yield [(0, 66, 15 if pointer <= counters else 14, pointer) for pointer in pointers]
    yield [(0, 66, 15 if pointer > counters else 8, pointer) for pointer in pointers]
    yield [(0, 66, 15, pointer) for pointer in pointers[1:]]


def new_entries(random):
    for changes in (dict(key=15, kind=80, priority=15), dict(key=0, kind=66, priority=0), dict(key=14, priority=12),
                    dict(has_network=1, network=0), dict(has_network=1, network=0xFFFFFF),
                    dict(has_network=1, network=0x123456, needs_counter=1), dict(counters=0, needs_counter=1)):
        yield load_line(**changes)
        yield load_line(contract_list=FULL, **changes)
    for kind in (66, 80):
        for _ in range(10):
            new = drawn_record(random, contract(kind), {"groups": 1 << random.randrange(16)})
            yield load_line(contract_list=FULL, kind=kind, new=new, needs_counter=random.randint(0, 1))


def quiet_hours(random):
    for hours in (0, 1, 2, 24, 254, 255):
        for now in ((0, 0), (0, 119), (1, 0), (1, 59), (11, 1), (100, 600), (100, 1439), (16383, 1439)):
            for age in (-1, 0, 1, 60 * hours - 1, 60 * hours, 60 * hours + 1):
                named = 1440 * now[0] + now[1] - age
                if 0 <= named < 1440 * 16384:
                    yield quiet_line(hours, divmod(named, 1440), now)
    for event_time, now in (((101, 0), (100, 1439)), ((16383, 1439), (0, 0)), ((100, 601), (100, 600)),
                            ((160, 0), (100, 0)), ((0, 1439), (16383, 0))):
        for hours in (0, 1, 255):
            yield quiet_line(hours, event_time, now)


def several_events(random):
    """The erasable entry listed first is blocked, so the next is taken; any one event is enough."""
    new, old = (100, 599), (90, 0)
    for journal in ([(*new, 4)], [(*new, 3)], [(*new, 4), (*new, 3)], [(*old, 4), (*old, 3)], [(*new, 2), (*new, 1)],
                    [(*old, 4), (*new, 4)], [(*new, 4), (*old, 4)], [(*new, 1), (*new, 2), (*new, 3), (*new, 4)],
                    [(*new, 0)], [new], [(*new, 17), (*new, 19)]):
        for needs_counter in (0, 1):
            yield load_line(contract_list=FULL, journal="".join(event(*named) for named in journal),
                            needs_counter=needs_counter)


def special_blocks(random):
    """Records name 4, 2, 3 and 1; only the listed ones block, however old they are."""
    records = "".join(event(0, 0, pointer) for pointer in (4, 2, 3, 1))
    for listed in ((), (1,), (2,), (3,), (4,), (1, 3), (3, 1), (2, 4), (1, 2, 3), (4, 3, 2, 1)):
        for needs_counter in (0, 1):
            yield load_line(contract_list=FULL, special_list=special_listing(*listed), records=records, specials=4,
                            needs_counter=needs_counter)
    for listed in ((), (1,)):
        for named in (None, 0, 4, 16):
            yield load_line(contract_list=FULL, special_list=special_listing(*listed), specials=1,
                            records=event(100, 600, named))


def named_but_free(random):
    for needs_counter in (0, 1):
        for entries in ((), ((0, 66, 15, 1),), ((0, 66, 15, 3),), ((0, 66, 15, 1), (0, 66, 15, 3))):
            journal = "".join(event(100, 599, pointer) for pointer in (1, 2, 3, 4))
            yield load_line(contract_list=listing(*entries), journal=journal, needs_counter=needs_counter,
                            special_list=special_listing(1), records=event(0, 0, 1), specials=1)


def networks(random):
    """Old lists of each size and number of networks; the new one has at most 232 bits or is refusal 2."""
    for count in range(3, 8):
        for with_network in range(min(count, 9 - count) + 1):
            for has_network in (0, 1):
                entries = [(0, 66, 15, pointer, pointer) if pointer <= with_network else (0, 66, 15, pointer)
                           for pointer in random.sample(range(1, count + 1), count)]
                for positions in (count, count + 1):
                    yield load_line(contract_list=listing(*entries), positions=positions, counters=0,
                                    file="44" * 29 * positions, has_network=has_network, network=has_network * 77)


def journal_sizes(random):
    for size in (0, 1, 2, 14, 15, 16, 17, 30):
        events = [event(100, 599, 0)] * size
        yield load_line(contract_list=FULL, journal="".join(events) or "-")
        if size:
            events[-1] = event(100, 599, 4)
            yield load_line(contract_list=FULL, journal="".join(events))
    for size in (16, 17):
        yield load_line(contract_list=FULL, journal=noise(random, 29 * size))
        yield load_line(contract_list=FULL, journal=noise(random, 29 * size + 1))


def odd_events(random):
    """Events that are refused: 2 (element [17] and a field past the end), 4 and 4; then one with a margin."""
    yield record(bits((0, 25), (1 << 17, 28)))
    yield drawn_record(random, EVENT, {"bitmap": 0x7FFFFF ^ 1 << 17})
    yield event(0, 1440)
    yield event(0, 0, 20)
    yield flipped(event(5, 5, 3), 231)


def unusual_records(random):
    for odd in odd_events(random):
        for index in (0, 2, 14):
            journal = [event(1, 1, 1)] * 15
            journal[index] = odd
            yield load_line(contract_list=FULL, journal="".join(journal[:max(index + 1, 3)]))
        for index in range(3):
            records = [event(1, 1, 1)] * 3
            records[index] = odd
            for listed in ((), (1,), (3, 2)):
                yield load_line(contract_list=FULL, special_list=special_listing(*listed), records="".join(records),
                                specials=3)
    for kind, odd in odd_contracts(random):
        yield load_line(contract_list=FULL, kind=kind, new=odd)
    for kind in (0, 1, 65, 67, 79, 81, 255):
        yield load_line(contract_list=FULL, kind=kind)
    for broken in broken_lists():
        yield load_line(contract_list=broken)
    yield load_line(contract_list=overfull_list(), positions=8, file="77" * 29 * 8)
    for broken in broken_special_lists(random):
        yield load_line(special_list=broken, records=event() * 2, specials=2)


def broken_special_lists(random):
    """Special event lists for S = 2 that are refused: 4, 5 and 6."""
    yield record(bits((5, 4)))
    yield flipped(special_listing(1), 231)
    yield special_listing(1, 1)
    yield special_listing(3)
    yield special_listing(2, 0)
    yield drawn_record(random, special_list(2), special_entries([(6, 1)]))


LIMITS = dict(counters=(0, 1, 3, 4, 5), day=(0, 16382, 16383, 16384), minute=(0, 1438, 1439, 1440),
              hours=(0, 254, 255, 256), key=(0, 14, 15, 16), kind=(66, 80, 255, 256, 256 + 66),
              priority=(0, 11, 12, 13, 14, 15, 16), network=(0, 1, 0xFFFFFF))


def load_limits(random):
    for name, numbers in LIMITS.items():
        for number in (*numbers, LARGEST):
            yield load_line(contract_list=FULL, **{name: number})
    for network in (0, 1, 0xFFFFFF, 0x1000000, LARGEST):
        yield load_line(contract_list=FULL, has_network=1, network=network)
    for positions in (1, 2, 3, 4, 8, 9, 15):
        for counters in (0, 1, 2, 3, 4, 5):
            yield load_line(positions=positions, counters=counters, file="55" * 29 * positions)
    for specials in range(7):
        yield load_line(specials=specials, records=event(5, 5, 3) * specials or "-")
    yield load_line(positions=0, counters=0, file="-")


def load_lengths(random):
    given = dict(file="66" * 29 * 4, journal=event() * 3, records=event() * 2, specials=2)
    for name in ("contract_list", "special_list", "new"):
        for size in (0, 1, 28, 30, 58):
            yield load_line(**{**given, name: "00" * size or "-"})
    for size in (0, 1, 29, 87, 115, 117, 145):
        yield load_line(**{**given, "file": "00" * size or "-"})
    for size in (0, 1, 28, 29, 30, 57, 58, 59, 86, 88):
        yield load_line(**{**given, "journal": "00" * size or "-"})
    for size in (0, 1, 28, 29, 57, 59, 87):
        yield load_line(**{**given, "records": "00" * size or "-"})
    for positions in (0, 1, 3, 5, 9, LARGEST):
        yield load_line(**{**given, "positions": positions})
    for specials in (0, 1, 3, 5, LARGEST):
        yield load_line(**{**given, "specials": specials})
    for number, size in WRAPPING:
        yield load_line(**{**given, "positions": number, "file": noise(random, size)})
        yield load_line(**{**given, "specials": number, "records": noise(random, size)})


def load_faults(random):
    """Changes that are each a fault by itself, in the order in which they are found, on a card with N = 2 and S = 1."""
    return [dict(contract_list=ZEROS[2:]), dict(file="00" * 57), dict(special_list=ZEROS + "00"),
            dict(journal="00" * 30), dict(records="00" * 28), dict(new="-"), dict(codes="00" * 31),
            dict(counters=3), dict(day=16384), dict(minute=1440), dict(hours=256), dict(key=16), dict(priority=13),
            dict(network=1), dict(kind=256),
            dict(contract_list=listing((0, 66, 13, 1))), dict(contract_list=listing((0, 66, 1, 3))),
            dict(special_list=flipped(ZEROS, 220)), dict(special_list=special_listing(2)),
            dict(journal=flipped(event(5, 5, 3), 200) + event(0, 1440)),
            dict(records=record(bits((0, 25), (1 << 17, 28)))),
            dict(kind=67), dict(new=record(bits((64, 7), (0, 41), (1440, 11)))),
            dict(contract_list=listing((0, 66, 14, 2), (0, 66, 14, 1)))]


def load_fault_pairs(random):
    given = dict(file="88" * 58, positions=2, counters=1, records=flipped(event(code=None), 53), specials=1,
                 journal=flipped(event(), 231), new=flipped(ZEROS, 210))
    faults = load_faults(random)
    for index, one in enumerate(faults):
        yield load_line(**{**given, **one})
        for other in faults[index + 1:]:
            if one.keys() != other.keys():
                yield load_line(**{**given, **one, **other})


def any_event(random, dates, pointer):
    """An event that names this pointer, among other elements, with a code or without."""
    elements = sum(1 << element for element in random.sample((0, 2, 4, 8, 16, 18, 27), random.randint(0, 3)))
    fixed = {"date": random.choice(dates), "minute": random.choice([0, 600, 1439]), "bitmap": 1 << 25 | elements}
    return any_code(draw(random, EVENT, {**fixed, "[25]": pointer}))


def any_code(drawing):
    """The event with another code or, one time in five, without one. The chance is the event's own, so that codes
    change nothing else that is drawn."""
    random = Random(drawing.bits)
    code = random.choice([None, 0, VALIDATION, INSPECTION, random.randrange(256)])
    others = drawing.value["bitmap"][0] & ~(1 << 2)
    numbers = {field.name: drawing.value[field.name] for field in drawing.fields}
    changed = {"bitmap": others, "[2]": 0} if code is None else {"bitmap": others | 1 << 2, "[2]": code}
    return drawn_record(random, EVENT, {**numbers, **changed})


def any_marking(journal):
    """Three in four of all codes are marked. The chance is the journal's own."""
    random = Random(journal)
    return f"{random.getrandbits(256) | random.getrandbits(256):064X}"


def any_loading(random):
    for _ in range(165):
        positions, specials = random.randint(1, 8), random.randint(0, 3)
        counters, day = random.randint(0, min(4, positions)), random.choice([100, 101])
        pointers = random.sample(range(1, positions + 1), random.choice([positions, positions, positions - 1]))
        entries = [(random.randrange(16), random.choice([66, 80, 5]), random.choice([15, 15, 15, 14, 6]), pointer)
                   for pointer in pointers]
        journal = "".join(any_event(random, (99, 100, 101), random.randint(0, positions))
                          for _ in range(random.randint(0, 4)))
        records = "".join(any_event(random, range(200), random.randint(0, positions)) for _ in range(specials))
        listed = random.sample(range(1, specials + 1), random.randint(0, specials))
        has_network, kind = random.choice([0, 0, 1]), random.choice([66, 80])
        yield load_line(contract_list=listing(*entries), file=noise(random, 29 * positions), journal=journal or "-",
                        special_list=special_listing(*listed), records=records or "-", new=good_contract(random, kind),
                        codes=any_marking(journal), positions=positions, counters=counters, specials=specials, day=day,
                        minute=random.choice([0, 599, 600, 661]), hours=random.choice([0, 1, 10, 24, 25]),
                        key=random.randrange(16), kind=kind, priority=random.choice(PRIORITIES),
                        has_network=has_network, network=has_network * random.randrange(1 << 24),
                        needs_counter=random.randint(0, 1))


# ---------------------------------------------------------------- Gate writes

def gate(random):
    for family in (applied, found, joined):
        yield from family(random)


def sparse(random):
    """Hex of a record with about an eighth of its bits set."""
    return flipped(ZEROS, *random.sample(range(232), 29))


def applied(random):
    for count in (0, 1, 1, 2, 3, 5, 8, 14, 15, 15):
        writes = "".join(sparse(random) for _ in range(count))
        yield f"apply {sparse(random)} {writes or '-'}"
    for count in (16, 17, 31):
        yield f"apply {noise(random)} {noise(random, 29 * count)}"
        yield f"apply {noise(random)} {noise(random, 29 * count + 1)}"
        yield f"apply {noise(random, 28)} {noise(random, 29 * count)}"
    for size in (1, 28, 30, 57, 59):
        yield f"apply {noise(random)} {noise(random, size)}"
    for size in (0, 1, 28, 30, 58):
        yield f"apply {noise(random, size)} {noise(random)}"
        yield f"apply {noise(random, size)} -"
    for place in range(0, 232, 3):
        yield f"apply {ZEROS} {ZEROS}{flipped(ZEROS, place)}"


def found(random):
    for _ in range(20):
        present = sparse(random)
        zeros = [place for place in range(232) if flipped(present, place) > present]
        wanted = flipped(present, *random.sample(zeros, 29))
        yield f"find {present} {wanted} {noise(random)}"
        yield f"find {wanted} {present} {noise(random)}"
    for place in range(232):
        present = flipped(ZEROS, *{place, random.randrange(place, 232), random.randrange(place, 232)})
        wanted = flipped(ZEROS, random.randrange(place)) if place else ZEROS
        yield f"find {present} {wanted} {noise(random)}"
    yield from three_lengths(random, "find")


def joined(random):
    for _ in range(30):
        yield f"join {sparse(random)} {noise(random)} {noise(random)}"
    yield from three_lengths(random, "join")


def three_lengths(random, name):
    for index in range(3):
        for size in (0, 1, 28, 30, 58):
            sizes = [29, 29, 29]
            sizes[index] = size
            yield f"{name} " + " ".join(noise(random, size) for size in sizes)
