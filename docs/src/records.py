"""Makes the records that ./bench hands to the measuring programs: from a fixed seed, so the same on every computer.

A unit is one byte that says what it is, and then the bytes that the operation takes. The layouts come from
`vectors/model.py` and are drawn by `vectors/draw.py`. A tenth of all records is refused, or has a margin; of BIP contracts,
which are any bytes, none.
"""

import sys
from pathlib import Path
from random import Random

sys.path.append(str(Path(__file__).resolve().parents[2] / "vectors"))
import cards
import model
from draw import (ENVIRONMENT, EVENT, contract, contract_list, draw, holder, list_entries, list_fixed, special_entries,
                  special_fixed, special_list)

SEED = 1997
MIXED = 100_000                  # records that both programs read
FEW = 200                        # units of each other operation
POSITIONS, COUNTERS, SPECIALS = 8, 4, 4    # N, C and S of every card here
LIST, CONTRACT_42, CONTRACT_50 = READ_BY_BOTH = range(3)
NAMES = ("list", "42h", "50h", "special list", "Event", "Environment", "Holder")
KEEP_A_MARGIN = (1, 2, 4, 5, 6)  # the kinds whose values keep what stands after the last field
REWRITE = 7                      # a reader's number and 7: read, then written again
SELECT, LOAD, LOAD_AND_SELECT, PASS, PASS_TWICE, BIP, BIP_AGAIN, BIP_TWICE = range(14, 22)
TYPE = {CONTRACT_42: 0x42, CONTRACT_50: 0x50}
RECORD_BITS = 232
BEFORE_JOURNAL = 269             # bytes of a passage's unit, whose last part is the journal
MARKED = bytes.fromhex("55" * 32)     # event codes that block: the odd ones
NO_TAG = bytes.fromhex("A000")   # of a BIP contract without further records


# ---------------------------------------------------------------- What the programs read

def program_input(units, rounds):
    """Bytes in a unit and rounds, two bytes each and high first, and then the units."""
    return len(units[0]).to_bytes(2, "big") + rounds.to_bytes(2, "big") + b"".join(units)


def mixed():
    """Contract lists and contracts of types 42h and 50h, equally frequent, in no order."""
    random = Random(SEED)
    units = [unit(random, READ_BY_BOTH[index % 3]) for index in range(MIXED)]
    random.shuffle(units)
    return units


def others():
    """The name and the units of each further measurement; only the library's own program understands these."""
    random = Random(SEED)
    for kind, name in enumerate(NAMES):
        units = [unit(random, kind) for _ in range(FEW)]
        if kind not in READ_BY_BOTH:
            yield f"{name} read", units
        yield f"{name} read and written", rewritten(units)
    for entries in range(1, POSITIONS + 1):
        yield f"select, entries {entries}", [select_unit(random, entries) for _ in range(FEW)]
    for events in range(16):
        yield f"load, journal {events}", [load_unit(random, events) for _ in range(FEW)]
    for kind in KEEP_A_MARGIN:
        units = [bytes([kind]) + one_after(random, kind) for _ in range(FEW)]
        yield f"{NAMES[kind]}, margin, read", units
        yield f"{NAMES[kind]}, margin, read and written", rewritten(units)
    yield "load and select, journal 3", [bytes([LOAD_AND_SELECT]) + load_unit(random, 3)[1:] for _ in range(FEW)]
    for entries in range(1, POSITIONS + 1):
        yield f"pass, entries {entries}, journal 5", [pass_unit(random, entries, 5) for _ in range(FEW)]
    units = [pass_unit(random, 4, 15) for _ in range(FEW)]
    for events in range(1, 16):
        yield f"pass, entries 4, journal {events}", [unit[:BEFORE_JOURNAL + 29 * events] for unit in units]
    yield "pass twice, entries 4, journal 15", [bytes([PASS_TWICE]) + unit[1:] for unit in units]
    made = [bip_contract(random, index) for index in range(FEW)]
    yield "BIP contract read", [bytes([BIP]) + record for record in made]
    yield "BIP contract read and written", [bytes([BIP_AGAIN]) + record for record in made]
    yield "BIP contract read and written twice", [bytes([BIP_TWICE]) + record for record in made]


def rewritten(units):
    return [bytes([unit[0] + REWRITE]) + unit[1:] for unit in units]


def unit(random, kind):
    make = random.choice(FAULTS[kind]) if random.random() < 0.1 else legal
    return bytes([kind]) + make(random, kind)


# ---------------------------------------------------------------- Legal records of all sizes

LAYOUT = [contract_list(POSITIONS, COUNTERS), contract(0x42), contract(0x50), special_list(SPECIALS), EVENT, ENVIRONMENT,
          holder(116)]

HEAD_BITS = [8, 16, 32, 8, 2, 8, 62]      # [4] without its dates; [6] as far as the groups of 50h
GROUP_BITS = [sum(width for _, width, _ in group) for group in model.GROUPS_50]
EVENT_BITS = model.EVENT + [35]


def subset(random, elements):
    return sum(1 << element for element in random.sample(range(elements), random.randint(0, elements)))


def bits_of(bitmap, widths):
    return sum(width for element, width in enumerate(widths) if bitmap >> element & 1)


def fitting(random, widths, room):
    """A bitmap of any number of elements, drawn one by one, of which each still fits."""
    bitmap = 0
    for element in random.sample(range(len(widths)), random.randint(0, len(widths))):
        if bits_of(bitmap | 1 << element, widths) <= room:
            bitmap |= 1 << element
    return bitmap


def contract_fixed(random, groups_of=fitting):
    """A head alone now and then, else data with as many groups as `groups_of` finds for what the head leaves."""
    bitmap = subset(random, 6) | random.choice([0, 64, 64, 64])
    validity = random.randrange(4) if bitmap & 16 else 0
    left = RECORD_BITS - 7 - bits_of(bitmap, HEAD_BITS) - bits_of(validity, [14, 14])
    return {"bitmap": bitmap, "validity bitmap": validity, "groups": groups_of(random, GROUP_BITS, left)}


def event_fixed(random):
    return {"bitmap": fitting(random, EVENT_BITS, RECORD_BITS - 53)}


LEGAL = [
    lambda random: list_fixed(random, POSITIONS),
    contract_fixed,
    contract_fixed,
    lambda random: special_fixed(random, SPECIALS),
    event_fixed,
    lambda random: {"bitmap": subset(random, 7)},
    lambda random: {"bitmap": subset(random, 8)},
]


def packed(bits, size):
    """The bits with zeros after them; those past the end are cut off."""
    return int(bits[:8 * size].ljust(8 * size, "0"), 2).to_bytes(size, "big")


def drawn_bits(random, kind, fixed):
    return draw(random, LAYOUT[kind], {**fixed, "margin": ""}).bits


def drawn(random, kind, fixed):
    return packed(drawn_bits(random, kind, fixed), LAYOUT[kind].size)


def legal(random, kind):
    return drawn(random, kind, LEGAL[kind](random))


# ---------------------------------------------------------------- Refused records, and those with a margin

def one_after(random, kind):
    """A one after the last field: 5 for a list, a margin for the others."""
    size = 8 * LAYOUT[kind].size
    while True:
        bits = drawn_bits(random, kind, LEGAL[kind](random))
        if len(bits) < size:
            return packed(bits + "0" * random.randrange(size - len(bits)) + "1", size // 8)


def wrong_number(**choices):
    """4, but for two bitmaps: 2 for that of the Event, 3 for that of the Environment. Each field named (`_` for a space)
    gets one of its numbers; the bitmaps among them have the wrong one present."""
    def fault(random, kind):
        return drawn(random, kind, {name.replace("_", " "): random.choice(numbers) for name, numbers in choices.items()})
    return fault


def undefined_priority(random, kind):
    """4."""
    fixed = list_fixed(random, POSITIONS, random.randint(1, POSITIONS))
    tariff = [random.randrange(16), random.randrange(256), model.UNDEFINED]
    return drawn(random, kind, {**fixed, f"entry {random.randint(1, fixed['count'])} tariff": tariff})


def overfull_list(random, kind):
    """2: entries and networks are together ten or more, and nine fit."""
    count = random.randint(5, POSITIONS)
    networks = random.sample(range(count), random.randint(10 - count, count))
    pointers = random.sample(range(1, POSITIONS + 1), count)
    return drawn(random, kind, list_entries([(7 if index in networks else 6, pointer)
                                             for index, pointer in enumerate(pointers)]))


def overfull_contract(random, kind):
    """2."""
    def too_many(random, widths, room):
        return next(bitmap for bitmap in iter(lambda: random.randrange(1 << 16), None) if bits_of(bitmap, widths) > room)
    fixed = contract_fixed(random, too_many)
    return drawn(random, kind, {**fixed, "bitmap": fixed["bitmap"] | 64})


def broken_rule(fixed_of, highest, bitmaps):
    """6: a pointer repeated, zero or too high, or an element absent. The first of `bitmaps` is a whole entry's."""
    def fault(random, kind):
        entries = [(bitmaps[0], pointer) for pointer in
                   random.sample(range(1, highest + 1), random.randint(2, highest))]
        index = random.randrange(1, len(entries))
        pointer = entries[index][1]
        entries[index] = random.choice([(bitmaps[0], entries[index - 1][1]), (bitmaps[0], 0),
                                        (bitmaps[0], random.randint(highest + 1, 31)),
                                        (random.choice(bitmaps[1:]), pointer)])
        return drawn(random, kind, fixed_of(entries))
    return fault


LATE_MINUTES = range(1440, 2048)
WITH_DATA = range(64, 128)       # bitmaps of a head whose bit [6] is set
FAULTS = [                       # `one_after` is none of the kinds that keep a margin
    [one_after, undefined_priority, wrong_number(count=range(9, 16)), overfull_list,
     broken_rule(list_entries, POSITIONS, (6, 2, 4, 0))],
    [one_after, wrong_number(bitmap=WITH_DATA, sale_minute=LATE_MINUTES)],
    [one_after, wrong_number(bitmap=WITH_DATA, groups=[0x2000, 0x2021, 0xE108], end_minute=LATE_MINUTES),
     overfull_contract],
    [one_after, wrong_number(count=range(5, 16)), broken_rule(special_entries, SPECIALS, (14, 12, 10, 6, 0))],
    [one_after, wrong_number(minute=LATE_MINUTES, bitmap=[0]), wrong_number(bitmap=[1 << 25], **{"[25]": range(20, 32)}),
     wrong_number(bitmap=[1 << 17, 0xFDFFFF])],
    [one_after, wrong_number(bitmap=[64], env_data_bitmap=[2, 3])],
    [one_after, wrong_number(bitmap=[128], data_bitmap=[4095], residence=range(100000, 131072)),
     wrong_number(bitmap=[64], profile_count=range(5, 16))],
]


# ---------------------------------------------------------------- BIP contracts

def bip_contract(random, index):
    """Any bytes; every third has the tag of no further records."""
    tag = NO_TAG if index % 3 == 0 else random.randbytes(2)
    return random.randbytes(23) + tag + random.randbytes(4)


# ---------------------------------------------------------------- Cards

def select_unit(random, count):
    day, operator, entries, contracts = gate_and_card(random, count)
    return bytes([SELECT]) + list_and_file(entries, contracts) + day.to_bytes(2, "big") + bytes([operator])


def pass_unit(random, count, events):
    """None is refused: one entry opens to every operator, and its contract has no dates."""
    day, operator, entries, contracts = gate_and_card(random, count)
    usable = random.randrange(count)
    _, _, _, pointer, *network = entries[usable]
    kind = random.choice([CONTRACT_42, CONTRACT_50])
    contracts[pointer - 1] = TYPE[kind], drawn(random, kind, cards.head() | cards.own_dates())
    entries[usable] = 0, TYPE[kind], random.randint(0, 11), pointer, *network
    times = day.to_bytes(2, "big") + random.randrange(1440).to_bytes(2, "big")
    numbers = bytes([operator, random.randrange(256), random.randrange(256)])
    return bytes([PASS]) + list_and_file(entries, contracts) + times + numbers + dated_events(random, events, day)


def gate_and_card(random, count):
    """Day and operator; entries, and contracts with their types. About half of the entries are eligible. With five entries and
    more there is no room for networks."""
    day, operator = random.choice([99, 100, 101]), random.choice([7, 20, 20, 21])
    contracts = [dated_contract(random) for _ in range(POSITIONS)]
    entries = []
    for pointer in random.sample(range(1, POSITIONS + 1), count):
        key, priority = random.choice([0, 0, 0, 7, 15]), random.choice([1, 2, 3, 8, 11, 12, 15])
        entries.append((key, contracts[pointer - 1][0], priority, pointer, *any_network(random, count)))
    return day, operator, entries, contracts


def list_and_file(entries, contracts):
    return hex_bytes(cards.listing(*entries)) + b"".join(made for _, made in contracts)


def any_network(random, count):
    return [random.randrange(1 << 24)] if count < 5 and random.random() < 0.5 else []


def hex_bytes(text):
    return bytes.fromhex(text)


def dated_contract(random):
    """The type and a contract whose dates and provider lie about day 100 and operator 20."""
    kind = random.choice([CONTRACT_42, CONTRACT_50])
    fixed = cards.head(provider=random.choice([None, 20, 20, 21]), start=random.choice([None, 0, 98, 99, 100, 101]),
                       end=random.choice([None, 0, 99, 100, 101, 16383]))
    fixed |= cards.own_dates(end=random.choice([0, 0, 100, 101]), start=random.choice([None, None, 0, 99, 100]))
    fixed["groups"] |= fitting(random, GROUP_BITS[:12], 111)      # what 7 + 8 + 2 + 28 + 62 + 14 bits leave
    return TYPE[kind], drawn(random, kind, fixed)


def load_unit(random, events):
    """Most loads find a place: half of the entries can be erased and few are named by a new event."""
    count, day = random.randint(4, POSITIONS), 100
    entries = [(random.randrange(16), random.choice([0x42, 0x50]), random.choice([15, 15, 14, 6]), pointer,
                *any_network(random, count)) for pointer in random.sample(range(1, POSITIONS + 1), count)]
    listed = random.sample(range(1, SPECIALS + 1), random.randint(0, SPECIALS))
    file = b"".join(dated_contract(random)[1] for _ in range(POSITIONS))
    kind, new = dated_contract(random)
    parameters = bytes([0, day]) + random.randrange(1440).to_bytes(2, "big") + bytes([
        random.choice([0, 1, 2, 24]), random.randrange(16), kind, random.choice(cards.PRIORITIES), random.randint(0, 1)])
    return (bytes([LOAD]) + hex_bytes(cards.listing(*entries)) + file + hex_bytes(cards.special_listing(*listed))
            + dated_events(random, SPECIALS, day) + new + parameters + MARKED + dated_events(random, events, day))


def dated_events(random, count, day):
    """Events of all sizes from the twenty days before; some name a contract."""
    return b"".join(drawn(random, 4, {**event_fixed(random), "date": random.randint(day - 20, day - 1)})
                    for _ in range(count))
