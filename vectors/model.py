"""A plain model of the operations, written from document 01, from requests Q-1 to Q-4 and Q-6 to Q-8 of document 02,
for Q-4 from document 000, and from nothing else.

`answer(line)` takes one request line of REPLAY.md (bytes, without its line feed) and gives the answer line.

Every layout of document 01 is one `walk_...` function. It goes over the fields in card order and is handed either a
`Reading` (which takes the numbers from a lent record) or a `Writing` (which puts lent numbers into a new record). So
reading and writing hold to one and the same description. What 01 says is quoted or named beside the lines that do it.
The second reader of Q-6 has tables of its own, in `lab.py`. The record of Q-4 has a table of offsets and no walk.
"""

import re
from collections import namedtuple

import lab

RECORD = 29                      # "A record is 29 bytes, 232 bits."
HOLDER_AREAS = (29, 58, 87, 116)
LARGEST_AREA = 116               # a Holder's margin has this length in every area
MOST_RECORDS = 15                # "A multiple with more than 15 records is 11."
MOST_ENTRIES = 8                 # the largest N
MOST_COUNTERS = 4                # the largest C
MOST_SPECIALS = 4
MOST_PROFILES = 4
ALL_CODES = 32                   # bytes of the marked codes: "one bit for each event code"
TYPE_42, TYPE_50 = 0x42, 0x50
NO_DATA = 0                      # the tag of a contract whose bit [6] is zero
LAST_USABLE, UNDEFINED, ERASABLE = 11, 13, 15     # priorities
OWN_PROVIDER = 15                # operator key: the contract's provider decides


class Refused(Exception):
    """A refusal number, its place, and the field at fault. Q-2: "All other refusals return 0 there"."""

    def __init__(self, number, place=0, field=0):
        super().__init__(number, place, field)
        self.number, self.place, self.field = number, place, field


# ---------------------------------------------------------------- Boxes and bitmaps

def to_bits(record):
    """Bit 0 is the top bit of byte 0."""
    return "".join(f"{byte:08b}" for byte in record)


def to_bytes(bits):
    return bytes(int(bits[at:at + 8], 2) for at in range(0, len(bits), 8))


class Walk:
    """What reading and writing share. `place` is the bit reached, `rank` the field reached; `value` holds, by name and
    in card order, the list of numbers of each field (one number, but the letters of a text and the three parts of a
    list tariff), and last the margin, as bytes. A walk ends with `margin` or, in a list, with `no_margin`."""

    rank = 0                     # "counted from 0"

    def field(self, name, widths, present=True, rule=None):
        """Q-2: "over all fields of the structure, present or not". The step is that of reading or of writing; a text
        or a list tariff is one."""
        numbers = self.step(name, widths, present, rule)
        self.rank += 1
        return numbers

    def number(self, name, width, present=True, rule=None):
        return self.field(name, [width], present, rule)[0]

    def bitmap(self, name, width, present=True, rule=None):
        """Gives for each element whether it is present, element [0] first: that is the last bit."""
        number = self.number(name, width, present, rule)
        return [number >> element & 1 == 1 for element in range(width)]

    def elements(self, table, present, prefix=""):
        """Present elements follow in rising order."""
        for (name, width, rule), is_present in zip(table, present):
            self.number(prefix + name, width, is_present, rule)

    def unboxed(self, width, present):
        """A field that has no number in the value. Its width is more than any record leaves: 2, reading and writing.
        It counts: "event [17] included"."""
        if present:
            self.check_room([width])
        self.rank += 1

    def check_room(self, widths):
        if self.place + sum(widths) > self.size:
            self.refuse(2, self.place)

    def check_rule(self, numbers, rule, place):
        if rule and not rule.holds(*numbers):
            self.refuse(rule.refusal, place)

    def refuse(self, number, place):
        """Q-2: "Refusals 2, 3, 4 and 7 met in a walk shall also return the field's number"."""
        raise Refused(number, place, self.rank)


class Reading(Walk):

    def __init__(self, record):
        self.bits, self.size, self.place, self.value = to_bits(record), 8 * len(record), 0, {}

    def step(self, name, widths, present, rule):
        """At each field 2, 3, 4. An absent field is zero in the typed value."""
        numbers = [0] * len(widths)
        if present:
            self.check_room(widths)
            first = self.place
            numbers = [self.take(width) for width in widths]
            self.check_rule(numbers, rule, place=first)
        self.value[name] = numbers
        return numbers

    def take(self, width):
        """Numbers stand high bit first, with no gaps."""
        box = self.bits[self.place:self.place + width]
        self.place += width
        return int(box, 2)

    def tag(self, tag):
        self.value["tag"] = [tag]

    def margin(self, length):
        """Q-7: values "carry the bits after the last field", each at its own place: bit i of the margin is bit i of the
        record or area. All else is zero: the places of the fields, and what a short area lacks of the length."""
        bits = "0" * self.place + self.bits[self.place:]
        self.value["margin"] = [to_bytes(bits.ljust(8 * length, "0"))]

    def no_margin(self):
        """After the last field every bit is zero to the end. Q-7: "Lists keep the old rule"."""
        one = self.bits.find("1", self.place)
        if one >= 0:
            raise Refused(5, one)


class Writing(Walk):

    def __init__(self, size, numbers):
        self.lent, self.bits, self.size, self.place = list(numbers), "", size, 0

    def step(self, name, widths, present, rule):
        """At each field 7, 2, 3, 4."""
        numbers = [self.lent.pop(0) for _ in widths]
        self.check_width(numbers, widths if present else [0] * len(widths))
        if present:
            self.check_room(widths)
            self.check_rule(numbers, rule, place=self.place)
            for number, width in zip(numbers, widths):
                self.put(number, width)
        return numbers

    def check_width(self, numbers, widths):
        """7: "number too wide, or not zero in an absent field". An absent field has no bits, so it holds zero only."""
        if any(number >> width for number, width in zip(numbers, widths)):
            self.refuse(7, self.place)

    def put(self, number, width):
        self.bits += f"{number:0{width}b}"
        self.place += width

    def tag(self, tag):
        """7: "data that do not agree with bit [6] and the type given". The walk stands after the head, whose fields are
        0 to 8. Q-2: "contract data refused as a whole give 9"."""
        if self.lent.pop(0) != tag:
            self.refuse(7, self.place)

    def margin(self, length):
        """7: "a margin with a one inside a field's place or past the lent area", "its place the first such bit, its
        field number under Q-2 zero, after all fields were checked". The fields' places end before the area does."""
        margin = to_bits(self.lent.pop(0))
        in_a_field = margin.find("1", 0, self.place)
        past = margin.find("1", self.size)
        for wrong in (in_a_field, past):
            if wrong >= 0:
                raise Refused(7, wrong)
        self.bits += margin[self.place:self.size]

    def no_margin(self):
        """A list's value has none."""

    def record(self):
        return to_bytes(self.bits.ljust(self.size, "0"))


# ---------------------------------------------------------------- Numbers with a range

Rule = namedtuple("Rule", "refusal holds")

MINUTE = Rule(4, lambda minute: minute <= 1439)
PLACE_CODE = Rule(4, lambda code: code <= 99999)            # residence, work and study place
EVENT_POINTER = Rule(4, lambda pointer: pointer <= 19)
LIST_TARIFF = Rule(4, lambda key, kind, priority: priority != UNDEFINED)
NO_ENV_DATA_2 = Rule(3, lambda bitmap: bitmap & 0b10 == 0)


def at_most(most):
    return Rule(4, lambda count: count <= most)


# ---------------------------------------------------------------- Layouts: (name, width in bits, rule)

ENVIRONMENT = [
    ("network", 24, None),
    ("issuer", 8, None),
    ("end date", 14, None),
    ("pay method", 11, None),
    ("authenticator", 16, None),
    ("select list", 32, None),
]


def walk_environment(walk):
    walk.number("version", 6)
    present = walk.bitmap("bitmap", 7)
    walk.elements(ENVIRONMENT, present)
    inner = walk.bitmap("env data bitmap", 2, present[6], NO_ENV_DATA_2)
    walk.number("card status", 1, inner[0])
    walk.margin(RECORD)


def text(letters):
    """A text (letters of 5 bits) is one field."""
    return [5] * letters


NAME = text(17)            # 85 bits
BIRTH_PLACE = text(23)     # 115 bits

PROFILE = [
    ("network", 24, None),
    ("number", 8, None),
    ("date", 14, None),
]

HOLDER_DATA = [
    ("card status", 4, None),
    ("telepayment", 4, None),
    ("residence", 17, PLACE_CODE),
    ("commercial id", 6, None),
    ("work place", 17, PLACE_CODE),
    ("study place", 17, PLACE_CODE),
    ("sale device", 16, None),
    ("authenticator", 16, None),
    ("start 1", 14, None),
    ("start 2", 14, None),
    ("start 3", 14, None),
    ("start 4", 14, None),
]


def walk_holder(walk):
    present = walk.bitmap("bitmap", 8)
    inner = walk.bitmap("name bitmap", 2, present[0])
    walk.field("surname", NAME, inner[0])
    walk.field("forename", NAME, inner[1])
    inner = walk.bitmap("birth bitmap", 2, present[1])
    walk.number("birth date", 32, inner[0])
    walk.field("birth place", BIRTH_PLACE, inner[1])
    walk.field("birth name", NAME, present[2])
    walk.number("id", 32, present[3])
    walk.number("country", 24, present[4])
    walk.number("company", 32, present[5])
    walk_profiles(walk, present[6])
    inner = walk.bitmap("data bitmap", 12, present[7])
    walk.elements(HOLDER_DATA, inner)
    walk.margin(LARGEST_AREA)


def walk_profiles(walk, present):
    """An uncounted profile is absent, its bitmap included. Its fields are numbered all the same: Q-2: "for each one up
    to the largest allowed"."""
    count = walk.number("profile count", 4, present, at_most(MOST_PROFILES))
    for index in range(MOST_PROFILES):
        prefix = f"profile {index + 1} "
        inner = walk.bitmap(prefix + "bitmap", 3, index < count)
        walk.elements(PROFILE, inner, prefix)


EVENT = [8, 24, 8, 8, 8, 8, 24, 16, 16, 8, 16, 16, 8, 16, 16, 8, 5, 240, 16, 8, 16, 16, 16, 16, 16, 5, 16]
EVENT_CODE = 2
EVENT_PROVIDER = 4
EVENT_UNBOXED = 17               # can never fit, and has no number in the value
EVENT_CONTRACT = 25

EVENT_DATA = [
    ("inner date", 14, None),
    ("inner minute", 11, MINUTE),
    ("simulation", 1, None),
    ("trip", 2, None),
    ("direction", 2, None),
]


def walk_event(walk):
    walk.number("date", 14)
    walk.number("minute", 11, rule=MINUTE)
    present = walk.bitmap("bitmap", 28)
    for element, width in enumerate(EVENT):
        if element != EVENT_UNBOXED:
            rule = EVENT_POINTER if element == EVENT_CONTRACT else None
            walk.number(f"[{element}]", width, present[element], rule)
        else:
            walk.unboxed(width, present[element])
    inner = walk.bitmap("inner bitmap", 5, present[27])
    walk.elements(EVENT_DATA, inner)
    walk.margin(RECORD)


SPECIAL_ENTRY = [
    ("network", 24, None),
    ("provider", 8, None),
    ("seriousness", 2, None),
    ("pointer", 5, None),
]
SPECIAL_COMPLETE = 0b1110        # every element but the network


def walk_special_list(walk):
    count = walk.number("count", 4, rule=at_most(MOST_SPECIALS))
    for index in range(MOST_SPECIALS):
        prefix = f"entry {index + 1} "
        inner = walk.bitmap(prefix + "bitmap", 4, index < count)
        walk.elements(SPECIAL_ENTRY, inner, prefix)
    walk.no_margin()


LIST_TARIFF_PARTS = [4, 8, 4]    # operator key, contract type, priority; one field
LIST_COMPLETE = 0b110            # every element but the network


def walk_contract_list(walk, positions):
    count = walk.number("count", 4, rule=at_most(positions))
    for index in range(MOST_ENTRIES):
        prefix = f"entry {index + 1} "
        inner = walk.bitmap(prefix + "bitmap", 3, index < count)
        walk.number(prefix + "network", 24, inner[0])
        walk.field(prefix + "tariff", LIST_TARIFF_PARTS, inner[1], LIST_TARIFF)
        walk.number(prefix + "pointer", 5, inner[2])
    walk.no_margin()


CONTRACT_HEAD = [
    ("provider", 8, None),
    ("tariff", 16, None),
    ("serial", 32, None),
    ("class", 8, None),
]

VALIDITY = [
    ("start date", 14, None),
    ("end date", 14, None),
]

DATA_42 = [
    ("pay method", 11, None),
    ("price", 16, None),
    ("sale date", 14, None),
    ("sale minute", 11, MINUTE),
    ("agent", 8, None),
    ("device", 16, None),
    ("receipt", 1, None),
    ("passengers", 8, None),
    ("inhibition end", 14, None),
]

DATA_50 = [
    ("own end date", 14, None),
    ("grey list", 14, None),
    ("chrono", 16, None),
    ("flag", 2, None),
]

GROUPS_50 = [
    [("agent", 8, None)],                                                                               # [0]
    [("origin", 14, None), ("destination", 14, None), ("via", 14, None)],                               # [1]
    [("token 1", 16, None), ("token 2", 16, None), ("autoload 1", 14, None), ("autoload 2", 14, None)],  # [2]
    [("balance", 8, None), ("last debit", 5, None)],                                                    # [3]
    [("purse", 19, None), ("purse debit", 16, None)],                                                   # [4]
    [("passengers", 6, None)],                                                                          # [5]
    [("period end", 14, None), ("period balance", 6, None)],                                            # [6]
    [("zone 1", 6, None), ("zone 2", 6, None), ("zone 3", 6, None)],                                    # [7]
    [("sections", 6, None), ("sections left", 6, None)],                                                # [8]
    [("stop 1", 14, None), ("stop 2", 14, None), ("stop 3", 14, None), ("stop 4", 14, None)],           # [9]
    [("line 1", 14, None), ("line 2", 14, None)],                                                       # [10]
    [("weekly limits", 14, None)],                                                                      # [11]
    [("own start date", 14, None)],                                                                     # [12]
    [("end minute", 11, MINUTE)],                                                                       # [13]
    [("token", 4, None)],                                                                               # [14]
    [("intermodal", 4, None)],                                                                          # [15]
]


def walk_contract(walk, kind):
    data_follow = walk_head(walk)
    walk.tag(kind if data_follow else NO_DATA)
    if data_follow and kind == TYPE_42:
        walk_data_42(walk)
    elif data_follow:
        walk_data_50(walk)
    walk.margin(RECORD)


def walk_head(walk):
    """Gives bit [6], which has no box of its own and says that the data follow."""
    present = walk.bitmap("bitmap", 7)
    walk.elements(CONTRACT_HEAD, present)
    inner = walk.bitmap("validity bitmap", 2, present[4])
    walk.elements(VALIDITY, inner)
    walk.number("status", 8, present[5])
    return present[6]


def walk_data_42(walk):
    walk.elements(DATA_42, [True] * len(DATA_42))


def walk_data_50(walk):
    walk.elements(DATA_50, [True] * len(DATA_50))
    present = walk.bitmap("groups", 16)
    for group, is_present in zip(GROUPS_50, present):
        walk.elements(group, [is_present] * len(group))


# ---------------------------------------------------------------- Reading and writing one record

Entry = namedtuple("Entry", "bitmap network key kind priority pointer")
SpecialEntry = namedtuple("SpecialEntry", "bitmap network provider seriousness pointer")
Tally = namedtuple("Tally", "counter_pointers plain_pointers counter_erasable plain_erasable")


def require_lengths(*pairs):
    """1: "a lent slice has the wrong length"."""
    if any(len(lent) != length for lent, length in pairs):
        raise Refused(1)


def require_records(lent):
    """1: "any multiple of 29"."""
    if len(lent) % RECORD:
        raise Refused(1)


def require(*limits):
    """11: "parameter outside its limits"."""
    if not all(limits):
        raise Refused(11)


def card_limits(positions, counters):
    """Whether N and C are within 01's limits. Q-8: "each call that reads or writes a list now takes C"."""
    return 1 <= positions <= MOST_ENTRIES and counters <= MOST_COUNTERS and counters <= positions


def read_walk(record, walk_layout, *parameters):
    walk = Reading(record)
    walk_layout(walk, *parameters)
    return walk.value


def write_walk(size, numbers, walk_layout, *parameters):
    """The last of the numbers is the margin, where there is one."""
    walk = Writing(8 * size, numbers)
    walk_layout(walk, *parameters)
    return walk.record()


def require_type(kind):
    if kind not in (TYPE_42, TYPE_50):
        raise Refused(3)


def read_contract(record, kind):
    require_type(kind)
    return read_walk(record, walk_contract, kind)


def require_list_rule(entries, complete, highest):
    """6: "each counted entry has every element but the network present; pointers are distinct, from 1 to N or to S; a
    repeated one is the later entry's fault". Entries are pairs of bitmap and pointer."""
    seen = []
    for number, (bitmap, pointer) in enumerate(entries, 1):
        if bitmap & complete != complete or not 1 <= pointer <= highest or pointer in seen:
            raise Refused(6, number)
        seen.append(pointer)


def read_contract_list(record, positions, counters):
    """Gives the numbers, the tally last. 5, then 6."""
    numbers = numbers_of(read_walk(record, walk_contract_list, positions))
    return with_tally(numbers, positions, counters)


def with_tally(numbers, positions, counters):
    """The list's numbers, which must keep the list rule, and its tally."""
    require_contract_list_rule(numbers, positions)
    return numbers + list(tally(contract_entries(numbers), counters))


def write_contract_list(numbers, positions, counters):
    """The last four numbers are the tally. Q-8: "The written record does not change": it goes no further than here."""
    written = write_walk(RECORD, numbers, walk_contract_list, positions)
    require_contract_list_rule(numbers, positions)
    require_tally(numbers, counters)
    return written


def require_tally(numbers, counters):
    """Q-8: "writing a value whose tally differs from a fresh count is 6 with place 0, after the other list rules"."""
    if Tally(*numbers[-4:]) != tally(contract_entries(numbers), counters):
        raise Refused(6)


def tally(entries, counters):
    """A fresh count over the counted entries. Q-8: "for counter and for plain positions, which pointers are in use and
    how many entries have priority 15". 01: "counter positions C": "pointers 1 to C; the rest are plain"."""
    on_counters = [entry for entry in entries if entry.pointer <= counters]
    on_plain = [entry for entry in entries if entry.pointer > counters]
    return Tally(in_use(on_counters), in_use(on_plain), used_up(on_counters), used_up(on_plain))


def in_use(entries):
    """A mask: bit pointer - 1 is one for each pointer in use."""
    listed = [entry.pointer for entry in entries]
    return sum(1 << pointer - 1 for pointer in range(1, MOST_ENTRIES + 1) if pointer in listed)


def used_up(entries):
    return len([entry for entry in entries if entry.priority == ERASABLE])


def require_contract_list_rule(numbers, positions):
    entries = [(entry.bitmap, entry.pointer) for entry in contract_entries(numbers)]
    require_list_rule(entries, LIST_COMPLETE, positions)


def contract_entries(numbers):
    """Takes the count and 8 times the 6 numbers of an entry, whatever follows; gives the counted entries."""
    return [Entry(*numbers[1 + 6 * index:7 + 6 * index]) for index in range(numbers[0])]


def read_special_list(record, specials):
    """Gives the numbers. 5, then 6."""
    numbers = numbers_of(read_walk(record, walk_special_list))
    require_special_list_rule(numbers, specials)
    return numbers


def require_special_list_rule(numbers, specials):
    entries = [(entry.bitmap, entry.pointer) for entry in special_entries(numbers)]
    require_list_rule(entries, SPECIAL_COMPLETE, specials)


def special_entries(numbers):
    """Takes the count and 4 times the 5 numbers of an entry; gives the counted entries."""
    return [SpecialEntry(*numbers[1 + 5 * index:6 + 5 * index]) for index in range(numbers[0])]


def numbers_of(value):
    """The numbers of a value in card order, then its margin, if it has one."""
    return [number for numbers in value.values() for number in numbers]


def environment_read(record):
    require_lengths((record, RECORD))
    return numbers_of(read_walk(record, walk_environment))


def environment_write(record, *numbers):
    require_lengths((record, RECORD))
    return [write_walk(RECORD, numbers, walk_environment)]


def require_area(area):
    if len(area) not in HOLDER_AREAS:
        raise Refused(1)


def holder_read(area):
    require_area(area)
    return numbers_of(read_walk(area, walk_holder))


def holder_write(area, *numbers):
    require_area(area)
    return [write_walk(len(area), numbers, walk_holder)]


def event_read(record):
    require_lengths((record, RECORD))
    return numbers_of(read_walk(record, walk_event))


def event_write(record, *numbers):
    require_lengths((record, RECORD))
    return [write_walk(RECORD, numbers, walk_event)]


def special_read(record, specials):
    require_lengths((record, RECORD))
    require(specials <= MOST_SPECIALS)
    return read_special_list(record, specials)


def special_write(record, specials, *numbers):
    require_lengths((record, RECORD))
    require(specials <= MOST_SPECIALS)
    written = write_walk(RECORD, numbers, walk_special_list)
    require_special_list_rule(numbers, specials)
    return [written]


def list_read(record, positions, counters):
    require_lengths((record, RECORD))
    require(card_limits(positions, counters))
    return read_contract_list(record, positions, counters)


def list_write(record, positions, counters, *numbers):
    require_lengths((record, RECORD))
    require(card_limits(positions, counters))
    return [write_contract_list(numbers, positions, counters)]


def contract_read(record, kind):
    require_lengths((record, RECORD))
    return numbers_of(read_contract(record, kind))


def contract_write(record, kind, *numbers):
    require_lengths((record, RECORD))
    require_type(kind)
    return [write_walk(RECORD, numbers, walk_contract, kind)]


# ---------------------------------------------------------------- The neighbouring region's contract

LAST_DATE = 0xFFFFFF             # a date is the minutes since 1/1/2005, in three bytes
NO_FURTHER_RECORD = 0xA000       # in the extension tag's bytes; a value has None

BIP = [                          # 000, section 3.10: name, length in bytes, offset
    ("company code", 1, 0x00),
    ("format", 1, 0x01),
    ("RFU", 1, 0x02),
    ("additional tariff", 1, 0x03),
    ("tariff", 2, 0x04),
    ("serial", 3, 0x06),
    ("start", 3, 0x09),
    ("end", 3, 0x0C),
    ("weekdays", 1, 0x0F),
    ("SAM serial", 4, 0x10),
    ("SAM counter", 3, 0x14),
    ("extension tag", 2, 0x17),
    ("MAC", 4, 0x19),
]


def bip_read(record):
    """Q-4: "All byte strings of 29 are legal"."""
    require_lengths((record, RECORD))
    value = []
    for name, length, offset in BIP:
        value += from_bip(name, int.from_bytes(record[offset:offset + length], "big"))
    return value


def from_bip(name, stored):
    """What the value has for a field. 000, section 3.10: start and end are written "in complemento a 1". Q-4: "Monday
    the lowest bit, holidays the highest"."""
    if name in ("start", "end"):
        return [LAST_DATE - stored]
    if name == "weekdays":
        return [stored >> day & 1 for day in range(8)]
    if name == "extension tag" and stored == NO_FURTHER_RECORD:
        return [None]
    return [stored]


def bip_write(record, *value):
    """Q-4: "a number too wide for its bytes 7, its place the first bit of that field"; 01: "first fault wins"."""
    require_lengths((record, RECORD))
    fields = [*value[:8], value[8:16], *value[16:]]         # the eight days are one field
    written = bytearray(RECORD)
    for rank, (given, (name, length, offset)) in enumerate(zip(fields, BIP)):
        if not fits_bip(name, given, length):
            raise Refused(7, 8 * offset, rank)
        written[offset:offset + length] = to_bip(name, given).to_bytes(length, "big")
    return [bytes(written)]


def fits_bip(name, given, length):
    """Q-4: "A000h given as another tag is 7". The days and no tag have no number."""
    if name == "weekdays" or given is None:
        return True
    return given < 1 << 8 * length and (name, given) != ("extension tag", NO_FURTHER_RECORD)


def to_bip(name, given):
    """The number in a field's bytes."""
    if name in ("start", "end"):
        return LAST_DATE - given
    if name == "weekdays":
        return sum(valid << day for day, valid in enumerate(given))
    return NO_FURTHER_RECORD if given is None else given


# ---------------------------------------------------------------- The second reader

def lab_numbers(layout, record):
    """The numbers in all slots, then the margin, if the layout has one."""
    state = lab.run(layout, record)
    if state.refusal:
        raise Refused(*state.refusal)
    margin = [to_bytes(state.margin.ljust(8 * layout.margin, "0"))] if layout.margin else []
    return list(state.slots) + margin


def lab_environment(record):
    require_lengths((record, RECORD))
    return lab_numbers(lab.ENVIRONMENT, record)


def lab_holder(area):
    require_area(area)
    return lab_numbers(lab.HOLDER, area)


def lab_event(record):
    require_lengths((record, RECORD))
    numbers = lab_numbers(lab.EVENT, record)
    del numbers[lab.EVENT_17]
    return numbers


def lab_special(record, specials):
    require_lengths((record, RECORD))
    require(specials <= MOST_SPECIALS)
    numbers = lab_numbers(lab.SPECIAL_LIST, record)
    require_special_list_rule(numbers, specials)
    return numbers


def lab_list(record, positions, counters):
    require_lengths((record, RECORD))
    require(card_limits(positions, counters))
    return with_tally(lab_numbers(lab.contract_list(positions), record), positions, counters)


def lab_contract(record, kind):
    """Where the data do not follow, their slots have only zeros and the value has none."""
    require_lengths((record, RECORD))
    require_type(kind)
    *numbers, margin = lab_numbers(lab.CONTRACTS[kind], record)
    head, data = numbers[:lab.HEAD_SLOTS], numbers[lab.HEAD_SLOTS:]
    data_follow = lab.is_there(lab.DATA, head)
    return head + ([kind, *data] if data_follow else [NO_DATA]) + [margin]


# ---------------------------------------------------------------- Which contract the gate uses

def select(contract_list, file, positions, counters, day, operator):
    require_lengths((contract_list, RECORD), (file, RECORD * positions))
    require(card_limits(positions, counters), day <= 16383, operator <= 255)
    return chosen(contract_list, file, positions, counters, day, operator)


def chosen(contract_list, file, positions, counters, day, operator):
    """What selection answers where the lengths are right and the numbers within their limits."""
    entries = contract_entries(read_contract_list(contract_list, positions, counters))
    best = None
    for position, entry in enumerate(entries, 1):
        if eligible(entry, part(file, entry.pointer), day, operator):
            if best is None or entry.priority < best[1].priority:
                best = position, entry
    if best is None:
        raise Refused(8)
    position, entry = best
    return [position, entry.pointer, entry.priority, part(file, entry.pointer)]


def part(file, pointer):
    """The record of a pointer, which counts from 1."""
    return file[RECORD * (pointer - 1):RECORD * pointer]


def eligible(entry, record, day, operator):
    if entry.priority > LAST_USABLE:
        return False
    try:
        contract = read_contract(record, entry.kind)
    except Refused:
        return False
    return key_fits(entry.key, contract, operator) and valid_on(day, contract)


def key_fits(key, contract, operator):
    """An absent provider is zero, which no operator of 15 or more equals."""
    if key == OWN_PROVIDER:
        return operator >= OWN_PROVIDER and contract["provider"] == [operator]
    return key == 0 or key == operator


def valid_on(day, contract):
    """Start and end are those of the head, "with 50h also its own end date and group [12]; absent or zero limits
    nothing"."""
    starts = contract["start date"] + contract.get("own start date", [])
    ends = contract["end date"] + contract.get("own end date", [])
    too_early = any(start != 0 and day < start for start in starts)
    too_late = any(end != 0 and day > end for end in ends)
    return not too_early and not too_late


def change_priority(contract_list, positions, counters, position, code):
    require_lengths((contract_list, RECORD))
    require(card_limits(positions, counters), position >= 1, usable_code(code))
    return with_priority(contract_list, positions, counters, position, code)


def with_priority(contract_list, positions, counters, position, code):
    """01: "only those four bits change": the list is written again with all its other numbers as they were read."""
    entries = contract_entries(read_contract_list(contract_list, positions, counters))
    require(position <= len(entries))
    entries[position - 1] = entries[position - 1]._replace(priority=code)
    return [write_contract_list(list_numbers(entries, counters), positions, counters)]


def usable_code(code):
    """A list priority is 0 to 15 but not 13."""
    return code <= 15 and code != UNDEFINED


def list_numbers(entries, counters):
    """The numbers of a contract list in card order, uncounted entries as zeros, then the tally."""
    absent = [Entry(0, 0, 0, 0, 0, 0)] * (MOST_ENTRIES - len(entries))
    in_card_order = [len(entries)] + [number for entry in entries + absent for number in entry]
    return in_card_order + list(tally(entries, counters))


# ---------------------------------------------------------------- Where a new contract goes

def load(contract_list, file, special_list, journal, records, new, codes, positions, counters, specials, day, minute,
         hours, key, kind, priority, has_network, network, needs_counter):
    require_lengths((contract_list, RECORD), (file, RECORD * positions), (special_list, RECORD),
                    (records, RECORD * specials), (new, RECORD), (codes, ALL_CODES))
    require_records(journal)
    require(card_limits(positions, counters), specials <= MOST_SPECIALS, len(journal) <= RECORD * MOST_RECORDS,
            day <= 16383, minute <= 1439, hours <= 255, key <= 15, kind <= 255, usable_code(priority),
            network < (1 << 24 if has_network else 1))

    entries = contract_entries(read_contract_list(contract_list, positions, counters))
    listed_specials = special_entries(read_special_list(special_list, specials))
    journal_events = read_events(journal)
    special_events = read_events(records)
    read_contract(new, kind)

    marked_events = [event for event in journal_events if marked(event, codes)]
    blocked = quiet_pointers(marked_events, minutes(day, minute), 60 * hours)
    blocked += [special_events[entry.pointer - 1]["[25]"][0] for entry in listed_specials]
    pointer = place_for(entries, blocked, positions, counters, needs_counter)

    new_entry = Entry(0b111 if has_network else 0b110, network, key, kind, priority, pointer)
    kept = [entry for entry in entries if entry.pointer != pointer]
    new_list = write_contract_list(list_numbers(kept + [new_entry], counters), positions, counters)
    new_file = file[:RECORD * (pointer - 1)] + new + file[RECORD * pointer:]
    return [pointer, new_list, new_file]


def split(file):
    return [file[at:at + RECORD] for at in range(0, len(file), RECORD)]


def read_events(file):
    return [read_walk(record, walk_event) for record in split(file)]


def marked(event, codes):
    """Q-3: "A journal event blocks only if it has a code and that code's bit is one": bit 0 is code 0. A code of zero
    is a code, too, so the event's bitmap says whether it has one."""
    has_code = event["bitmap"][0] >> EVENT_CODE & 1 == 1
    return has_code and to_bits(codes)[event["[2]"][0]] == "1"


def minutes(day, minute):
    return 1440 * day + minute


def quiet_pointers(events, now, quiet):
    """The pointers named by an event that "is later than now or less than 60 × hours minutes old". Pointer 0 (none)
    and those of simple rights are in no list, so they may stand here."""
    pointers = []
    for event in events:
        age = now - minutes(event["date"][0], event["minute"][0])
        if age < 0 or age < quiet:
            pointers += event["[25]"]
    return pointers


def place_for(entries, blocked, positions, counters, needs_counter):
    counter_pointers = range(1, counters + 1)
    plain_pointers = range(counters + 1, positions + 1)
    found = None
    if not needs_counter:
        found = place_among(plain_pointers, entries, blocked)
    if found is None:
        found = place_among(counter_pointers, entries, blocked)
    if found is None:
        raise Refused(9)
    return found


def place_among(pointers, entries, blocked):
    """The lowest free pointer; else the erasable entry listed first; else none."""
    listed = [entry.pointer for entry in entries]
    free = [pointer for pointer in pointers if pointer not in listed]
    erasable = [entry.pointer for entry in entries
                if entry.priority == ERASABLE and entry.pointer not in blocked and entry.pointer in pointers]
    places = free + erasable
    return places[0] if places else None


# ---------------------------------------------------------------- A passage

def passage(contract_list, file, journal, positions, counters, day, minute, operator, code, provider):
    """Q-1: "one call for a passage". List and contracts are refused "as in selection, before anything is written"; an
    empty journal is 11. The provider is the event's: it need not be the gate's operator."""
    require_lengths((contract_list, RECORD), (file, RECORD * positions))
    require_records(journal)
    require(card_limits(positions, counters), 1 <= len(split(journal)) <= MOST_RECORDS, day <= 16383, minute <= 1439,
            operator <= 255, code <= 255, provider <= 255)
    position, pointer, priority, _ = chosen(contract_list, file, positions, counters, day, operator)
    [new_list] = with_priority(contract_list, positions, counters, position, priority_after(priority))
    event = passage_event(day, minute, code, provider, pointer)
    return [position, pointer, priority, new_list, put_first(event, journal)]


def priority_after(priority):
    """Q-1: "0 to 3 go up by four, 4 to 7 become 15, 8 to 11 stay". No other is eligible."""
    if priority <= 3:
        return priority + 4
    return ERASABLE if priority <= 7 else priority


def passage_event(day, minute, code, provider, pointer):
    """Q-1: "an event with the day, minute, event code, provider and contract pointer"; it has nothing else."""
    elements = {EVENT_CODE: code, EVENT_PROVIDER: provider, EVENT_CONTRACT: pointer}
    bitmap = sum(1 << element for element in elements)
    boxes = [elements.get(element, 0) for element in range(len(EVENT)) if element != EVENT_UNBOXED]
    inner = [0] * (1 + len(EVENT_DATA))
    return write_walk(RECORD, [day, minute, bitmap, *boxes, *inner, bytes(RECORD)], walk_event)


def put_first(event, journal):
    """Q-1: "the others move down one and the last falls off". They "are moved unread", whatever bytes they hold."""
    return event + journal[:-RECORD]


# ---------------------------------------------------------------- Gate writes

def either(one, other):
    return bytes(a | b for a, b in zip(one, other))


def apply_writes(record, writes):
    require_lengths((record, RECORD))
    require_records(writes)
    require(len(writes) <= RECORD * MOST_RECORDS)
    for write in split(writes):
        record = either(record, write)
    return [record]


def find_write(present, wanted, out):
    require_lengths((present, RECORD), (wanted, RECORD), (out, RECORD))
    falling = to_bits(bytes(a & ~b for a, b in zip(present, wanted)))
    if "1" in falling:
        raise Refused(10, falling.find("1"))
    return [bytes(b & ~a for a, b in zip(present, wanted))]


def join_writes(one, other, out):
    require_lengths((one, RECORD), (other, RECORD), (out, RECORD))
    return [either(one, other)]


# ---------------------------------------------------------------- Lines of REPLAY.md

LONGEST_LINE = 8192
BAD_LINE = "! line"


class BadLine(Exception):
    """A line that is none of the requests."""


def byte_string(word):
    if word == b"-":
        return b""
    if not re.fullmatch(rb"([0-9A-F]{2})+", word):
        raise BadLine
    return bytes.fromhex(word.decode())


def number_to(most):
    """Decimal digits; leading zeros mean nothing."""
    def number(word):
        if not re.fullmatch(rb"[0-9]+", word):
            raise BadLine
        digits = word.lstrip(b"0") or b"0"
        if len(digits) > 10 or int(digits) > most:
            raise BadLine
        return int(digits)
    return number


def number_or_none(word):
    """An extension tag; `-` is none."""
    return None if word == b"-" else NUMBER(word)


def margin_of(length):
    """A byte string of this length and no other."""
    def margin(word):
        lent = byte_string(word)
        if len(lent) != length:
            raise BadLine
        return lent
    return margin


NUMBER = number_to(4294967295)
LETTER = number_to(255)
FLAG = number_to(1)
MARGIN = margin_of(RECORD)
HOLDER_MARGIN = margin_of(LARGEST_AREA)

HOLDER_WORDS = [NUMBER] * 2 + [LETTER] * 34 + [NUMBER] * 2 + [LETTER] * 40 + [NUMBER] * 33 + [HOLDER_MARGIN]
CONTRACT_WORDS = [byte_string, NUMBER] + [NUMBER] * 9 + [NUMBER]       # up to the tag
DATA_WORDS = {NO_DATA: 0, TYPE_42: 9, TYPE_50: 36}
BIP_WORDS = [NUMBER] * 8 + [FLAG] * 8 + [NUMBER] * 2 + [number_or_none, NUMBER]


def nothing(*lent):
    """A read that is refused gives only the three numbers."""
    return []


def first(lent, *rest):
    """A lent buffer as it is after the call."""
    return [lent]


def third(one, other, lent):
    return [lent]


def no_part(*lent):
    return [0, 0, 0, b""]


def nothing_loaded(contract_list, file, *rest):
    return [0, contract_list, file]


def not_passed(contract_list, file, journal, *rest):
    return [0, 0, 0, contract_list, journal]


Operation = namedtuple("Operation", "words run refused")

OPERATIONS = {
    b"env.read": Operation([byte_string], environment_read, nothing),
    b"env.write": Operation([byte_string] + [NUMBER] * 10 + [MARGIN], environment_write, first),
    b"holder.read": Operation([byte_string], holder_read, nothing),
    b"holder.write": Operation([byte_string] + HOLDER_WORDS, holder_write, first),
    b"event.read": Operation([byte_string], event_read, nothing),
    b"event.write": Operation([byte_string] + [NUMBER] * 35 + [MARGIN], event_write, first),
    b"special.read": Operation([byte_string, NUMBER], special_read, nothing),
    b"special.write": Operation([byte_string, NUMBER] + [NUMBER] * 21, special_write, first),
    b"list.read": Operation([byte_string] + [NUMBER] * 2, list_read, nothing),
    b"list.write": Operation([byte_string] + [NUMBER] * 2 + [NUMBER] * 53, list_write, first),
    b"contract.read": Operation([byte_string, NUMBER], contract_read, nothing),
    b"contract.write": Operation(CONTRACT_WORDS, contract_write, first),
    b"bip.read": Operation([byte_string], bip_read, nothing),
    b"bip.write": Operation([byte_string] + BIP_WORDS, bip_write, first),
    b"select": Operation([byte_string] * 2 + [NUMBER] * 4, select, no_part),
    b"priority": Operation([byte_string] + [NUMBER] * 4, change_priority, first),
    b"load": Operation([byte_string] * 7 + [NUMBER] * 9 + [FLAG, NUMBER, FLAG], load, nothing_loaded),
    b"passage": Operation([byte_string] * 3 + [NUMBER] * 7, passage, not_passed),
    b"apply": Operation([byte_string] * 2, apply_writes, first),
    b"find": Operation([byte_string] * 3, find_write, third),
    b"join": Operation([byte_string] * 3, join_writes, third),
    b"lab.env": Operation([byte_string], lab_environment, nothing),
    b"lab.holder": Operation([byte_string], lab_holder, nothing),
    b"lab.event": Operation([byte_string], lab_event, nothing),
    b"lab.special": Operation([byte_string, NUMBER], lab_special, nothing),
    b"lab.list": Operation([byte_string] + [NUMBER] * 2, lab_list, nothing),
    b"lab.contract": Operation([byte_string, NUMBER], lab_contract, nothing),
}


def parse(line):
    """Gives the operation and what the line lends to it."""
    if len(line) > LONGEST_LINE:
        raise BadLine
    name, *words = line.split(b" ")
    if name not in OPERATIONS:
        raise BadLine
    operation = OPERATIONS[name]
    kinds = contract_kinds(words) if name == b"contract.write" else operation.words
    if len(words) != len(kinds):
        raise BadLine
    return operation, [kind(word) for kind, word in zip(kinds, words)]


def contract_kinds(words):
    """The tag decides how many numbers follow before the margin."""
    if len(words) < len(CONTRACT_WORDS):
        raise BadLine
    tag = NUMBER(words[len(CONTRACT_WORDS) - 1])
    if tag not in DATA_WORDS:
        raise BadLine
    return CONTRACT_WORDS + [NUMBER] * DATA_WORDS[tag] + [MARGIN]


def to_word(given):
    if given is None:
        return "-"
    if isinstance(given, int):
        return str(given)
    return given.hex().upper() or "-"


def answer(line):
    try:
        operation, lent = parse(line)
    except BadLine:
        return BAD_LINE
    try:
        words = [0, 0, 0] + operation.run(*lent)
    except Refused as refused:
        words = [refused.number, refused.place, refused.field] + operation.refused(*lent)
    return " ".join(to_word(word) for word in words)
