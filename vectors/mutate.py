"""Shows that the kept vectors notice small faults: each mutation of `model.py` or of `lab.py` must change at least one
answer.

python3 mutate.py [PART [STDIN STDOUT]]

Only those faults are tried that have the part in their name.
"""

import sys
from itertools import count
from pathlib import Path
from random import Random
from types import ModuleType

import lab
from bips import DAYS, WORDS
from make import DEFAULT_STDIN, DEFAULT_STDOUT, HERE
from model import BIP


def nameless(line):
    """A line of model.py that passes a refusal on without its field."""
    return f"""    try:
        {line}
    except Refused as refused:
        raise Refused(refused.number, refused.place)
"""


READ_MARGIN = """        bits = "0" * self.place + self.bits[self.place:]
"""
CHECK_MARGIN = """        for wrong in (in_a_field, past):
            if wrong >= 0:
                raise Refused(7, wrong)
"""
KEEP_MARGIN = """        self.bits += margin[self.place:self.size]
"""
STEP = """        numbers = self.step(name, widths, present, rule)
"""
COUNT_ABSENT = """        self.absent = getattr(self, "absent", 0) + (0 if present else sum(widths))
"""
WALK_TO_WRITE = """    walk = Writing(8 * size, numbers)
    walk_layout(walk, *parameters)
"""
PLAIN_CONTRACT = "write_walk(RECORD, numbers_of(read_contract({0}, {1}))[:-1] + [bytes(RECORD)], walk_contract, {1})"


def without_margins(line, values):
    """A line of model.py that reads these values, and then refuses a one after the last field as before Q-7."""
    return f"""    {line}
    for value in {values}:
        if any(value["margin"][0]):
            raise Refused(5, to_bits(value["margin"][0]).find("1"))
"""


READINGS = {
    "list": """    entries = contract_entries(read_contract_list(contract_list, positions, counters))
""",
    "special list": """    listed_specials = special_entries(read_special_list(special_list, specials))
""",
    "journal": """    journal_events = read_events(journal)
""",
    "records": """    special_events = read_events(records)
""",
    "new contract": """    read_contract(new, kind)
""",
}
READ_LIST = READINGS["list"]
READ_JOURNAL = READINGS["journal"]
WRITE_NEW_LIST = """    new_list = write_contract_list(list_numbers(kept + [new_entry], counters), positions, counters)
"""
KEPT = "    kept = [entry for entry in entries if entry.pointer != pointer]\n"
NEW_FILE = "    new_file = file[:RECORD * (pointer - 1)] + new + file[RECORD * pointer:]\n"
PEEK = """    def peek(record):
        unchecked = type("Unchecked", (Reading,), {"refuse": lambda *_: None})(record)
        try:
            walk_event(unchecked)
        except ValueError:
            pass                 # past the end
        return unchecked.value

"""
HAS_CODE = """    has_code = event["bitmap"][0] >> EVENT_CODE & 1 == 1
"""
IS_MARKED = """    return has_code and to_bits(codes)[event["[2]"][0]] == "1"
"""
BIT = 'to_bits(codes)[event["[2]"][0]]'
CODE = 'event["[2]"][0]] == "1"'
MARKED_EVENTS = """    marked_events = [event for event in journal_events if marked(event, codes)]
"""
CODES_LENGTH = ", (codes, ALL_CODES))"
LAST_LIMIT = """network < (1 << 24 if has_network else 1))
"""


def read_in_order(*names):
    """What loading reads, in this order instead of its own."""
    return "".join(READINGS.values()), "".join(READINGS[name] for name in names)


def at_removed(kept):
    """The entries kept, where the one that has the pointer is at `at`; it is past the end if none has."""
    return f"""    at = next((index for index, entry in enumerate(entries) if entry.pointer == pointer), len(entries))
    kept = {kept}
"""


def element_as_code(element):
    return (HAS_CODE, HAS_CODE.replace("EVENT_CODE", str(element)), CODE, CODE.replace("[2]", f"[{element}]"))


def length_as(pair, beyond="0"):
    """CODES' length is checked as this pair; a bit past its end is taken as `beyond`."""
    return (CODES_LENGTH, f", {pair})" if pair else ")",
            BIT, BIT.replace("to_bits(codes)", f'to_bits(codes).ljust(256, "{beyond}")'))


C_LIMITS = "card_limits(positions, counters)"
SIDES = """    on_counters = [entry for entry in entries if entry.pointer <= counters]
    on_plain = [entry for entry in entries if entry.pointer > counters]
"""
FOUR_NUMBERS = "Tally(in_use(on_counters), in_use(on_plain), used_up(on_counters), used_up(on_plain))"
MASK = "sum(1 << pointer - 1 for pointer in range(1, MOST_ENTRIES + 1) if pointer in listed)"
USED_UP = "len([entry for entry in entries if entry.priority == ERASABLE])"
READ_TALLY = "list(tally(contract_entries(numbers), counters))"
FRESH_COUNT = "tally(contract_entries(numbers), counters):\n"
OTHER_TALLY = f"if Tally(*numbers[-4:]) != {FRESH_COUNT}"
TALLY_REFUSED = """        raise Refused(6)
"""
WRITE_LIST = """    written = write_walk(RECORD, numbers, walk_contract_list, positions)
"""
CHECK_LIST = """    require_contract_list_rule(numbers, positions)
    require_tally(numbers, counters)
"""
CHANGE_PRIORITY = """    entries[position - 1] = entries[position - 1]._replace(priority=code)
    return [write_contract_list(list_numbers(entries, counters), positions, counters)]
"""
FREE = "free = [pointer for pointer in pointers if pointer not in listed]"
PASSAGE_LENGTHS = """    require_lengths((contract_list, RECORD), (file, RECORD * positions))
    require_records(journal)
"""
SIZE_LIMITS = "1 <= len(split(journal)) <= MOST_RECORDS"
PASSAGE_LIMITS = f"""    require(card_limits(positions, counters), {SIZE_LIMITS}, day <= 16383, minute <= 1439,
            operator <= 255, code <= 255, provider <= 255)
"""
NOT_EMPTY = "    require(journal)\n"
REQUIRE_RECORDS = "    require_records(journal)\n"
CHOSEN = """    position, pointer, priority, _ = chosen(contract_list, file, positions, counters, day, operator)
"""
PASSAGE_LIST = """    [new_list] = with_priority(contract_list, positions, counters, position, priority_after(priority))
"""
PASSAGE_EVENT = """    event = passage_event(day, minute, code, provider, pointer)
"""
PASSAGE_ANSWER = """    return [position, pointer, priority, new_list, put_first(event, journal)]
"""
UP_BY_FOUR = """    if priority <= 3:
        return priority + 4
"""
TO_15 = """    return ERASABLE if priority <= 7 else priority
"""
ELEMENTS = """    elements = {EVENT_CODE: code, EVENT_PROVIDER: provider, EVENT_CONTRACT: pointer}
"""
EVENT_BITMAP = """    bitmap = sum(1 << element for element in elements)
"""
EVENT_NUMBERS = "[day, minute, bitmap, *boxes, *inner, bytes(RECORD)]"
PUT_FIRST = """    return event + journal[:-RECORD]
"""
NOT_PASSED = """    return [0, 0, 0, contract_list, journal]
"""
PASSAGE_WORDS = "passage(contract_list, file, journal, positions, counters, day, minute, operator, code, provider)"

# The calls that take C: their first checks, what comes next, and what walks over the list.
CALLS = {
    "reading a list": ("""    require_lengths((record, RECORD))
    require(card_limits(positions, counters))
""", """    return read_contract_list(record, positions, counters)
""", """    read_contract_list(record, positions, 0)
"""),
    "writing a list": ("""    require_lengths((record, RECORD))
    require(card_limits(positions, counters))
""", """    return [write_contract_list(numbers, positions, counters)]
""", """    write_walk(RECORD, numbers, walk_contract_list, positions)
"""),
    "selection": ("""    require_lengths((contract_list, RECORD), (file, RECORD * positions))
    require(card_limits(positions, counters), day <= 16383, operator <= 255)
""", "", READ_LIST),
    "change of priority": ("""    require_lengths((contract_list, RECORD))
    require(card_limits(positions, counters), position >= 1, usable_code(code))
""", "", READ_LIST),
    "loading": ("""    require_lengths((contract_list, RECORD), (file, RECORD * positions), (special_list, RECORD),
                    (records, RECORD * specials), (new, RECORD), (codes, ALL_CODES))
    require_records(journal)
    require(card_limits(positions, counters), specials <= MOST_SPECIALS, len(journal) <= RECORD * MOST_RECORDS,
            day <= 16383, minute <= 1439, hours <= 255, key <= 15, kind <= 255, usable_code(priority),
            network < (1 << 24 if has_network else 1))
""", "", READ_LIST),
    "passage": (PASSAGE_LENGTHS + PASSAGE_LIMITS, "", READ_LIST),
    "second reader": ("""    require_lengths((record, RECORD))
    require(card_limits(positions, counters))
""", """    return with_tally(lab_numbers(lab.contract_list(positions), record), positions, counters)
""", """    lab_numbers(lab.contract_list(positions), record)
"""),
}


def faults_of_c(call):
    """C's limits, in this call. What is let through is cut down, so that no list gets four billion pointers."""
    checks, then, walking = CALLS[call]
    faults = [("C may be above 4", checks.replace(C_LIMITS, "card_limits(positions, min(counters, MOST_COUNTERS))")),
              ("C may be above N", checks.replace(C_LIMITS, "card_limits(positions, min(counters, positions))")),
              ("C has no limits", checks.replace(C_LIMITS, "card_limits(positions, 0)")),
              ("of C the low eight bits count", checks.replace(C_LIMITS, "card_limits(positions, counters % 256)")),
              ("C's limits come before the lengths",
               f"    require(counters <= MOST_COUNTERS, counters <= positions)\n{checks}"),
              ("C's limits come after the walk",
               checks.replace(C_LIMITS, "card_limits(positions, 0)") + f"{walking}    require({C_LIMITS})\n")]
    cut_down = "    counters = min(counters, 255)\n"
    return [(f"{call}: {fault}", checks + then, wrong + cut_down + then) for fault, wrong in faults]


def without_number(*indexes):
    """Of the tally's numbers these are not compared."""
    return (OTHER_TALLY, f"""given, fresh = list(numbers[-4:]), list(tally(contract_entries(numbers), counters))
    for index in {indexes}:
        given[index] = fresh[index]
    if given != fresh:
""")


def each_number(condition):
    """A tally is refused if this holds for any of its numbers."""
    return (OTHER_TALLY, f"""fresh_count = tally(contract_entries(numbers), counters)
    if any({condition} for given, fresh in zip(numbers[-4:], fresh_count)):
""")


def tally_before(*refusals):
    """The tally is checked before these refusals of the fields."""
    return (WRITE_LIST, f"""    try:
    {WRITE_LIST}    except Refused as refused:
        if refused.number in {refusals} and numbers[0] <= MOST_ENTRIES:
            require_tally(numbers, counters)
        raise
""")


def kept_by_change(more="code == ERASABLE", less="old.priority == ERASABLE", side="old.pointer <= counters"):
    """Change of priority with a tally that is kept, not counted again."""
    return (CHANGE_PRIORITY, f"""    old, kept = entries[position - 1], list(tally(entries, counters))
    kept[2 if {side} else 3] += ({more}) - ({less})
    entries[position - 1] = old._replace(priority=code)
    return [write_contract_list(list_numbers(entries, counters)[:-4] + kept, positions, counters)]
""")


def kept_by_loading(removed="old[mask] &= ~bit; old[count] -= 1", appended="old[mask] |= bit",
                    counted="old[count] += priority == ERASABLE", side="pointer <= counters"):
    """Loading with a tally that is kept, not counted again."""
    return (WRITE_NEW_LIST, f"""    old, bit = list(tally(entries, counters)), 1 << pointer - 1
    mask, count = (0, 2) if {side} else (1, 3)
    if len(kept) < len(entries):
        {removed}
    {appended}
    {counted}
    new_list = write_contract_list(list_numbers(kept + [new_entry], counters)[:-4] + old, positions, counters)
""")


def without_going_on(condition):
    """Where this holds, loading without counter does not go on to the counter positions."""
    return ("    if found is None:\n        found = place_among(counter_pointers",
            f"""    used_up_entries = tally(entries, counters)
    if found is None and (needs_counter or not ({condition})):
        found = place_among(counter_pointers""")


# What a passage takes beside the card: the highest number, and the bits that hold it.
PASSAGE_NUMBERS = {"day": (16383, 14), "minute": (1439, 11), "operator": (255, 8), "code": (255, 8),
                   "provider": (255, 8)}


def faults_of_limits():
    """In a passage. What is let through is cut down, so that its event can be made."""
    for name, (most, width) in PASSAGE_NUMBERS.items():
        limit, cut_down = f"{name} <= {most}", f"    {name} = min({name}, {most})\n"
        unlimited, required = PASSAGE_LIMITS.replace(limit, "True"), f"    require({limit})\n"
        for fault, wrong in (
                ("may be one more", PASSAGE_LIMITS.replace(limit, f"{name} <= {most + 1}") + cut_down),
                ("must be less", PASSAGE_LIMITS.replace(limit, f"{name} < {most}")),
                ("must be at least 1", PASSAGE_LIMITS.replace(limit, f"1 <= {name} <= {most}")),
                ("has no limit", unlimited + cut_down),
                (f"counts with its low {width} bits", f"    {name} %= {1 << width}\n" + PASSAGE_LIMITS),
                ("counts with its low 16 bits", f"    {name} %= 65536\n" + PASSAGE_LIMITS),
                ("is limited after the list is read", unlimited + READ_LIST + required),
                ("is limited after the contract is chosen", unlimited + CHOSEN + required)):
            yield f"passage: {name} {fault}", PASSAGE_LIMITS, wrong
        yield f"passage: {name} is limited before the lengths", PASSAGE_LENGTHS, required + PASSAGE_LENGTHS


def journal_as(put_first, before=""):
    """A passage that leaves another journal."""
    return PUT_FIRST, f"{before}    return {put_first}\n"


def element_at(**others):
    """Code, provider or pointer are another element of the event, or none."""
    at = {"code": "EVENT_CODE", "provider": "EVENT_PROVIDER", "pointer": "EVENT_CONTRACT", **others}
    pairs = [f"{element}: {name}" for name, element in at.items() if element != "none"]
    return ELEMENTS, "    elements = dict(sorted({" + ", ".join(pairs) + "}.items()))\n"


def faults_of_elements():
    """The event of a passage has each other element, too, as zero."""
    for element in range(28):
        if element not in (2, 4, 17, 25):
            yield (f"passage: the event has element [{element}]", EVENT_BITMAP,
                   f"    bitmap = sum(1 << element for element in (*elements, {element}))\n")


def chosen_by(key):
    """A passage with the eligible entry for which this is lowest."""
    return (CHOSEN, READ_LIST + f"""    fitting = [(position, entry) for position, entry in enumerate(entries, 1)
               if eligible(entry, part(file, entry.pointer), day, operator)]
    if not fitting:
        raise Refused(8)
    position, entry = min(fitting, key=lambda pair: ({key.format(position="pair[0]", entry="pair[1]")}))
    pointer, priority = entry.pointer, entry.priority
""")


def changed_to(entries, before=""):
    """A passage that leaves these entries in the list."""
    return (PASSAGE_LIST, READ_LIST + "    entry = entries[position - 1]\n" + before + f"""    entries = {entries}
    new_list = write_contract_list(list_numbers(entries, counters), positions, counters)
""")


AS_WRITTEN = ("+ operation.refused(*lent)\n",
              "+ (refused.written if hasattr(refused, 'written') else operation.refused(*lent))\n")


def written_though(text, condition, new_list="contract_list", new_journal="journal"):
    """A passage that is refused here, but has written where this holds."""
    indented = "".join(f"    {line}" for line in text.splitlines(keepends=True))
    return (text, f"""    try:
{indented}    except Refused as refused:
        if {condition}:
            refused.written = [0, 0, 0, {new_list}, {new_journal}]
        raise
""", *AS_WRITTEN)


TAKEN = 'int.from_bytes(record[offset:offset + length], "big")'
PUT = 'to_bip(name, given).to_bytes(length, "big")'
CUT_OFF = PUT, PUT.replace("to_bip(name, given)", "(to_bip(name, given) % (1 << 8 * length))")
FITS = "given < 1 << 8 * length"
BIP_REFUSED = "raise Refused(7, 8 * offset, rank)"
BIP_FIELDS = """    fields = [*value[:8], value[8:16], *value[16:]]         # the eight days are one field
"""
BIP_IN_ORDER = "enumerate(zip(fields, BIP))"
BIP_LENGTHS = {"reading": ("    require_lengths((record, RECORD))\n", "    value = []\n"),
               "writing": ("    require_lengths((record, RECORD))\n", BIP_FIELDS)}
VALUE_READ = "    return value\n"
VALUE_WRITTEN = "    return [bytes(written)]\n"
READ_DATE = "return [LAST_DATE - stored]"
WRITE_DATE = "return LAST_DATE - given"
READ_DAYS = "[stored >> day & 1 for day in range(8)]"
WRITE_DAYS = "sum(valid << day for day, valid in enumerate(given))"
READ_TAG = """    if name == "extension tag" and stored == NO_FURTHER_RECORD:
        return [None]
"""
WRITE_TAG = "return NO_FURTHER_RECORD if given is None else given"
NO_OTHER_TAG = '(name, given) != ("extension tag", NO_FURTHER_RECORD)'
BIP_WORDS = "[NUMBER] * 8 + [FLAG] * 8 + [NUMBER] * 2 + [number_or_none, NUMBER]"
TAG_WORD = 'return None if word == b"-" else NUMBER(word)'
COUNT_WORDS = "    if len(words) != len(kinds):\n"
BIP_NUMBERS = [(name, length) for name, length, _ in BIP if name != "weekdays"]
BIP_AT_FAULT = [(name, length) for name, length in BIP_NUMBERS if length < 4]


def both_ways(fault, reading, writing):
    """On reading, on writing, and on both."""
    yield f"bip: {fault}, on reading", *reading
    yield f"bip: {fault}, on writing", *writing
    yield f"bip: {fault}", *reading, *writing


def box_as(row, more=0, later=0):
    """A field of a BIP contract with a longer box, or with a later one. What becomes too wide is cut off."""
    name, length, offset = row
    return (f'("{name}", {length}, 0x{offset:02X})', f'("{name}", {length + more}, {offset + later})', *CUT_OFF)


def faults_of_boxes():
    """In each row of the BIP contract's table."""
    for row in BIP:
        name, length, offset = row
        yield f"bip: {name} begins a byte late", *box_as(row, later=1)
        yield f"bip: {name} has a byte more", *box_as(row, more=1)
        if offset > 0:
            yield f"bip: {name} begins a byte early", *box_as(row, later=-1)
            yield f"bip: {name} has a byte more, before its first", *box_as(row, more=1, later=-1)
        if length > 1:
            yield f"bip: {name} lacks its last byte", *box_as(row, more=-1)
            yield f"bip: {name} lacks its first byte", *box_as(row, more=-1, later=1)
            low_first = f'"little" if name == "{name}" else "big"'
            yield from both_ways(f"{name} has its low byte first", (TAKEN, TAKEN.replace('"big"', low_first)),
                                 (PUT, PUT.replace('"big"', low_first)))


def faults_of_numbers():
    """In each field of a BIP contract."""
    for name, length, _ in BIP:
        here, top = f'name == "{name}"', (1 << 8 * length - 1) - 1
        yield f"bip: {name} is 0, on reading", TAKEN, f"0 if {here} else {TAKEN}"
        yield f"bip: {name} has bytes of zero, on writing", PUT, f"bytes(length) if {here} else {PUT}"
        yield (f"bip: {name} stays as it was, on writing",
               PUT, f"record[offset:offset + length] if {here} else {PUT}")
        yield (f"bip: {name} loses its highest bit, on reading",
               TAKEN, f"{TAKEN} & ({top} if {here} else -1)")
        yield (f"bip: {name} loses its highest bit, on writing",
               PUT, PUT.replace("to_bip(name, given)", f"(to_bip(name, given) & ({top} if {here} else -1))"))


def faults_of_widths():
    """Of each number of a BIP contract. What is let through is cut off."""
    for name, _ in BIP_NUMBERS:
        here = f'(name == "{name}")'
        yield f"bip: {name} must be less", FITS, f"given < (1 << 8 * length) - {here}"
        yield f"bip: {name} must be at least 1", FITS, f"{here} <= given < 1 << 8 * length"
        yield f"bip: {name} must leave its highest bit zero", FITS, f"given < 1 << 8 * length - {here}"
    for name, length in BIP_AT_FAULT:
        here = f'(name == "{name}")'
        yield f"bip: {name} may be one more", FITS, f"given < (1 << 8 * length) + {here}", *CUT_OFF
        yield f"bip: {name} has no limit", FITS, f"({here} or {FITS})", *CUT_OFF
        for width in (16, 24, 31):
            if width > 8 * length:
                yield (f"bip: {name} counts with its low {width} bits",
                       FITS, f"given % (1 << ({width} if {here} else 32)) < 1 << 8 * length", *CUT_OFF)


def faults_of_refusals():
    """Of each field of a BIP contract that can be at fault."""
    for name, _ in BIP_AT_FAULT:
        for fault, wrong in (("is named by the next rank", BIP_REFUSED.replace("rank", "rank + {}")),
                             ("is named by the rank before", BIP_REFUSED.replace("rank", "rank - {}")),
                             ("is refused a bit late", BIP_REFUSED.replace("offset", "offset + {}")),
                             ("is refused a byte late", BIP_REFUSED.replace("offset", "(offset + {})"))):
            yield f"bip: {name} {fault}", BIP_REFUSED, wrong.format(f'(name == "{name}")')


def faults_of_dates():
    """Of a BIP contract."""
    for fault, names in (("the start is stored as it is", ("start",)), ("the end is stored as it is", ("end",)),
                         ("both dates are stored as they are", ("start", "end"))):
        yield from both_ways(fault, (READ_DATE, f"return [stored if name in {names} else LAST_DATE - stored]"),
                             (WRITE_DATE, f"return given if name in {names} else LAST_DATE - given"))
    for fault, mask in (("the high byte is not turned over", 0x00FFFF), ("the middle byte is not", 0xFF00FF),
                        ("the low byte is not", 0xFFFF00), ("the high byte alone is", 0xFF0000),
                        ("the highest bit is not", 0x7FFFFF), ("the highest bit alone is", 0x800000),
                        ("the lowest bit is not", 0xFFFFFE)):
        yield from both_ways(f"of a date {fault}", (READ_DATE, f"return [stored ^ {mask}]"),
                             (WRITE_DATE, f"return given ^ {mask}"))
    for fault, date in (("a date of 0", "0"), ("the last date", "LAST_DATE")):
        yield from both_ways(f"{fault} is stored as it is",
                             (READ_DATE, f"return [stored if stored == {date} else LAST_DATE - stored]"),
                             (WRITE_DATE, f"return given if given == {date} else LAST_DATE - given"))
    yield from both_ways("dates stand in two's complement", (READ_DATE, "return [-stored % (1 << 24)]"),
                         (WRITE_DATE, "return -given % (1 << 24)"))
    for name in ("serial", "SAM counter"):
        dates = '("start", "end"):\n        '
        yield from both_ways(f"{name} is in complement, too",
                             (dates + READ_DATE, f'("start", "end", "{name}"):\n        {READ_DATE}'),
                             (dates + WRITE_DATE, f'("start", "end", "{name}"):\n        {WRITE_DATE}'))


def day_at(bit):
    """Each day has this bit: texts for reading, and for writing."""
    return ((READ_DAYS, READ_DAYS.replace(">> day", f">> ({bit})")),
            (WRITE_DAYS, WRITE_DAYS.replace("<< day", f"<< ({bit})")))


def faults_of_days():
    """Of a BIP contract's weekdays."""
    for fault, bit in (("Monday is the highest bit", "7 - day"),
                       ("Sunday is the lowest bit", "day if day == 7 else (day + 1) % 7"),
                       ("holidays are the lowest bit", "(day + 1) % 8"), ("Tuesday is the lowest bit", "(day - 1) % 8"),
                       ("the byte's halves are exchanged", "day ^ 4"),
                       ("Sunday and holidays are exchanged", "{6: 7, 7: 6}.get(day, day)")):
        yield from both_ways(fault, *day_at(bit))
    for one, other in ((0, 1), (1, 2), (2, 3), (3, 4), (4, 5), (5, 6), (0, 6), (0, 7)):
        reading, writing = day_at(f"{{{one}: {other}, {other}: {one}}}.get(day, day)")
        yield f"bip: {DAYS[one].title()} and {DAYS[other].title()} are exchanged", *reading, *writing
    for index, day in enumerate(DAYS):
        yield f"bip: {day.title()} never counts, on reading", READ_DAYS, READ_DAYS.replace("& 1", f"& (day != {index})")
        yield (f"bip: {day.title()} never counts, on writing",
               WRITE_DAYS, WRITE_DAYS.replace("valid <<", f"(valid & (day != {index})) <<"))
    yield from both_ways("a one is a day without validity", (READ_DAYS, READ_DAYS.replace("stored", "~stored")),
                         (WRITE_DAYS, WRITE_DAYS.replace("valid <<", "1 - valid <<")))


OTHER_TAGS = (0xA001, 0x9FFF, 0x00A0, 0xA0A0, 0xA100, 0x0A00, 0x0000, 0xFFFF, 0xFF00)


def faults_of_tags():
    """Of a BIP contract's extension tag."""
    yield from both_ways("A000h is a tag's number", (READ_TAG, ""), (NO_OTHER_TAG, "True"))
    for tag in OTHER_TAGS:
        yield f"bip: {tag:04X}h is no tag", "NO_FURTHER_RECORD = 0xA000", f"NO_FURTHER_RECORD = {tag}"
        yield (f"bip: {tag:04X}h is no tag, too, on reading",
               READ_TAG, READ_TAG.replace("== NO_FURTHER_RECORD", f"in (NO_FURTHER_RECORD, {tag})"))
        yield (f"bip: no tag is written as {tag:04X}h",
               WRITE_TAG, WRITE_TAG.replace("NO_FURTHER_RECORD", str(tag)))
        yield (f"bip: {tag:04X}h is refused, too",
               NO_OTHER_TAG, f'(name != "extension tag" or given not in (NO_FURTHER_RECORD, {tag}))')
    for fault, condition in (("any tag of A0h", "{} >> 8 == 0xA0"), ("any tag of record 00h", "{} & 0xFF == 0"),
                             ("any tag without a next record", "{} & 0xF == 0"), ("A000h and more", "{} >= 0xA000")):
        yield (f"bip: {fault} is none, on reading",
               READ_TAG, READ_TAG.replace("stored == NO_FURTHER_RECORD", condition.format("stored")))
        yield (f"bip: {fault} is refused",
               NO_OTHER_TAG, f'not (name == "extension tag" and {condition.format("given")})')


# Words of a BIP contract by their indexes: neighbours, and those that have equal boxes.
EXCHANGED = ((0, 1), (1, 2), (2, 3), (3, 4), (4, 5), (5, 6), (6, 7), (16, 17), (17, 18), (18, 19), (16, 19), (5, 17))


def faults_of_exchange():
    """Of two words of a BIP contract."""
    for one, other in EXCHANGED:
        exchange = f"    value[{one}], value[{other}] = value[{other}], value[{one}]\n"
        yield from both_ways(f"{WORDS[one]} and {WORDS[other]} are exchanged", (VALUE_READ, exchange + VALUE_READ),
                             (BIP_FIELDS, "    value = list(value)\n" + exchange + BIP_FIELDS))


def faults_of_lengths():
    """Of a BIP contract's record, on reading and on writing."""
    for step, (check, then) in BIP_LENGTHS.items():
        for fault, wrong in (("any length", ""), ("28 bytes", check.replace("RECORD", "RECORD - 1")),
                             ("30 bytes", check.replace("RECORD", "RECORD + 1")),
                             ("a record may be longer", f"    record = record[:RECORD]\n{check}"),
                             ("a record may be shorter", f"    record = record.ljust(RECORD, b'\\0')\n{check}"),
                             ("several records", "    require_records(record)\n"),
                             ("nothing is a record", f"    if record:\n    {check}"),
                             ("a Holder's area", "    require_area(record)\n"),
                             ("another length is 11", "    require(len(record) == RECORD)\n"),
                             ("another length is 2", "    if len(record) != RECORD:\n        raise Refused(2)\n")):
            yield f"bip: {fault}, on {step}", check + then, wrong + then


def refused_with(after, condition="True"):
    """A value that is refused leaves another record, where this holds."""
    return (BIP_REFUSED, f"""refused = Refused(7, 8 * offset, rank)
            refused.written = [{after} if {condition} else record]
            raise refused""", *AS_WRITTEN)


def words_as(change, name="bip.write"):
    """A line of this name whose words are changed before they are counted."""
    return COUNT_WORDS, f"""    if name == b"{name}":
        {change}
{COUNT_WORDS}"""


# The second reader's tables, each with its own number of rows.
TABLES = {
    "Environment": lab.ENVIRONMENT,
    "Holder": lab.HOLDER,
    "Event": lab.EVENT,
    "special event list": lab.SPECIAL_LIST,
    "contract list": lab.contract_list(8),
    "contract of 42h": lab.CONTRACTS[0x42],
    "contract of 50h": lab.CONTRACTS[0x50],
}
AFTER_REFUSAL = "    if state.refusal:\n        return state\n"
WIDTH = "width = layout.rows[state.row].widths[state.box]"
ROW_IS_THERE = "is_there(layout.rows[state.row].there, state.slots)"
BROKEN = "broken(layout.rows[state.row].rule, state.slots[-state.box:])"
NEXT_ROW = "open_row(layout, state._replace(row=state.row + 1, box=0))"
RULE_REFUSED = "        return refused(state, number)\n"
RUNS_PAST = "        return refused(state, 2)\n"
AT_THE_END = RUNS_PAST + "    return state\n"
REFUSAL = "refusal=(number, state.first, state.row)"
IS_MARGIN = "if bit and not layout.margin:"
ONE_REFUSED = "return state._replace(refusal=(5, state.place, 0))"
FIELD_BIT = """margin=state.margin + "0")"""
MARGIN_BIT = "margin=state.margin + str(bit))"
CLOSED = "    return close_box(layout, state) if state.taken == width else state\n"
PRESENT_ROWS = "sum(is_there(row.there, state.slots) for row in layout.rows[:state.row])"
PADDED = ("    kind, slot, number = there\n", "    kind, slot, number = there\n    slots = (*slots, *[0] * 200)\n",
          AT_THE_END, RUNS_PAST + """    all_slots = sum(len(row.widths) for row in layout.rows)
    return state._replace(slots=(*state.slots, *[0] * 200)[:all_slots])
""")


def faults_of_rows():
    """In each row of the second reader's tables. A wider [17] does not fit, either; a list's count has other faults."""
    for name, layout in TABLES.items():
        for index, row in enumerate(layout.rows):
            where = f"second reader: {name}, row {index}"
            here = f"(len(layout.rows), state.row) == ({len(layout.rows)}, {index})"
            kind, slot, number = row.there
            if row.widths != (240,):
                yield f"{where}: a bit more", WIDTH, f"{WIDTH} + ({here})"
            if row.there != lab.ALWAYS:
                other = f"{kind, slot, number + 1} if {here} else layout.rows[state.row].there"
                yield f"{where}: by the next element", ROW_IS_THERE, f"is_there({other}, state.slots)"
            if row.rule != lab.ANY and (layout.margin or index):
                yield f"{where}: any number", BROKEN, f"0 if {here} else {BROKEN}"


def faults_of_margins():
    """A list may have one, or another structure has none."""
    for name, layout in TABLES.items():
        here = f"len(layout.rows) == {len(layout.rows)}"
        yield f"second reader: the margin of the {name}", IS_MARGIN, f"if bit and (not layout.margin) != ({here}):"


# What is wrong, the text of model.py or of lab.py that is right (it occurs once), the text in its place; there may be
# several such pairs of texts.
MUTATIONS = [
    ("the first bitmap bit is element [0]",
     "for element in range(width)]",
     "for element in reversed(range(width))]"),
    ("2 comes before 7",
     """        self.check_width(numbers, widths if present else [0] * len(widths))
        if present:
            self.check_room(widths)
""",
     """        if present:
            self.check_room(widths)
        self.check_width(numbers, widths if present else [0] * len(widths))
        if present:
"""),
    ("4 comes before 2 on writing",
     """            self.check_room(widths)
            self.check_rule(numbers, rule, place=self.place)
""",
     """            self.check_rule(numbers, rule, place=self.place)
            self.check_room(widths)
"""),
    ("a field that would begin past the end has the last bit as place",
     "self.refuse(2, self.place)",
     "self.refuse(2, min(self.place, self.size - 1))"),
    ("the bits after the last field are unchecked",
     "if one >= 0:",
     "if False:"),
    ("5 is at the last one, not the first",
     'self.bits.find("1", self.place)',
     'self.bits.rfind("1", self.place)'),
    ("priority 13 may be read and written",
     "lambda key, kind, priority: priority != UNDEFINED",
     "lambda key, kind, priority: True"),
    ("a wrong priority's place is its own, not the tariff's",
     "self.check_rule(numbers, rule, place=first)",
     "self.check_rule(numbers, rule, place=self.place - widths[-1])"),
    ("a text's place is that of the letter at fault",
     """        if any(number >> width for number, width in zip(numbers, widths)):
            self.refuse(7, self.place)
""",
     """        for index, (number, width) in enumerate(zip(numbers, widths)):
            if number >> width:
                self.refuse(7, self.place + sum(widths[:index]))
"""),
    ("data that do not agree have place 0",
     """        if self.lent.pop(0) != tag:
            self.refuse(7, self.place)
""",
     """        if self.lent.pop(0) != tag:
            self.refuse(7, 0)
"""),
    ("the minute of 50h has no limit",
     '("end minute", 11, MINUTE)',
     '("end minute", 11, None)'),
    ("minute 1440 is a minute",
     "minute <= 1439)",
     "minute <= 1440)"),
    ("place code 100000 is a code",
     "code <= 99999",
     "code <= 100000"),
    ("an event may name contract 20",
     "pointer <= 19",
     "pointer <= 20"),
    ("there may be five profiles",
     "at_most(MOST_PROFILES)",
     "at_most(MOST_PROFILES + 1)"),
    ("an uncounted profile is not looked at",
     """        inner = walk.bitmap(prefix + "bitmap", 3, index < count)
        walk.elements(PROFILE, inner, prefix)
""",
     """        if isinstance(walk, Writing) and index >= count:
            walk.lent[:4] = [0] * 4
        inner = walk.bitmap(prefix + "bitmap", 3, index < count)
        walk.elements(PROFILE, inner, prefix)
"""),
    ("a refused write leaves zeros",
     """    \"\"\"A lent buffer as it is after the call.\"\"\"
    return [lent]
""",
     """    return [bytes(len(lent))]
"""),
    ("a repeated pointer is the earlier entry's fault",
     "raise Refused(6, number)",
     "raise Refused(6, seen.index(pointer) + 1 if pointer in seen else number)"),
    ("a written list need not keep the list rule",
     """    require_contract_list_rule(numbers, positions)
    require_tally(numbers, counters)
""",
     """    require_tally(numbers, counters)
"""),
    ("1 and 11 swapped in selection",
     """    require_lengths((contract_list, RECORD), (file, RECORD * positions))
    require(card_limits(positions, counters), day <= 16383, operator <= 255)
""",
     """    require(card_limits(positions, counters), day <= 16383, operator <= 255)
    require_lengths((contract_list, RECORD), (file, RECORD * positions))
"""),
    ("29 x N wraps at 2^32",
     "(file, RECORD * positions))\n    require(",
     "(file, RECORD * positions % (1 << 32)))\n    require("),
    ("priority 12 is eligible",
     "LAST_USABLE, UNDEFINED, ERASABLE = 11, 13, 15",
     "LAST_USABLE, UNDEFINED, ERASABLE = 12, 13, 15"),
    ("the last among equals is chosen",
     "entry.priority < best[1].priority",
     "entry.priority <= best[1].priority"),
    ("the first eligible entry is chosen, whatever its priority",
     "best is None or entry.priority < best[1].priority",
     "best is None"),
    ("key 15 with an operator below 15",
     'operator >= OWN_PROVIDER and contract["provider"]',
     'contract["provider"]'),
    ("the end date is exclusive",
     "day > end",
     "day >= end"),
    ("the start date is exclusive",
     "day < start",
     "day <= start"),
    ("an end date of zero limits",
     "end != 0 and day",
     "day"),
    ("50h's own end date is left out",
     'contract["end date"] + contract.get("own end date", [])',
     'contract["end date"]'),
    ("group [12] is left out",
     'contract["start date"] + contract.get("own start date", [])',
     'contract["start date"]'),
    ("code 13 may be given to an entry",
     "return code <= 15 and code != UNDEFINED",
     "return code <= 15"),
    ("the difference for an event's age is absolute",
     "if age < 0 or age < quiet:",
     "if abs(age) < quiet:"),
    ("an event just 60 x hours old blocks",
     "age < quiet:",
     "age <= quiet:"),
    ("a journal of 16 records",
     "len(journal) <= RECORD * MOST_RECORDS",
     "len(journal) <= RECORD * (MOST_RECORDS + 1)"),
    ("unlisted special events block",
     '[special_events[entry.pointer - 1]["[25]"][0] for entry in listed_specials]',
     '[event["[25]"][0] for event in special_events]'),
    ("special event records go by the entry's position",
     'special_events[entry.pointer - 1]["[25]"][0] for entry in listed_specials',
     'special_events[index]["[25]"][0] for index, entry in enumerate(listed_specials)'),
    ("an unlisted special event record is not read",
     "special_events = read_events(records)",
     "special_events = [read_walk(record, walk_event) if pointer in [entry.pointer for entry in listed_specials]"
     " else {} for pointer, record in enumerate(split(records), 1)]"),
    ("the new contract is not read",
     "    read_contract(new, kind)\n",
     ""),
    ("the lowest erasable pointer is taken, not the first listed",
     "places = free + erasable",
     "places = free + sorted(erasable)"),
    ("an erasable entry is taken before a free pointer",
     "places = free + erasable",
     "places = erasable + free"),
    ("a free pointer that an event names is blocked",
     "if pointer not in listed]",
     "if pointer not in listed + blocked]"),
    ("a blocked entry is taken",
     " and entry.pointer not in blocked",
     ""),
    ("the last counter pointer is plain as well",
     "plain_pointers = range(counters + 1, positions + 1)",
     "plain_pointers = range(max(counters, 1), positions + 1)"),
    ("without counter there is no way to a counter pointer",
     """    if found is None:
        found = place_among(counter_pointers""",
     """    if needs_counter:
        found = place_among(counter_pointers"""),
    ("the new entry stands first",
     "list_numbers(kept + [new_entry], counters)",
     "list_numbers([new_entry] + kept, counters)"),
    ("the new entry stands where the old one was",
     "list_numbers(kept + [new_entry], counters)",
     "list_numbers([new_entry if entry.pointer == pointer else entry for entry in entries]"
     " + [new_entry] * (len(kept) == len(entries)), counters)"),
    ("only the first gate write is applied",
     "for write in split(writes):",
     "for write in split(writes)[:1]:"),
    ("find gives the last falling bit",
     'falling.find("1"))',
     'falling.rfind("1"))'),
    ("joined is bitwise and",
     "return [either(one, other)]",
     "return [bytes(a & b for a, b in zip(one, other))]"),
    ("a line of 8,193 bytes is taken",
     "LONGEST_LINE = 8192",
     "LONGEST_LINE = 8193"),

    # Q-2: the field's number
    ("an absent field is not counted",
     "self.rank += 1\n        return numbers",
     "self.rank += present\n        return numbers"),
    ("fields are counted from 1",
     "    rank = 0 ",
     "    rank = 1 "),
    ("a tariff counts for three fields",
     "self.rank += 1\n        return numbers",
     "self.rank += 3 if len(widths) == 3 else 1\n        return numbers"),
    ("a text counts a field for each letter",
     "self.rank += 1\n        return numbers",
     "self.rank += len(widths) if len(widths) > 3 else 1\n        return numbers"),
    ("a letter too wide is named by its own number",
     """        if any(number >> width for number, width in zip(numbers, widths)):
            self.refuse(7, self.place)
""",
     """        for index, (number, width) in enumerate(zip(numbers, widths)):
            if number >> width:
                raise Refused(7, self.place, self.rank + index)
"""),
    ("a wrong priority is named by its own number",
     "self.refuse(rule.refusal, place)",
     "raise Refused(rule.refusal, place, self.rank + len(numbers) - 1)"),
    ("EnvData2 is named, not its bitmap",
     "self.refuse(rule.refusal, place)",
     "raise Refused(rule.refusal, place, 10 if rule is NO_ENV_DATA_2 else self.rank)"),
    ("bitmaps are not counted",
     "        number = self.number(name, width, present, rule)\n",
     "        number = self.number(name, width, present, rule)\n        self.rank -= 1\n"),
    ("event [17] is not counted",
     "            self.check_room([width])\n        self.rank += 1\n",
     "            self.check_room([width])\n"),
    ("a field past the end is named by the one before it",
     "self.refuse(2, self.place)",
     "raise Refused(2, self.place, self.rank - 1)"),
    ("5 names the last field",
     "raise Refused(5, one)",
     "raise Refused(5, one, self.rank - 1)"),
    ("5 gives the number of fields",
     "raise Refused(5, one)",
     "raise Refused(5, one, self.rank)"),
    ("6 names the entry's bitmap",
     "raise Refused(6, number)",
     "raise Refused(6, number, 1 + (number - 1) * (4 if complete == LIST_COMPLETE else 5))"),
    ("the type's 3 names the first field of the data",
     "raise Refused(3)",
     "raise Refused(3, 0, 9)"),
    ("data that do not agree give 8",
     """        if self.lent.pop(0) != tag:
            self.refuse(7, self.place)
""",
     """        if self.lent.pop(0) != tag:
            raise Refused(7, self.place, 8)
"""),
    ("data that do not agree give 0",
     """        if self.lent.pop(0) != tag:
            self.refuse(7, self.place)
""",
     """        if self.lent.pop(0) != tag:
            raise Refused(7, self.place)
"""),
    ("a contract's data are counted from 0",
     "    walk.tag(kind if data_follow else NO_DATA)\n",
     "    walk.tag(kind if data_follow else NO_DATA)\n    walk.rank = 0\n"),
    ("the validity bitmap is not counted",
     """    inner = walk.bitmap("validity bitmap", 2, present[4])
""",
     """    inner = walk.bitmap("validity bitmap", 2, present[4])
    walk.rank -= 1
"""),
    ("a group of 50h is one field",
     "        walk.elements(group, [is_present] * len(group))\n",
     "        walk.elements(group, [is_present] * len(group))\n        walk.rank -= len(group) - 1\n"),
    ("an uncounted profile is not counted",
     "        walk.elements(PROFILE, inner, prefix)\n",
     "        walk.elements(PROFILE, inner, prefix)\n        walk.rank -= 0 if index < count else 4\n"),
    ("an uncounted entry of the special event list is not counted",
     "        walk.elements(SPECIAL_ENTRY, inner, prefix)\n",
     "        walk.elements(SPECIAL_ENTRY, inner, prefix)\n        walk.rank -= 0 if index < count else 5\n"),
    ("an uncounted entry of the contract list is not counted",
     """        walk.number(prefix + "pointer", 5, inner[2])
""",
     """        walk.number(prefix + "pointer", 5, inner[2])
        walk.rank -= 0 if index < count else 4
"""),
    ("selection drops the field",
     READ_LIST + "    best = None\n",
     nameless(READ_LIST.strip()) + "    best = None\n"),
    ("change of priority drops the field",
     READ_LIST + "    require(position <= len(entries))\n",
     nameless(READ_LIST.strip()) + "    require(position <= len(entries))\n"),
    ("loading drops the field of the old list",
     READ_LIST + "    listed_specials",
     nameless(READ_LIST.strip()) + "    listed_specials"),
    ("loading drops the field of a journal event",
     "    journal_events = read_events(journal)\n",
     nameless("journal_events = read_events(journal)")),
    ("loading drops the field of a special event",
     "    special_events = read_events(records)\n",
     nameless("special_events = read_events(records)")),
    ("loading drops the field of the new contract",
     "    read_contract(new, kind)\n",
     nameless("read_contract(new, kind)")),
    ("loading drops the field of a new list that does not fit",
     WRITE_NEW_LIST,
     nameless(WRITE_NEW_LIST.strip())),

    # Q-7: the margin, read
    ("the margin is not read",
     READ_MARGIN,
     """        bits = ""
"""),
    ("the margin that is read has the fields, too",
     READ_MARGIN,
     """        bits = self.bits
"""),
    ("the margin that is read begins at bit 0",
     READ_MARGIN,
     """        bits = self.bits[self.place:]
"""),
    ("the margin begins at bit 0, read and written",
     READ_MARGIN,
     """        bits = self.bits[self.place:]
""",
     CHECK_MARGIN + KEEP_MARGIN,
     """        self.bits += margin[:self.size - self.place]
"""),
    ("the margin that is read begins a bit early",
     READ_MARGIN,
     """        bits = "0" * (self.place - 1) + self.bits[self.place - 1:]
"""),
    ("the margin that is read begins a bit late",
     READ_MARGIN,
     """        bits = "0" * (self.place + 1) + self.bits[self.place + 1:]
"""),
    ("the margin that is read begins with a whole byte",
     READ_MARGIN,
     """        whole = -(-self.place // 8) * 8
        bits = "0" * whole + self.bits[whole:]
"""),
    ("the margin that is read ends a bit early",
     READ_MARGIN,
     """        bits = "0" * self.place + self.bits[self.place:-1]
"""),
    ("a Holder's margin ends with the record in which the last field ends",
     READ_MARGIN,
     """        bits = "0" * self.place + self.bits[self.place:-(-self.place // 232) * 232]
"""),
    ("absent fields take place, on reading",
     STEP,
     STEP + COUNT_ABSENT,
     READ_MARGIN,
     """        bits = "0" * (self.place + self.absent) + self.bits[self.place + self.absent:]
"""),
    ("the margin of a short Holder area has the area's length",
     'bits.ljust(8 * length, "0")',
     "bits"),
    ("a contract without data has no margin",
     """        walk_data_50(walk)
    walk.margin(RECORD)
""",
     """        walk_data_50(walk)
    if isinstance(walk, Reading) and not data_follow:
        walk.bits = walk.bits[:walk.place].ljust(walk.size, "0")
    walk.margin(RECORD)
"""),
    ("an Environment with a margin is refused",
     """    walk.number("card status", 1, inner[0])
    walk.margin(RECORD)
""",
     """    walk.number("card status", 1, inner[0])
    walk.no_margin()
    walk.margin(RECORD)
"""),
    ("a Holder with a margin is refused",
     "    walk.margin(LARGEST_AREA)\n",
     "    walk.no_margin()\n    walk.margin(LARGEST_AREA)\n"),
    ("an event with a margin is refused",
     """    walk.elements(EVENT_DATA, inner)
    walk.margin(RECORD)
""",
     """    walk.elements(EVENT_DATA, inner)
    walk.no_margin()
    walk.margin(RECORD)
"""),
    ("a contract with a margin is refused",
     """        walk_data_50(walk)
    walk.margin(RECORD)
""",
     """        walk_data_50(walk)
    walk.no_margin()
    walk.margin(RECORD)
"""),
    ("a contract list may have ones after its last field",
     """        walk.number(prefix + "pointer", 5, inner[2])
    walk.no_margin()
""",
     """        walk.number(prefix + "pointer", 5, inner[2])
"""),
    ("a special event list may have ones after its last field",
     """        walk.elements(SPECIAL_ENTRY, inner, prefix)
    walk.no_margin()
""",
     """        walk.elements(SPECIAL_ENTRY, inner, prefix)
"""),

    # Q-7: the margin, written
    ("the margin is not written",
     KEEP_MARGIN,
     ""),
    ("the first bit of the margin is not written",
     KEEP_MARGIN,
     """        self.bits += "0" * (self.place < self.size) + margin[self.place + 1:self.size]
"""),
    ("the last bit of the margin is not written",
     KEEP_MARGIN,
     """        self.bits += margin[self.place:self.size - 1]
"""),
    ("the last byte of the lent record stays where the margin is zero",
     "    return [write_walk(RECORD, numbers, walk_event)]\n",
     "    return [either(write_walk(RECORD, numbers, walk_event), bytes(28) + record[28:])]\n"),
    ("a one in a field's place is put into the field",
     CHECK_MARGIN + KEEP_MARGIN,
     """        if past >= 0:
            raise Refused(7, past)
        fields = int(self.bits, 2) | int(margin[:self.place], 2)
        self.bits = f"{fields:0{self.place}b}" + margin[self.place:self.size]
"""),
    ("a one in a field's place is cleared",
     'in_a_field = margin.find("1", 0, self.place)',
     "in_a_field = -1"),
    ("a one in a field's place is let through where the field has a one there",
     'in_a_field = margin.find("1", 0, self.place)',
     'in_a_field = next((at for at in range(self.place) if margin[at] > self.bits[at]), -1)'),
    ("a one in the last byte of the fields is let through",
     'margin.find("1", 0, self.place)',
     'margin.find("1", 0, self.place // 8 * 8)'),
    ("a one in the last bit of the fields is let through",
     'margin.find("1", 0, self.place)',
     'margin.find("1", 0, self.place - 1)'),
    ("a one in the first bit of the record is let through",
     'margin.find("1", 0, self.place)',
     'margin.find("1", 1, self.place)'),
    ("a one in the first bit after the fields is refused",
     'margin.find("1", 0, self.place)',
     'margin.find("1", 0, self.place + 1)'),
    ("absent fields take place, on writing",
     STEP,
     STEP + COUNT_ABSENT,
     'margin.find("1", 0, self.place)',
     'margin.find("1", 0, self.place + self.absent)'),
    ("a one past a short Holder area is let through",
     'past = margin.find("1", self.size)',
     "past = -1"),
    ("a one in the first bit past a short Holder area is let through",
     'margin.find("1", self.size)',
     'margin.find("1", self.size + 1)'),
    ("a one in the last bit of the margin is let through",
     'margin.find("1", self.size)',
     'margin.find("1", self.size, len(margin) - 1)'),
    ("a one in the last bit of the record is refused",
     'margin.find("1", self.size)',
     'margin.find("1", self.size - 1)'),
    ("a one past a short Holder area is counted from the area's end",
     'margin.find("1", self.size)',
     'margin[self.size:].find("1")'),
    ("a one past a short Holder area has the area's end as place",
     'past = margin.find("1", self.size)',
     'past = self.size if "1" in margin[self.size:] else -1'),
    ("the last one in a field's place is named",
     'margin.find("1", 0, self.place)',
     'margin.rfind("1", 0, self.place)'),
    ("the last one past a short Holder area is named",
     'margin.find("1", self.size)',
     'margin.rfind("1", self.size)'),
    ("a one past a short Holder area is named before one in a field's place",
     "for wrong in (in_a_field, past):",
     "for wrong in (past, in_a_field):"),
    ("the first one of the margin is named, right or wrong",
     "raise Refused(7, wrong)",
     'raise Refused(7, margin.find("1"))'),
    ("the margin's fault has the bit reached as place",
     "raise Refused(7, wrong)",
     "raise Refused(7, self.place)"),
    ("the margin's fault has place 0",
     "raise Refused(7, wrong)",
     "raise Refused(7)"),
    ("the margin's fault gives the number of fields",
     "raise Refused(7, wrong)",
     "self.refuse(7, wrong)"),
    ("the margin's fault names the last field",
     "raise Refused(7, wrong)",
     "raise Refused(7, wrong, self.rank - 1)"),
    ("the margin's fault is 5",
     "raise Refused(7, wrong)",
     "raise Refused(5, wrong)"),
    ("the fields are written though the margin is at fault",
     "raise Refused(7, wrong)",
     """fault = Refused(7, wrong)
                fault.written = self.record()
                raise fault""",
     "+ operation.refused(*lent)\n",
     "+ ([refused.written] if hasattr(refused, 'written') else operation.refused(*lent))\n"),
    ("a one past a short Holder area is 2",
     "raise Refused(7, wrong)",
     "raise Refused(2 if wrong == past else 7, wrong)"),
    ("the margin is checked before the fields",
     WALK_TO_WRITE,
     """    unchecked = type("Unchecked", (Writing,), {"refuse": lambda *_: None})(8 * size, numbers)
    try:
        walk_layout(unchecked, *parameters)
    except (IndexError, TypeError):
        pass                     # data that do not agree
""" + WALK_TO_WRITE),
    ("the margin is checked at each field",
     """        self.bits += f"{number:0{width}b}"
""",
     """        if self.lent and isinstance(self.lent[-1], bytes):
            one = to_bits(self.lent[-1]).find("1", self.place, self.place + width)
            if one >= 0:
                raise Refused(7, one)
        self.bits += f"{number:0{width}b}"
"""),
    ("a one past a short Holder area is found before the fields are checked",
     WALK_TO_WRITE,
     """    if isinstance(numbers[-1], bytes) and "1" in to_bits(numbers[-1])[8 * size:]:
        raise Refused(7, to_bits(numbers[-1]).find("1", 8 * size))
""" + WALK_TO_WRITE),
    ("the margin is checked before the data's agreement",
     """        if self.lent.pop(0) != tag:
""",
     """        if self.lent.pop(0) != tag:
            one = to_bits(self.lent[-1]).find("1", 0, self.place)
            if one >= 0:
                raise Refused(7, one)
"""),
    ("the margin is checked before the type",
     """    require_type(kind)
    return [write_walk(""",
     """    if any(numbers[-1]) and to_bits(numbers[-1]).find("1") < 7:
        raise Refused(7, to_bits(numbers[-1]).find("1"))
    require_type(kind)
    return [write_walk("""),
    ("the margin is checked before the length",
     """    require_area(area)
    return [write_walk(""",
     """    if any(numbers[-1]) and to_bits(numbers[-1]).find("1") < 8:
        raise Refused(7, to_bits(numbers[-1]).find("1"))
    require_area(area)
    return [write_walk("""),

    # Q-7: the margin on a card
    ("a contract with a margin is not eligible",
     """    except Refused:
        return False
    return key_fits(""",
     """    except Refused:
        return False
    if any(contract["margin"][0]):
        return False
    return key_fits("""),
    ("among equals a contract without a margin goes first",
     "best is None or entry.priority < best[1].priority:",
     """best is None or entry.priority < best[1].priority or (entry.priority == best[1].priority and any(
                    read_contract(part(file, best[1].pointer), best[1].kind)["margin"][0]) and not any(
                    read_contract(part(file, entry.pointer), entry.kind)["margin"][0])):"""),
    ("selection gives the part without its margin",
     "    return [position, entry.pointer, entry.priority, part(file, entry.pointer)]\n",
     "    chosen = part(file, entry.pointer)\n    return [position, entry.pointer, entry.priority, "
     + PLAIN_CONTRACT.format("chosen", "entry.kind") + "]\n"),
    ("a new contract with a margin is refused",
     "    read_contract(new, kind)\n",
     without_margins("new_value = read_contract(new, kind)", "[new_value]")),
    ("the new contract is written without its margin",
     "file[:RECORD * (pointer - 1)] + new +",
     "file[:RECORD * (pointer - 1)] + " + PLAIN_CONTRACT.format("new", "kind") + " +"),
    ("a journal event with a margin is refused",
     "    journal_events = read_events(journal)\n",
     without_margins("journal_events = read_events(journal)", "journal_events")),
    ("a special event with a margin is refused",
     "    special_events = read_events(records)\n",
     without_margins("special_events = read_events(records)", "special_events")),
    ("a journal event with a margin blocks nothing",
     "if age < 0 or age < quiet:",
     'if (age < 0 or age < quiet) and not any(event["margin"][0]):'),
    ("a listed special event with a margin blocks nothing",
     "for entry in listed_specials]\n",
     'for entry in listed_specials\n                if not any(special_events[entry.pointer - 1]["margin"][0])]\n'),

    # Q-7: the margin as a word
    ("a margin may be shorter",
     "if len(lent) != length:",
     "if len(lent) > length:"),
    ("a margin may be longer",
     "if len(lent) != length:",
     "if len(lent) < length:"),
    ("a Holder's margin may have the length of any area",
     "if len(lent) != length:",
     "if len(lent) != length and (length == RECORD or len(lent) not in HOLDER_AREAS):"),
    ("a margin of another length is refusal 1",
     "if len(lent) != length:",
     "if False:",
     """        margin = to_bits(self.lent.pop(0))
""",
     """        margin = to_bits(self.lent.pop(0))
        if len(margin) != 8 * length:
            raise Refused(1)
"""),
    ("an empty margin is one of zeros",
     "if len(lent) != length:",
     "if lent == b\"\":\n            return bytes(length)\n        if len(lent) != length:"),

    # Q-3: the bit of a code
    ("a code's bit is counted from the low end of its byte",
     CODE,
     'event["[2]"][0] ^ 0b00000111] == "1"'),
    ("a code's byte is counted from the last",
     CODE,
     'event["[2]"][0] ^ 0b11111000] == "1"'),
    ("a code's bit is counted from the last of all",
     CODE,
     '255 - event["[2]"][0]] == "1"'),
    ("codes are counted from 1",
     CODE,
     'event["[2]"][0] - 1] == "1"'),
    ("the next code's bit is asked",
     CODE,
     '(event["[2]"][0] + 1) % 256] == "1"'),
    ("of a code the low seven bits count",
     CODE,
     'event["[2]"][0] % 128] == "1"'),
    ("of a code the low five bits count",
     CODE,
     'event["[2]"][0] % 32] == "1"'),
    ("of a code the low four bits count, the transaction",
     CODE,
     'event["[2]"][0] % 16] == "1"'),
    ("the halves of a code are exchanged",
     CODE,
     'event["[2]"][0] % 16 * 16 + event["[2]"][0] // 16] == "1"'),
    ("the low five bits of a code are its byte, the high three its bit",
     CODE,
     'event["[2]"][0] % 32 * 8 + event["[2]"][0] // 32] == "1"'),
    ("a code is marked if its byte is not zero",
     BIT + ' == "1"',
     'codes[event["[2]"][0] // 8] != 0'),
    ("a code is marked if any is",
     BIT + ' == "1"',
     'any(codes)'),
    ("unmarked codes block, marked ones do not",
     BIT + ' == "1"',
     BIT + ' == "0"'),
    ("any code blocks",
     IS_MARKED,
     "    return has_code\n"),
    ("no code blocks",
     IS_MARKED,
     "    return False\n"),

    # Q-3: whether there is a code
    ("an event without a code blocks as code 0",
     IS_MARKED,
     IS_MARKED.replace("has_code and ", "")),
    ("an event without a code blocks always",
     IS_MARKED,
     IS_MARKED.replace("has_code and", "not has_code or")),
    ("an event without a code blocks if all codes are marked",
     IS_MARKED,
     IS_MARKED.replace("has_code and", "all(byte == 255 for byte in codes) or has_code and")),
    ("a code of zero is none",
     HAS_CODE,
     """    has_code = event["[2]"][0] != 0
"""),
    ("element [1] says whether there is a code",
     HAS_CODE,
     HAS_CODE.replace("EVENT_CODE", "1")),
    ("element [3] says whether there is a code",
     HAS_CODE,
     HAS_CODE.replace("EVENT_CODE", "3")),
    ("display data [0] are taken for the code",
     *element_as_code(0)),
    ("the result [3] is taken for the code",
     *element_as_code(3)),
    ("the provider [4] is taken for the code",
     *element_as_code(4)),
    ("the provider [4] is taken for the code of an event that has one",
     CODE,
     CODE.replace("[2]", "[4]")),
    ("the eight bits behind the bitmap are taken for the code",
     CODE,
     'event["[0]"][0] if event["bitmap"][0] & 1 else event["[1]"][0] >> 16 if event["bitmap"][0] & 2 else '
     'event["[2]"][0]] == "1"'),

    # Q-3: what else blocks
    ("special events need a marked code, too",
     "for entry in listed_specials]\n",
     "for entry in listed_specials\n                if marked(special_events[entry.pointer - 1], codes)]\n"),
    ("special events need a code, marked or not",
     "for entry in listed_specials]\n",
     "for entry in listed_specials\n"
     '                if special_events[entry.pointer - 1]["bitmap"][0] >> EVENT_CODE & 1]\n'),
    ("special events with a code need a marked one",
     "for entry in listed_specials]\n",
     "for entry in listed_specials\n                if marked(special_events[entry.pointer - 1], codes)"
     ' or not special_events[entry.pointer - 1]["bitmap"][0] >> EVENT_CODE & 1]\n'),
    ("special events that are not listed block if their code is marked",
     "for entry in listed_specials]\n",
     """for entry in listed_specials]
    blocked += [event["[25]"][0] for event in special_events if marked(event, codes)]
"""),
    ("marked events block whatever their age",
     "if age < 0 or age < quiet:",
     "if True:"),
    ("marked events block every pointer",
     'pointers += event["[25]"]',
     "pointers += range(1, MOST_ENTRIES + 1)"),
    ("events later than now block unmarked",
     MARKED_EVENTS,
     """    marked_events = [event for event in journal_events if marked(event, codes)
                     or minutes(event["date"][0], event["minute"][0]) > minutes(day, minute)]
"""),
    ("marked events later than now block nothing",
     "if age < 0 or age < quiet:",
     "if 0 <= age < quiet:"),

    # Q-3: several events
    ("only the first event is asked for its code, the others block without",
     MARKED_EVENTS,
     """    marked_events = [event for index, event in enumerate(journal_events) if index or marked(event, codes)]
"""),
    ("only the first event blocks",
     MARKED_EVENTS,
     MARKED_EVENTS.replace("journal_events", "journal_events[:1]")),
    ("only the last event blocks",
     MARKED_EVENTS,
     MARKED_EVENTS.replace("journal_events", "journal_events[-1:]")),
    ("the first event's code stands for all",
     MARKED_EVENTS,
     MARKED_EVENTS.replace("marked(event, codes)", "marked(journal_events[0], codes)")),
    ("one marked event lets all events block",
     MARKED_EVENTS,
     MARKED_EVENTS.replace("marked(event, codes)", "any(marked(other, codes) for other in journal_events)")),
    ("events block only if all are marked",
     MARKED_EVENTS,
     MARKED_EVENTS.replace("marked(event, codes)", "all(marked(other, codes) for other in journal_events)")),
    ("no event is asked behind one that is not marked",
     MARKED_EVENTS,
     """    marked_events = []
    for event in journal_events:
        if not marked(event, codes):
            break
        marked_events.append(event)
"""),
    ("of the events that name a pointer the first decides",
     MARKED_EVENTS,
     """    deciding = {event["[25]"][0]: event for event in reversed(journal_events)}
    marked_events = [event for event in deciding.values() if marked(event, codes)]
"""),
    ("of the events that name a pointer the last decides",
     MARKED_EVENTS,
     """    deciding = {event["[25]"][0]: event for event in journal_events}
    marked_events = [event for event in deciding.values() if marked(event, codes)]
"""),
    ("an event whose code is not marked is not read",
     READ_JOURNAL,
     PEEK + """    journal_events = read_events(b"".join(record for record in split(journal)
                                          if marked(peek(record), codes) or not peek(record)["bitmap"][0] & 0b100))
"""),
    ("an event without a code is not read",
     READ_JOURNAL,
     PEEK + """    journal_events = read_events(b"".join(record for record in split(journal)
                                          if peek(record)["bitmap"][0] & 0b100))
"""),
    ("marked events are read before the others",
     READ_JOURNAL,
     PEEK + """    in_turn = sorted(split(journal), key=lambda record: not marked(peek(record), codes))
    journal_events = read_events(b"".join(in_turn))
"""),

    # Q-3: CODES lent, and as a word
    ("the length of CODES is not checked",
     *length_as("")),
    ("CODES may be longer",
     *length_as("(codes[:ALL_CODES], ALL_CODES)")),
    ("CODES may be shorter",
     *length_as("(codes.ljust(ALL_CODES), ALL_CODES)")),
    ("CODES may have any multiple of 32 bytes",
     *length_as("(bytes(len(codes) % ALL_CODES), 0)")),
    ("no CODES mark nothing",
     *length_as("(codes or bytes(ALL_CODES), ALL_CODES)")),
    ("no CODES mark all codes",
     *length_as("(codes or bytes(ALL_CODES), ALL_CODES)", beyond="1")),
    ("the length of CODES is checked only where there is a journal",
     *length_as("(codes if journal else bytes(ALL_CODES), ALL_CODES)")),
    ("11 comes before the length of CODES",
     CODES_LENGTH,
     ")",
     LAST_LIMIT,
     LAST_LIMIT + "    require_lengths((codes, ALL_CODES))\n"),
    ("the length of CODES is checked after all reading",
     CODES_LENGTH,
     ")",
     MARKED_EVENTS,
     "    require_lengths((codes, ALL_CODES))\n" + MARKED_EVENTS),
    ("another length of CODES is 11",
     CODES_LENGTH,
     ")",
     LAST_LIMIT,
     LAST_LIMIT.replace("else 1))", "else 1), len(codes) == ALL_CODES)")),
    ("another length of CODES is a bad line",
     "[byte_string] * 7",
     "[byte_string] * 6 + [margin_of(ALL_CODES)]"),
    ("CODES stands before NEW",
     "journal, records, new, codes, positions",
     "journal, records, codes, new, positions"),
    ("a line without CODES is taken, and all codes are marked",
     "    if len(words) != len(kinds):\n",
     """    if name == b"load" and len(words) == len(kinds) - 1:
        words.insert(6, b"FF" * ALL_CODES)
    if len(words) != len(kinds):
"""),

    # Q-5: the order of reading
    ("loading reads the list after all else",
     *read_in_order("special list", "journal", "records", "new contract", "list")),
    ("loading reads the list after the special event list",
     *read_in_order("special list", "list", "journal", "records", "new contract")),
    ("loading reads the journal before the special event list",
     *read_in_order("list", "journal", "special list", "records", "new contract")),
    ("loading reads the special event records before the journal",
     *read_in_order("list", "special list", "records", "journal", "new contract")),
    ("loading reads the new contract before the special event records",
     *read_in_order("list", "special list", "journal", "new contract", "records")),
    ("loading reads the new contract first",
     *read_in_order("new contract", "list", "special list", "journal", "records")),

    # Q-5: an entry removed, and the new record put in its place
    ("the entry behind the removed one is lost",
     KEPT, at_removed("entries[:at] + entries[at + 2:]")),
    ("the entry before the removed one is lost",
     KEPT, at_removed("entries[:max(at - 1, 0)] + entries[at + 1:]")),
    ("the last entry takes the place of the removed one",
     KEPT, at_removed("entries[:at] + entries[at + 1:][-1:] + entries[at + 1:][:-1]")),
    ("the removed entry stays where it was the last",
     KEPT, at_removed("entries[:at] + (entries[at + 1:] or entries[at:])")),
    ("the last byte of the old record stays",
     NEW_FILE, NEW_FILE.replace("new + file[RECORD * pointer:]", "new[:-1] + file[RECORD * pointer - 1:]")),
    ("the first byte of the old record stays",
     NEW_FILE, NEW_FILE.replace("(pointer - 1)] + new", "(pointer - 1) + 1] + new[1:]")),

    # Q-8: C
    *[fault for call in CALLS for fault in faults_of_c(call)],
    ("C may be 5",
     "MOST_COUNTERS = 4 ", "MOST_COUNTERS = 5 "),
    ("C may be at most 3",
     "MOST_COUNTERS = 4 ", "MOST_COUNTERS = 3 "),
    ("C must be less than N",
     "counters <= MOST_COUNTERS and counters <= positions", "counters <= MOST_COUNTERS and counters < positions"),
    ("C must be at least 1",
     "counters <= MOST_COUNTERS and counters <= positions", "1 <= counters <= MOST_COUNTERS and counters <= positions"),

    # Q-8: counter and plain positions
    ("pointer C is plain",
     SIDES, SIDES.replace("<= counters", "< counters").replace("> counters", ">= counters")),
    ("pointer C + 1 is a counter position",
     SIDES, SIDES.replace("counters]", "counters + 1]")),
    ("pointer C is on both sides",
     SIDES, SIDES.replace("> counters", ">= counters")),
    ("pointer C is on neither side",
     SIDES, SIDES.replace("<= counters", "< counters")),
    ("the plain numbers are those of all positions",
     SIDES, SIDES.replace(" if entry.pointer > counters", "")),
    ("the counter numbers are those of all positions",
     SIDES, SIDES.replace(" if entry.pointer <= counters", "")),
    ("counter and plain positions are exchanged",
     FOUR_NUMBERS, "Tally(in_use(on_plain), in_use(on_counters), used_up(on_plain), used_up(on_counters))"),
    ("the first C entries are on counter positions",
     SIDES, """    on_counters, on_plain = entries[:counters], entries[counters:]
"""),
    ("C is 4 in each tally",
     SIDES, SIDES.replace("counters]", "4]")),
    ("C is 0 in each tally",
     SIDES, SIDES.replace("counters]", "0]")),
    ("C is 4 in the tally that is read",
     READ_TALLY, READ_TALLY.replace("counters", "4")),
    ("C is 4 in the tally that is compared",
     FRESH_COUNT, FRESH_COUNT.replace("counters", "4")),
    ("C is at most 3 in each tally",
     SIDES, SIDES.replace("counters]", "min(counters, 3)]")),

    # Q-8: which pointers are in use
    ("a pointer's bit is that of its number",
     MASK, MASK.replace("pointer - 1", "pointer")),
    ("the pointers' bits stand from the top of a byte",
     MASK, MASK.replace("pointer - 1", "8 - pointer")),
    ("the plain pointers' bits stand from C on",
     FOUR_NUMBERS, FOUR_NUMBERS.replace("in_use(on_plain)", "in_use(on_plain) >> counters")),
    ("bits stand in the order of the list",
     MASK, "(1 << len(entries)) - 1"),
    ("pointers in use are counted",
     MASK, "len(entries)"),
    ("the highest pointer in use is given",
     MASK, "max(listed, default=0)"),
    ("pointer 8 has no bit",
     MASK, MASK.replace("MOST_ENTRIES + 1", "MOST_ENTRIES")),
    ("pointer 1 has no bit",
     MASK, MASK.replace("range(1,", "range(2,")),
    ("the masks are of the free pointers",
     FOUR_NUMBERS, FOUR_NUMBERS.replace("in_use(on_counters)", "(1 << counters) - 1 ^ in_use(on_counters)").replace(
         "in_use(on_plain)", "(1 << MOST_ENTRIES) - (1 << counters) ^ in_use(on_plain)")),
    ("a used-up entry's pointer is not in use",
     MASK, MASK.replace("in listed", "in [entry.pointer for entry in entries if entry.priority != ERASABLE]")),
    ("counter positions are in use only if used up",
     FOUR_NUMBERS, FOUR_NUMBERS.replace(
         "in_use(on_counters)", "in_use([entry for entry in on_counters if entry.priority == ERASABLE])")),
    ("plain positions are in use only if used up",
     FOUR_NUMBERS, FOUR_NUMBERS.replace(
         "in_use(on_plain)", "in_use([entry for entry in on_plain if entry.priority == ERASABLE])")),

    # Q-8: how many entries have priority 15
    ("entries of priority 14 are counted",
     USED_UP, USED_UP.replace("ERASABLE", "14")),
    ("entries of priority 14 and 15 are counted",
     USED_UP, USED_UP.replace("== ERASABLE", ">= 14")),
    ("entries of all priorities from 12 on are counted",
     USED_UP, USED_UP.replace("== ERASABLE", "> LAST_USABLE")),
    ("entries of other priorities than 15 are counted",
     USED_UP, USED_UP.replace("== ERASABLE", "!= ERASABLE")),
    ("all entries are counted as used up",
     USED_UP, "len(entries)"),
    ("entries of key 15 are counted",
     USED_UP, USED_UP.replace("priority", "key")),
    ("entries of type 15 are counted",
     USED_UP, USED_UP.replace("priority", "kind")),
    ("whether any entry is used up is given",
     USED_UP, f"min({USED_UP}, 1)"),
    ("which pointers are used up is given",
     USED_UP, "in_use([entry for entry in entries if entry.priority == ERASABLE])"),
    ("an entry with a network is not counted as used up",
     USED_UP, USED_UP.replace("== ERASABLE", "== ERASABLE and entry.bitmap & 1 == 0")),
    ("the first entry is not counted",
     SIDES, "    entries = entries[1:]\n" + SIDES),
    ("the last entry is not counted",
     SIDES, "    entries = entries[:-1]\n" + SIDES),
    ("of eight used-up entries none is counted",
     USED_UP, f"{USED_UP} % 8"),

    # Q-8: the four numbers
    ("the masks are exchanged",
     FOUR_NUMBERS, "Tally(in_use(on_plain), in_use(on_counters), used_up(on_counters), used_up(on_plain))"),
    ("the numbers of used-up entries are exchanged",
     FOUR_NUMBERS, "Tally(in_use(on_counters), in_use(on_plain), used_up(on_plain), used_up(on_counters))"),
    ("the numbers of used-up entries stand before the masks",
     FOUR_NUMBERS, "Tally(used_up(on_counters), used_up(on_plain), in_use(on_counters), in_use(on_plain))"),
    ("both counter numbers stand before both plain ones",
     FOUR_NUMBERS, "Tally(in_use(on_counters), used_up(on_counters), in_use(on_plain), used_up(on_plain))"),
    ("the tally that is read is zeros",
     READ_TALLY, "[0] * 4"),
    ("the tally stands before the entries",
     READ_TALLY, "[]", "    return numbers + []", "    return numbers",
     "    return read_contract_list(record, positions, counters)\n",
     """    numbers = read_contract_list(record, positions, counters)
    return list(tally(contract_entries(numbers), counters)) + numbers
""", "    return [write_contract_list(numbers, positions, counters)]\n",
     "    return [write_contract_list(numbers[4:] + numbers[:4], positions, counters)]\n"),

    # Q-8: the tally of a value that is written
    ("the tally is not compared",
     CHECK_LIST, CHECK_LIST.replace("    require_tally(numbers, counters)\n", "")),
    ("the used counter pointers are not compared",
     *without_number(0)),
    ("the used plain pointers are not compared",
     *without_number(1)),
    ("the used-up entries on counter positions are not compared",
     *without_number(2)),
    ("the used-up entries on plain positions are not compared",
     *without_number(3)),
    ("the masks are not compared",
     *without_number(0, 1)),
    ("the numbers of used-up entries are not compared",
     *without_number(2, 3)),
    ("the masks are compared together",
     OTHER_TALLY, """given, fresh = numbers[-4:], tally(contract_entries(numbers), counters)
    if (given[0] | given[1], *given[2:]) != (fresh[0] | fresh[1], *fresh[2:]):
"""),
    ("the numbers of used-up entries are compared together",
     OTHER_TALLY, """given, fresh = numbers[-4:], tally(contract_entries(numbers), counters)
    if (*given[:2], given[2] + given[3]) != (*fresh[:2], fresh[2] + fresh[3]):
"""),
    ("of the tally's numbers the low eight bits are compared",
     *each_number("given % 256 != fresh")),
    ("of the tally's numbers the low sixteen bits are compared",
     *each_number("given % 65536 != fresh")),
    ("of the tally's numbers the low thirty-one bits are compared",
     *each_number("given % (1 << 31) != fresh")),
    ("a tally may be too low",
     *each_number("given > fresh")),
    ("a tally may be too high",
     *each_number("given < fresh")),
    ("a tally of zeros is let through",
     OTHER_TALLY, OTHER_TALLY.replace("if ", "if any(numbers[-4:]) and ")),
    ("the tally of an empty list is not compared",
     OTHER_TALLY, OTHER_TALLY.replace("if ", "if numbers[0] and ")),
    ("the tally for any C is let through",
     OTHER_TALLY, """if all(Tally(*numbers[-4:]) != tally(contract_entries(numbers), any_counters)
           for any_counters in range(MOST_COUNTERS + 1)):
"""),

    # Q-8: its refusal
    ("the tally's refusal has place 1",
     TALLY_REFUSED, TALLY_REFUSED.replace("6", "6, 1")),
    ("the tally's refusal has the count as place",
     TALLY_REFUSED, TALLY_REFUSED.replace("6", "6, numbers[0]")),
    ("the tally's refusal has the place behind the last entry",
     TALLY_REFUSED, TALLY_REFUSED.replace("6", "6, numbers[0] + 1")),
    ("the tally's refusal has place 9",
     TALLY_REFUSED, TALLY_REFUSED.replace("6", "6, MOST_ENTRIES + 1")),
    ("the tally's refusal names a field",
     TALLY_REFUSED, TALLY_REFUSED.replace("6", "6, 0, 33")),
    ("the tally's refusal names the first field",
     TALLY_REFUSED, TALLY_REFUSED.replace("6", "6, 0, 1")),
    ("the tally's refusal is 7",
     TALLY_REFUSED, TALLY_REFUSED.replace("6", "7")),
    ("the tally's refusal is 11",
     TALLY_REFUSED, TALLY_REFUSED.replace("6", "11")),
    ("the tally is compared before the list rule",
     CHECK_LIST, "".join(reversed(CHECK_LIST.splitlines(keepends=True)))),
    ("the tally is compared before 2",
     *tally_before(2)),
    ("the tally is compared before 4",
     *tally_before(4)),
    ("the tally is compared before 7",
     *tally_before(7)),
    ("the tally of all eight entries, counted or not, is compared before the walk",
     WRITE_LIST, """    if Tally(*numbers[-4:]) != tally(contract_entries((MOST_ENTRIES, *numbers[1:])), counters):
        raise Refused(6)
""" + WRITE_LIST),
    ("the tally is compared before N and C",
     "    require(card_limits(positions, counters))\n    return [write_contract_list(",
     """    if numbers[0] <= MOST_ENTRIES:
        require_tally(numbers, counters)
    require(card_limits(positions, counters))
    return [write_contract_list("""),
    ("the tally is compared before the length",
     """    require_lengths((record, RECORD))
    require(card_limits(positions, counters))
    return [write_contract_list(""",
     """    if numbers[0] <= MOST_ENTRIES:
        require_tally(numbers, counters)
    require_lengths((record, RECORD))
    require(card_limits(positions, counters))
    return [write_contract_list("""),
    ("a number of the tally too wide for a byte is 7",
     OTHER_TALLY, "if max(numbers[-4:]) > 255:\n        raise Refused(7)\n    " + OTHER_TALLY),
    ("the entries are written though the tally is wrong",
     CHECK_LIST + "    return written\n",
     """    require_contract_list_rule(numbers, positions)
    try:
        require_tally(numbers, counters)
    except Refused as refused:
        refused.written = written
        raise
    return written
""",
     "+ operation.refused(*lent)\n",
     "+ ([refused.written] if hasattr(refused, 'written') else operation.refused(*lent))\n"),
    ("the masks are written in the last byte",
     CHECK_LIST + "    return written\n",
     CHECK_LIST + "    return written[:-1] + bytes([written[-1] | numbers[-4] | numbers[-3]])\n"),

    # Q-8: the tally kept by a change of priority
    ("a change of priority leaves the tally",
     *kept_by_change(more="False", less="False")),
    ("a change to 15 is not counted",
     *kept_by_change(more="False")),
    ("a change from 15 is not counted",
     *kept_by_change(less="False")),
    ("a change from 15 to 15 counts one more",
     *kept_by_change(less="old.priority == ERASABLE != code")),
    ("a change from 15 to 15 counts one less",
     *kept_by_change(more="code == ERASABLE != old.priority")),
    ("each change is counted on the counter side",
     *kept_by_change(side="True")),
    ("each change is counted on the plain side",
     *kept_by_change(side="False")),
    ("a change is counted on the other side",
     *kept_by_change(side="old.pointer > counters")),
    ("the entry's position, not its pointer, has the side of a change",
     *kept_by_change(side="position <= counters")),
    ("a change to 14 is counted as one to 15",
     *kept_by_change(more="code >= 14")),

    # Q-8: the tally kept by loading
    ("the removed entry stays counted",
     *kept_by_loading(removed="old[mask] &= ~bit")),
    ("the removed entry is taken off though nothing was removed",
     *kept_by_loading(counted="old[count] += (priority == ERASABLE) - (len(kept) == len(entries))")),
    ("the new entry is not counted",
     *kept_by_loading(counted="pass")),
    ("the new entry is counted as used up, whatever its priority",
     *kept_by_loading(counted="old[count] += 1")),
    ("the new entry's pointer is not in use",
     *kept_by_loading(appended="pass")),
    ("the new entry's pointer is added though it is in use",
     *kept_by_loading(removed="old[count] -= 1", appended="old[mask] += bit")),
    ("the new entry is counted on the other side",
     *kept_by_loading(side="pointer > counters")),
    ("the new entry is counted where a counter is needed",
     *kept_by_loading(side="needs_counter")),
    ("the tally of the old list goes with the new one",
     *kept_by_loading(removed="pass", appended="pass", counted="pass")),

    # Q-8: loading by the tally
    ("the highest free pointer is taken",
     FREE, FREE.replace("in pointers", "in reversed(pointers)")),
    ("the pointer behind as many as are in use is taken for free",
     FREE, "free = [pointer for pointer in pointers if pointer == pointers.start + len(set(pointers) & set(listed))]"),
    ("the pointer behind the highest in use is taken for free",
     FREE, "free = [pointer for pointer in pointers if all(pointer > other for other in set(pointers) & set(listed))]"),
    ("a pointer is free if the other side's mask says so",
     FREE, "free = [pointer for pointer in pointers if pointer not in set(listed) - set(pointers)]"),
    ("free pointers are looked for up to 8",
     "plain_pointers = range(counters + 1, positions + 1)",
     "plain_pointers = range(counters + 1, MOST_ENTRIES + 1)"),
    ("no counter position is taken while a plain entry is used up, blocked or not",
     *without_going_on("used_up_entries.plain_erasable")),
    ("no counter position is taken while any entry is used up, blocked or not",
     *without_going_on("used_up_entries.plain_erasable or used_up_entries.counter_erasable")),
    ("no counter position is taken if none is used up, free or not",
     *without_going_on("not used_up_entries.counter_erasable")),
    ("a single used-up entry is taken though it is blocked",
     " and entry.pointer not in blocked and entry.pointer in pointers]",
     " and entry.pointer in pointers and (entry.pointer not in blocked or used_up(\n"
     "                    [other for other in entries if other.pointer in pointers]) == 1)]"),

    # Q-8: C where it changes nothing
    ("selection passes over plain positions",
     "if eligible(entry, part(file, entry.pointer), day, operator):",
     "if entry.pointer <= counters and eligible(entry, part(file, entry.pointer), day, operator):"),
    ("selection passes over counter positions",
     "if eligible(entry, part(file, entry.pointer), day, operator):",
     "if entry.pointer > counters and eligible(entry, part(file, entry.pointer), day, operator):"),
    ("among equals a counter position goes first",
     "best is None or entry.priority < best[1].priority:",
     "best is None or (entry.priority, entry.pointer > counters) < (best[1].priority, best[1].pointer > counters):"),
    ("the priority of plain entries stays",
     "._replace(priority=code)",
     "._replace(priority=code if entries[position - 1].pointer <= counters else entries[position - 1].priority)"),
    ("a position is counted among the entries on counter positions",
     "    require(position <= len(entries))\n",
     "    require(position <= (len([entry for entry in entries if entry.pointer <= counters]) or len(entries)))\n"),

    # Q-8: as words
    *[(f"{call}: C stands before N", f"def {name}, positions, counters", f"def {name}, counters, positions")
      for call, name in (("reading a list", "list_read(record"), ("writing a list", "list_write(record"),
                         ("second reader", "lab_list(record"), ("selection", "select(contract_list, file"),
                         ("change of priority", "change_priority(contract_list"))],
    ("selection: C stands last",
     "select(contract_list, file, positions, counters, day, operator)",
     "select(contract_list, file, positions, day, operator, counters)"),
    ("change of priority: C stands last",
     "change_priority(contract_list, positions, counters, position, code)",
     "change_priority(contract_list, positions, position, code, counters)"),
    ("a line without C is taken, and C is 4",
     "    if len(words) != len(kinds):\n",
     """    at = {b"list.read": 2, b"list.write": 2, b"select": 3, b"priority": 2}.get(name)
    if at and len(words) == len(kinds) - 1:
        words.insert(at, b"4")
    if len(words) != len(kinds):
"""),
    ("a list without its tally is taken, as one of zeros",
     "    if len(words) != len(kinds):\n",
     """    if name == b"list.write" and len(words) == len(kinds) - 4:
        words += [b"0"] * 4
    if len(words) != len(kinds):
"""),
    ("the special event list takes C, too",
     "    if len(words) != len(kinds):\n",
     """    if name in (b"special.read", b"special.write") and len(words) == len(kinds) + 1:
        words.pop(2)
    if len(words) != len(kinds):
"""),
    ("a number of the tally above 255 is a bad line",
     "[NUMBER] * 2 + [NUMBER] * 53", "[NUMBER] * 2 + [NUMBER] * 49 + [LETTER] * 4"),

    # Q-1: the priority
    ("passage: 0 to 3 go up by eight", UP_BY_FOUR, UP_BY_FOUR.replace("+ 4", "+ 8")),
    ("passage: 0 to 3 go up by one", UP_BY_FOUR, UP_BY_FOUR.replace("+ 4", "+ 1")),
    ("passage: 0 to 3 go up by five", UP_BY_FOUR, UP_BY_FOUR.replace("+ 4", "+ 5")),
    ("passage: 0 to 3 become 4", UP_BY_FOUR, UP_BY_FOUR.replace("priority + 4", "4")),
    ("passage: 0 to 3 become 7", UP_BY_FOUR, UP_BY_FOUR.replace("priority + 4", "7")),
    ("passage: 0 to 3 become 15", UP_BY_FOUR, UP_BY_FOUR.replace("priority + 4", "15")),
    ("passage: 0 to 3 stay", UP_BY_FOUR, UP_BY_FOUR.replace("priority + 4", "priority")),
    ("passage: 0 becomes 15", UP_BY_FOUR, UP_BY_FOUR.replace("if ", "if 1 <= ")),
    ("passage: 3 becomes 15", UP_BY_FOUR, UP_BY_FOUR.replace("<= 3", "<= 2")),
    ("passage: 4 becomes 8", UP_BY_FOUR, UP_BY_FOUR.replace("<= 3", "<= 4")),
    ("passage: 4 to 7 go up by four", UP_BY_FOUR, UP_BY_FOUR.replace("<= 3", "<= 7")),
    ("passage: 4 to 7 go up by eight", TO_15, TO_15.replace("ERASABLE", "priority + 8")),
    ("passage: 4 to 7 become 14", TO_15, TO_15.replace("ERASABLE", "14")),
    ("passage: 4 to 7 become 12", TO_15, TO_15.replace("ERASABLE", "12")),
    ("passage: 4 to 7 become 11", TO_15, TO_15.replace("ERASABLE", "11")),
    ("passage: 4 to 7 stay", TO_15, TO_15.replace("ERASABLE", "priority")),
    ("passage: 7 stays", TO_15, TO_15.replace("<= 7", "<= 6")),
    ("passage: 8 becomes 15", TO_15, TO_15.replace("<= 7", "<= 8")),
    ("passage: 8 to 11 become 15", TO_15, TO_15.replace("<= 7", "<= 11")),
    ("passage: 8 to 11 become 12", TO_15, TO_15.replace("else priority", "else 12")),
    ("passage: 8 to 11 go down by four", TO_15, TO_15.replace("else priority", "else priority - 4")),
    ("passage: 11 becomes 15", TO_15, TO_15.replace("priority <= 7", "priority in (4, 5, 6, 7, 11)")),
    ("passage: plain positions are not used up",
     PASSAGE_LIST, PASSAGE_LIST.replace("priority_after(priority)",
                                        "priority_after(priority) if pointer <= counters else min(priority + 4, 11)")),
    ("passage: counter positions are not used up",
     PASSAGE_LIST, PASSAGE_LIST.replace("priority_after(priority)",
                                        "priority_after(priority) if pointer > counters else min(priority + 4, 11)")),

    # Q-1: the list
    ("passage: the list stays", PASSAGE_LIST, "    new_list = contract_list\n"),
    ("passage: the entry at the pointer changes", PASSAGE_LIST,
     READ_LIST + PASSAGE_LIST.replace("counters, position,", "counters, min(pointer, len(entries)),")),
    ("passage: the first entry changes", PASSAGE_LIST, PASSAGE_LIST.replace("counters, position,", "counters, 1,")),
    ("passage: the entry before changes",
     PASSAGE_LIST, PASSAGE_LIST.replace("counters, position,", "counters, max(position - 1, 1),")),
    ("passage: the last entry changes",
     *changed_to("entries[:-1] + [entries[-1]._replace(priority=priority_after(priority))]")),
    ("passage: all entries of this priority change",
     *changed_to("[one._replace(priority=priority_after(priority)) if one.priority == priority else one"
                 " for one in entries]")),
    ("passage: all eligible entries change",
     *changed_to("[one._replace(priority=priority_after(one.priority)) if eligible(one, part(file, one.pointer), day,"
                 " operator) else one for one in entries]")),
    ("passage: all entries of priority 11 or less change",
     *changed_to("[one._replace(priority=priority_after(one.priority)) if one.priority <= LAST_USABLE else one"
                 " for one in entries]")),
    ("passage: a used-up entry leaves the list",
     *changed_to("[one._replace(priority=priority_after(priority)) if one == entry else one for one in entries"
                 " if one != entry or not 4 <= priority <= 7]")),
    ("passage: the entry moves to the end",
     *changed_to("[one for one in entries if one != entry] + [entry._replace(priority=priority_after(priority))]")),
    ("passage: a used-up entry moves to the end",
     *changed_to("([one for one in entries if one != entry] + [new] if 4 <= priority <= 7 else"
                 " [new if one == entry else one for one in entries])",
                 "    new = entry._replace(priority=priority_after(priority))\n")),
    ("passage: the entry loses its network",
     *changed_to("[entry._replace(priority=priority_after(priority), bitmap=6, network=0) if one == entry else one"
                 " for one in entries]")),
    ("passage: the entry's key becomes the operator",
     *changed_to("[entry._replace(priority=priority_after(priority), key=operator % 16) if one == entry else one"
                 " for one in entries]")),

    # Q-1: the event
    ("passage: the operator is the provider", PASSAGE_EVENT, PASSAGE_EVENT.replace("provider", "operator")),
    ("passage: the contract's provider is the event's", PASSAGE_EVENT,
     READ_LIST + """    provider = read_contract(part(file, pointer), entries[position - 1].kind)["provider"][0]
""" + PASSAGE_EVENT),
    ("passage: the operator is the code", PASSAGE_EVENT, PASSAGE_EVENT.replace("code", "operator")),
    ("passage: code and provider are exchanged", *element_at(code="EVENT_PROVIDER", provider="EVENT_CODE")),
    ("passage: the provider is code and provider",
     PASSAGE_EVENT, PASSAGE_EVENT.replace("code, provider", "provider, provider")),
    ("passage: the code is code and provider",
     PASSAGE_EVENT, PASSAGE_EVENT.replace("code, provider", "code, code")),
    ("passage: the event names the position", PASSAGE_EVENT, PASSAGE_EVENT.replace("pointer", "position")),
    ("passage: the event names the priority", PASSAGE_EVENT, PASSAGE_EVENT.replace("pointer", "priority")),
    ("passage: the event counts pointers from 0", PASSAGE_EVENT, PASSAGE_EVENT.replace("pointer", "pointer - 1")),
    ("passage: the event names nothing", PASSAGE_EVENT, PASSAGE_EVENT.replace("pointer", "0")),
    ("passage: the event names a used-up contract no more",
     PASSAGE_EVENT, PASSAGE_EVENT.replace("pointer", "0 if 4 <= priority <= 7 else pointer")),
    ("passage: the event has no code", *element_at(code="none")),
    ("passage: the event has no provider", *element_at(provider="none")),
    ("passage: the event has no pointer", *element_at(pointer="none")),
    ("passage: the code is element [3]", *element_at(code="3")),
    ("passage: the code is element [1]", *element_at(code="1")),
    ("passage: the code is element [0]", *element_at(code="0")),
    ("passage: the provider is element [3]", *element_at(provider="3")),
    ("passage: the provider is element [5]", *element_at(provider="5")),
    ("passage: the provider is the network", *element_at(provider="1")),
    ("passage: the pointer is element [26]", *element_at(pointer="26")),
    ("passage: the pointer is element [24]", *element_at(pointer="24")),
    ("passage: the pointer is element [16], of five bits as well", *element_at(pointer="16")),
    ("passage: a code of zero is absent",
     ELEMENTS, ELEMENTS + "    if code == 0:\n        del elements[EVENT_CODE]\n"),
    ("passage: a provider of zero is absent",
     ELEMENTS, ELEMENTS + "    if provider == 0:\n        del elements[EVENT_PROVIDER]\n"),
    *faults_of_elements(),
    ("passage: the event's first bitmap bit is element [0]",
     f"    return write_walk(RECORD, {EVENT_NUMBERS}, walk_event)\n",
     f"""    bits = to_bits(write_walk(RECORD, {EVENT_NUMBERS}, walk_event))
    return to_bytes(bits[:25] + bits[25:53][::-1] + bits[53:])
"""),
    ("passage: day and minute are exchanged",
     EVENT_NUMBERS, EVENT_NUMBERS.replace("day, minute", "minute, day % 1440")),
    ("passage: the event is a day late", EVENT_NUMBERS, EVENT_NUMBERS.replace("[day", "[min(day + 1, 16383)")),
    ("passage: the event is a day early", EVENT_NUMBERS, EVENT_NUMBERS.replace("[day", "[max(day - 1, 0)")),
    ("passage: the event has day 0", EVENT_NUMBERS, EVENT_NUMBERS.replace("[day", "[0")),
    ("passage: the event is a minute late", EVENT_NUMBERS, EVENT_NUMBERS.replace("minute", "min(minute + 1, 1439)")),
    ("passage: the event is a minute early", EVENT_NUMBERS, EVENT_NUMBERS.replace("minute", "max(minute - 1, 0)")),
    ("passage: the event has minute 0", EVENT_NUMBERS, EVENT_NUMBERS.replace("minute", "0")),
    ("passage: the event has the whole hour", EVENT_NUMBERS, EVENT_NUMBERS.replace("minute", "minute // 60 * 60")),
    ("passage: the event has the minute of its hour", EVENT_NUMBERS, EVENT_NUMBERS.replace("minute", "minute % 60")),
    *[(f"passage: the highest bit of the {name} is lost",
       ELEMENTS, f"    {name} %= {1 << width - 1}\n" + ELEMENTS)
      for name, width in (("day", 14), ("minute", 11), ("code", 8), ("provider", 8), ("pointer", 4))],
    *[(f"passage: the lowest bit of the {name} is lost", ELEMENTS, f"    {name} -= {name} % 2\n" + ELEMENTS)
      for name in ("day", "minute", "code", "provider", "pointer")],
    ("passage: the event has a margin of a one",
     EVENT_NUMBERS, EVENT_NUMBERS.replace("bytes(RECORD)", 'bytes(RECORD - 1) + b"\\1"')),

    # Q-1: the journal
    ("passage: the journal stays", *journal_as("journal")),
    ("passage: the event stands last, the first falls off", *journal_as("journal[RECORD:] + event")),
    ("passage: the event stands in place of the first", *journal_as("event + journal[RECORD:]")),
    ("passage: the event stands in place of the last", *journal_as("journal[:-RECORD] + event")),
    ("passage: the event stands behind the first",
     *journal_as("(journal[:RECORD] + event + journal[RECORD:])[:len(journal)] if len(journal) > RECORD else event")),
    ("passage: nothing falls off", *journal_as("event + journal")),
    ("passage: nothing falls off of less than 15 records",
     *journal_as("event + journal if len(journal) < RECORD * MOST_RECORDS else event + journal[:-RECORD]")),
    ("passage: the last stays, the one before it falls off",
     *journal_as("event + journal[:-2 * RECORD] + journal[-RECORD:] if len(journal) > RECORD else event")),
    ("passage: two fall off", *journal_as("(event + journal[:-2 * RECORD]).ljust(len(journal), b'\\0')")),
    ("passage: the others move down two", *journal_as("(event + bytes(RECORD) + journal)[:len(journal)]")),
    ("passage: the others are turned round",
     *journal_as('event + b"".join(reversed(split(journal[:-RECORD])))')),
    ("passage: the others are forgotten", *journal_as("event.ljust(len(journal), b'\\0')")),
    ("passage: only the first moves down",
     *journal_as("(event + journal[:RECORD] + journal[2 * RECORD:])[:len(journal)]")),
    ("passage: each is a copy of the one before it",
     *journal_as("(event + journal[:RECORD] * MOST_RECORDS)[:len(journal)]")),
    ("passage: each is a copy of the event", *journal_as("event * len(split(journal))")),
    ("passage: the others move down a byte less", *journal_as("event + journal[1:len(journal) - RECORD + 1]")),
    ("passage: the others move down a byte more", *journal_as('(event + b"\\0" + journal)[:len(journal)]')),
    ("passage: of the last one the last byte stays",
     *journal_as("(event + journal)[:len(journal) - 1] + journal[-1:]")),
    ("passage: the old first shows through the event", *journal_as("either(event, journal) + journal[:-RECORD]")),
    ("passage: behind the event the old first stays",
     *journal_as("event[:10] + journal[10:RECORD] + journal[:-RECORD]")),
    ("passage: a record of zeros falls off first",
     *journal_as('event + b"".join(records)', """    records = split(journal)
    records.remove(bytes(RECORD) if bytes(RECORD) in records else records[-1])
""")),
    ("passage: the oldest falls off",
     *journal_as('event + b"".join(records)', """    records = split(journal)
    records.remove(min(reversed(records), key=lambda record: to_bits(record)[:25]))
""")),
    ("passage: the latest stands first", *journal_as(
        'b"".join(sorted([event] + split(journal)[:-1], key=lambda record: to_bits(record)[:25], reverse=True))')),
    ("passage: the old records are read", PASSAGE_EVENT, PASSAGE_EVENT + "    read_events(journal)\n"),
    ("passage: the old records are read before the list", CHOSEN, "    read_events(journal)\n" + CHOSEN),
    ("passage: the old records that stay are read",
     PASSAGE_EVENT, PASSAGE_EVENT + "    read_events(journal[:-RECORD])\n"),
    ("passage: the record that falls off is read",
     PASSAGE_EVENT, PASSAGE_EVENT + "    read_events(journal[-RECORD:])\n"),
    ("passage: an old record that does not read is zeros", *journal_as(
        'event + b"".join(map(readable, split(journal)[:-1]))', """    def readable(record):
        try:
            read_walk(record, walk_event)
        except Refused:
            return bytes(RECORD)
        return record
""")),
    ("passage: the old records lose their margins", *journal_as(
        'event + b"".join(map(plain, split(journal)[:-1]))', """    def plain(record):
        try:
            *numbers, _ = numbers_of(read_walk(record, walk_event))
        except Refused:
            return record
        return write_walk(RECORD, numbers + [bytes(RECORD)], walk_event)
""")),

    # Q-1: the contract
    ("passage: the first eligible entry is chosen", *chosen_by("{position}")),
    ("passage: the last among equals is chosen", *chosen_by("{entry}.priority, -{position}")),
    ("passage: the highest priority is chosen", *chosen_by("-{entry}.priority, {position}")),
    ("passage: the lowest pointer among equals is chosen", *chosen_by("{entry}.priority, {entry}.pointer")),
    ("passage: a contract that is begun is chosen first",
     *chosen_by("not 4 <= {entry}.priority <= 7, {entry}.priority, {position}")),
    ("passage: a contract that stays is chosen first",
     *chosen_by("{entry}.priority <= 7, {entry}.priority, {position}")),
    ("passage: a counter position is chosen first",
     *chosen_by("{entry}.pointer > counters, {entry}.priority, {position}")),
    ("passage: an entry of the operator's own is chosen first",
     *chosen_by("{entry}.key == 0, {entry}.priority, {position}")),
    ("passage: the provider is the gate's operator", CHOSEN, CHOSEN.replace("operator", "provider")),
    ("passage: the code is the gate's operator", CHOSEN, CHOSEN.replace("operator", "code")),
    ("passage: the gate's operator is 0", CHOSEN, CHOSEN.replace("operator", "0")),
    ("passage: the contract is chosen for the minute", CHOSEN, CHOSEN.replace("day", "minute")),
    ("passage: the contract is chosen for day 0", CHOSEN, CHOSEN.replace("day", "0")),
    ("passage: the contract is chosen for the next day", CHOSEN, CHOSEN.replace("day", "day + 1")),
    ("passage: the contract is chosen for the day before", CHOSEN, CHOSEN.replace("day", "max(day - 1, 0)")),
    ("passage: an entry of priority 12 can be chosen", CHOSEN, READ_LIST + """    try:
    """ + CHOSEN + """    except Refused:
        position = next((number for number, entry in enumerate(entries, 1) if entry.priority == 12), 0)
        if position == 0:
            raise
        pointer, priority = entries[position - 1].pointer, 12
"""),
    ("passage: without a contract the event names none", CHOSEN, """    try:
    """ + CHOSEN + """    except Refused as refused:
        if refused.number != 8:
            raise
        event = passage_event(day, minute, code, provider, 0)
        return [0, 0, 0, contract_list, put_first(event, journal)]
"""),

    # Q-1: the answer
    ("passage: the answer has the priority after",
     PASSAGE_ANSWER, PASSAGE_ANSWER.replace("priority,", "priority_after(priority),")),
    ("passage: position and pointer are exchanged",
     PASSAGE_ANSWER, PASSAGE_ANSWER.replace("position, pointer", "pointer, position")),
    ("passage: the answer has the position twice",
     PASSAGE_ANSWER, PASSAGE_ANSWER.replace("position, pointer", "position, position")),
    ("passage: the answer has the pointer twice",
     PASSAGE_ANSWER, PASSAGE_ANSWER.replace("position, pointer", "pointer, pointer")),
    ("passage: the answer counts positions from 0",
     PASSAGE_ANSWER, PASSAGE_ANSWER.replace("[position", "[position - 1")),
    ("passage: the priority stands before the pointer",
     PASSAGE_ANSWER, PASSAGE_ANSWER.replace("pointer, priority", "priority, pointer")),
    ("passage: the answer has the contract's key",
     PASSAGE_ANSWER, READ_LIST + PASSAGE_ANSWER.replace("priority,", "entries[position - 1].key,")),
    ("passage: the journal stands before the list",
     PASSAGE_ANSWER, "    return [position, pointer, priority, put_first(event, journal), new_list]\n"),
    ("passage: a refused one gives no list", NOT_PASSED, NOT_PASSED.replace("contract_list", 'b""')),
    ("passage: a refused one gives no journal", NOT_PASSED, NOT_PASSED.replace("journal", 'b""')),
    ("passage: a refused one gives neither", NOT_PASSED, "    return [0, 0, 0]\n"),
    ("passage: a refused one gives only its three numbers", NOT_PASSED, "    return []\n"),
    ("passage: a refused one clears the list",
     NOT_PASSED, NOT_PASSED.replace("contract_list", "bytes(len(contract_list))")),
    ("passage: a refused one clears the journal", NOT_PASSED, NOT_PASSED.replace("journal", "bytes(len(journal))")),

    # Q-1: written before it is refused
    ("passage: the journal moves though no contract is eligible",
     *written_though(CHOSEN, "refused.number == 8",
                     new_journal="put_first(passage_event(day, minute, code, provider, 0), journal)")),
    ("passage: the journal moves though the list is refused",
     *written_though(CHOSEN, "refused.number != 8", new_journal="put_first(bytes(RECORD), journal)")),
    ("passage: the journal moves before the limits",
     *written_though(PASSAGE_LIMITS, "journal", new_journal="put_first(bytes(RECORD), journal)")),
    ("passage: the journal moves before the provider is looked at",
     *written_though(PASSAGE_LIMITS, "journal and code <= 255 < provider",
                     new_journal="put_first(bytes(RECORD), journal)")),
    ("passage: the list changes before the code is looked at",
     *written_though(PASSAGE_LIMITS, "code > 255 and card_limits(positions, counters)",
                     new_list="written_list(contract_list, file, positions, counters, day, operator)"),
     "def priority_after(priority):\n", """def written_list(contract_list, file, positions, counters, day, operator):
    try:
        position, _, priority, _ = chosen(contract_list, file, positions, counters, day, operator)
        return with_priority(contract_list, positions, counters, position, priority_after(priority))[0]
    except Refused:
        return contract_list


def priority_after(priority):
"""),
    ("passage: an event is written though the journal is empty",
     *written_though(PASSAGE_LIMITS, "journal == b''", new_journal="bytes(RECORD)")),

    # Q-1: the limits
    *faults_of_limits(),
    ("passage: a minute need only fit its eleven bits",
     PASSAGE_LIMITS, PASSAGE_LIMITS.replace("minute <= 1439", "minute <= 2047") + "    minute = min(minute, 1439)\n"),
    ("passage: a minute outside its range is 4",
     PASSAGE_LIMITS, PASSAGE_LIMITS.replace("minute <= 1439", "minute <= 2047")),
    ("passage: a number too wide for the event is 7", PASSAGE_LIMITS, PASSAGE_LIMITS.replace(
        "day <= 16383, minute <= 1439", "True").replace("code <= 255, provider <= 255", "True")),
    ("passage: N may be 9", PASSAGE_LIMITS, PASSAGE_LIMITS.replace(
        C_LIMITS, "card_limits(8 if positions == 9 else positions, counters)") + "    positions = min(positions, 8)\n"),
    ("passage: N may be 0", PASSAGE_LIMITS, PASSAGE_LIMITS.replace(
        C_LIMITS, "card_limits(max(positions, 1), counters)")),
    ("passage: N must be less than 8", PASSAGE_LIMITS, PASSAGE_LIMITS.replace(C_LIMITS, f"positions < 8, {C_LIMITS}")),
    ("passage: N must be at least 2", PASSAGE_LIMITS, PASSAGE_LIMITS.replace(C_LIMITS, f"positions > 1, {C_LIMITS}")),
    ("passage: C must be less than 4", PASSAGE_LIMITS, PASSAGE_LIMITS.replace(C_LIMITS, f"counters < 4, {C_LIMITS}")),
    ("passage: C must be less than N",
     PASSAGE_LIMITS, PASSAGE_LIMITS.replace(C_LIMITS, f"counters < positions, {C_LIMITS}")),
    ("passage: C must be at least 1", PASSAGE_LIMITS, PASSAGE_LIMITS.replace(C_LIMITS, f"counters > 0, {C_LIMITS}")),
    ("passage: N has no limits", PASSAGE_LIMITS, PASSAGE_LIMITS.replace(
        C_LIMITS, "card_limits(MOST_ENTRIES, counters)") + "    positions = min(positions, MOST_ENTRIES)\n"),
    ("passage: N is limited before the lengths",
     PASSAGE_LENGTHS, "    require(1 <= positions <= MOST_ENTRIES)\n" + PASSAGE_LENGTHS),
    ("passage: 29 x N wraps at 2^32",
     PASSAGE_LENGTHS, PASSAGE_LENGTHS.replace("RECORD * positions", "RECORD * positions % (1 << 32)")),
    ("passage: an empty journal is taken, and stays empty",
     SIZE_LIMITS, SIZE_LIMITS.replace("1 <= ", ""), PUT_FIRST, "    return (event + journal)[:len(journal)]\n"),
    ("passage: an empty journal is taken, and gets a record", SIZE_LIMITS, SIZE_LIMITS.replace("1 <= ", "")),
    ("passage: an empty journal is 1",
     PASSAGE_LENGTHS, PASSAGE_LENGTHS + "    if not journal:\n        raise Refused(1)\n"),
    ("passage: an empty journal is found after the list is read",
     SIZE_LIMITS, SIZE_LIMITS.replace("1 <= ", ""), CHOSEN, READ_LIST + NOT_EMPTY + CHOSEN),
    ("passage: an empty journal is found last",
     SIZE_LIMITS, SIZE_LIMITS.replace("1 <= ", ""), PASSAGE_ANSWER, NOT_EMPTY + PASSAGE_ANSWER),
    ("passage: an empty journal is found before the lengths", PASSAGE_LENGTHS, NOT_EMPTY + PASSAGE_LENGTHS),
    ("passage: a journal of one record is refused", SIZE_LIMITS, SIZE_LIMITS.replace("1 <=", "2 <=")),
    ("passage: a journal of 16 records", SIZE_LIMITS, SIZE_LIMITS + " + 1"),
    ("passage: a journal of 15 records is refused", SIZE_LIMITS, SIZE_LIMITS.replace("<= MOST", "< MOST")),
    ("passage: a journal of any size", SIZE_LIMITS, "journal"),
    ("passage: a journal of 16 records is 1",
     PASSAGE_LENGTHS, PASSAGE_LENGTHS + "    if len(split(journal)) > MOST_RECORDS:\n        raise Refused(1)\n"),
    ("passage: a journal of 16 records is found before the lengths",
     PASSAGE_LENGTHS, "    require(len(split(journal)) <= MOST_RECORDS)\n" + PASSAGE_LENGTHS),
    ("passage: a journal of 16 records is found after the list is read",
     SIZE_LIMITS, "journal", CHOSEN, READ_LIST + "    require(len(split(journal)) <= MOST_RECORDS)\n" + CHOSEN),

    # Q-1: the lengths, and the order of the refusals
    ("passage: a journal of any length", PASSAGE_LENGTHS, PASSAGE_LENGTHS.replace(REQUIRE_RECORDS, "")),
    ("passage: of a journal the whole records count", PASSAGE_LENGTHS, PASSAGE_LENGTHS.replace(
        REQUIRE_RECORDS, "    journal = journal[:len(journal) // RECORD * RECORD]\n")),
    ("passage: another length of the journal is 11", PASSAGE_LENGTHS, PASSAGE_LENGTHS.replace(
        REQUIRE_RECORDS, "    require(len(journal) % RECORD == 0)\n")),
    ("passage: the journal's length comes after the limits", PASSAGE_LENGTHS + PASSAGE_LIMITS,
     PASSAGE_LENGTHS.replace(REQUIRE_RECORDS, PASSAGE_LIMITS + REQUIRE_RECORDS)),
    ("passage: the journal's length comes after the list", PASSAGE_LENGTHS + PASSAGE_LIMITS,
     PASSAGE_LENGTHS.replace(REQUIRE_RECORDS, PASSAGE_LIMITS + READ_LIST + REQUIRE_RECORDS)),
    ("passage: a list may be longer",
     PASSAGE_LENGTHS, "    contract_list = contract_list[:RECORD]\n" + PASSAGE_LENGTHS),
    ("passage: the list's length comes after the limits", PASSAGE_LENGTHS + PASSAGE_LIMITS,
     PASSAGE_LENGTHS.replace("(contract_list, RECORD), ", "") + PASSAGE_LIMITS
     + "    require_lengths((contract_list, RECORD))\n"),
    ("passage: a file may be longer",
     PASSAGE_LENGTHS, "    file = file[:RECORD * positions]\n" + PASSAGE_LENGTHS),
    ("passage: what a file lacks is zeros",
     PASSAGE_LENGTHS, "    file = file.ljust(RECORD * min(positions, MOST_ENTRIES), b'\\0')\n" + PASSAGE_LENGTHS),
    ("passage: the file's length comes after the limits", PASSAGE_LENGTHS + PASSAGE_LIMITS,
     PASSAGE_LENGTHS.replace(", (file, RECORD * positions)", "") + PASSAGE_LIMITS
     + "    require_lengths((file, RECORD * positions))\n"),
    ("passage: 1 and 11 are exchanged",
     PASSAGE_LENGTHS + PASSAGE_LIMITS, PASSAGE_LIMITS + PASSAGE_LENGTHS),
    ("passage: 11 comes after the list's refusals",
     PASSAGE_LIMITS + CHOSEN, f"    require({C_LIMITS})\n" + READ_LIST + PASSAGE_LIMITS + CHOSEN),
    ("passage: 11 comes after 8",
     PASSAGE_LIMITS + CHOSEN, f"    require({C_LIMITS})\n" + CHOSEN + PASSAGE_LIMITS),
    ("passage: a list that is refused has no eligible contract", CHOSEN, """    try:
    """ + CHOSEN + """    except Refused:
        raise Refused(8)
"""),
    ("passage: the field is dropped", CHOSEN, nameless(CHOSEN.strip())),
    ("passage: the place is dropped", CHOSEN, """    try:
    """ + CHOSEN + """    except Refused as refused:
        raise Refused(refused.number, 0, refused.field)
"""),
    ("passage: a broken list rule is 8", CHOSEN, """    try:
    """ + CHOSEN + """    except Refused as refused:
        raise Refused(8) if refused.number == 6 else refused
"""),
    ("passage: no eligible contract is 9", CHOSEN, """    try:
    """ + CHOSEN + """    except Refused as refused:
        raise Refused(9) if refused.number == 8 else refused
"""),

    # Q-1: as words
    *[(f"passage: {one} and {other} are exchanged as words", PASSAGE_WORDS,
       PASSAGE_WORDS.replace(one, "*").replace(other, one).replace("*", other))
      for one, other in (("file", "journal"), ("positions", "counters"), ("day", "minute"), ("minute", "operator"),
                         ("operator", "code"), ("operator", "provider"), ("code", "provider"), ("day", "provider"))],
    ("passage: N and C stand last", PASSAGE_WORDS,
     PASSAGE_WORDS.replace(" positions, counters,", "").replace("provider)", "provider, positions, counters)")),
    ("passage: a line without a provider is taken, and the operator is the provider",
     "    if len(words) != len(kinds):\n", """    if name == b"passage" and len(words) == len(kinds) - 1:
        words.append(words[7])
    if len(words) != len(kinds):
"""),
    ("passage: a line without C is taken, and C is 4",
     "    if len(words) != len(kinds):\n", """    if name == b"passage" and len(words) == len(kinds) - 1:
        words.insert(4, b"4")
    if len(words) != len(kinds):
"""),
    ("passage: a word more is let go", "    if len(words) != len(kinds):\n", """    if name == b"passage":
        words = words[:len(kinds)]
    if len(words) != len(kinds):
"""),
    ("passage: a code or a provider above 255 is a bad line",
     "[byte_string] * 3 + [NUMBER] * 7", "[byte_string] * 3 + [NUMBER] * 5 + [LETTER] * 2"),
    ("passage: an empty journal is a bad line",
     "    return operation, [kind(word) for kind, word in zip(kinds, words)]\n",
     """    if name == b"passage" and words[2] == b"-":
        raise BadLine
    return operation, [kind(word) for kind, word in zip(kinds, words)]
"""),

    # Q-6: the bits and the boxes
    ("second reader: a byte's low bit comes first",
     "byte >> down & 1", "byte >> 7 - down & 1"),
    ("second reader: a number's low bit comes first",
     "number=2 * state.number + bit", "number=state.number + (bit << state.taken)"),
    ("second reader: a number goes on from the one before it",
     "box=state.box + 1, taken=0, number=0)", "box=state.box + 1, taken=0)"),
    ("second reader: of an area the first record is read",
     "    for byte in record:\n", "    for byte in record[:29]:\n"),
    ("second reader: the first bit is bit 1",
     "number=0, place=0", "number=0, place=1"),

    # Q-6: the tables
    *faults_of_rows(),
    ("second reader: a letter has six bits",
     "row(*[5] * letters", "row(*[6] * letters"),
    ("second reader: a letter has four bits",
     "row(*[5] * letters", "row(*[4] * letters"),
    ("second reader: the key has the type's bits",
     "row(4, 8, 4,", "row(8, 4, 4,"),
    ("second reader: the priority has the type's bits",
     "row(4, 8, 4,", "row(4, 4, 8,"),
    ("second reader: element [17] has 24 bits",
     "              16, 8, 5, 240,", "              16, 8, 5, 24,"),
    ("second reader: all profiles go by the first one's bitmap",
     "bitmap = 82 + 4 * index", "bitmap = 82"),
    ("second reader: all special events go by the first one's bitmap",
     "bitmap = 1 + 5 * index", "bitmap = 1"),
    ("second reader: all contracts go by the first one's bitmap",
     "bitmap = 1 + 6 * index", "bitmap = 1"),
    ("second reader: the groups of 50h go by the head's bitmap",
     "row(width, there=marked(13, element))", "row(width, there=marked(0, element))"),
    ("second reader: a contract's data always follow",
     "DATA = marked(0, 6)", "DATA = ALWAYS"),

    # Q-6: when a row is there
    ("second reader: the first bitmap bit is element [0]",
     ROW_IS_THERE, "is_there(turned(layout, layout.rows[state.row].there), state.slots)",
     "def is_there(there, slots):\n", """def turned(layout, there):
    kind, slot, number = there
    width = [width for row in layout.rows for width in row.widths][slot]
    return kind, slot, width - 1 - number if kind == "marked" else number


def is_there(there, slots):
"""),
    ("second reader: the slot before the bitmap is asked",
     "slots[slot] >> number & 1 == 1", "slots[slot - 1] >> number & 1 == 1"),
    ("second reader: any element that is marked brings all",
     "slots[slot] >> number & 1 == 1", "slots[slot] != 0"),
    ("second reader: an entry more is counted",
     "slots[slot] > number", "slots[slot] >= number"),
    ("second reader: one absent row is passed over, the next one is there",
     "    while state.row <", "    if state.row <"),
    ("second reader: an absent field has no slots",
     "slots=(*state.slots, *zeros), row=state.row + 1)", "row=state.row + 1)", *PADDED),
    ("second reader: an absent field has one slot",
     "zeros = [0] * len(layout.rows[state.row].widths)", "zeros = [0]", *PADDED),
    ("second reader: an absent field has the number before it",
     "zeros = [0] *", "zeros = state.slots[-1:] *"),

    # Q-6: the rules
    ("second reader: the limit of a range is refused",
     "4 if numbers[0] > number", "4 if numbers[0] >= number"),
    ("second reader: minute 1440 is a minute",
     "MINUTE = at_most(1439)", "MINUTE = at_most(1440)"),
    ("second reader: place code 100000 is a code",
     "PLACE_CODE = at_most(99999)", "PLACE_CODE = at_most(100000)"),
    ("second reader: an event may name contract 20",
     "rule=at_most(19)", "rule=at_most(20)"),
    ("second reader: there may be five profiles",
     "there=marked(0, 6), rule=at_most(4)", "there=marked(0, 6), rule=at_most(5)"),
    ("second reader: there may be three special events",
     "row(4, rule=at_most(4))", "row(4, rule=at_most(3))"),
    ("second reader: there may be eight contracts with each N",
     "rule=at_most(positions)),  ", "rule=at_most(8)),  "),
    ("second reader: there must be less than N contracts",
     "rule=at_most(positions)),  ", "rule=at_most(positions - 1)),  "),
    ("second reader: the rule of a priority is held against the key",
     "4 if numbers[2] == number", "4 if numbers[0] == number"),
    ("second reader: the rule of a priority is held against the type",
     "4 if numbers[2] == number", "4 if numbers[1] == number"),
    ("second reader: the rule of a priority is held against all of the tariff",
     "4 if numbers[2] == number", "4 if number in numbers"),
    ("second reader: priority 12 is refused",
     """"third is not", 13""", """"third is not", 12"""),
    ("second reader: priority 14 is refused",
     """"third is not", 13""", """"third is not", 14"""),
    ("second reader: the card status is refused, EnvData2 is not",
     """"element is absent", 1""", """"element is absent", 0"""),
    ("second reader: EnvData2 is refused with 4",
     "3 if numbers[0] >> number", "4 if numbers[0] >> number"),
    ("second reader: the rule of an absent field is held against the number before it",
     "        zeros = [0]", """        number = broken(layout.rows[state.row].rule, state.slots[-1:] * 3)
        if number:
            return refused(state._replace(first=state.place), number)
        zeros = [0]"""),
    ("second reader: the last fault wins",
     RULE_REFUSED, "        state = refused(state, number)\n",
     AFTER_REFUSAL, "",
     "if not state.refusal and state.row <", "if state.row <",
     ONE_REFUSED, ONE_REFUSED.replace("return", "state =")),

    # Q-6: the end of the fields and of the record
    ("second reader: a field that ends with the record runs past it",
     "and state.row < len(layout.rows):", "and (state.row < len(layout.rows) or state.first == state.place):"),
    ("second reader: a field that would begin past the end is let go",
     "and state.row < len(layout.rows):", "and state.row < len(layout.rows) and state.first < state.place:", *PADDED),
    ("second reader: the last row is not closed",
     "if state.row == len(layout.rows):",
     "if state.row == len(layout.rows) or state.box == len(layout.rows[state.row].widths):",
     "if state.box == boxes else state", "if state.box == boxes and state.row + 1 < len(layout.rows) else state"),

    # Q-6: the refusals
    ("second reader: 2 is at the bit past the end",
     RUNS_PAST, "        return state._replace(refusal=(2, state.place, state.row))\n"),
    ("second reader: 2 is at the first bit of the box",
     RUNS_PAST, "        return state._replace(refusal=(2, state.place - state.taken, state.row))\n"),
    ("second reader: 4 is at the bit behind the field",
     RULE_REFUSED, "        return refused(state._replace(first=state.place), number)\n"),
    ("second reader: 4 is at the first bit of the last box",
     RULE_REFUSED, "        last = layout.rows[state.row].widths[-1]\n"
                   "        return refused(state._replace(first=state.place - last), number)\n"),
    ("second reader: a refusal is at the first bit of the row before",
     NEXT_ROW, NEXT_ROW + "._replace(first=state.first)"),
    ("second reader: a refusal is at bit 0",
     "    return state._replace(first=state.place)\n", "    return state\n"),
    ("second reader: fields are counted from 1",
     REFUSAL, REFUSAL.replace("state.row", "state.row + 1")),
    ("second reader: each box is a field",
     REFUSAL, REFUSAL.replace("state.row", "len(state.slots)")),
    ("second reader: only fields that are there are counted",
     RULE_REFUSED, f"        return refused(state._replace(row={PRESENT_ROWS}), number)\n",
     RUNS_PAST, f"        return refused(state._replace(row={PRESENT_ROWS}), 2)\n"),
    ("second reader: 5 names the number of fields",
     ONE_REFUSED, ONE_REFUSED.replace(", 0)", ", state.row)")),
    ("second reader: 5 is at the first bit after the fields",
     ONE_REFUSED, ONE_REFUSED.replace("state.place", "state.first")),
    ("second reader: 5 is at the last one",
     AFTER_REFUSAL, AFTER_REFUSAL.replace("refusal:", "refusal and state.refusal[0] != 5:"),
     ONE_REFUSED, ONE_REFUSED.replace("_replace(", "_replace(place=state.place + 1, ")),

    # Q-6: the margin
    *faults_of_margins(),
    ("second reader: the margin begins a bit early",
     CLOSED, CLOSED.replace("return", "state =") + """    if state.row == len(layout.rows):
        state = state._replace(margin=state.margin[:-1] + str(bit))
    return state
"""),
    ("second reader: the margin begins a bit late",
     MARGIN_BIT, MARGIN_BIT.replace("str(bit)", """("0" if state.place == state.first else str(bit))""")),
    ("second reader: the margin begins at bit 0",
     FIELD_BIT, "margin=state.margin)"),
    ("second reader: the margin has the fields, too",
     FIELD_BIT, MARGIN_BIT),
    ("second reader: the margin ends a bit early",
     "to_bytes(state.margin.ljust(", "to_bytes(state.margin[:-1].ljust("),
    ("second reader: the margin of a short Holder area has the area's length",
     """state.margin.ljust(8 * layout.margin, "0")""", "state.margin"),

    # Q-6: the values
    ("second reader: the event has a number for [17]",
     "    del numbers[lab.EVENT_17]\n", ""),
    ("second reader: the event has no number for [16]",
     "EVENT_17 = 20", "EVENT_17 = 19"),
    ("second reader: the event has no number for [18]",
     "EVENT_17 = 20", "EVENT_17 = 21"),
    ("second reader: the status is one of the data",
     "HEAD_SLOTS = 9", "HEAD_SLOTS = 8"),
    ("second reader: a contract without data has zeros for them",
     "([kind, *data] if data_follow else [NO_DATA])", "[kind, *data]"),
    ("second reader: 42h and 50h are exchanged",
     "lab.CONTRACTS[kind]", "lab.CONTRACTS[TYPE_42 + TYPE_50 - kind]"),
    ("second reader: a special event list need not keep the list rule",
     "    require_special_list_rule(numbers, specials)\n    return numbers\n\n\ndef lab_list(",
     "    return numbers\n\n\ndef lab_list("),
    ("second reader: a contract list need not keep the list rule",
     "    return with_tally(lab_numbers(lab.contract_list(positions), record), positions, counters)\n",
     """    numbers = lab_numbers(lab.contract_list(positions), record)
    return numbers + list(tally(contract_entries(numbers), counters))
"""),
    ("second reader: a contract list has no tally",
     "    return with_tally(lab_numbers(lab.contract_list(positions), record), positions, counters)\n",
     "    return with_tally(lab_numbers(lab.contract_list(positions), record), positions, counters)[:-4]\n"),

    # Q-6: the first checks
    *[(f"second reader: any length, {name}", f"def {name}(record{rest}):\n    require_lengths((record, RECORD))\n",
       f"def {name}(record{rest}):\n")
      for name, rest in (("lab_environment", ""), ("lab_event", ""), ("lab_special", ", specials"),
                         ("lab_list", ", positions, counters"))],
    ("second reader: any length, lab_holder",
     "    require_area(area)\n    return lab_numbers(", "    return lab_numbers("),
    ("second reader: a contract may have any length",
     "    require_lengths((record, RECORD))\n    require_type(kind)\n    *numbers",
     "    require_type(kind)\n    *numbers"),
    ("second reader: a contract's type comes before its length",
     "    require_lengths((record, RECORD))\n    require_type(kind)\n    *numbers",
     "    require_type(kind)\n    require_lengths((record, RECORD))\n    *numbers"),
    ("second reader: of a contract's type the low eight bits count",
     "    require_type(kind)\n    *numbers", "    kind %= 256\n    require_type(kind)\n    *numbers"),
    ("second reader: S may be 5",
     "    require(specials <= MOST_SPECIALS)\n    numbers = lab_numbers",
     "    require(specials <= MOST_SPECIALS + 1)\n    numbers = lab_numbers"),
    ("second reader: S must be at least 1",
     "    require(specials <= MOST_SPECIALS)\n    numbers = lab_numbers",
     "    require(1 <= specials <= MOST_SPECIALS)\n    numbers = lab_numbers"),
    ("second reader: S comes before the length",
     "    require_lengths((record, RECORD))\n    require(specials <= MOST_SPECIALS)\n    numbers = lab_numbers",
     "    require(specials <= MOST_SPECIALS)\n    require_lengths((record, RECORD))\n    numbers = lab_numbers"),

    # Q-6: as words
    ("second reader: a word more is let go",
     "    if len(words) != len(kinds):\n",
     """    if name.startswith(b"lab."):
        words = words[:len(kinds)]
    if len(words) != len(kinds):
"""),
    ("second reader: a list without C is taken, and C is 4",
     "    if len(words) != len(kinds):\n",
     """    if name == b"lab.list" and len(words) == len(kinds) - 1:
        words.append(b"4")
    if len(words) != len(kinds):
"""),
    ("second reader: any request may stand behind its name",
     "    if name not in OPERATIONS:\n",
     """    if name.startswith(b"lab.") and name[4:] in OPERATIONS:
        name = name[4:]
    if name not in OPERATIONS:
"""),
    ("second reader: its names may stand behind a structure",
     "    if name not in OPERATIONS:\n",
     """    if name.endswith(b".lab"):
        name = b"lab." + name[:-4]
    if name not in OPERATIONS:
"""),

    # Q-4: the record and its fields
    *faults_of_boxes(),
    *faults_of_numbers(),
    *faults_of_exchange(),
    ("bip: what is written is raised in the old record", VALUE_WRITTEN, "    return [either(record, written)]\n"),
    ("bip: what is written is turned over where the old record has ones",
     VALUE_WRITTEN, "    return [bytes(a ^ b for a, b in zip(record, written))]\n"),
    ("bip: the record stays", VALUE_WRITTEN, "    return [record]\n"),

    # Q-4: the dates
    *faults_of_dates(),
    ("bip: a date lacks to 2^24, on reading", READ_DATE, READ_DATE.replace("LAST_DATE", "LAST_DATE + 1")),
    ("bip: a date is turned over in four bytes, on reading", READ_DATE, READ_DATE.replace("LAST_DATE", "0xFFFFFFFF")),
    ("bip: a date is turned over in two bytes, on reading", READ_DATE, "return [0xFFFF - stored]"),
    ("bip: a date is turned over in two bytes, on writing",
     WRITE_DATE, "return (0xFFFF - given) % (1 << 24)"),
    ("bip: the end counts from the start, on reading", VALUE_READ, "    value[7] -= value[6]\n" + VALUE_READ),
    ("bip: a start after the end is refused, on reading",
     VALUE_READ, "    if value[6] > value[7]:\n        raise Refused(4, 72, 6)\n" + VALUE_READ),
    ("bip: a start after the end is refused, on writing",
     BIP_FIELDS, "    if value[6] > value[7]:\n        raise Refused(7, 72, 6)\n" + BIP_FIELDS),

    # Q-4: the weekdays
    *faults_of_days(),
    ("bip: the first bit is bit 1, on reading", READ_DAYS, READ_DAYS.replace(">> day", ">> day + 1")),
    ("bip: the first bit is bit 1, on writing", WRITE_DAYS, WRITE_DAYS.replace("<< day", "<< day + 1"), *CUT_OFF),
    ("bip: a day is its bit's number, on reading",
     READ_DAYS, READ_DAYS.replace("stored >> day & 1", "stored & 1 << day")),
    ("bip: holidays are Sunday's, on reading", READ_DAYS, READ_DAYS.replace(">> day", ">> min(day, 6)")),
    ("bip: the weekdays are one word, on reading", READ_DAYS, "[stored]"),
    ("bip: there are seven days, on reading", READ_DAYS, READ_DAYS.replace("8", "7")),
    ("bip: no day at all is refused, on reading",
     VALUE_READ, "    if not any(value[8:16]):\n        raise Refused(4, 120, 8)\n" + VALUE_READ),
    ("bip: no day at all is refused, on writing",
     'if name == "weekdays" or given is None:', 'if name == "weekdays" and any(given) or given is None:',
     FITS, f'name != "weekdays" and {FITS}'),

    # Q-4: the extension tag
    *faults_of_tags(),
    ("bip: A000h in any field is refused", NO_OTHER_TAG, "given != NO_FURTHER_RECORD"),
    ("bip: A000h in the low bytes of any field is refused", NO_OTHER_TAG, "given % 65536 != NO_FURTHER_RECORD"),
    ("bip: the word for no tag is A000", READ_TAG, READ_TAG.replace("None", "b'\\xA0\\x00'")),
    ("bip: a tag's word is hex", READ_TAG, READ_TAG + """    if name == "extension tag":
        return [stored.to_bytes(2, "big")]
"""),

    # Q-4: the refusals of a value
    *faults_of_widths(),
    *faults_of_refusals(),
    ("bip: the last fault wins", BIP_IN_ORDER, f"reversed(list({BIP_IN_ORDER}))"),
    ("bip: the tag comes first", BIP_IN_ORDER, f"sorted({BIP_IN_ORDER}, key=lambda field: field[0] != 11)"),
    ("bip: the SAM counter comes last", BIP_IN_ORDER, f"sorted({BIP_IN_ORDER}, key=lambda field: field[0] == 10)"),
    ("bip: the dates come first", BIP_IN_ORDER, f"sorted({BIP_IN_ORDER}, key=lambda field: field[0] not in (6, 7))"),
    ("bip: the end comes before the start", BIP_IN_ORDER,
     f"sorted({BIP_IN_ORDER}, key=lambda field: {{6: 7, 7: 6}}.get(field[0], field[0]))"),
    ("bip: the longest fields come first", BIP_IN_ORDER, f"sorted({BIP_IN_ORDER}, key=lambda field: -field[1][1][1])"),
    ("bip: A000h comes before any number too wide",
     BIP_FIELDS, "    if value[18] == NO_FURTHER_RECORD:\n        raise Refused(7, 184, 11)\n" + BIP_FIELDS),
    ("bip: the place is in bytes", BIP_REFUSED, BIP_REFUSED.replace("8 * offset", "offset")),
    ("bip: the place is in digits", BIP_REFUSED, BIP_REFUSED.replace("8 * offset", "2 * offset")),
    ("bip: the place is a field's last bit",
     BIP_REFUSED, BIP_REFUSED.replace("8 * offset", "8 * (offset + length) - 1")),
    ("bip: the place is behind the field", BIP_REFUSED, BIP_REFUSED.replace("8 * offset", "8 * (offset + length)")),
    ("bip: the place is a field's low bit", BIP_REFUSED, BIP_REFUSED.replace("8 * offset", "8 * offset + 7")),
    ("bip: places are counted from 1", BIP_REFUSED, BIP_REFUSED.replace("8 * offset", "8 * offset + 1")),
    ("bip: the place is 0", BIP_REFUSED, BIP_REFUSED.replace("8 * offset", "0")),
    ("bip: the place of A000h is 0", BIP_REFUSED, BIP_REFUSED.replace(
        "8 * offset", "0 if given == NO_FURTHER_RECORD else 8 * offset")),
    ("bip: the place of A000h is its low byte's", BIP_REFUSED, BIP_REFUSED.replace(
        "8 * offset", "8 * offset + 8 * (given == NO_FURTHER_RECORD)")),
    ("bip: the field is 0", BIP_REFUSED, BIP_REFUSED.replace("rank", "0")),
    ("bip: the field of A000h is 0", BIP_REFUSED, BIP_REFUSED.replace(
        "rank", "0 if given == NO_FURTHER_RECORD else rank")),
    ("bip: fields are counted from 1", BIP_REFUSED, BIP_REFUSED.replace("rank", "rank + 1")),
    ("bip: each day is a field", BIP_REFUSED, BIP_REFUSED.replace("rank", "rank + 7 * (rank > 8)")),
    ("bip: the weekdays are no field", BIP_REFUSED, BIP_REFUSED.replace("rank", "rank - (rank > 8)")),
    ("bip: the RFU is no field", BIP_REFUSED, BIP_REFUSED.replace("rank", "rank - (rank > 2)")),
    ("bip: the field is its offset", BIP_REFUSED, BIP_REFUSED.replace("rank", "offset")),
    ("bip: a number too wide is 4", BIP_REFUSED, BIP_REFUSED.replace("7", "4")),
    ("bip: a number too wide is 11", BIP_REFUSED, "raise Refused(11)"),
    ("bip: A000h is 4", BIP_REFUSED, BIP_REFUSED.replace("7", "4 if given == NO_FURTHER_RECORD else 7")),
    ("bip: A000h is 3", BIP_REFUSED, BIP_REFUSED.replace("7", "3 if given == NO_FURTHER_RECORD else 7")),
    ("bip: an RFU that is not zero is refused, on writing",
     FITS, f'(name != "RFU" or given == 0) and {FITS}'),
    ("bip: an RFU that is not zero is refused, on reading",
     VALUE_READ, "    if value[2]:\n        raise Refused(4, 16, 2)\n" + VALUE_READ),
    ("bip: a refused value leaves zeros", *refused_with("bytes(RECORD)")),
    ("bip: a refused value leaves ones", *refused_with("b'\\xFF' * RECORD")),
    ("bip: the fields before the fault are written", *refused_with("bytes(written[:offset]) + record[offset:]")),
    ("bip: the fields before A000h are written",
     *refused_with("bytes(written[:offset]) + record[offset:]", "given == NO_FURTHER_RECORD")),
    ("bip: A000h is written all the same",
     *refused_with("bytes(written[:offset]) + b'\\xA0\\x00' + record[25:]", "given == NO_FURTHER_RECORD")),
    ("bip: a field at fault is cleared",
     *refused_with("record[:offset] + bytes(length) + record[offset + length:]")),

    # Q-4: the length
    *faults_of_lengths(),
    ("bip: the length comes after the faults of the value", "".join(BIP_LENGTHS["writing"]), BIP_FIELDS,
     VALUE_WRITTEN, BIP_LENGTHS["writing"][0] + VALUE_WRITTEN),
    ("bip: the length comes after A000h", "".join(BIP_LENGTHS["writing"]),
     "    if value[18] == NO_FURTHER_RECORD:\n        raise Refused(7, 184, 11)\n" + "".join(BIP_LENGTHS["writing"])),
    ("bip: of a longer record the first 29 bytes are written", "".join(BIP_LENGTHS["writing"]),
     "    require_lengths((record[:RECORD], RECORD))\n" + BIP_FIELDS,
     VALUE_WRITTEN, "    return [bytes(written) + record[RECORD:]]\n"),

    # Q-4: as words
    ("bip: any day but 0 is 1", BIP_WORDS, BIP_WORDS.replace("FLAG", "NUMBER"),
     WRITE_DAYS, WRITE_DAYS.replace("valid <<", "(valid > 0) <<")),
    ("bip: of a day the lowest bit counts", BIP_WORDS, BIP_WORDS.replace("FLAG", "NUMBER"),
     WRITE_DAYS, WRITE_DAYS.replace("valid <<", "valid % 2 <<")),
    ("bip: a day of 2 is 7", BIP_WORDS, BIP_WORDS.replace("FLAG", "NUMBER"),
     'if name == "weekdays" or given is None:', 'if name == "weekdays" and max(given) < 2 or given is None:',
     FITS, f'name != "weekdays" and {FITS}'),
    ("bip: a day may be 2", BIP_WORDS, BIP_WORDS.replace("FLAG", "number_to(2)"), *CUT_OFF),
    *[(f"bip: {DAYS[index].title()} may be any number", BIP_WORDS, BIP_WORDS.replace(
        "[FLAG] * 8", f"[FLAG] * {index} + [NUMBER] + [FLAG] * {7 - index}"),
       WRITE_DAYS, WRITE_DAYS.replace("valid <<", "(valid > 0) <<")) for index in range(8)],
    ("bip: a day of - is 0", BIP_WORDS, BIP_WORDS.replace(
        "[FLAG] * 8", '[lambda word: 0 if word == b"-" else FLAG(word)] * 8')),
    ("bip: a day must be one digit", BIP_WORDS, BIP_WORDS.replace(
        "[FLAG] * 8", '[lambda word: FLAG(word if len(word) == 1 else b"")] * 8')),
    ("bip: a company or a format above 255 is a bad line",
     BIP_WORDS, BIP_WORDS.replace("[NUMBER] * 8", "[LETTER] * 2 + [NUMBER] * 6")),
    ("bip: a tariff above 65535 is a bad line",
     BIP_WORDS, BIP_WORDS.replace("[NUMBER] * 8", "[NUMBER] * 4 + [number_to(65535)] + [NUMBER] * 3")),
    ("bip: a date above the last is a bad line",
     BIP_WORDS, BIP_WORDS.replace("[NUMBER] * 8", "[NUMBER] * 6 + [number_to(LAST_DATE)] * 2")),
    ("bip: a date may be -",
     BIP_WORDS, BIP_WORDS.replace("[NUMBER] * 8", "[NUMBER] * 6 + [lambda word: number_or_none(word) or 0] * 2")),
    ("bip: the SAM's numbers may be -", BIP_WORDS, BIP_WORDS.replace("[NUMBER] * 2", "[number_or_none] * 2")),
    ("bip: the MAC may be -", BIP_WORDS, BIP_WORDS.replace("none, NUMBER]", "none, number_or_none]")),
    ("bip: no tag is a bad line", TAG_WORD, "return NUMBER(word)"),
    ("bip: no tag is 0", TAG_WORD, TAG_WORD.replace("None", "0")),
    ("bip: 0 is no tag", TAG_WORD, 'return None if word == b"-" else NUMBER(word) or None'),
    ("bip: an empty tag is none", TAG_WORD, TAG_WORD.replace('== b"-"', 'in (b"-", b"")')),
    ("bip: -- is no tag", TAG_WORD, TAG_WORD.replace('word == b"-"', 'set(word) == {45}')),
    ("bip: what begins with - is no tag", TAG_WORD, TAG_WORD.replace('word == b"-"', 'word[:1] == b"-"')),
    ("bip: a tag that is no number is none", TAG_WORD, TAG_WORD.replace('word == b"-"', "not word.isdigit()")),
    ("bip: the word none is no tag", TAG_WORD, TAG_WORD.replace('== b"-"', 'in (b"-", b"none")')),
    ("bip: a tag above 65535 is a bad line", TAG_WORD, TAG_WORD.replace("NUMBER", "number_to(65535)")),
    ("bip: the tag A000h is a bad line", TAG_WORD, """if word.lstrip(b"0") == b"40960":
        raise BadLine
    """ + TAG_WORD),
    ("bip: A000 is no tag, in capitals or not", TAG_WORD, TAG_WORD.replace('== b"-"', 'in (b"-", b"A000", b"a000")')),
    ("bip: a line without a tag is taken, and there is none",
     *words_as("words[19:] = [b'-'] * (len(words) == len(kinds) - 1) + words[19:]")),
    ("bip: a line without a MAC is taken, and it is 0",
     *words_as("words += [b'0'] * (len(words) == len(kinds) - 1)")),
    ("bip: a line without holidays is taken, and they are 0",
     *words_as("words[16:] = [b'0'] * (len(words) == len(kinds) - 1) + words[16:]")),
    ("bip: what is missing is 0", *words_as("words += [b'0'] * (len(kinds) - len(words))")),
    ("bip: a word more is let go", *words_as("words = words[:len(kinds)]")),
    ("bip: a word more is let go, on reading", *words_as("words = words[:len(kinds)]", "bip.read")),
    ("bip: a record alone is taken, as a value of zeros",
     *words_as("words += [b'0'] * (20 if len(words) == 1 else 0)")),
    ("bip: an empty word is let go", *words_as("words = [word for word in words if word]")),
    ("bip: an empty word is let go, on reading", *words_as("words = [word for word in words if word]", "bip.read")),
    ("bip: the days may be one number", *words_as(
        "words[9:10] = b' '.join(b'%d' % (int(words[9]) >> day & 1) for day in range(8)).split() "
        "if len(words) == 14 else words[9:10]")),
    ("bip: its names may have capitals", "    if name not in OPERATIONS:\n", """    if name.lower().startswith(b"bip."):
        name = name.lower()
    if name not in OPERATIONS:
"""),
    ("bip: lab.bip reads it, too", "    if name not in OPERATIONS:\n", """    if name == b"lab.bip":
        name = b"bip.read"
    if name not in OPERATIONS:
"""),
]

UNCHANGED = "nothing", "LONGEST_LINE = 8192", "LONGEST_LINE = 8192"


def mutated_model(texts):
    """`model.py`, which imports `lab.py`, with these texts in either."""
    sources = {name: (HERE / f"{name}.py").read_text() for name in ("lab", "model")}
    for old, new in zip(texts[::2], texts[1::2]):
        occurs = sum(source.count(old) for source in sources.values())
        assert occurs == 1, f"occurs {occurs} times: {old}"
        sources = {name: source.replace(old, new) for name, source in sources.items()}
    for name, source in sources.items():
        sys.modules[name] = ModuleType(name)
        exec(source, sys.modules[name].__dict__)
    return sys.modules["model"]


def told_by(kept, mutation):
    """The number of the first of these lines whose answer the mutation changes; None if there is none."""
    _, *texts = mutation
    answer = mutated_model(texts).answer
    return next((number for number, request, right in kept if answer(request) != right), None)


def main(part="", stdin=DEFAULT_STDIN, stdout=DEFAULT_STDOUT):
    """The lines are asked in any order, so that a fault which changes many of their answers is soon noticed."""
    requests = Path(stdin).read_bytes().split(b"\n")
    answers = Path(stdout).read_text().splitlines()
    assert len(requests) == len(answers)
    kept = list(zip(count(1), requests, answers))
    assert told_by(kept, UNCHANGED) is None, "the vectors are not those of this model"
    Random(0).shuffle(kept)
    tried = [mutation for mutation in MUTATIONS if part in mutation[0]]
    unnoticed = 0
    for mutation in tried:
        line = told_by(kept, mutation)
        print(f"{line or 'none':>6} {mutation[0]}", flush=True)
        unnoticed += line is None
    print(f"{len(tried)} mutations, {unnoticed} unnoticed")
    return 1 if unnoticed else 0


if __name__ == "__main__":
    sys.exit(main(*sys.argv[1:]))
