"""Requests for the BIP contract record of Q-4: any 29 bytes to read, twenty words to write."""

from itertools import combinations

import model
from cards import LARGEST, ZEROS
from draw import flipped, noise

ONES = "FF" * 29
RISING = bytes(range(1, 30)).hex().upper()             # each byte another
FALLING = bytes(range(255, 226, -1)).hex().upper()
DAYS = ("monday", "tuesday", "wednesday", "thursday", "friday", "saturday", "sunday", "holidays")
NO_TAG = 0xA000
DATES_AT, DAYS_AT, TAG_AT = 0x09, 0x0F, 0x17           # offsets

# The largest number that each word but the days can be.
LIMITS = dict(company=255, format=255, rfu=255, extra_tariff=255, tariff=65535, serial=16777215, start=16777215,
              end=16777215, sam_serial=LARGEST, sam_counter=16777215, tag=65535, mac=LARGEST)
WORDS = (*list(LIMITS)[:8], *DAYS, *list(LIMITS)[8:])
NARROW = [name for name, most in LIMITS.items() if most < LARGEST]      # those that can be too wide

NOTHING = dict.fromkeys(WORDS, 0)
# All of 2014 but the weekends and holidays; the next record is 2.
DEFAULTS = {**NOTHING, **dict.fromkeys(DAYS[:5], 1), "company": 35, "format": 1, "rfu": 90, "extra_tariff": 7,
            "tariff": 0x1234, "serial": 0x00ABCD, "start": 4733280, "end": 5258879, "sam_serial": 0x89ABCDEF,
            "sam_counter": 300, "tag": 0xA002, "mac": 0xDEADBEEF}


def requests(random):
    for family in (whole_records, each_bit, weekdays, tags, dates, any_record, read_lengths, each_bit_written,
                   largest_numbers, limits, fault_pairs, tags_written, weekdays_written, dates_written, old_records,
                   write_lengths, any_writing, there_and_back):
        yield from family(random)


def read_line(lent):
    return f"bip.read {lent}"


def write_line(lent, **changes):
    return " ".join(["bip.write", lent, *map(str, {**DEFAULTS, **changes}.values())])


# ---------------------------------------------------------------- Records

def with_bytes(lent, offset, given):
    """The record with other bytes at this offset, all in hex."""
    return lent[:2 * offset] + given + lent[2 * offset + len(given):]


def whole_records(random):
    for lent in (ZEROS, ONES, RISING, FALLING, RISING[::-1], "80" * 29, "01" * 29, "0F" * 29, "AA" * 29, "A0" * 29):
        yield read_line(lent)


def each_bit(random):
    """A single one, and a single zero, at each place."""
    for lent in (ZEROS, ONES):
        for place in range(232):
            yield read_line(flipped(lent, place))


def weekdays(random):
    """A day by itself and all but it, between other bytes; some days together."""
    for bit in range(8):
        for days in (1 << bit, 255 - (1 << bit)):
            yield read_line(with_bytes(noise(random), DAYS_AT, f"{days:02X}"))
    for days in (0x00, 0xFF, 0x1F, 0x60, 0x7F, 0x9F, 0xE0, 0x0F, 0x55, 0xAA):
        yield read_line(with_bytes(RISING, DAYS_AT, f"{days:02X}"))


# None is A000h and nothing else: its neighbours, its bytes the other way round, either byte by itself, the original
# record's tag with each kind of neighbour, tags of extensions.
TAGS = (0xA000, 0x9FFF, 0xA001, 0xA100, 0x00A0, 0x0000, 0xFFFF, 0x0001, 0x00FF, 0xFF00, 0xA0A0, 0xA002, 0xA010, 0xA080,
        0xA0FF, 0x0A00, 0x5FFF, 0xF100, 0xA102)


def tags(random):
    for tag in TAGS:
        for lent in (ZEROS, ONES, noise(random)):
            yield read_line(with_bytes(lent, TAG_AT, f"{tag:04X}"))
    for bit in range(16):
        yield read_line(with_bytes(noise(random), TAG_AT, f"{NO_TAG ^ 1 << bit:04X}"))


DATES = (0, 1, 0xFFFFFF, 0xFFFFFE, 0x800000, 0x7FFFFF, 0x0000FF, 0xFFFF00, 0x00FFFF, 0xFF0000, 0x123456)


def dates(random):
    """Start and end side by side as they are stored."""
    for index, start in enumerate(DATES):
        for end in (DATES[0], DATES[2], DATES[index - 1]):
            yield read_line(with_bytes(noise(random), DATES_AT, f"{start:06X}{end:06X}"))


def any_record(random):
    for _ in range(40):
        yield read_line(noise(random))


def read_lengths(random):
    """Every length but 29 up to 32, and some that are more."""
    for size in (*range(29), 30, 31, 32, 57, 58, 59, 87, 116, 232, 261, 285, 541, 4000):
        yield read_line(noise(random, size))
    for size in (1, 28, 30, 58):
        yield read_line("00" * size)


# ---------------------------------------------------------------- Values

def each_bit_written(random):
    """A single one in each number, and each day; the tag none every second time."""
    for name, most in LIMITS.items():
        for bit in range(most.bit_length()):
            tag = {} if bit % 2 else {"tag": "-"}
            yield write_line(noise(random), **{**NOTHING, **tag, name: 1 << bit})
    for name in DAYS:
        yield write_line(noise(random), **{**NOTHING, name: 1})


def largest_numbers(random):
    """Each number at its largest among zeros and as zero among the largest; all of them."""
    largest = {**dict.fromkeys(DAYS, 1), **LIMITS}
    for name, most in LIMITS.items():
        yield write_line(noise(random), **{**NOTHING, name: most})
        yield write_line(noise(random), **{**largest, name: 0})
        yield write_line(noise(random), **{**largest, name: most - 1})
    for value in (NOTHING, largest, {**NOTHING, "tag": "-"}, {**largest, "tag": "-"}):
        for lent in (ZEROS, ONES):
            yield write_line(lent, **value)


def too_wide(most):
    """One more; some that would be right if they were cut off; the largest."""
    return sorted({most + 1, 2 * most + 3, 65536 + most, 16777216 + most, 1 << 31, LARGEST})


def limits(random):
    for name in NARROW:
        for number in (LIMITS[name] - 1, LIMITS[name], *too_wide(LIMITS[name])):
            yield write_line(noise(random), **{name: number})
    for name in NARROW:
        for number in (LIMITS[name] + 1, LARGEST):
            yield write_line(random.choice([ZEROS, ONES]), **{**NOTHING, name: number})


def faults():
    """Changes that are each a fault by itself, in card order; the tag has two of them."""
    return [*[{name: LIMITS[name] + 1} for name in NARROW], dict(tag=NO_TAG)]


def fault_pairs(random):
    """Of two faults, and of all from each one on, the first is found."""
    for one, other in combinations(faults(), 2):
        if one.keys() != other.keys():
            yield write_line(noise(random), **one, **other)
    for index in range(len(NARROW)):
        wide = dict.fromkeys(NARROW[index:], LARGEST)
        yield write_line(noise(random), **wide)
        yield write_line(noise(random), **{**NOTHING, **wide, "tag": NO_TAG})


def tags_written(random):
    """A000h is no tag's number, nor is what has it in its low 16 bits; in another field it is a number like any."""
    for tag in ("-", *TAGS, NO_TAG + 65536, NO_TAG << 16, NO_TAG + (1 << 31), 65536, 65537, LARGEST):
        yield write_line(noise(random), tag=tag)
        yield write_line(random.choice([ZEROS, ONES]), **{**NOTHING, "tag": tag})
    for name, most in LIMITS.items():
        if name != "tag" and most > NO_TAG:
            yield write_line(noise(random), **{"tag": "-", name: NO_TAG})


def weekdays_written(random):
    for name in DAYS:
        yield write_line(noise(random), **{**dict.fromkeys(DAYS, 0), name: 1})
        yield write_line(noise(random), **{**dict.fromkeys(DAYS, 1), name: 0})
    for one, other in zip(DAYS, DAYS[1:]):
        yield write_line(ONES, **{**dict.fromkeys(DAYS, 0), one: 1, other: 1})


def dates_written(random):
    for index, start in enumerate(DATES):
        for end in (DATES[0], DATES[2], DATES[index - 1]):
            yield write_line(noise(random), start=start, end=end)


def old_records(random):
    """Nothing of the old record stays, and all of it where the value is refused."""
    for lent in (ZEROS, ONES, RISING, FALLING, "A0" * 29):
        for changes in ({}, NOTHING, dict(tag="-"), dict(tag=NO_TAG), dict(company=256), dict(sam_counter=1 << 24)):
            yield write_line(lent, **changes)


def write_lengths(random):
    """The length comes before any fault of the value."""
    for size in (*range(29), 30, 31, 32, 57, 58, 59, 87, 116, 232, 285, 541):
        yield write_line(noise(random, size))
        if size in (0, 1, 2, 15, 28, 30, 58, 285):
            for fault in (dict(company=256), dict(end=LARGEST), dict(tag=NO_TAG), dict.fromkeys(NARROW, LARGEST)):
                yield write_line(noise(random, size), **fault)


def any_number(random, most):
    """Zero and the largest are as likely as any other number at all."""
    return random.choice([0, most] + [random.randint(0, most)] * 3)


def any_value(random):
    value = {name: any_number(random, most) for name, most in LIMITS.items()}
    days = {name: random.randint(0, 1) for name in DAYS}
    tag = random.choice(["-", *[number for number in (value["tag"], random.choice(TAGS)) if number != NO_TAG]])
    return {**value, **days, "tag": tag}


def any_writing(random):
    for _ in range(40):
        yield write_line(noise(random), **any_value(random))
    for _ in range(20):
        fault = random.choice(faults())
        yield write_line(noise(random), **{**any_value(random), **fault})


def answer(request):
    return model.answer(request.encode()).split(" ")


def there_and_back(random):
    """What is read is written onto another record; what is written is read."""
    for lent in (ONES, RISING, FALLING, *[noise(random) for _ in range(12)],
                 *[with_bytes(noise(random), TAG_AT, "A000") for _ in range(4)]):
        yield read_line(lent)
        yield " ".join(["bip.write", noise(random), *answer(read_line(lent))[3:]])
    for _ in range(15):
        writing = write_line(noise(random), **any_value(random))
        yield writing
        yield read_line(answer(writing)[3])


# ---------------------------------------------------------------- Lines

NAMES = ("Bip", "BIP", "bips", "bi", "bip.", "lab.bip", "contract")
BYTE_WORDS = ("0", "000", "{}0", "{}G0", "0a{}", "ff", "--", "-{}", "0x{}", "", "{}-", RISING.lower())
NUMBER_WORDS = ("4294967296", "-", "", "0" * 40 + "4")
DAY_WORDS = ("2", "10", "256", "4294967297", "-", "", "00", "01")
TAG_WORDS = ("--", "-0", "0-", "-1", "+1", "", "A000", "a000", "0xA002", "40962h", "none", "x", "4294967296",
             "18446744073709551617", "00", "0" * 40 + "7", "040960", "000040962", "0065536", "-", ZEROS)


def bad_lines():
    """Lines that are no request for a BIP contract, beside lines that only look so."""
    reading, writing = read_line(RISING), write_line(RISING)
    for whole in (reading, writing):
        name, _, rest = whole.partition(" ")
        yield from (f"{other} {rest}" for other in other_names(name))
        yield from (name, f"{name} ", whole, f"{whole} 0", f"{whole} -", f"{whole} {ZEROS}", f"{whole} ", f" {whole}",
                    f"{whole}\r", f"{whole}\t", whole.replace(" ", "\t", 1), whole.replace(" ", "  ", 1))
        for word in BYTE_WORDS:
            yield whole.replace(RISING, word.format(RISING))
    yield from (f"bip.read {writing.partition(' ')[2]}", f"bip.write {RISING}", f"bip.read {RISING} {RISING}",
                f"bip {RISING}", f"lab.bip {RISING}")
    yield from other_words(writing.split(" "))
    yield from other_orders(writing.split(" "))
    yield from wrong_twice()
    yield from long_lines()


def other_names(name):
    step = name.partition(".")[2]
    yield from (f"{structure}.{step}" for structure in NAMES)
    yield from (f"bip.{other}" for other in (step.capitalize(), step.upper(), f"{step}s", step[:-1], "lab", ""))
    yield from (f"bip{step}", f"bip {step}", f"{step}.bip", f"{name}.{step}", name.upper())


def other_words(good):
    """A word less, all from it on less, a word more, another in its place."""
    for index, name in enumerate(WORDS, 2):
        yield " ".join(good[:index] + good[index + 1:])
        yield " ".join(good[:index])
        yield " ".join(good[:index] + good[index:index + 1] * 2 + good[index + 1:])
        yield " ".join(good[:index] + [""] + good[index:])
        kinds = DAY_WORDS if name in DAYS else TAG_WORDS if name == "tag" else NUMBER_WORDS
        yield from (" ".join(good[:index] + [word] + good[index + 1:]) for word in kinds)


def other_orders(good):
    """No tag has the tag's place; the days are eight words."""
    name, lent, *value = good
    others = [*value[:18], value[19]]
    for index in (0, 7, 16, 17, 19):
        yield " ".join([name, lent, *others[:index], "-", *others[index:]])
    yield " ".join([name, *value, lent])
    yield " ".join([name, lent, *value[:8], "31", *value[16:]])
    yield " ".join([name, lent, *value[:8], "11111000", *value[16:]])


def wrong_twice():
    """A bad line comes before a wrong length, and before a fault of the value."""
    for word in (dict(monday=2), dict(holidays="-"), dict(tag="--"), dict(company=LARGEST + 1)):
        for lent, fault in (("-", {}), (ZEROS[2:], {}), (ZEROS, dict(end=LARGEST)), (ONES, dict(rfu=256))):
            yield write_line(lent, **{**fault, **word})


def long_lines():
    """A line of 8,192 bytes is taken, one byte more is not. The next line is a request again."""
    start, _, last = write_line(ZEROS).rpartition(" ")
    for length in (8192, 8193):
        yield f"{start} " + last.rjust(length - len(start) - 1, "0")
    for size in (4091, 4092):
        yield read_line("00" * size)
    yield read_line(FALLING)
