"""Makes up values and records: a third kind of walk over the layouts of `model.py`, which draws each number."""

from collections import namedtuple
from random import Random

import model

Layout = namedtuple("Layout", "name parameters size walk")
Field = namedtuple("Field", "name widths place present")

MARGINS = {"env": 29, "event": 29, "contract": 29, "holder": 116}      # bytes of a margin; a list has none
ALL_ONES = "1" * 928                                                   # as much of it as there is room for

ENVIRONMENT = Layout("env", "", 29, model.walk_environment)
EVENT = Layout("event", "", 29, model.walk_event)


def holder(size):
    return Layout("holder", "", size, model.walk_holder)


def special_list(specials):
    return Layout("special", f" {specials}", 29, model.walk_special_list)


def contract_list(positions, counters):
    def walk(drawing):
        model.walk_contract_list(drawing, positions)
        drawing.counters = counters
    return Layout("list", f" {positions} {counters}", 29, walk)


def counters_for(positions, index):
    """A C for a card with this N, 0 to 4 and at most N; with the next index the next one."""
    return index % (min(positions, 4) + 1)


def own_counters(positions, lent):
    """A C for a card with this N. The chance is the lent list's, so that C changes nothing else that is drawn."""
    return Random(lent).randint(0, min(positions, 4))


def contract(kind):
    return Layout("contract", f" {kind}", 29, lambda walk: model.walk_contract(walk, kind))


class Drawing(model.Walk):
    """Numbers in `fixed`, by the field's name, are taken as they are, legal or not; the others are drawn and legal, and
    zero where the field is absent. Nothing is refused. `place` stays at the end of the last field; the bits of the
    margin, which follow there, can be fixed, too. A contract list has `counters`, and its words have a tally."""

    counters = None

    def __init__(self, random, size, fixed):
        self.random, self.size, self.fixed = random, size, fixed
        self.bits, self.place, self.value, self.fields = "", 0, {}, []

    def step(self, name, widths, present, rule):
        numbers = self.numbers_for(name, widths, present, rule)
        self.value[name] = numbers
        self.fields.append(Field(name, widths, self.place, present))
        if not present:
            return [0] * len(widths)
        for number, width in zip(numbers, widths):
            self.bits += f"{number % (1 << width):0{width}b}"
        self.place += sum(widths)
        return numbers

    def numbers_for(self, name, widths, present, rule):
        if name in self.fixed:
            fixed = self.fixed[name]
            return list(fixed) if isinstance(fixed, list) else [fixed]
        if not present:
            return [0] * len(widths)
        while True:
            numbers = [self.draw(width) for width in widths]
            if rule is None or rule.holds(*numbers):
                return numbers

    def draw(self, width):
        """Zero and all ones are as likely as any other number at all."""
        return self.random.choice([0, (1 << width) - 1] + [self.random.randrange(1 << width)] * 3)

    def unboxed(self, width, present):
        if present:
            self.bits += f"{self.draw(width):0{width}b}"
            self.place += width

    def tag(self, tag):
        self.value["tag"] = [tag]

    def margin(self, length):
        """As many bits as the record has room for."""
        room = max(self.size - self.place, 0)
        after = (self.fixed["margin"] if "margin" in self.fixed else self.any_margin(room))[:room]
        at_their_places = ("0" * self.place + after).ljust(8 * length, "0")[:8 * length]
        self.value["margin"] = [model.to_bytes(at_their_places)]
        self.bits += after

    def any_margin(self, room):
        """None, a single one at its first or last bit, all ones, or any bits. The chance is the value's own, so that
        margins change nothing else that is drawn."""
        random = Random(self.bits)
        return random.choice(["", "", "1", "1".rjust(room, "0"), "1" * room, f"{random.getrandbits(room):0{room}b}"])

    def no_margin(self):
        """A list has none."""

    def words(self, changes=()):
        """The numbers in card order and the margin or the tally, with others for the fields named in `changes`; the
        tally is then the changed value's, if it is not among them."""
        value = {**self.value, **dict(changes)}
        if self.counters is not None:
            value.setdefault("tally", count_again(value, self.counters))
        return " ".join(model.to_word(given) for given in model.numbers_of(value))


def count_again(value, counters, codes=(15,)):
    """The tally of a contract list's value: used counter pointers, used plain pointers, entries of priority 15 on
    counter positions, on plain ones; or of other codes. In a value at fault a pointer that no card has is passed
    over."""
    numbers = [0, 0, 0, 0]
    for number in range(1, min(value["count"][0], 8) + 1):
        (pointer,), (_, _, priority) = value[f"entry {number} pointer"], value[f"entry {number} tariff"]
        if 1 <= pointer <= 8:
            numbers[0 if pointer <= counters else 1] |= 1 << pointer - 1
            numbers[2 if pointer <= counters else 3] += 1 if priority in codes else 0
    return numbers


def draw(random, layout, fixed=()):
    drawing = Drawing(random, 8 * layout.size, dict(fixed))
    layout.walk(drawing)
    return drawing


def record(bits, size=29):
    """Hex of the bits, with zeros after them; bits past the end are cut off."""
    return model.to_bytes(bits[:8 * size].ljust(8 * size, "0")).hex().upper()


def noise(random, size=29):
    """Hex of any bytes; the empty string is `-`."""
    return random.randbytes(size).hex().upper() or "-"


def drawn_record(random, layout, fixed=()):
    return record(draw(random, layout, fixed).bits, layout.size)


def read(layout, lent):
    return f"{layout.name}.read {lent}{layout.parameters}"


def write(layout, lent, words):
    return f"{layout.name}.write {lent}{layout.parameters} {words}"


def both(random, layout, fixed=()):
    """The same value once as a record to read and once as words to write."""
    drawing = draw(random, layout, fixed)
    yield read(layout, record(drawing.bits, layout.size))
    yield write(layout, noise(random, layout.size), drawing.words())


def ones(layout, *places):
    """A margin with ones at these places, right or wrong, for the words of a drawing."""
    return {"margin": [bytes.fromhex(flipped("00" * MARGINS[layout.name], *places))]}


def write_ones(random, layout, drawing, places, changes=()):
    """A value to write whose margin has ones at just these places."""
    return write(layout, noise(random, layout.size), drawing.words({**dict(changes), **ones(layout, *places)}))


def flipped(lent, *places):
    """Hex with the bits at these places turned over."""
    bits = list(model.to_bits(bytes.fromhex(lent)))
    for place in places:
        bits[place] = "1" if bits[place] == "0" else "0"
    return record("".join(bits), len(lent) // 2)


def list_fixed(random, positions, count=None):
    """Fixed numbers of a legal contract list that fits: 4 bits, 24 an entry and 24 a network are at most 232."""
    count = random.randint(0, positions) if count is None else count
    networks = random.sample(range(count), random.randint(0, min(count, 9 - count)))
    pointers = random.sample(range(1, positions + 1), count)
    return list_entries([(7 if index in networks else 6, pointers[index]) for index in range(count)])


def list_entries(entries):
    """Fixed numbers of a contract list whose entries have these bitmaps and pointers."""
    return fixed_entries(entries, pointer_bit=0b100)


def special_entries(entries):
    """Fixed numbers of a special event list whose entries have these bitmaps and pointers."""
    return fixed_entries(entries, pointer_bit=0b1000)


def fixed_entries(entries, pointer_bit):
    """A pointer whose bit is not set is left zero."""
    fixed = {"count": len(entries)}
    for number, (bitmap, pointer) in enumerate(entries, 1):
        fixed[f"entry {number} bitmap"] = bitmap
        fixed[f"entry {number} pointer"] = pointer if bitmap & pointer_bit else 0
    return fixed


def special_fixed(random, specials, count=None):
    """Fixed numbers of a legal special event list."""
    count = random.randint(0, specials) if count is None else count
    pointers = random.sample(range(1, specials + 1), count)
    return special_entries([(random.choice([14, 15]), pointer) for pointer in pointers])
