"""The second reader of Q-6, for type approval: "it takes one bit after another, keeps the walk's state, and knows the
layouts as rows of widths". Written from document 01 and from requests Q-2, Q-6 and Q-7 of document 02; it has nothing
from the walks of `model.py`.

A layout is a table of rows, a row for each field in card order, present or not. The numbers of its boxes go into slots,
which are counted from 0 over all rows; the comments beside the rows give them. A row is there or not by what stands in
an earlier slot.
"""

from collections import namedtuple

Row = namedtuple("Row", "widths there rule")
Layout = namedtuple("Layout", "rows margin")     # the margin's length in bytes, 0 for a list, which has none

# When a row is there
ALWAYS = "always", 0, 0


def marked(slot, element):
    """Where this element of the bitmap in this slot is marked present."""
    return "marked", slot, element


def above(slot, count):
    """Where the number in this slot is above this count of the entries before."""
    return "above", slot, count


# What is asked of a row's numbers
ANY = "any", 0
NOT_13 = "third is not", 13                      # a list's tariff: the priority
NO_SECOND = "element is absent", 1               # the EnvData bitmap: EnvData2


def at_most(most):
    return "at most", most


MINUTE = at_most(1439)
PLACE_CODE = at_most(99999)


# ---------------------------------------------------------------- The layouts of document 01

def row(*widths, there=ALWAYS, rule=ANY):
    return Row(widths, there, rule)


def elements(bitmap, *widths):
    """Rows of the elements [0], [1] and so on of the bitmap in this slot."""
    return [row(width, there=marked(bitmap, element)) for element, width in enumerate(widths)]


def each(count, rows_of):
    """The rows of so many profiles or entries, by their indexes from 0."""
    return [made for index in range(count) for made in rows_of(index)]


ENVIRONMENT = Layout([
    row(6),                                                         # 0: version
    row(7),                                                         # 1: bitmap
    row(24, there=marked(1, 0)),                                    # 2: network
    row(8, there=marked(1, 1)),                                     # 3: issuer
    row(14, there=marked(1, 2)),                                    # 4: end date
    row(11, there=marked(1, 3)),                                    # 5: pay method
    row(16, there=marked(1, 4)),                                    # 6: authenticator
    row(32, there=marked(1, 5)),                                    # 7: select list
    row(2, there=marked(1, 6), rule=NO_SECOND),                     # 8: EnvData bitmap
    row(1, there=marked(8, 0)),                                     # 9: card status
], margin=29)


def text(letters, there):
    """One row, a box for each letter."""
    return row(*[5] * letters, there=there)


def profile(index):
    bitmap = 82 + 4 * index
    return [row(3, there=above(81, index)), *elements(bitmap, 24, 8, 14)]


HOLDER = Layout([
    row(8),                                                         # 0: bitmap
    row(2, there=marked(0, 0)),                                     # 1: name bitmap
    text(17, there=marked(1, 0)),                                   # 2 to 18: surname
    text(17, there=marked(1, 1)),                                   # 19 to 35: forename
    row(2, there=marked(0, 1)),                                     # 36: birth bitmap
    row(32, there=marked(36, 0)),                                   # 37: date
    text(23, there=marked(36, 1)),                                  # 38 to 60: place
    text(17, there=marked(0, 2)),                                   # 61 to 77: birth name
    row(32, there=marked(0, 3)),                                    # 78: id
    row(24, there=marked(0, 4)),                                    # 79: country
    row(32, there=marked(0, 5)),                                    # 80: company
    row(4, there=marked(0, 6), rule=at_most(4)),                    # 81: profile count
    *each(4, profile),                                              # 82 to 97
    row(12, there=marked(0, 7)),                                    # 98: data bitmap
    row(4, there=marked(98, 0)),                                    # 99: card status
    row(4, there=marked(98, 1)),                                    # 100: telepayment
    row(17, there=marked(98, 2), rule=PLACE_CODE),                  # 101: residence
    row(6, there=marked(98, 3)),                                    # 102: commercial id
    row(17, there=marked(98, 4), rule=PLACE_CODE),                  # 103: work place
    row(17, there=marked(98, 5), rule=PLACE_CODE),                  # 104: study place
    row(16, there=marked(98, 6)),                                   # 105: sale device
    row(16, there=marked(98, 7)),                                   # 106: authenticator
    row(14, there=marked(98, 8)),                                   # 107: start 1
    row(14, there=marked(98, 9)),                                   # 108: start 2
    row(14, there=marked(98, 10)),                                  # 109: start 3
    row(14, there=marked(98, 11)),                                  # 110: start 4
], margin=116)

EVENT = Layout([
    row(14),                                                        # 0: date
    row(11, rule=MINUTE),                                           # 1: minute
    row(28),                                                        # 2: bitmap
    *elements(2, 8, 24, 8, 8, 8, 8, 24, 16, 16, 8, 16, 16, 8, 16,   # 3 to 16: [0] to [13]
              16, 8, 5, 240, 16, 8, 16, 16, 16, 16, 16),            # 17 to 27: [14] to [24]
    row(5, there=marked(2, 25), rule=at_most(19)),                  # 28: contract pointer
    row(16, there=marked(2, 26)),                                   # 29
    row(5, there=marked(2, 27)),                                    # 30: the bitmap of [27]
    row(14, there=marked(30, 0)),                                   # 31: date
    row(11, there=marked(30, 1), rule=MINUTE),                      # 32: minute
    row(1, there=marked(30, 2)),                                    # 33: simulation
    row(2, there=marked(30, 3)),                                    # 34: trip
    row(2, there=marked(30, 4)),                                    # 35: direction
], margin=29)
EVENT_17 = 20                                    # the slot of element [17]: "the event value has no box for it"


def special_entry(index):
    bitmap = 1 + 5 * index
    return [row(4, there=above(0, index)), *elements(bitmap, 24, 8, 2, 5)]


SPECIAL_LIST = Layout([
    row(4, rule=at_most(4)),                                        # 0: count
    *each(4, special_entry),                                        # 1 to 20
], margin=0)


def list_entry(index):
    bitmap = 1 + 6 * index
    return [
        row(3, there=above(0, index)),
        row(24, there=marked(bitmap, 0)),                           # network
        row(4, 8, 4, there=marked(bitmap, 1), rule=NOT_13),         # tariff: operator key, contract type, priority
        row(5, there=marked(bitmap, 2)),                            # pointer
    ]


def contract_list(positions):
    """For a card with this N; there are eight entries with each."""
    return Layout([
        row(4, rule=at_most(positions)),                            # 0: count
        *each(8, list_entry),                                       # 1 to 48
    ], margin=0)


HEAD = [
    row(7),                                                         # 0: bitmap
    *elements(0, 8, 16, 32, 8),                                     # 1 to 4: provider, tariff, serial, class
    row(2, there=marked(0, 4)),                                     # 5: validity bitmap
    *elements(5, 14, 14),                                           # 6 and 7: start date, end date
    row(8, there=marked(0, 5)),                                     # 8: status
]
HEAD_SLOTS = 9
DATA = marked(0, 6)                              # "[6] has no box of its own and says that the data follow"


def group(element, *widths):
    """Rows of a group of 50h, by the bitmap in slot 13."""
    return [row(width, there=marked(13, element)) for width in widths]


CONTRACTS = {
    0x42: Layout([
        *HEAD,
        row(11, there=DATA),                                        # 9: pay method
        row(16, there=DATA),                                        # 10: price
        row(14, there=DATA),                                        # 11: sale date
        row(11, there=DATA, rule=MINUTE),                           # 12: sale minute
        row(8, there=DATA),                                         # 13: agent
        row(16, there=DATA),                                        # 14: device
        row(1, there=DATA),                                         # 15: receipt
        row(8, there=DATA),                                         # 16: passengers
        row(14, there=DATA),                                        # 17: inhibition end
    ], margin=29),
    0x50: Layout([
        *HEAD,
        row(14, there=DATA),                                        # 9: end date
        row(14, there=DATA),                                        # 10: grey list
        row(16, there=DATA),                                        # 11: chrono
        row(2, there=DATA),                                         # 12: flag
        row(16, there=DATA),                                        # 13: bitmap of groups
        *group(0, 8),                                               # 14: agent
        *group(1, 14, 14, 14),                                      # 15 to 17: origin, destination, via
        *group(2, 16, 16, 14, 14),                                  # 18 to 21: tokens, autoload dates
        *group(3, 8, 5),                                            # 22 and 23: balance, last debit
        *group(4, 19, 16),                                          # 24 and 25: purse, debit
        *group(5, 6),                                               # 26: passengers
        *group(6, 14, 6),                                           # 27 and 28: period end, balance
        *group(7, 6, 6, 6),                                         # 29 to 31: zones
        *group(8, 6, 6),                                            # 32 and 33: sections, left
        *group(9, 14, 14, 14, 14),                                  # 34 to 37: stops
        *group(10, 14, 14),                                         # 38 and 39: lines
        *group(11, 14),                                             # 40: weekly limits
        *group(12, 14),                                             # 41: start date
        row(11, there=marked(13, 13), rule=MINUTE),                 # 42: end minute
        *group(14, 4),                                              # 43: token
        *group(15, 4),                                              # 44: intermodal
    ], margin=29),
}


# ---------------------------------------------------------------- The machine

# `slots` are the numbers of all boxes before the open one, which is box `box` of row `row`. The row's first bit is at
# `first`; `taken` bits of the box make `number` so far. `place` bits were taken in all. `margin` has each bit after the
# last field, and before them a "0" for each bit of a field. `refusal` is the number, the place and the field.
State = namedtuple("State", "slots row first box taken number place margin refusal")
BEFORE = State(slots=(), row=0, first=0, box=0, taken=0, number=0, place=0, margin="", refusal=None)


def run(layout, record):
    """The state after all bits of the record, or with the refusal."""
    state = open_row(layout, BEFORE)
    for byte in record:
        for down in range(7, -1, -1):
            state = step(layout, state, byte >> down & 1)
    return end(layout, state)


def step(layout, state, bit):
    """The next state. "First fault wins": after a refusal no bit changes anything."""
    if state.refusal:
        return state
    if state.row == len(layout.rows):
        return after_the_fields(layout, state, bit)
    state = state._replace(taken=state.taken + 1, number=2 * state.number + bit, place=state.place + 1,
                           margin=state.margin + "0")
    width = layout.rows[state.row].widths[state.box]
    return close_box(layout, state) if state.taken == width else state


def close_box(layout, state):
    """The number goes into its slot. The row is closed with its last box."""
    boxes = len(layout.rows[state.row].widths)
    state = state._replace(slots=(*state.slots, state.number), box=state.box + 1, taken=0, number=0)
    return close_row(layout, state) if state.box == boxes else state


def close_row(layout, state):
    """The row's numbers are held against its rule, as soon as all are there."""
    number = broken(layout.rows[state.row].rule, state.slots[-state.box:])
    if number:
        return refused(state, number)
    return open_row(layout, state._replace(row=state.row + 1, box=0))


def open_row(layout, state):
    """Goes on to the next row that is there. 01: "An absent field is zero", and each of its boxes has its slot."""
    while state.row < len(layout.rows) and not is_there(layout.rows[state.row].there, state.slots):
        zeros = [0] * len(layout.rows[state.row].widths)
        state = state._replace(slots=(*state.slots, *zeros), row=state.row + 1)
    return state._replace(first=state.place)


def is_there(there, slots):
    kind, slot, number = there
    if kind == "marked":
        return slots[slot] >> number & 1 == 1
    if kind == "above":
        return slots[slot] > number
    return True


def broken(rule, numbers):
    """The number of the refusal if the rule does not hold, else 0."""
    kind, number = rule
    if kind == "at most":
        return 4 if numbers[0] > number else 0
    if kind == "third is not":
        return 4 if numbers[2] == number else 0
    if kind == "element is absent":
        return 3 if numbers[0] >> number & 1 == 1 else 0
    return 0


def refused(state, number):
    """At the first bit of the open row. Q-2: "over all fields of the structure, present or not": each has its row."""
    return state._replace(refusal=(number, state.first, state.row))


def after_the_fields(layout, state, bit):
    """A bit of the margin; in a list a one is 5, which names no field."""
    if bit and not layout.margin:
        return state._replace(refusal=(5, state.place, 0))
    return state._replace(place=state.place + 1, margin=state.margin + str(bit))


def end(layout, state):
    """No bit is left. A row that is still open "runs past the end": 2."""
    if not state.refusal and state.row < len(layout.rows):
        return refused(state, 2)
    return state
