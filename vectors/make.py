"""Makes the vectors: requests from a fixed seed and the model's answers to them.

python3 make.py [STDIN STDOUT]
"""

import sys
from collections import Counter
from pathlib import Path
from random import Random

import approval
import bips
import cards
import codes
import fields
import lines
import margins
import model
import passages
import records
import tallies

HERE = Path(__file__).resolve().parent
DEFAULT_STDIN = HERE / "../crates/replay/stdin"
DEFAULT_STDOUT = HERE / "../crates/replay/stdout"
SEED = 1997

# The numbers that documents 01 and 02 let each operation answer. 0 is accepted. Where a number is missing, the layout
# leaves no way to it: an Environment (121 bits at most) and a special event list (176) always fit, so they have no 2;
# an Environment has no range, so it has no 4; 5 is of reading a list and 7 of writing; 9 and 10 belong to one operation
# each, and 8 to selection, which a passage passes on. Its event and its list always fit. A BIP contract is any bytes.
POSSIBLE = {
    "env.read": {0, 1, 3},
    "env.write": {0, 1, 3, 7},
    "holder.read": {0, 1, 2, 4},
    "holder.write": {0, 1, 2, 4, 7},
    "event.read": {0, 1, 2, 4},
    "event.write": {0, 1, 2, 4, 7},
    "special.read": {0, 1, 4, 5, 6, 11},
    "special.write": {0, 1, 4, 6, 7, 11},
    "list.read": {0, 1, 2, 4, 5, 6, 11},
    "list.write": {0, 1, 2, 4, 6, 7, 11},
    "contract.read": {0, 1, 2, 3, 4},
    "contract.write": {0, 1, 2, 3, 4, 7},
    "bip.read": {0, 1},
    "bip.write": {0, 1, 7},
    "select": {0, 1, 2, 4, 5, 6, 8, 11},
    "priority": {0, 1, 2, 4, 5, 6, 11},
    "load": {0, 1, 2, 3, 4, 5, 6, 9, 11},
    "passage": {0, 1, 2, 4, 5, 6, 8, 11},
    "apply": {0, 1, 11},
    "find": {0, 1, 10},
    "join": {0, 1},
}

# the requests to the second reader, each with the one to the working reader that answers the same.
SECOND_READER = {f"lab.{structure}": f"{structure}.read"
                 for structure in ("env", "holder", "event", "special", "list", "contract")}
POSSIBLE.update({name: POSSIBLE[reader] for name, reader in SECOND_READER.items()})

# who walks over each structure, by itself or as a record of a card. A contract goes by its type.
WALKS = {
    "env": ("env.read", "env.write", "lab.env"),
    "holder": ("holder.read", "holder.write", "lab.holder"),
    "event": ("event.read", "event.write", "lab.event", "load's journal", "load's records"),
    "special": ("special.read", "special.write", "lab.special", "load"),
    "list": ("list.read", "list.write", "lab.list", "select", "priority", "load", "passage"),
    "contract 66": ("contract.read", "contract.write", "lab.contract", "load"),
    "contract 80": ("contract.read", "contract.write", "lab.contract", "load"),
    "bip": ("bip.read", "bip.write"),
    "new list": ("load",),
}

# the fields that each number names, counted from 0 over the layouts of document 01. In the kept requests each is
# named by all who walk there (with 7 by those that write, with 5 by the others); with any other number the field is 0.
#
# 2: the first field that can run past the end and those after it. Not among them are a profile count and a first
#    profile's bitmap (11, 12) and a sixth entry's bitmap (21): no choice of elements before them leaves so few bits. A
#    list that loading makes has whole entries, of 24 or 48 bits, so the new entry's network or tariff is at fault.
# 3: the EnvData bitmap. A contract type is refused before any walk.
# 4: the fields with a range.
# 5: no field, hence 0. Q-7: the two lists only.
# 7: all fields but event [17], which has no number, and of a BIP contract the weekdays, of which each is 0 or 1, and
#    the SAM serial and the MAC, whose four bytes hold any number. A margin has 0 as well (see `MARGIN_FAULTS`).
NAMED = {
    2: {
        "holder": {*range(6, 11), *range(13, 41)},       # from the birth place, in an area of 29 bytes
        "event": {*range(16, 36)},                       # from [13]; [17] is 20
        "list": {19, 20, *range(22, 33)},                # from the fifth tariff
        "contract 80": {*range(18, 45)},                 # from group [2]
        "new list": {19, 22, 23, 26, 27, 30, 31},        # tariff 5; network and tariff 6, 7, 8
    },
    3: {
        "env": {8},
    },
    4: {
        "holder": {11, 31, 33, 34},                      # profile count; residence, work place, study place
        "event": {1, 28, 32},                            # minute; [25]; [27]'s minute
        "special": {0},                                  # count
        "list": {0, 3, 7, 11, 15, 19, 23, 27, 31},       # count; the eight tariffs
        "contract 66": {12},                             # sale minute
        "contract 80": {42},                             # group [13]
    },
    5: {
        "special": {0},
        "list": {0},
    },
    7: {
        "env": {*range(10)},
        "holder": {*range(41)},
        "event": {*range(36)} - {20},
        "special": {*range(21)},
        "list": {*range(33)},
        "contract 66": {*range(18)},
        "contract 80": {*range(45)},
        "bip": {*range(13)} - {8, 9, 12},
    },
}

# who refuses a margin, and for which places of a one. Only a Holder's margin can be longer than what is lent.
MARGIN_FAULTS = {
    ("env.write", "in a field"),
    ("event.write", "in a field"),
    ("contract.write", "in a field"),
    ("holder.write", "in a field"),
    ("holder.write", "past the area"),
}
MARGIN_WRITERS = {name for name, _ in MARGIN_FAULTS}

PARAMETERS = {"special": 1, "list": 2, "contract": 1}     # how many numbers follow the record
TYPE_REFUSED = "3 0 0"
ALL_ONES = "FF" * 32                                      # all codes marked
P2_ENTRIES = "6 0 0 16 6 1 6 0 2 16 9 2 6 0 2 5 15 3" + " 0" * 30
C_AT = {"list.read": 2, "list.write": 2, "lab.list": 2, "select": 3, "priority": 2, "passage": 4}     # C is behind N
UP_TO_TALLY = 3 + 49                                      # words of an answer of list.read
ANY_TALLIES = [0, 0, 0, 0], [1, 0, 0, 0], [0, 128, 0, 1], [4294967295] * 4
TALLY_REFUSED = "6 0 0 "
TURNED_OVER = str.maketrans("0123456789ABCDEF", "FEDCBA9876543210")
PASSED = [4, 5, 6, 7, 15, 15, 15, 15, 8, 9, 10, 11]      # what becomes of the priorities 0 to 11
PASSAGE_BITMAP = (1 << 25) + (1 << 4) + (1 << 2)

# where the hex digits of each field of a BIP contract begin and end in the record's 58, by rank.
BIP_DIGITS = [(0, 2), (2, 4), (4, 6), (6, 8), (8, 12), (12, 18), (18, 24), (24, 30), (30, 32), (32, 40), (40, 46),
              (46, 50), (50, 58)]
BIP_START, BIP_END, BIP_DAYS, BIP_TAG = 6, 7, 8, 11      # ranks
BIP_FAULTS = {(0, 0), (8, 1), (16, 2), (24, 3), (32, 4), (48, 5), (72, 6), (96, 7), (160, 10), (184, 11)}


def ask(request):
    return model.answer(request.encode())


def check_samples():
    """P1 to P13 and the second slip, as document 01 gives them, with the field of Q-2, the margin of Q-7, the marked
    code of Q-3 (P13 also with the code unmarked and without a code: free both times) and the tally of Q-8."""
    zeros, p2 = "0" * 58, cards.P2_LIST
    p9, p9_past = (cards.event(0, minute, code=None) for minute in (1439, 1440))
    assert ask(f"list.read {zeros} 4 4") == "0 0 0 0" + " 0" * 52                                          # P1
    assert ask(f"list.read {p2} 4 4") == f"0 0 0 3 {P2_ENTRIES} 7 0 1 0"                                   # P2
    loaded = ask(cards.load_line(contract_list=p2, counters=4, key=2, priority=6)).split(" ")
    assert loaded[:5] == ["0", "0", "0", "4", "4C020C1C42122C40BE3C484C4" + "0" * 33]                      # P3
    assert loaded_pointers((1, 2, 5, 3, 6, 7, 8, 4), range(4, 9), 0) == (5, [1, 2, 3, 6, 7, 8, 4, 5])      # P4
    assert loaded_pointers((1, 2, 5, 3, 6, 7, 8, 4), range(4, 9), 1)[0] == 4                               # P5
    assert ask("list.read 1C021A1" + "0" * 51 + " 4 4") == "4 7 3"                                         # P6
    assert [contract_bits(groups) for groups in (0xD843, 0x810D, 0x0030)] == [207, 198, 142]               # P7
    assert ask(f"event.read {cards.record(cards.bits((0, 25), (1 << 17, 28)))}") == "2 53 20"              # P8
    assert ask(f"event.read {p9}") == "0 0 0 0 1439" + " 0" * 33 + f" {zeros}"                             # P9
    assert ask(f"event.read {p9_past}") == "4 14 1"
    assert ask(f"list.read {zeros[2:]}01 4 4") == "5 231 0"                                                # P10
    assert ask(f"find 05{zeros[2:]} 07{zeros[2:]} {zeros}") == f"0 0 0 02{zeros[2:]}"                      # P11
    assert ask(f"find 05{zeros[2:]} 06{zeros[2:]} {zeros}") == f"10 7 0 {zeros}"                           # P12
    assert [ask(line)[:7] for line in cards.p13_lines(119)] == ["9 0 0 0", "0 0 0 1", "0 0 0 1"]           # P13
    assert [ask(line)[:7] for line in cards.p13_lines(120)] == ["0 0 0 1"] * 3
    assert loaded_pointers((1, 2, 7, 3, 5, 6, 8, 4), range(5, 9), 0)[0] == 7                               # slip


def check_margin_samples():
    """Q-7 by hand: the last bit of an Event; bits 12 and 13 of an Environment, whose fields end before 13; bits 6 and
    7 of a contract, whose fields end before 7; bits 463, 464, 470 and 927 of a Holder in 58 bytes, alone and after a
    one at bit 7, the last one of its bitmap."""
    zeros, last, area = "0" * 58, "0" * 56 + "01", "0" * 116
    assert ask(f"event.read {last}") == "0 0 0" + " 0" * 35 + f" {last}"
    assert ask(f"event.write {zeros}" + " 0" * 35 + f" {last}") == f"0 0 0 {last}"
    assert ask(f"env.write {zeros}" + " 0" * 10 + f" 0008{zeros[4:]}") == f"7 12 0 {zeros}"
    assert ask(f"env.write {zeros}" + " 0" * 10 + f" 0004{zeros[4:]}") == f"0 0 0 0004{zeros[4:]}"
    assert ask(f"contract.write {zeros} 66" + " 0" * 10 + f" 02{zeros[2:]}") == f"7 6 0 {zeros}"
    assert ask(f"contract.write {zeros} 80" + " 0" * 10 + f" 01{zeros[2:]}") == f"0 0 0 01{zeros[2:]}"
    for margin, answer in ((area[2:] + "01" + area, f"0 0 0 {area[2:]}01"), (area + "80" + area[2:], f"7 464 0 {area}"),
                           (area + "02" + area[2:], f"7 470 0 {area}"), (area + area[2:] + "01", f"7 927 0 {area}"),
                           ("01" + area[2:] + area[2:] + "01", f"7 7 0 {area}")):
        assert ask(f"holder.write {area}" + " 0" * 111 + f" {margin}") == answer
    assert ask(f"holder.read {area[2:]}01") == "0 0 0" + " 0" * 111 + f" {area[2:]}01{area}"


def check_code_samples():
    """Q-3 by hand: codes 0, 7, 8, 49 and 255, in an event of day 100, minute 60, with the elements [2] and [25]. It
    blocks if its code alone is marked, not if all others are."""
    before, pointer = "00000001100100" "00000111100" "0010000000000000000000000100", "00001"
    for code, marked in (("00000000", "80" + "00" * 31), ("00000111", "01" + "00" * 31),
                         ("00001000", "0080" + "00" * 30), ("00110001", "00" * 6 + "40" + "00" * 25),
                         ("11111111", "00" * 31 + "01")):
        given = dict(hours=1, event_time=(100, 60), now=(100, 60), journal=cards.record(before + code + pointer))
        assert ask(cards.quiet_line(codes=marked, **given)).startswith("9 0 0 0 ")
        assert ask(cards.quiet_line(codes=marked.translate(TURNED_OVER), **given)).startswith("0 0 0 1 ")


def check_tally_samples():
    """Q-8 by hand: P2's list, whose pointers are 1, 2 and 3 and whose third entry is used up, with each C; then P4's,
    of all eight pointers, of which 4 to 8 are used up; then a single entry at the last counter position and at the
    first plain one. Each is refused with one added to any of the four."""
    p4 = cards.listing(*[(0, 66, 15 if pointer >= 4 else 6, pointer) for pointer in (1, 2, 5, 3, 6, 7, 8, 4)])
    one = [cards.listing((15, 15, priority, 4)) for priority in (15, 14)]
    for lent, positions, counters, tally in (
            (cards.P2_LIST, 4, 0, [0, 0b111, 0, 1]), (cards.P2_LIST, 4, 1, [0b001, 0b110, 0, 1]),
            (cards.P2_LIST, 4, 2, [0b011, 0b100, 0, 1]), (cards.P2_LIST, 4, 3, [0b111, 0, 1, 0]),
            (cards.P2_LIST, 4, 4, [0b111, 0, 1, 0]), (p4, 8, 4, [0b00001111, 0b11110000, 1, 4]),
            (p4, 8, 3, [0b00000111, 0b11111000, 0, 5]), (one[0], 8, 4, [0b1000, 0, 1, 0]),
            (one[0], 8, 3, [0, 0b1000, 0, 1]), (one[1], 8, 4, [0b1000, 0, 0, 0]), (one[1], 8, 3, [0, 0b1000, 0, 0])):
        value = ask(f"list.read {lent} {positions} {counters}").split(" ")[3:]
        assert value[-4:] == [str(number) for number in tally]
        given = " ".join([f"list.write {lent} {positions} {counters}", *value[:-4]])
        for index in range(4):
            wrong = [number + (other == index) for other, number in enumerate(tally)]
            assert ask(with_tally(given, wrong)) == TALLY_REFUSED + lent
    assert ask(f"list.write {cards.ZEROS} 4 4 3 {P2_ENTRIES} 7 0 1 0") == f"0 0 0 {cards.P2_LIST}"
    assert ask(f"list.read {cards.P2_LIST} 3 4") == ask(f"list.read {cards.P2_LIST} 4 5") == "11 0 0"


def check_second_samples():
    """Q-6 by hand: the samples of document 01 that are readings; an Environment with its card status and a Holder with
    a profile, both with a margin of ones; a Holder whose surname has two letters."""
    zeros, ones = "0" * 58, "1" * 232
    assert ask(f"lab.list {zeros} 4 4") == "0 0 0 0" + " 0" * 52                                           # P1
    assert ask(f"lab.list {cards.P2_LIST} 4 4") == f"0 0 0 3 {P2_ENTRIES} 7 0 1 0"                         # P2
    assert ask("lab.list 1C021A1" + "0" * 51 + " 4 4") == "4 7 3"                                          # P6
    assert [contract_bits(groups, "lab.contract") for groups in (0xD843, 0x810D, 0x0030)] == [207, 198, 142]    # P7
    assert ask(f"lab.event {cards.record(cards.bits((0, 25), (1 << 17, 28)))}") == "2 53 20"               # P8
    assert ask(f"lab.event {cards.event(0, 1439, code=None)}") == "0 0 0 0 1439" + " 0" * 33 + f" {zeros}"  # P9
    assert ask(f"lab.event {cards.event(0, 1440, code=None)}") == "4 14 1"
    assert ask(f"lab.list {zeros[2:]}01 4 4") == "5 231 0"                                                 # P10
    assert ask(f"lab.special {zeros[2:]}01 0") == "5 231 0"
    status = cards.record(cards.bits((3, 6), (64, 7), (1, 2), (1, 1)) + ones)
    assert ask(f"lab.env {status}") == f"0 0 0 3 64 0 0 0 0 0 0 1 1 0000{'F' * 54}"
    profile = cards.record(cards.bits((64, 8), (1, 4), (2, 3), (9, 8)) + ones)
    assert ask(f"lab.holder {profile}") == (
        "0 0 0 64" + " 0" * 80 + " 1 2 0 9 0" + " 0" * 25 + f" 000001{'F' * 52}" + "0" * 174)
    surname = cards.record(cards.bits((1, 8), (1, 2), (1, 5), (2, 5)))
    assert ask(f"lab.holder {surname}") == "0 0 0 1 1 1 2" + " 0" * 107 + f" {'0' * 232}"


def check_passage_samples():
    """Q-1 by hand. P3's list, of which operator 2 can use the fourth entry: its priority goes from 6 to 15. P2's list
    has no type that is known. Then a single contract goes from 0 to 4 and to 15; loading goes by its two events."""
    zeros, ones, old = "0" * 58, "F" * 58, "0123456789" * 5 + "ABCDEF01"
    p3, p3_after = "4C020C1C42122C40BE3C484C4" + "0" * 33, "4C020C1C42122C40BE3C485E4" + "0" * 33
    event = "00000001100100" "01001011000" "0010000000000000000000010100" "00110001" "00000111" "00100"
    assert cards.record(event) == "01912C100000A18839" + "0" * 40
    given = f"{zeros * 4} {ones}{old}{zeros} 4 4 100 600 2 49 7"
    assert ask(f"passage {p3} {given}") == f"0 0 0 4 4 6 {p3_after} {cards.record(event)}{ones}{old}"
    for lent in (p3_after, cards.P2_LIST):
        assert ask(f"passage {lent} {given}") == f"8 0 0 0 0 0 {lent} {ones}{old}{zeros}"
    unused, begun, used_up = (digits + "0" * 51 for digits in ("1C08401", "1C08481", "1C085E1"))
    first, second = "01912C100000A18FF840" + "0" * 38, "01916810" "0000A0000040" + "0" * 38
    assert ask(f"passage {unused} {zeros} {old}{ones} 1 0 100 600 0 49 255") == f"0 0 0 1 1 0 {begun} {first}{old}"
    assert ask(f"passage {begun} {zeros} {first}{old} 1 0 100 720 0 0 0") == f"0 0 0 1 1 4 {used_up} {second}{first}"
    for minute, hours, code, answer in ((720, 1, 0, "9 0 0 0"), (720, 1, 49, "0 0 0 1"), (720, 3, 49, "9 0 0 0"),
                                        (720, 1, 255, "0 0 0 1"), (779, 1, 0, "9 0 0 0"), (780, 1, 0, "0 0 0 1")):
        loading = cards.load_line(contract_list=used_up, file=zeros, journal=second + first, positions=1, counters=0,
                                  codes=cards.marking(code), minute=minute, hours=hours)
        assert ask(loading).startswith(answer + " ")


def check_bip_samples():
    """Q-4 by hand. First a record of each field, valid in 2014, which begins after 3287 days: 483960h and 503E7Fh are
    its first and its last minute. Then zeros and ones; dates 1 and FFFFFEh; each day; tags about A000h; numbers too
    wide, each in a record of wrong length, too."""
    zeros, ones = "0" * 58, "F" * 58
    record = "23" "01" "FE" "07" "1234" "00ABCD" "B7C69F" "AFC180" "1F" "89ABCDEF" "00012C" "A002" "DEADBEEF"
    start, end = 3287 * 1440, (3287 + 365) * 1440 - 1
    assert (start, end) == (0x483960, 0x503E7F)
    value = f"35 1 254 7 4660 43981 {start} {end} 1 1 1 1 1 0 0 0 2309737967 300 40962 3735928559"
    before, behind = "255 255 255 255 65535 16777215", "1 1 1 1 1 1 1 1 4294967295 16777215"
    for lent, words in ((record, value), (zeros, "0 0 0 0 0 0 16777215 16777215" + " 0" * 12),
                        (ones, f"{before} 0 0 {behind} 65535 4294967295"),
                        (ones[:18] + "FFFFFE" "000001" + ones[30:46] + "A000" + ones[50:],
                         f"{before} 1 16777214 {behind} - 4294967295")):
        assert ask(f"bip.read {lent}") == f"0 0 0 {words}"
        for old in (zeros, ones, record):
            assert ask(f"bip.write {old} {words}") == f"0 0 0 {lent}"
    for day, byte in enumerate(("01", "02", "04", "08", "10", "20", "40", "80")):
        days = ask(f"bip.read {zeros[:30]}{byte}{zeros[32:]}").split(" ")[11:19]
        assert days == ["1" if number == day else "0" for number in range(8)]
    for digits, tag in (("A000", "-"), ("9FFF", "40959"), ("A001", "40961"), ("A100", "41216"), ("00A0", "160")):
        assert ask(f"bip.read {zeros[:46]}{digits}{zeros[50:]}").split(" ")[21] == tag
    for right, wrong, answer in (("35 1", "256 1", "7 0 0"), (" 4660 ", " 65536 ", "7 32 4"),
                                 (f"{start}", "16777216", "7 72 6"), (f"{end}", "4294967295", "7 96 7"),
                                 (" 300 ", " 16777216 ", "7 160 10"), ("40962", "40960", "7 184 11"),
                                 ("40962", "65536", "7 184 11"), (" 4660 43981 ", " 65536 16777216 ", "7 32 4")):
        refused = value.replace(right, wrong)
        assert ask(f"bip.write {ones} {refused}") == f"{answer} {ones}"
        assert ask(f"bip.write {ones[2:]} {refused}") == f"1 0 0 {ones[2:]}"
    assert ask(f"bip.read {ones[2:]}") == ask(f"bip.read {ones}00") == ask("bip.read -") == "1 0 0"


def loaded_pointers(listed, erasable, needs_counter):
    """The pointer taken and the pointers of the new list."""
    *refusal, pointer, new_list, _ = ask(cards.p4_line(listed, erasable, needs_counter)).split(" ")
    assert refusal == ["0", "0", "0"]
    numbers = model.read_contract_list(bytes.fromhex(new_list), 8, 4)
    return int(pointer), [entry.pointer for entry in model.contract_entries(numbers)]


def contract_bits(groups, reader="contract.read"):
    """How many bits a 50h contract takes: where the margin begins if all bits after the last box known are ones."""
    boxes = cards.bits((0b1100011, 7), (0, 8 + 16 + 8), (0, 14 + 14 + 16 + 2), (groups, 16))
    *_, margin = ask(f"{reader} {cards.record(boxes.ljust(232, '1'))} 80").split(" ")
    return margin_bits(margin).index("1")


def drawn_requests():
    """In order, each once."""
    random = Random(SEED)
    made = [request for maker in (cards, records, fields, margins, codes, tallies)
            for request in maker.requests(random)]
    return list(dict.fromkeys(made))


def passage_requests():
    """In order, each once. They come after all others and have their own chance, so that the older ones stay."""
    return list(dict.fromkeys(passages.requests(Random(SEED))))


def bip_requests():
    """In order, each once, behind the passages and with their own chance."""
    return list(dict.fromkeys(bips.requests(Random(SEED))))


def check_round_trips(requests):
    """What a read gives, written, is the record that was read; what a write leaves, read, is the value that was
    written. Neither has an exception, now that Q-7 carries the bits after the last field."""
    for request in requests:
        name, lent, *words = request.split(" ")
        structure, _, step = name.partition(".")
        answer = ask(request)
        if step == "read" and accepted(answer):
            value = answer.split(" ")[3:]
            assert ask(" ".join([f"{structure}.write", lent, *words, *value])) == f"0 0 0 {lent}", request
        elif step == "write" and accepted(answer):
            count = PARAMETERS.get(structure, 0)
            reading = " ".join([f"{structure}.read", *answer.split(" ")[3:], *words[:count]])
            assert ask(reading) == " ".join(["0 0 0", *words[count:]]), request


def accepted(answer):
    return answer.startswith("0 0 0 ")


def margin_bits(margin):
    return model.to_bits(bytes.fromhex(margin))


def check_margins(requests):
    """Q-7, for each value that is written. What is refused with a margin of zeros is refused alike with any. What is
    not is the same record with the margin's ones raised, or it is refused with 7 and 0: then the ones before the place
    are accepted by themselves, and the one at the place is not."""
    faults = set()
    for request in requests:
        name, lent, *value = request.split(" ")
        if name in MARGIN_WRITERS:
            margin = value.pop()
            answer = ask(request)
            without = ask(" ".join([name, lent, *value, "0" * len(margin)]))
            if not accepted(without):
                assert answer == without, request
            elif accepted(answer):
                assert answer.split(" ")[3] == raised(without.split(" ")[3], margin), request
            else:
                number, place, field = first_three(answer)
                ones = margin_bits(margin)
                before, alone = ones[:place].ljust(len(ones), "0"), "1".rjust(place + 1, "0").ljust(len(ones), "0")
                assert (number, ones[place], field) == (7, "1", 0), request
                assert accepted(ask(" ".join([name, lent, *value, cards.record(before, len(margin) // 2)]))), request
                assert ask(" ".join([name, lent, *value, cards.record(alone, len(margin) // 2)])) == answer, request
                faults.add((name, "in a field" if place < 4 * len(lent) else "past the area"))
    assert faults == MARGIN_FAULTS, faults ^ MARGIN_FAULTS


def raised(record, margin):
    """The record with the ones of the margin, of which none lies past its end."""
    number = int(record, 16) | int(margin[:len(record)], 16)
    return f"{number:0{len(record)}X}"


def check_second_reader(requests):
    """Q-6: "For every byte string it must be shown to give the same refusal, place and values as the working reader":
    for each request to either, bad lines included. The names are of different lengths, so lines at the limit of length
    are left out."""
    pairs = [(name.encode(), reader.encode()) for name, reader in SECOND_READER.items()]
    partners = {**dict(pairs), **{reader: name for name, reader in pairs}}
    for request in requests:
        name, *words = request.split(b" ")
        if name in partners:
            other = b" ".join([partners[name], *words])
            if max(len(request), len(other)) <= model.LONGEST_LINE:
                assert model.answer(request) == model.answer(other), request


def check_cards(requests):
    """Q-7 on a card. Selection gives the part as it lies in the file, and loading puts the new record there as it is.
    Without the margins of the contracts or of the events they answer the same (selection with another part)."""
    for request in requests:
        name, *words = request.split(" ")
        answer = ask(request).split(" ")
        if name == "select" and answer[0] in ("0", "8"):
            file = split(words[1])
            if answer[0] == "0":
                assert answer[6] == file[int(answer[4]) - 1], request
            words[1] = "".join(plain_contracts(words[0], file, words[2], words[3]))
            assert ask(" ".join([name, *words])).split(" ")[:6] == answer[:6], request
        elif name == "load" and answer[0] in ("0", "9"):
            if answer[0] == "0":
                file, after, index = split(words[1]), split(answer[5]), int(answer[3]) - 1
                assert after == file[:index] + [words[5]] + file[index + 1:], request
            words[3], words[4] = ("".join(map(plain_event, split(file))) or "-" for file in words[3:5])
            assert ask(" ".join([name, *words])).split(" ") == answer, request


def check_codes(requests):
    """Q-3, for each loading. Refused before a position was looked for, it is refused alike with all of CODES turned
    over. Else it answers the same without the journal's events that have no marked code, with all codes marked; and the
    same with the bits of all codes turned over that no event has; and with nothing marked as without a journal."""
    for request in requests:
        name, *words = request.split(" ")
        if name == "load":
            answer = ask(request)
            journal, marks = split(words[3]), words[6]
            if not was_read(request, answer):
                assert ask(changed(words, journal, marks.translate(TURNED_OVER))) == answer, request
            else:
                bits = [code_bit(event) for event in journal]
                marked = [event for event, bit in zip(journal, bits) if int(marks, 16) & bit]
                others = int(ALL_ONES, 16) - sum(set(bits))
                assert ask(changed(words, marked, ALL_ONES)) == answer, request
                assert ask(changed(words, journal, f"{int(marks, 16) ^ others:064X}")) == answer, request
                assert ask(changed(words, journal, "00" * 32)) == ask(changed(words, [], marks)), request


def was_read(request, answer):
    """All lengths, parameters and records of the loading are right; a new list that does not fit is 2."""
    number, *_ = first_three(answer)
    return number in (0, 9) or number == 2 and walk_at_fault(request, answer)[0] == "new list"


def code_bit(event):
    """The bit of the event's code in a number of 256 bits whose highest is code 0; 0 if it has no code."""
    _, _, _, _, _, bitmap, _, _, code, *_ = ask(f"event.read {event}").split(" ")
    return 1 << 255 - int(code) if int(bitmap) & 0b100 else 0


def changed(words, journal, marks):
    """The loading with these records as its journal and with these CODES."""
    return " ".join(["load", *words[:3], "".join(journal) or "-", *words[4:6], marks, *words[7:]])


def check_counters(requests):
    """Q-8, for each call that takes C but loading. Where the lengths are right, C outside its limits is 11, whatever
    else is wrong. With each C within them, selection and change of priority answer the same, and so does reading, but
    for the tally."""
    for request in requests:
        name, *words = request.split(" ")
        if name in C_AT and not ask(request).startswith("1 "):
            positions = int(words[C_AT[name] - 1])
            for counters in (5, min(positions + 1, cards.LARGEST), cards.LARGEST):
                assert first_three(ask(with_counters(request, counters))) == (11, 0, 0), request
            if name != "list.write":
                answers = [ask(with_counters(request, counters)) for counters in range(min(positions, 4) + 1)]
                assert len({tuple(answer.split(" ")[:UP_TO_TALLY]) for answer in answers}) == 1, request


def with_counters(request, counters):
    """The request with another C."""
    name, *words = request.split(" ")
    words[C_AT[name]] = str(counters)
    return " ".join([name, *words])


def check_tallies(requests):
    """Q-8, for each list. One that is read has the tally that its other words give. One that is written has it or is
    refused with 6, 0, 0, and so it is with one added to any of the four; if it is refused otherwise, then with any
    tally alike."""
    for request in requests:
        name, lent, *words = request.split(" ")
        answer = ask(request)
        if name == "list.read" and accepted(answer):
            value = answer.split(" ")[3:]
            assert counted(value, int(words[1])) == [int(number) for number in value[-4:]], request
        elif name == "list.write":
            given, tally = " ".join([name, lent, *words[:-4]]), [int(number) for number in words[-4:]]
            if accepted(answer) or answer.startswith(TALLY_REFUSED):
                right = counted(words[2:], int(words[1]))
                assert accepted(answer) == (tally == right), request
                assert accepted(ask(with_tally(given, right))), request
                for index in range(4):
                    wrong = [*right[:index], right[index] + 1, *right[index + 1:]]
                    assert ask(with_tally(given, wrong)) == TALLY_REFUSED + lent, request
            else:
                assert {ask(with_tally(given, any_tally)) for any_tally in ANY_TALLIES} == {answer}, request


def counted(value, counters):
    """The tally of a list's words, pointer by pointer."""
    priorities = {int(value[6 * number]): int(value[6 * number - 1]) for number in range(1, int(value[0]) + 1)}
    sides = [[pointer for pointer in side if pointer in priorities]
             for side in (range(1, counters + 1), range(counters + 1, 9))]
    return [*[sum(2 ** (pointer - 1) for pointer in side) for side in sides],
            *[sum(priorities[pointer] == 15 for pointer in side) for side in sides]]


def with_tally(request, tally):
    return " ".join([request, *map(str, tally)])


def check_changed_lists(requests):
    """Q-8: what a change of priority, removing and appending do to the tally: the entry's pointer stays in use or comes
    into use, and on its side one entry more or less is used up, or as many as before."""
    for request in requests:
        name, lent, *words = request.split(" ")
        answer = ask(request).split(" ")
        if name == "priority" and answer[0] == "0":
            positions, counters, position, code = map(int, words)
            value = ask(f"list.read {lent} {positions} {counters}").split(" ")[3:]
            pointer, old, after = int(value[6 * position]), int(value[6 * position - 1]), answer[3]
            assert changed_tally(lent, after, positions, counters, pointer) == (0, (code == 15) - (old == 15)), request
        elif name == "load" and answer[0] == "0":
            positions, counters, priority, pointer, after = *map(int, (*words[6:8], words[14], answer[3])), answer[4]
            came, more = changed_tally(lent, after, positions, counters, pointer)
            assert more == (priority == 15) - (came == 0), request


def changed_tally(before, after, positions, counters, pointer):
    """Whether the pointer came into use, and how many entries more are used up on its side; nothing else differs."""
    old, new = (tally_of(lent, positions, counters) for lent in (before, after))
    side = 0 if pointer <= counters else 1
    came, more = new[side] - old[side], new[2 + side] - old[2 + side]
    assert came in (0, 1 << pointer - 1) and new[side] >> pointer - 1 & 1 == 1
    assert (new[1 - side], new[3 - side]) == (old[1 - side], old[3 - side])
    return came >> pointer - 1, more


def tally_of(lent, positions, counters):
    """The tally of the list in this record."""
    return [int(number) for number in ask(f"list.read {lent} {positions} {counters}").split(" ")[-4:]]


def check_places(requests):
    """Q-8: "Loading uses them instead of counting". For each loading whose records read, the old list's tally says by
    itself: the lowest pointer that is not in use; else one in use, where any entry is used up; else the next side, or
    no position at all."""
    for request in requests:
        name, lent, *words = request.split(" ")
        answer = ask(request).split(" ")
        if name == "load" and answer[0] in ("0", "9"):
            positions, counters, needs_counter = int(words[6]), int(words[7]), words[-1] == "1"
            tally = tally_of(lent, positions, counters)
            plain = range(counters + 1, positions + 1), tally[1], tally[3]
            counter = range(1, counters + 1), tally[0], tally[2]
            assert int(answer[3]) in places([counter] if needs_counter else [plain, counter]), request


def places(sides):
    """The pointers that loading may take, 0 for none, by what is in use and how many are used up on each side."""
    found = set()
    for pointers, in_use, used_up in sides:
        free = [pointer for pointer in pointers if not in_use >> pointer - 1 & 1]
        if free:
            return found | {min(free)}
        if used_up:
            found |= set(pointers)
    return found | {0}


def check_passages(requests):
    """Q-1, for each passage. It is refused as a selection with the same numbers is, or for its own limits: 1 before 11,
    11 before the others; list and journal are then as they were. Else it answers what that selection answers. Each
    position is met with each priority."""
    met = set()
    for request in requests:
        name, *words = request.split(" ")
        if name == "passage":
            answer, selected = ask(request).split(" "), ask(beginning(words)).split(" ")
            assert answer[:3] == passage_refusal(words, selected), request
            if answer[0] == "0":
                assert answer[3:6] == selected[3:6], request
                position, pointer, priority = map(int, answer[3:6])
                check_list_after(words, position, answer[6])
                check_journal_after(words, pointer, answer[7])
                met.add((position, priority))
            else:
                assert answer[3:] == ["0", "0", "0", words[0], words[2]], request
    assert met == {(position, priority) for position in range(1, 9) for priority in range(12)}, met


def beginning(words):
    """The selection with which a passage begins."""
    contract_list, file, _, positions, counters, day, _, operator, _, _ = words
    return " ".join(["select", contract_list, file, positions, counters, day, operator])


def passage_refusal(words, selected):
    """The passage's three numbers, by those of its selection."""
    length = len(words[2]) if words[2] != "-" else 0
    minute, code, provider = int(words[6]), int(words[8]), int(words[9])
    if selected[0] == "1" or length % 58 != 0:
        return ["1", "0", "0"]
    if selected[0] == "11" or not 58 <= length <= 15 * 58 or minute > 1439 or code > 255 or provider > 255:
        return ["11", "0", "0"]
    return selected[:3]


def check_list_after(words, position, after):
    """It reads as the list before, but for one priority and the tally, which is a fresh count. Change of priority gives
    the same. "01's gate write can always make this change": no bit falls."""
    before, parameters = words[0], f"{words[3]} {words[4]}"
    old, new = (ask(f"list.read {lent} {parameters}").split(" ")[3:] for lent in (before, after))
    at = 6 * position - 1
    code = PASSED[int(old[at])]
    assert new[:-4] == [*old[:at], str(code), *old[at + 1:-4]], words
    assert counted(new, int(words[4])) == [int(number) for number in new[-4:]], words
    assert ask(f"priority {before} {parameters} {position} {code}") == f"0 0 0 {after}", words
    assert int(before, 16) | int(after, 16) == int(after, 16), words
    *refusal, write = ask(f"find {before} {after} {cards.ZEROS}").split(" ")
    assert refusal == ["0", "0", "0"] and ask(f"apply {before} {write}") == f"0 0 0 {after}", words


def check_journal_after(words, pointer, after):
    """First the event, which has nothing but what it was given; then the old records without the last. With other old
    records the event is the same."""
    journal, day, minute, code, provider = (words[index] for index in (2, 5, 6, 8, 9))
    event, *others = split(after)
    elements = {2: code, 4: provider, 25: pointer}
    value = [day, minute, PASSAGE_BITMAP, *[elements.get(element, 0) for element in range(27) if element != 17]]
    assert ask(f"event.read {event}") == " ".join(map(str, ["0 0 0", *value, *[0] * 6, cards.ZEROS])), words
    assert others == split(journal)[:-1], words
    turned = [*words[:2], journal.translate(TURNED_OVER), *words[3:]]
    *_, other_after = ask(" ".join(["passage", *turned])).split(" ")
    assert split(other_after) == [event, *[record.translate(TURNED_OVER) for record in others]], words


def check_bips(requests):
    """Q-4: another length is 1. Any 29 bytes read, and a value is written, whatever lies there, or it is 7 at the first
    field at fault, and the record is as it was. The faults are just those of `BIP_FAULTS`."""
    faults = set()
    for request in requests:
        name, lent, *value = request.split(" ")
        answer = ask(request)
        if len(lent) != 58:
            assert answer == ("1 0 0" if name == "bip.read" else f"1 0 0 {lent}"), request
        elif name == "bip.read":
            check_bip_record(lent, answer)
        elif bip_fault(value):
            assert answer == "7 {} {} {}".format(*bip_fault(value), lent), request
            faults.add(bip_fault(value))
        else:
            assert accepted(answer), request
            assert {ask(" ".join([name, old, *value])) for old in any_old(lent)} == {answer}, request
    assert faults == BIP_FAULTS, faults ^ BIP_FAULTS


def check_bip_record(lent, answer):
    """The value has the digits of its fields. Written onto any record, it is this record. With all bits of start and
    end turned over, they are what they lack to FFFFFFh, and nothing else differs."""
    value = bip_value(lent)
    assert answer == " ".join(["0 0 0", *value]), lent
    assert {ask(" ".join(["bip.write", old, *value])) for old in any_old(lent)} == {f"0 0 0 {lent}"}, lent
    turned = ask(f"bip.read {lent[:18]}{lent[18:30].translate(TURNED_OVER)}{lent[30:]}").split(" ")[3:]
    dates = [str(0xFFFFFF - int(date)) for date in value[BIP_START:BIP_END + 1]]
    assert turned == [*value[:BIP_START], *dates, *value[BIP_END + 1:]], lent


def bip_value(lent):
    """The words of a BIP contract, by the hex digits of its fields."""
    fields = [lent[first:last] for first, last in BIP_DIGITS]
    words = [str(int(digits, 16)) for digits in fields]
    for rank in (BIP_START, BIP_END):
        words[rank] = str(int(fields[rank].translate(TURNED_OVER), 16))
    if fields[BIP_TAG] == "A000":
        words[BIP_TAG] = "-"
    monday_first = reversed(f"{int(fields[BIP_DAYS], 16):08b}")
    return [*words[:BIP_DAYS], *monday_first, *words[BIP_DAYS + 1:]]


def bip_fault(value):
    """Place and rank of the first field at fault, if there is one."""
    words = [*value[:8], "0", *value[16:]]
    for rank, (word, (first, last)) in enumerate(zip(words, BIP_DIGITS)):
        if word != "-" and int(word) >= 16 ** (last - first) or (rank, word) == (BIP_TAG, "40960"):
            return 4 * first, rank
    return None


def any_old(lent):
    """Records that may lie there before: this one, all of its bits turned over, zeros, ones."""
    return [lent, lent.translate(TURNED_OVER), cards.ZEROS, "F" * 58]


def plain_event(record):
    """The event without its margin."""
    *value, margin = ask(f"event.read {record}").split(" ")[3:]
    return ask(" ".join([f"event.write {record}", *value, "0" * len(margin)])).split(" ")[3]


def plain_contracts(contract_list, file, positions, counters):
    """The records of the file, those without margins that read under their entry's type."""
    numbers = model.read_contract_list(bytes.fromhex(contract_list), int(positions), int(counters))
    plain = list(file)
    for entry in model.contract_entries(numbers):
        record = file[entry.pointer - 1]
        answer = ask(f"contract.read {record} {entry.kind}")
        if accepted(answer):
            *value, margin = answer.split(" ")[3:]
            writing = " ".join([f"contract.write {record} {entry.kind}", *value, "0" * len(margin)])
            plain[entry.pointer - 1] = ask(writing).split(" ")[3]
    return plain


def count_pairs(requests, answers):
    """How often each operation gave each number; bad lines are no operation's."""
    pairs = Counter()
    for request, answer in zip(requests, answers):
        name = "! line" if answer == model.BAD_LINE else request.split(b" ")[0].decode()
        number = "! line" if answer == model.BAD_LINE else int(answer.split(" ")[0])
        pairs[name, number] += 1
    return pairs


def check_pairs(pairs):
    given = {name: {number for other, number in pairs if other == name} for name in POSSIBLE}
    assert given == POSSIBLE, {name: given[name] ^ POSSIBLE[name] for name in POSSIBLE if given[name] != POSSIBLE[name]}


def check_fields(requests, answers):
    """Just those fields are named that `NAMED` has, all of them."""
    given = {}
    for request, answer in zip(requests, answers):
        if answer != model.BAD_LINE:
            number, _, field = first_three(answer)
            if number in NAMED and not answer.startswith(TYPE_REFUSED):
                given.setdefault((number, *walk_at_fault(request.decode(), answer)), set()).add(field)
            else:
                assert field == 0, request
    expected = {(number, structure, who): named for number, structures in NAMED.items()
                for structure, named in structures.items() for who in WALKS[structure]
                if number not in (5, 7) or who.endswith(".write") == (number == 7)}
    assert given == expected, {key: (given.get(key), expected.get(key)) for key in given.keys() | expected.keys()
                               if given.get(key) != expected.get(key)}


def first_three(answer):
    """Refusal, place and field."""
    return tuple(int(word) for word in answer.split(" ")[:3])


def walk_at_fault(request, answer):
    """The structure at fault and who walks over it. Q-2: "Every operation that passes such a refusal on passes this
    number on": the first record that does not read has the same three numbers when it is read by itself."""
    name, *words = request.split(" ")
    if "." in name:
        structure, _, _ = SECOND_READER.get(name, name).partition(".")
        return f"contract {words[1]}" if structure == "contract" else structure, name
    for structure, who, reading in readings(name, words):
        refused = ask(reading)
        if not refused.startswith("0 "):
            assert first_three(answer) == first_three(refused), request
            return structure, who
    return "new list", name


def readings(name, words):
    """What selection, change of priority, a passage or loading reads, in order."""
    if name == "select":
        return [("list", name, f"list.read {words[0]} {words[2]} {words[3]}")]
    if name == "priority":
        return [("list", name, f"list.read {words[0]} {words[1]} {words[2]}")]
    if name == "passage":
        return [("list", name, f"list.read {words[0]} {words[3]} {words[4]}")]
    contract_list, _, special_list, journal, special_events, new, _, positions, counters, specials, *_ = words
    kind = words[14]
    return [("list", name, f"list.read {contract_list} {positions} {counters}"),
            ("special", name, f"special.read {special_list} {specials}"),
            *[("event", "load's journal", f"event.read {record}") for record in split(journal)],
            *[("event", "load's records", f"event.read {record}") for record in split(special_events)],
            (f"contract {kind}", name, f"contract.read {new} {kind}")]


def split(file):
    """The records of a file, all in hex; the empty file is `-`."""
    return [file[at:at + 58] for at in range(0, len(file), 58)] if file != "-" else []


def print_counts(pairs):
    """A table: a line for each operation, a column for each refusal number."""
    numbers = [*range(12), "! line"]
    print("| | all | " + " | ".join(map(str, numbers)) + " |")
    print("|---" * (2 + len(numbers)) + "|")
    for name in [*POSSIBLE, "! line"]:
        print_row(name, [pairs[name, number] for number in numbers])
    print_row("all", [sum(pairs[name, number] for name in [*POSSIBLE, "! line"]) for number in numbers])


def print_row(name, counts):
    print(f"| {name} | {sum(counts)} | " + " | ".join(str(count or "") for count in counts) + " |")


def main(stdin=DEFAULT_STDIN, stdout=DEFAULT_STDOUT):
    check_samples()
    check_margin_samples()
    check_code_samples()
    check_tally_samples()
    check_second_samples()
    check_passage_samples()
    check_bip_samples()
    drawn, passed, bip = drawn_requests(), passage_requests(), bip_requests()
    made = drawn + passed + bip
    check_round_trips(made)
    check_margins(made)
    check_cards(made)
    check_codes(made)
    check_counters(made)
    check_tallies(made)
    check_changed_lists(made)
    check_places(made)
    check_passages(made)
    check_bips(bip)
    second = list(approval.requests(drawn))
    check_counters(second)
    requests = [line.encode() for line in drawn] + list(lines.requests()) + [line.encode() for line in second]
    requests += [line.encode() for line in (*passed, *dict.fromkeys(passages.bad_lines()))]
    requests += [line.encode() for line in (*bip, *dict.fromkeys(bips.bad_lines()))]
    check_second_reader(requests)
    answers = [model.answer(request) for request in requests]
    pairs = count_pairs(requests, answers)
    check_pairs(pairs)
    check_fields(requests, answers)
    Path(stdin).write_bytes(b"\n".join(requests))          # the last line lacks its line feed
    Path(stdout).write_text("".join(answer + "\n" for answer in answers))
    print(f"{len(requests)} requests")
    print_counts(pairs)


if __name__ == "__main__":
    main(*sys.argv[1:])
