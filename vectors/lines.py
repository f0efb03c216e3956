"""Lines that are none of the requests, beside lines that only look so."""

ZEROS = "00" * 29
ENV_ZEROS = " ".join(["0"] * 10)
HOLDER_ZEROS = "00" * 116
NO_CODES = "00" * 32
LOAD_BYTES, LOAD_NUMBERS = f"load {ZEROS} {ZEROS} {ZEROS} - - {ZEROS}", "1 0 0 0 0 0 0 66 0"
LONGEST = 8192
PADDED = f"special.read {ZEROS} "


def requests():
    """Bytes, since some of these lines are not text."""
    for family in (words, numbers, byte_strings, separators, flags, codes, tags, margins, counters, tallies,
                   long_lines, second_reader, long_second_lines):
        for line in family():
            yield line if isinstance(line, bytes) else line.encode()


def words():
    yield from ("env", "env.rea", "env.reads", "nonsense", f"Env.read {ZEROS}", f"ENV.READ {ZEROS}")
    yield from ("env.read", f"env.read {ZEROS} 0", f"env.read {ZEROS} {ZEROS}")
    yield from (f"env.write {ZEROS}", f"env.write {ZEROS} {ENV_ZEROS[2:]} {ZEROS}",
                f"env.write {ZEROS} {ENV_ZEROS} 0 {ZEROS}")
    for name, count, margin in (("holder", 111, [HOLDER_ZEROS]), ("event", 35, [ZEROS]), ("special", 22, []),
                                ("list", 55, [])):
        for given in (count - 1, count, count + 1):
            yield " ".join([f"{name}.write", ZEROS] + ["0"] * given + margin)
    yield from (f"select {ZEROS} {ZEROS} 1 0 0", f"select {ZEROS} {ZEROS} 1 0 0 0 0", f"priority {ZEROS} 1 1")
    yield from (f"load {ZEROS}", f"apply {ZEROS}", f"find {ZEROS} {ZEROS}", f"join {ZEROS} {ZEROS} {ZEROS} {ZEROS}")


def numbers():
    for number in ("4294967295", "4294967296", "4294967297", "9999999999", "10000000000", "18446744073709551616",
                   "18446744073709551620", "9" * 100, "9" * 5000, "0", "00", "01", "0" * 40 + "4", "0" * 40 + "9",
                   "+4", "-4", "-", "4.0", "0x4", "4h", "", "٤", "4,", "1e0", "A"):
        yield f"special.read {ZEROS} {number}"
    yield f"env.write {ZEROS} 63 1 00000000000016777215 0 0 0 0 0 0 0 {ZEROS}"
    yield f"env.write {ZEROS} 4294967296 0 0 0 0 0 0 0 0 0 {ZEROS}"
    yield f"env.write {ZEROS} 64 0 0 0 0 0 0 0 0 4294967296 {ZEROS}"
    for letter in ("31", "32", "255", "256", "0255", "4294967295"):
        for index in (2, 35, 38, 77):
            values = ["3", "3"] + ["0"] * 109
            values[index] = letter
            yield f"holder.write {ZEROS} {' '.join(values)} {HOLDER_ZEROS}"


def byte_strings():
    for lent in ("0", "000", ZEROS[1:], "0" + ZEROS, ZEROS[2:] + "0G", ZEROS[2:] + "0a", ZEROS[2:] + "a0", "ff" * 29,
                 "--", "-00", "00-", ZEROS + "-", "0x" + ZEROS, ".", "g", "Ａ0"):
        yield f"env.read {lent}"
    yield "join - - -"
    yield f"join {ZEROS} {'Ff' * 29} {ZEROS}"
    yield f"find {ZEROS} {ZEROS} {'fF' * 29}"
    yield b"env.read \xff\xfe"
    yield b"env.read " + ZEROS.encode() + b"\x00"


def separators():
    good = f"env.read {ZEROS}"
    yield from ("", " ", "  ", f" {good}", f"{good} ", f"env.read  {ZEROS}", f"{good}  ", f"env.read\t{ZEROS}",
                f"{good}\r", f"{good}\t", f"env.read\v{ZEROS}", "\r", good, "", good)
    yield from (f"special.read {ZEROS}  4", f"special.read {ZEROS} 4 ", f"special.read {ZEROS} 4\r")


def flags():
    """HASNETWORK and COUNTER are 0 or 1."""
    for has_network, needs_counter in (("0", "0"), ("1", "1"), ("2", "0"), ("0", "2"), ("4294967295", "0"),
                                       ("00", "01"), ("-", "0"), ("0", "-"), ("0", "256")):
        yield f"{LOAD_BYTES} {NO_CODES} {LOAD_NUMBERS} {has_network} 0 {needs_counter}"


def codes():
    """CODES stands behind NEW and may have any length; the line of before Q-3, which lacks it, is no request."""
    rest = f"{LOAD_NUMBERS} 0 0 0"
    for good in (NO_CODES, "FF" * 32, "0A" * 32, "-", "00", "FF" * 31, "FF" * 33, "00" * 1000):
        yield f"{LOAD_BYTES} {good} {rest}"
    for bad in ("0", "000", NO_CODES[1:], NO_CODES + "0", "ff" * 32, NO_CODES[2:] + "0a", NO_CODES[2:] + "a0",
                NO_CODES[2:] + "0G", NO_CODES[1:] + "-", "--", "0x" + NO_CODES, "x", ""):
        yield f"{LOAD_BYTES} {bad} {rest}"
    yield from (f"{LOAD_BYTES} {rest}", f"{LOAD_BYTES} {rest} {NO_CODES}", f"{LOAD_BYTES} {NO_CODES} {NO_CODES} {rest}",
                f"{LOAD_BYTES} {NO_CODES} {rest} 0", f"{LOAD_BYTES} {NO_CODES} {rest[2:]}",
                f"load {NO_CODES} {LOAD_BYTES[5:]} {rest}", f"{LOAD_BYTES[:-58]}{NO_CODES} {ZEROS} {rest}")


def tags():
    """The tag decides how many numbers follow before the margin."""
    head = f"contract.write {ZEROS} 66 " + " ".join(["0"] * 9)
    for tag in ("0", "00", "66", "066", "80", "1", "65", "67", "79", "81", "322", "4294967362", "x", "-"):
        for count in (0, 8, 9, 10, 35, 36, 37):
            yield " ".join([head, tag] + ["0"] * count + [ZEROS])
    yield f"contract.write {ZEROS} 66"
    yield head
    yield f"{head} {ZEROS}"


def margins():
    """A margin has 29 bytes, a Holder's 116 in every area; a list's value has none."""
    for name, numbers, good in (("env", 10, ZEROS), ("event", 35, ZEROS), ("holder", 111, HOLDER_ZEROS)):
        yield from margin_words(f"{name}.write {ZEROS}", ["0"] * numbers, good)
    for tag, numbers in (("0", 0), ("66", 9), ("80", 36)):
        yield from margin_words(f"contract.write {ZEROS} 66", ["0"] * 9 + [tag] + ["0"] * numbers, ZEROS)
    for length in (28, 29, 30, 58, 87, 115, 116, 117):
        yield " ".join(["holder.write", HOLDER_ZEROS, *["0"] * 111, "00" * length])
    yield from wrong_twice()


def margin_words(request, numbers, good):
    value = " ".join([request, *numbers])
    for length in (0, 1, 28, 29, 30, 58, 87, 115, 116, 117):
        yield f"{value} {'00' * length or '-'}"
    for margin in (good[1:], good + "0", good[2:] + "0G", good[2:] + "0f", good[1:] + "-", "-" + good, "0", "x"):
        yield f"{value} {margin}"
    yield from (value, f"{value} ", f"{value}  {good}", f"{value} {good} ", f"{value} {good} {good}",
                f"{value} {good} 0", " ".join([request, good, *numbers]))


def wrong_twice():
    """A bad line comes before a record of wrong length, and that before a margin at fault."""
    for size in (0, 28, 30):
        for margin in (ZEROS, "FF" * 29, ZEROS[2:], ZEROS + "00", "-"):
            yield f"env.write {'00' * size or '-'} {ENV_ZEROS} {margin}"
            yield f"contract.write {'00' * size or '-'} 67 {' '.join(['0'] * 10)} {margin}"
    for name, numbers in (("special.write", " 4" + " 0" * 21), ("list.write", " 4 4" + " 0" * 53)):
        for margin in ("", " -", f" {ZEROS}"):
            yield f"{name} {ZEROS}{numbers}{margin}"


def counters():
    """C stands behind N wherever a contract list is read or written; the line of before Q-8, which lacks it, is no
    request. The special event list has none."""
    entries = " 0" * 49
    for before, behind in ((f"list.read {ZEROS} 1", ""), (f"list.write {ZEROS} 1", entries + " 0" * 4),
                           (f"select {ZEROS} {ZEROS} 1", " 0 0"), (f"priority {ZEROS} 1", " 1 1")):
        for given in ("", " 0", " 1", " 00", " 2", " 0 0", " 4294967295", " 4294967296", " -", " x", " +1", " -1",
                      " 0x1", " ", f" {ZEROS}"):
            yield before + given + behind
    yield from (f"list.write {ZEROS} 1{entries}", f"list.write {ZEROS} 1 0{entries}",
                f"special.read {ZEROS} 4 4", f"special.write {ZEROS} 4 4" + " 0" * 21)


def tallies():
    """Four numbers behind the entries of a list to write, whether the list is legal or not."""
    for entries in (["0"] * 49, ["0"] * 48 + ["9"]):
        for count in (0, 1, 2, 3, 4, 5, 6, 8):
            yield " ".join(["list.write", ZEROS, "8", "4", *entries, *["0"] * count])
        for index in range(4):
            for number in ("00", "1", "4294967295", "4294967296", "-", "-1", "x", "0x0", "", ZEROS):
                numbers = ["0"] * 4
                numbers[index] = number
                yield " ".join(["list.write", ZEROS, "8", "4", *entries, *numbers])


def long_lines():
    """A line of 8,192 bytes is taken, one byte more is not; a line may be longer than any buffer."""
    for length in (LONGEST - 1, LONGEST, LONGEST + 1, LONGEST + 2):
        yield PADDED + "4".rjust(length - len(PADDED), "0")
    for length in (LONGEST, LONGEST + 1, 20000):
        yield "x" * length
    yield f"special.read {ZEROS} 4"
    yield f"join {'11' * 29} {'22' * 4000} {'33' * 29}"
    yield PADDED + "4".rjust(10000, "0")
    yield f"special.read {ZEROS} 4"


# the words behind the record
SECOND_WORDS = {"env": [], "holder": [], "event": [], "special": ["4"], "list": ["8", "4"], "contract": ["66"]}


def second_reader():
    """Each request of Q-6 with its words, with other ones, and names that are none."""
    for structure, parameters in SECOND_WORDS.items():
        name, rest = f"lab.{structure}", " ".join([ZEROS, *parameters])
        good = f"{name} {rest}"
        yield from (good, name, good[:good.rindex(" ")], f"{good} 0", f"{good} {ZEROS}", f" {good}", f"{good} ",
                    f"{good}\r", f"{name}  {rest}", f"{name}\t{rest}")
        yield from (f"{other} {rest}" for other in (f"Lab.{structure}", name.upper(), f"lab{structure}",
                                                    f"lab {structure}", f"lab.{structure}.read", f"{name}s",
                                                    f"{structure}.lab", f"lab.{structure[:-1]}", structure))
        for lent in ("0", ZEROS[1:], ZEROS + "0", ZEROS[2:] + "0G", "ff" * 29, "--", "0x" + ZEROS, ""):
            yield " ".join([name, lent, *parameters])
        for index in range(len(parameters)):
            for number in ("4294967295", "4294967296", "0" * 40 + parameters[index], "+4", "-4", "-", "4.0", "0x4", "x",
                           "", ZEROS):
                yield " ".join([name, ZEROS, *parameters[:index], number, *parameters[index + 1:]])
    yield from ("lab", "lab.", f"lab {ZEROS}", f"lab. {ZEROS}", f"lab.unknown {ZEROS}", f"lab.read {ZEROS}")
    yield from (f"lab.find {ZEROS} {ZEROS} {ZEROS}", f"lab.select {ZEROS} {ZEROS} 1 0 0 0",
                f"lab.priority {ZEROS} 1 0 1 1", f"lab.env.write {ZEROS} {ENV_ZEROS} {ZEROS}",
                f"lab.env {ZEROS} {ENV_ZEROS} {ZEROS}")


def long_second_lines():
    for length in (LONGEST, LONGEST + 1):
        before = f"lab.special {ZEROS} "
        yield before + "4".rjust(length - len(before), "0")
    yield f"lab.special {ZEROS} 4"
