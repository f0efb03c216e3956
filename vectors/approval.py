"""Requests to the second reader of Q-6: of the readings drawn elsewhere each that shows what none before it shows."""

import model
from draw import ENVIRONMENT, EVENT, Field, contract, contract_list, holder, special_list

LAYOUTS = {
    "env": lambda: ENVIRONMENT,
    "holder": lambda: holder(116),
    "event": lambda: EVENT,
    "special": special_list,
    "list": contract_list,
    "contract": contract,
}


def requests(drawn):
    seen = set()
    for request in drawn:
        name, *words = request.split(" ")
        structure, _, step = name.partition(".")
        if step == "read":
            answer = model.answer(request.encode()).split(" ")
            new = {(structure, *sight) for sight in shown(structure, answer, *words)} - seen
            if new:
                seen |= new
                yield " ".join([f"lab.{structure}", *words])


def shown(structure, answer, lent, *parameters):
    """What is refused shows its three numbers with these parameters. Before the walk (1, 11 and the 3 of a type) each
    record does so by itself, after it (6) the bitmap of the entry at fault counts as well."""
    number, place, field, *value = answer
    before_the_walk = number in ("1", "3", "11") and field == "0"
    if number == "0":
        yield from value_shown(structure, value, lent, parameters)
    else:
        yield number, place, field, parameters, lent if before_the_walk else len(lent)
    if number == "6":
        yield "entry at fault", place, *noted(structure, lent, parameters).value[f"entry {place} bitmap"]


def value_shown(structure, value, lent, parameters):
    """Where the fields end, what each of them is, and the margin; of a list which fields it has, and its tally."""
    reading = noted(structure, lent, parameters)
    table = parameters if structure == "contract" else ()
    yield "parameters", parameters
    yield "end", table, len(lent), reading.place
    for field in reading.fields:
        for index, sight in enumerate(field_shown(field, reading.value[field.name])):
            yield table, field.name, index, sight
    if "margin" in reading.value:
        yield "margin", table, len(lent), bytes_with_ones(*reading.value["margin"])
    else:
        yield "present", tuple(field.present for field in reading.fields)
    if structure == "list":
        yield from (("tally", index, number) for index, number in enumerate(value[-4:]))


def field_shown(field, numbers):
    """Absent; or of each number whether it is zero, all ones or another."""
    if not field.present:
        return ["absent"]
    return [{0: "zero", (1 << width) - 1: "ones"}.get(number, "other") for number, width in zip(numbers, field.widths)]


def bytes_with_ones(margin):
    """The first byte that is not zero, and the last one, if there is one."""
    not_zero = [at for at, byte in enumerate(margin) if byte]
    return tuple(not_zero[:1] + not_zero[-1:])


class Noting(model.Reading):
    """Reads, and notes each field."""

    def __init__(self, record):
        super().__init__(record)
        self.fields = []

    def step(self, name, widths, present, rule):
        self.fields.append(Field(name, widths, self.place, present))
        return super().step(name, widths, present, rule)


def noted(structure, lent, parameters):
    reading = Noting(bytes.fromhex(lent))
    LAYOUTS[structure](*map(int, parameters)).walk(reading)
    return reading
