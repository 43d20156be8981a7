"""How each kind of event is written: its name, and the fields that it uses, in order."""
from collections.abc import Callable
from dataclasses import dataclass

from rehearsal.language import names
from rehearsal.script import event

# All fields but the kind.
OTHER_FIELDS = ("size", "aux", "a", "b")


@dataclass(frozen=True)
class Operand:
    """A field and its format, which may hang on the fields before it. One with a default may be left out."""

    field: str
    format_for: Callable
    default: int | None = None


@dataclass(frozen=True)
class Form:
    name: str
    kind: int
    operands: tuple[Operand, ...] = ()

    @property
    def fields(self):
        return [operand.field for operand in self.operands]


def always(field, fixed, default=None):
    return Operand(field, lambda fields: fixed, default)


def system_value(fields):
    return names.VALUES.get(fields["aux"], names.VALUE)


def cache_value(fields):
    return names.CACHE_VALUES.get(fields["a"], names.VALUE)


ACCESS = (always("size", names.SIZE), always("a", names.ADDRESS))
TRAP = (always("a", names.ADDRESS), always("b", names.CAUSE), always("aux", names.MODE, default=0))
REGISTER_NUMBER = always("aux", names.SYSTEM_REGISTER)
CACHE_REGISTER = always("a", names.CACHE_REGISTER)

FORMS = (
    Form("load", event.LOAD, ACCESS),
    Form("store", event.STORE, ACCESS + (always("b", names.VALUE),)),
    Form("fetch", event.FETCH, ACCESS),
    Form("trap", event.TRAP, TRAP),
    Form("iret", event.IRET),
    Form("read", event.READ, (REGISTER_NUMBER,)),
    Form("write", event.WRITE, (REGISTER_NUMBER, Operand("a", system_value))),
    Form("source", event.SOURCE, (always("aux", names.SOURCE), always("size", names.LEVEL))),
    Form("clear", event.CLEAR, (always("aux", names.MASK),)),
    Form("enable", event.ENABLE, (always("aux", names.MASK),)),
    Form("external-write", event.EXTERNAL_WRITE, (always("a", names.ADDRESS), always("b", names.LENGTH))),
    Form("cache-read", event.CACHE_READ, (CACHE_REGISTER,)),
    Form("cache-write", event.CACHE_WRITE, (CACHE_REGISTER, Operand("b", cache_value))),
    Form("reset", event.RESET),
    Form("output", event.OUTPUT),
    Form("set", event.SET, (always("size", names.REGISTER), always("a", names.VALUE))),
)
BY_NAME = {form.name: form for form in FORMS}
BY_KIND = {form.kind: form for form in FORMS}


def form_of(kind):
    """A kind without a name has no field that it uses."""
    return BY_KIND.get(kind) or Form(f"kind {kind}", kind)


def event_text(e):
    """An event as a line of text: its name, what it uses, and then the other fields that are not zero."""
    form, fields = form_of(e.kind), vars(e)
    said = [operand for operand in form.operands if fields[operand.field] != operand.default]
    unused = [name for name in OTHER_FIELDS if name not in form.fields and fields[name]]
    words = [operand.format_for(fields).write(fields[operand.field]) for operand in said]
    return " ".join([form.name, *words, *(f"{name}={names.VALUE.write(fields[name])}" for name in unused)])
