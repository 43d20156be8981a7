"""The fields of a header by their names in a text, in the order in which they are written."""
from rehearsal.language import names
from rehearsal.language.formats import Number

# The event count is what the text has events.
FIELDS = {
    "base": names.ADDRESS,
    "penalty": Number("a number of cycles", 32, str),
    "image-length": names.LENGTH,
    "events-offset": Number("an offset in the script", 32, str),
    "image-offset": Number("an offset in the script", 32, str),
    "script-length": Number("a number of bytes", 32, str),
}


def field_value(script, name):
    """What a script has in a field: the header's word of that name, or its length."""
    return script.length if name == "script-length" else getattr(script.header, name.replace("-", "_"))


def default_image_offset(header_length, events):
    """Where the image stands if a text does not say: behind the events, which stand behind the header."""
    return events.end if events.length else header_length


def default_length(header, spare_end):
    """How long a script is if its text does not say: so that all fits."""
    ends = [section.end for section in (header.events, header.image) if section.length]
    return max([header.length, spare_end, *ends])
