"""What a designator finds: values of the request, else of the clock, else of a source of attributes (XACML 3.0, core,
sections 7.3.5, 7.3.6, 10.2.5)."""
import collections

from identifiers import OTHERS, SHORTHANDS, SUBJECTS
from values import SECOND, date_of, day_number

IDS = "urn:oasis:names:tc:xacml:1.0:"
ENVIRONMENT = SHORTHANDS["Environment"]
# what of the clock each attribute is, by its id and its type
CLOCK = {(IDS + "environment:current-" + data_type, data_type) for data_type in ("time", "date", "dateTime")}
# the first and the last moment, in seconds after 1970: those of the years 1 to 9999
FIRST_MOMENT, LAST_MOMENT = -62_135_596_800, 253_402_300_799
# a row of a source; its issuer is None where it has none
SourceRow = collections.namedtuple("SourceRow", "category entity attribute_id value issuer", defaults=[None])


def moment_as(data_type, seconds):
    """The moment in UTC, of that type."""
    days, rest = divmod(seconds, 86400)
    date, clock = date_of(day_number(1970, 1, 1) + days), rest * SECOND
    return data_type, {"date": (date, 0), "time": (clock, 0), "dateTime": (date, clock, 0)}[data_type]


def entity_id(category):
    """The id of the attribute that names the entity of the category."""
    if category.startswith(SUBJECTS) and category in SHORTHANDS.values():
        return IDS + "subject:subject-id"
    return {OTHERS + name: f"{IDS}{name}:{name}-id" for name in ("resource", "action")}.get(category)


class Context:
    """An individual request's Category objects, the rows of a source, and a moment."""

    def __init__(self, objects, source, moment):
        self.objects, self.source, self.moment = objects, source, moment

    def asked(self, category, attribute_id, data_type, issuer=None):
        """The values that the request gives."""
        return [value for held in self.objects if held.category == category for attribute in held.attributes
                if (attribute.id, attribute.data_type) == (attribute_id, data_type)
                and issuer in (None, attribute.issuer)
                for value in attribute.values]

    def entity(self, category):
        """The entity of the category: the one text of its id in the request, or else the empty text."""
        named = self.asked(category, entity_id(category), "string")
        return named[0][1] if len(named) == 1 else ""

    def values_of(self, designator):
        """The values that a designator names (7.3.5): the request's, else the clock's, else the source's."""
        data_type, category, attribute_id, issuer, _ = designator
        found = self.asked(category, attribute_id, data_type, issuer)
        if found:
            return found
        if issuer is None and category == ENVIRONMENT and (attribute_id, data_type) in CLOCK:
            return [moment_as(data_type, self.moment)]
        place = category, self.entity(category), attribute_id
        return [row.value for row in self.source if row[:3] == place and row.value[0] == data_type
                and issuer in (None, row.issuer)]
