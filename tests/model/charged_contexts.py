"""What a designator finds, as each look at a request, at the clock and at a source of attributes is charged (XACML 3.0,
core, sections 7.3.5 and 7.3.6)."""
from charges import LARGE, LOOK, ORDERED, STEP, length, of_search, units, units_of
from contexts import CLOCK, ENVIRONMENT, Context, moment_as


class ChargedContext(Context):
    """The context of an individual request, which spends of the work what it is asked for."""

    def __init__(self, objects, source, moment, work):
        super().__init__(objects, source, moment)
        self.work, self.spend = work, work.spend
        self.search = of_search(len(objects)) + max((of_search(len(held.attributes)) for held in objects), default=0)

    def named(self, designator):
        """The attributes of the request that the designator names (7.3.5)."""
        data_type, category, attribute_id, issuer, _ = designator
        return [attribute for held in self.objects if held.category == category for attribute in held.attributes
                if (attribute.id, attribute.data_type) == (attribute_id, data_type)
                and issuer in (None, attribute.issuer) and attribute.values]

    def clock(self, designator):
        """The one value of the clock that the designator names, or none (10.2.5)."""
        data_type, category, attribute_id, issuer, _ = designator
        if issuer is None and category == ENVIRONMENT and (attribute_id, data_type) in CLOCK:
            return [moment_as(data_type, self.moment)]
        return []

    def rows(self, designator):
        """The values of the source's rows that it names; it is asked where there is any row at all."""
        if not self.source:
            return []
        entity = self.entity(designator.category)
        key = length(entity) + length(designator.attribute_id) + length(designator.issuer)
        self.spend(STEP + key + self.search + of_search(len(self.source)))
        place = designator.category, entity, designator.attribute_id
        return [row.value for row in self.source if row[:3] == place and row.value[0] == designator.data_type
                and designator.issuer in (None, row.issuer)]

    def look_up(self, designator):
        """The search for the designator's attributes."""
        key = length(designator.category) + length(designator.attribute_id) + length(designator.issuer)
        self.spend(STEP + key + self.search)

    def bag(self, designator):
        """The values that the designator names, which are copied."""
        self.look_up(designator)
        own = [value for attribute in self.named(designator) for value in attribute.values]
        self.spend(units(own))
        if own:
            return own
        held = self.clock(designator)
        if not held:
            held = self.rows(designator)
            self.spend(units(held))
        return held

    def look_for(self, designator, literal):
        """The values that the designator names, among which the literal is looked for where they are."""
        self.look_up(designator)
        own = self.named(designator)
        for attribute in own:
            self.look_at(attribute.values, literal)
        found = [value for attribute in own for value in attribute.values]
        if found:
            return found
        held = self.clock(designator)
        if held:
            self.spend(units(held) + LOOK)
            return held
        held = self.rows(designator)
        self.spend(2 * units(held) + LOOK * len(held))
        return held

    def look_at(self, values, literal):
        """The search for a literal among the values of an attribute: in order, if many are searched often."""
        if len(values) >= LARGE and self.work.is_ordered:
            self.spend(ORDERED * (units_of(literal) + LOOK))
            return
        if len(values) >= LARGE:
            self.work.scan(len(values))
        self.spend(2 * units(values) + LOOK * len(values))
