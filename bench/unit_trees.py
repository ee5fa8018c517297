"""Forms of targets, rules, policies, sets, expressions, designators, obligations and requests."""
from functions import V1, V2, V3
from unit_documents import (
    LONGEST, Form, apply, attribute, bytes_shown, denies_by, denies_if, designator, inner, literal, match, policy,
    policy_set, request, rule, size_of, target, to_policy, to_set, value_of, variable, written)

FALSE, TRUE = literal("boolean", False), literal("boolean", True)


# ---- rules, policies and sets


def rules_by_algorithm():
    for algorithm in ("deny-overrides", "permit-overrides", "first-applicable", "deny-unless-permit",
                      "permit-unless-deny"):
        effect = "Deny" if algorithm in ("permit-overrides", "deny-unless-permit") else "Permit"
        if algorithm != "first-applicable":
            yield Form(f"1,500 rules without more, {algorithm}",
                       [policy(algorithm=algorithm, Rule=[rule(effect)] * 1_500)], request())
            yield Form(f"1,000 policies of one rule, {algorithm}",
                       [policy_set("s", [to_policy()] * 999, algorithm), policy(Rule=[rule(effect)])], request())
        yield Form(f"600 rules with a false condition, {algorithm}",
                   [policy(algorithm=algorithm, Rule=[rule(effect, Condition=FALSE)] * 600)], request())
        fault = apply(V1 + "not", apply(V1 + "boolean-one-and-only", apply(V1 + "boolean-bag")))
        at_fault = rule("Permit" if algorithm != "first-applicable" else "Deny", Condition=fault)
        yield Form(f"200 rules with a fault, {algorithm}", [policy(algorithm=algorithm, Rule=[at_fault] * 200)],
                   request())
        yield Form(f"1,000 policies without rules, {algorithm}",
                   [policy_set("s", [to_policy()] * 999, algorithm), policy()], request())


def targets():
    yield Form("1,100 rules with an empty target", [policy(Rule=[rule(Target={"AnyOf": []})] * 1_100)], request())
    small = target(match(V1 + "boolean-equal", "boolean", True))
    no_match = policy(Target=small)
    yield Form("1,000 policies that don't apply, only-one-applicable",
               [policy_set("s", [to_policy()] * 999, "only-one-applicable"), no_match], request())
    yield Form("a target of 250 AnyOf that are true", [policy(Target={"AnyOf": small["AnyOf"] * 250}, Rule=[rule()])],
               request(attribute("a", True, "boolean")))


def sets():
    yield Form("1,000 references that lead nowhere", [policy_set("s", [to_policy("none")] * 1_000)], request())
    yield Form("1,000 sets of nothing",
               [policy_set("s", [to_set("t")] * 999), policy_set("t", [])], request())
    nested = policy_set("t7", [])
    for level in range(7):
        nested = policy_set(f"t{level}", [nested])
    yield Form("1,000 sets, eight in one another",
               [policy_set("s", [to_set("t6")] * 120), nested], request())
    yield Form("1,000 policies with 10 rules that don't apply",
               [policy_set("s", [to_policy()] * 999),
                policy(Rule=[rule(Target=target(match(V1 + "string-equal", "string", "y")))] * 10)],
               request(attribute("a", "x"), times=10))
    many = [policy(f"p{place}", Rule=[rule(Target=target(match(V1 + "string-equal", "string", f"y{place}{at}")))
                                      for at in range(30)]) for place in range(200)]
    yield Form("200 policies of 30 rules, each another",
               [policy_set("s", [to_policy(f"p{place}") for place in range(200)])] + many,
               request(attribute("a", "x"), times=10))
    others = [policy(f"p{place}", Rule=[rule("Permit")] * 300) for place in range(200)]
    yield Form("200 policies of 300 rules without more",
               [policy_set("s", [to_policy(f"p{place}") for place in range(200)])] + others, request(times=10))
    for count in (1, 3):
        denying = rule("Deny", Condition=apply(V1 + "not", apply(V1 + "and", *[TRUE] * count)))
        yield Form(f"and of {count} true", [policy(Rule=[denying] * (200 if count == 1 else 150))], request())


# ---- expressions


def deep(function, data_type, held_value, times=20):
    expression = literal(data_type, held_value)
    for _ in range(times):
        expression = apply(function, expression)
    return expression


def literals():
    yield Form("or of 600 literals", [denies_if(*[FALSE] * 600, times=1)], request())
    yield Form("n-of of 600 literals",
               [denies_if(apply(V1 + "n-of", literal("integer", 1), *[FALSE] * 600), times=1)], request())
    yield Form("not, 20 in one another", [denies_if(deep(V1 + "not", "boolean", False), times=25)], request())
    yield Form("integer-abs, 20 in one another",
               [denies_if(apply(V1 + "integer-equal", deep(V1 + "integer-abs", "integer", -7), literal("integer", 1)),
                          times=25)], request())
    yield Form("normalize-space, 20 in one another",
               [denies_if(apply(V1 + "string-equal", deep(V1 + "string-normalize-space", "string", " x "),
                                literal("string", "y")), times=25)], request())
    yield Form("or of or of one", [denies_if(deep(V1 + "or", "boolean", False), times=25)], request())
    yield Form("bags of nothing", [denies_if(size_of(apply(V1 + "string-bag"), "string"), times=150)], request())
    yield Form("unions of bags of nothing",
               [denies_if(size_of(apply(V1 + "string-union", *[apply(V1 + "string-bag")] * 400), "string"), times=1)],
               request())
    yield Form("a bag of 600 literals",
               [denies_if(size_of(apply(V1 + "string-bag", *[literal("string", "x")] * 600), "string"), times=1)],
               request())


def chains():
    """Variables of which each names the one before."""
    yield Form("variables that each name the one before",
               [denies_if(variable("v499"), times=1, defined=[("v0", FALSE)]
                          + [(f"v{n}", variable(f"v{n - 1}")) for n in range(1, 500)])], request())
    joined = apply(V3 + "map", inner(V1 + "string-normalize-space"), designator("a"))
    chain = [("v0", joined)] + [(f"v{n}", variable(f"v{n - 1}")) for n in range(1, 200)]
    yield Form("variables that each copy a bag of texts",
               [denies_if(size_of(variable("v199"), "string"), times=1, defined=chain)],
               request(attribute("a", ["x"] * 400), times=2))
    numbers = ([("v0", apply(V3 + "map", inner(V1 + "integer-abs"), designator("a", "integer")))]
               + [(f"v{n}", variable(f"v{n - 1}")) for n in range(1, 200)])
    yield Form("variables that each copy a bag of integers",
               [denies_if(size_of(variable("v199"), "integer"), times=1, defined=numbers)],
               request(attribute("a", [1] * 4_000, "integer"), times=2))
    texts = [("v0", literal("string", "x" * 20_000))] + [(f"v{n}", variable(f"v{n - 1}")) for n in range(1, 400)]
    yield Form(
        "variables that each copy a text of 20,000 bytes",
        [denies_if(apply(V1 + "string-equal", variable("v399"), literal("string", "y")), times=1, defined=texts)],
        request(times=4))
    small = [("v0", literal("string", "x"))] + [(f"v{n}", variable(f"v{n - 1}")) for n in range(1, 500)]
    yield Form("variables that each copy a text of a byte",
               [denies_if(apply(V1 + "string-equal", variable("v499"), literal("string", "y")), times=1,
                          defined=small)], request())


def comparisons():
    """Any-of and any-of-any by functions that compare."""
    for count, size in ((8, 1), (250, 1), (250, 100)):
        for name, function in (("string-starts-with", V3 + "string-starts-with"),
                               ("string-greater-than", V1 + "string-greater-than")):
            first = literal("string", "y" * size)
            expression = apply(V3 + "any-of", inner(function), first, variable("v"))
            yield Form(f"any-of of {name}, {count} values of {bytes_shown(size)}",
                       [denies_if(expression, defined=[("v", designator("a"))], times=20)],
                       request(attribute("a", ["x" * size] * count)))
    for name in ("dateTime-greater-than", "date-greater-than", "time-less-than", "integer-less-than",
                 "string-less-than"):
        data_type = name.split("-")[0]
        expression = apply(V3 + "any-of-any", inner(V1 + name), variable("v"), variable("w"))
        asked = request(attribute("a", [value_of(data_type, 40)] * 250, data_type),
                        attribute("b", [value_of(data_type, 40)] * 250, data_type))
        yield Form(f"any-of-any by {name}, two bags of 250",
                   [denies_if(expression, defined=[("v", designator("a", data_type)),
                                                   ("w", designator("b", data_type))], times=20)], asked)


def choices():
    """All-of-all and any-of-any by other functions."""
    for size in (0, 1, 20, 200):
        for function in ("string-starts-with", "string-ends-with"):
            expression = apply(V1 + "all-of-all", inner(V3 + function), variable("v"), variable("w"))
            asked = request(attribute("a", ["x" * size] * 60), attribute("b", ["x" * size] * 60))
            yield Form(f"all-of-all of {function}, {bytes_shown(size)}",
                       [denies_if(apply(V1 + "not", expression),
                                  defined=[("v", designator("a")), ("w", designator("b"))], times=1)], asked)
            expression = apply(V3 + "any-of-any", inner(V3 + function), variable("v"), variable("w"))
            asked = request(attribute("a", ["x" * size + "y"] * 60), attribute("b", ["x" * size] * 60))
            yield Form(f"any-of-any of {function}, {bytes_shown(size)}",
                       [denies_if(expression, defined=[("v", designator("a")), ("w", designator("b"))], times=1)],
                       asked)
    bags = [("t", designator("t", "time")), ("u", designator("u", "time")), ("w", designator("w", "time"))]
    times = {"t": ["23:59:59.123456789-13:59"] * 15, "u": ["11:00:00+13:59"] * 15, "w": ["12:00:00.1+13:59"] * 15}
    expression = apply(V3 + "any-of-any", inner(V2 + "time-in-range"), *[variable(name) for name, _ in bags])
    yield Form("any-of-any of time-in-range", [denies_if(expression, defined=bags, times=1)],
               request(*[attribute(name, values, "time") for name, values in times.items()]))
    empty = apply(V3 + "any-of-any", inner(V3 + "string-starts-with"), variable("v"), designator("none"))
    yield Form("any-of-any with an empty bag", [denies_if(empty, defined=[("v", designator("a"))], times=20)],
               request(attribute("a", ["x"] * 250)))
    wide = apply(V3 + "any-of-any", inner(V1 + "n-of"), apply(V1 + "integer-bag", *[literal("integer", 9)] * 200),
                 *[designator("a", "boolean")] * 8)
    yield Form("any-of-any of n-of", [denies_if(wide, times=4)], request(attribute("a", [False] * 100, "boolean")))


# ---- designators


def names(count):
    return [f"urn:example:attribute-of-some-length:{place * 7919 % count:05}" for place in range(count)]


def among_attributes():
    for count in (1, 8, 9, 64, 500, 2_000):
        ids = names(count)
        some = [ids[place * count // 200 % count] for place in range(200)] if count > 1 else [ids[0]] * 200
        attributes = [attribute(name, "x") for name in ids]
        draft = denies_by([match(V1 + "string-equal", "string", "y", name) for name in some])
        yield Form(f"200 matches among {count} attributes", [draft], request(*attributes))
        absent = denies_by([match(V1 + "string-equal", "string", "y", name + "x") for name in some])
        yield Form(f"200 matches for none of {count} attributes", [absent], request(*attributes))
        issued = denies_by([match(V1 + "string-equal", "string", "y", "a", Issuer=name) for name in some])
        if len(written(request(*[attribute("a", "x", Issuer=name) for name in ids]))) < 250_000:
            yield Form(f"200 matches by issuers among {count} attributes", [issued],
                       request(*[attribute("a", "x", Issuer=name) for name in ids]))
        sizes = [size_of(designator(name), "string") for name in some[:100]]
        yield Form(f"100 designators among {count} attributes", [denies_if(*sizes, times=1)], request(*attributes))


def among_categories():
    for count in (9, 200, 1_000):
        categories = [f"urn:example:category:{place * 7919 % count:05}" for place in range(count)]
        objects = [{"CategoryId": name, "Id": f"r{place}", "Attribute": [attribute("a", "x")]}
                   for place, name in enumerate(categories)]
        some = [categories[place * count // 200 % count] for place in range(200)]
        draft = denies_by([match(V1 + "string-equal", "string", "y", "a", category=name) for name in some])
        asked = {"Request": {"Category": objects}}
        yield Form(f"200 matches among {count} categories", [draft], asked)
        references = [{"ReferenceId": [f"r{place}" for place in range(count)]}] * (64 if count < 1_000 else 20)
        yield Form(f"individual requests of {count} categories", [policy(Rule=[rule()])],
                   {"Request": {"Category": objects, "MultiRequests": {"RequestReference": references}}})


def among_source_rows():
    for count in (1, 9, 64, 1_000):
        rows = ["urn:oasis:names:tc:xacml:3.0:attribute-category:resource|someone|"
                f"urn:example:attribute:{place * 7919 % count:05}|string=x" for place in range(count)]
        some = [f"urn:example:attribute:{place * count // 200 % count:05}" for place in range(200)]
        draft = denies_by([match(V1 + "string-equal", "string", "y", name) for name in some])
        asked = request(attribute("urn:oasis:names:tc:xacml:1.0:resource:resource-id", "someone"))
        yield Form(f"200 matches among {count} source rows", [draft], asked, tuple(rows))
        sizes = [size_of(designator(name), "string") for name in some[:100]]
        yield Form(f"100 designators among {count} source rows", [denies_if(*sizes, times=1)], asked, tuple(rows))


def of_the_clock():
    for data_type in ("time", "date", "dateTime"):
        name = "urn:oasis:names:tc:xacml:1.0:environment:current-" + data_type
        for times, one in ((190, match(V1 + f"{data_type}-equal", data_type, value_of(data_type, 0), name,
                                       data_type=data_type, category="Environment")),):
            draft = policy(Rule=[rule("Deny", Target=target(one, alternatives=times)), rule()])
            yield Form(f"matches on the clock's {data_type}", [draft], request())
        sizes = [size_of(designator(name, data_type, category="Environment"), data_type)] * 100
        yield Form(f"designators of the clock's {data_type}", [denies_if(*sizes, times=1)], request())


def bags():
    for data_type in ("string", "integer"):
        bag = ["x"] * 250 if data_type == "string" else [1] * 250
        parts = [attribute("a", bag, data_type), attribute("a", bag, data_type)]
        yield Form(f"designators of two bags of 250 of {data_type}",
                   [denies_if(size_of(designator("a", data_type), data_type), times=100)], request(*parts))
    for count in (100, 250):
        rows = [f"urn:oasis:names:tc:xacml:3.0:attribute-category:resource|someone|a|string=x{place}"
                for place in range(count)]
        asked = request(attribute("urn:oasis:names:tc:xacml:1.0:resource:resource-id", "someone"))
        yield Form(f"designators of {count} source rows", [denies_if(size_of(designator("a"), "string"), times=50)],
                   asked, tuple(rows))


# ---- obligations and what is written


def size_in_words(value):
    text = str(value)
    return bytes_shown(len(text)) if text.isalnum() else f"{bytes_shown(len(text))} as {text[:1]!r}"


DUTY = {"ObligationId": "o", "FulfillOn": "Permit"}
FAULTY = {**DUTY, "AttributeAssignmentExpression": [
    {"AttributeId": "a", "Expression": designator("none", present=True)}]}


def obligations():
    yield Form("1,500 obligations", [policy(Rule=[rule()], ObligationExpressions=[DUTY] * 1_500)], request())
    yield Form("1,500 obligations of another effect",
               [policy(Rule=[rule()], ObligationExpressions=[{**DUTY, "FulfillOn": "Deny"}] * 1_500)], request())
    yield Form("1,400 obligations and a fault",
               [policy(Rule=[rule()], ObligationExpressions=[DUTY] * 1_400 + [FAULTY])], request())
    ruled = policy(Rule=[rule("Permit", ObligationExpressions=[DUTY])] * 500)
    yield Form("500 rules with an obligation", [ruled], request())
    ended = policy(Rule=[rule("Permit", ObligationExpressions=[DUTY])] * 500 + [rule("Deny")])
    yield Form("500 rules with an obligation, and a Deny", [ended], request())


def assignments():
    """Values of each type, assigned by obligations and included in results."""
    for data_type, value in (("string", "x"), ("string", "x" * 100), ("string", "\u0001" * 100), ("string", '"' * 100),
                             ("boolean", True), ("integer", 7), *[(one, LONGEST[one]) for one in LONGEST],
                             ("hexBinary", "AB"), ("hexBinary", "AB" * 100), ("base64Binary", "q6ur"),
                             ("base64Binary", "q6ur" * 30), ("anyURI", "x")):
        many = [{"AttributeId": "a", "Expression": literal(data_type, value)}] * 90
        assigned = {**DUTY, "AttributeAssignmentExpression": many}
        yield Form(f"90 assignments of {data_type}, {size_in_words(value)}",
                   [policy(Rule=[rule()], ObligationExpressions=[assigned])], request())
        broken = {**DUTY, "AttributeAssignmentExpression": many + FAULTY["AttributeAssignmentExpression"]}
        yield Form(f"90 assignments of {data_type}, {size_in_words(value)}, and a fault",
                   [policy(Rule=[rule()], ObligationExpressions=[broken])], request())
        spread = {**DUTY, "AttributeAssignmentExpression": [{"AttributeId": "a", "Expression": variable("v")}] * 10}
        asked = request(attribute("b", [value] * 200, data_type), times=4)
        yield Form(f"10 assignments of 200 {data_type}, {size_in_words(value)}",
                   [policy(VariableDefinition=[{"VariableId": "v", "Expression": designator("b", data_type)}],
                           Rule=[rule()], ObligationExpressions=[spread])], asked)
        spread_faulty = {**DUTY, "AttributeAssignmentExpression": spread["AttributeAssignmentExpression"]
                         + FAULTY["AttributeAssignmentExpression"]}
        yield Form(f"10 assignments of 200 {data_type}, {size_in_words(value)}, and a fault",
                   [policy(VariableDefinition=[{"VariableId": "v", "Expression": designator("b", data_type)}],
                           Rule=[rule()], ObligationExpressions=[spread_faulty])], asked)
        included = request(attribute("b", [value] * 300, data_type, IncludeInResult=True), times=16)
        yield Form(f"300 values included, of {data_type}, {size_in_words(value)}", [policy(Rule=[rule()])], included)
        alone = request(*[attribute(f"b{place}", value, data_type, IncludeInResult=True) for place in range(200)],
                        times=16)
        yield Form(f"200 attributes included, of {data_type}, {size_in_words(value)}", [policy(Rule=[rule()])], alone)


def results():
    yield Form("64 results", [policy(Rule=[rule()])], request())


TREES = (rules_by_algorithm, targets, sets, literals, chains, comparisons, choices, among_attributes, among_categories,
         among_source_rows, of_the_clock, bags, obligations, assignments, results)
