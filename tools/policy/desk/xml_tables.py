"""The schemas of XACML 3.0 (policies, requests, responses) and 2.0 (policies), as tables.

Of each element there are its attributes and its children. An attribute is `name:type`, with `!` behind it
where it is required; `*` stands for any others. Children are a sequence of parts: a name, or names with `|`
between in brackets, and behind it `?`, `*` or `+`. `#text` is text alone, `#any` whatever there is.
"""
from __future__ import annotations

VERSION_3 = "urn:oasis:names:tc:xacml:3.0:core:schema:wd-17"
VERSION_2 = "urn:oasis:names:tc:xacml:2.0:policy:schema:os"
# the namespaces of what isn't read, with what they are
OTHERS = {
    "urn:oasis:names:tc:xacml:2.0:context:schema:os": "a request or a response of XACML 2.0",
    "urn:oasis:names:tc:xacml:1.0:policy": "a policy of XACML 1.0 or 1.1",
    "urn:oasis:names:tc:xacml:1.0:context": "a request or a response of XACML 1.0 or 1.1",
}
EXPRESSION = "(Apply|AttributeSelector|AttributeValue|Function|VariableReference|AttributeDesignator)"
EXPRESSION_2 = ("(Apply|AttributeSelector|AttributeValue|Function|VariableReference"
                "|SubjectAttributeDesignator|ResourceAttributeDesignator|ActionAttributeDesignator"
                "|EnvironmentAttributeDesignator)")
IN_SET = ("(PolicySet|Policy|PolicySetIdReference|PolicyIdReference|CombinerParameters"
          "|PolicyCombinerParameters|PolicySetCombinerParameters)*")
IN_POLICY = "(CombinerParameters|RuleCombinerParameters|VariableDefinition|Rule)*"
BOTH = {
    "Description": ("", "#text"),
    "XPathVersion": ("", "#text"),
    "PolicyDefaults": ("", "XPathVersion"),
    "PolicySetDefaults": ("", "XPathVersion"),
    "CombinerParameters": ("", "CombinerParameter*"),
    "RuleCombinerParameters": ("RuleIdRef:string!", "CombinerParameter*"),
    "PolicyCombinerParameters": ("PolicyIdRef:uri!", "CombinerParameter*"),
    "PolicySetCombinerParameters": ("PolicySetIdRef:uri!", "CombinerParameter*"),
    "CombinerParameter": ("ParameterName:string!", "AttributeValue"),
    "PolicyIdReference": ("Version:match EarliestVersion:match LatestVersion:match", "#text"),
    "PolicySetIdReference": ("Version:match EarliestVersion:match LatestVersion:match", "#text"),
    "VariableReference": ("VariableId:string!", ""),
    "Function": ("FunctionId:uri!", ""),
}
POLICIES_3 = BOTH | {
    "PolicySet": ("PolicySetId:uri! Version:version! PolicyCombiningAlgId:uri! MaxDelegationDepth:integer",
                  f"Description? PolicyIssuer? PolicySetDefaults? Target {IN_SET} ObligationExpressions? "
                  f"AdviceExpressions?"),
    "Policy": ("PolicyId:uri! Version:version! RuleCombiningAlgId:uri! MaxDelegationDepth:integer",
               f"Description? PolicyIssuer? PolicyDefaults? Target {IN_POLICY} ObligationExpressions? "
               f"AdviceExpressions?"),
    "PolicyIssuer": ("", "Content? Attribute*"),
    "Rule": ("RuleId:string! Effect:effect!", "Description? Target? Condition? ObligationExpressions? "
                                              "AdviceExpressions?"),
    "Target": ("", "AnyOf*"),
    "AnyOf": ("", "AllOf+"),
    "AllOf": ("", "Match+"),
    "Match": ("MatchId:uri!", "AttributeValue (AttributeDesignator|AttributeSelector)"),
    "VariableDefinition": ("VariableId:string!", EXPRESSION),
    "AttributeSelector": ("Category:uri! ContextSelectorId:uri Path:string! DataType:uri! "
                          "MustBePresent:boolean!", ""),
    "AttributeDesignator": ("Category:uri! AttributeId:uri! DataType:uri! Issuer:string "
                            "MustBePresent:boolean!", ""),
    "AttributeValue": ("DataType:uri! *", "#any"),
    "Condition": ("", EXPRESSION),
    "Apply": ("FunctionId:uri!", f"Description? {EXPRESSION}*"),
    "ObligationExpressions": ("", "ObligationExpression+"),
    "ObligationExpression": ("ObligationId:uri! FulfillOn:effect!", "AttributeAssignmentExpression*"),
    "AdviceExpressions": ("", "AdviceExpression+"),
    "AdviceExpression": ("AdviceId:uri! AppliesTo:effect!", "AttributeAssignmentExpression*"),
    "AttributeAssignmentExpression": ("AttributeId:uri! Category:uri Issuer:string", EXPRESSION),
}
CONTEXTS_3 = {
    "Request": ("ReturnPolicyIdList:boolean! CombinedDecision:boolean!",
                "RequestDefaults? Attributes+ MultiRequests?"),
    "RequestDefaults": ("", "XPathVersion"),
    "Attributes": ("Category:uri! {http://www.w3.org/XML/1998/namespace}id:id", "Content? Attribute*"),
    "Content": ("", "#any"),
    "Attribute": ("AttributeId:uri! Issuer:string IncludeInResult:boolean!", "AttributeValue+"),
    "MultiRequests": ("", "RequestReference+"),
    "RequestReference": ("", "AttributesReference+"),
    "AttributesReference": ("ReferenceId:id!", ""),
    "Response": ("", "Result+"),
    "Result": ("", "Decision Status? Obligations? AssociatedAdvice? Attributes* PolicyIdentifierList?"),
    "Decision": ("", "#text"),
    "Status": ("", "StatusCode StatusMessage? StatusDetail?"),
    "StatusCode": ("Value:uri!", "StatusCode?"),
    "StatusMessage": ("", "#text"),
    "StatusDetail": ("", "#any"),
    "MissingAttributeDetail": ("Category:uri! AttributeId:uri! DataType:uri! Issuer:string",
                               "AttributeValue*"),
    "Obligations": ("", "Obligation+"),
    "Obligation": ("ObligationId:uri!", "AttributeAssignment*"),
    "AssociatedAdvice": ("", "Advice+"),
    "Advice": ("AdviceId:uri!", "AttributeAssignment*"),
    "AttributeAssignment": ("AttributeId:uri! Category:uri Issuer:string DataType:uri! *", "#any"),
    "PolicyIdentifierList": ("", "(PolicyIdReference|PolicySetIdReference)*"),
}
DESIGNATOR_2 = "AttributeId:uri! DataType:uri! Issuer:string MustBePresent:boolean"


def sections() -> dict[str, tuple[str, str]]:
    """The parts of a target of 2.0, which differ in a word alone."""
    found = {}
    for word in ("Subject", "Resource", "Action", "Environment"):
        found[f"{word}s"] = "", f"{word}+"
        found[word] = "", f"{word}Match+"
        designator, more = f"{word}AttributeDesignator", " SubjectCategory:uri" if word == "Subject" else ""
        found[f"{word}Match"] = "MatchId:uri!", f"AttributeValue ({designator}|AttributeSelector)"
        found[designator] = DESIGNATOR_2 + more, ""
    return found


POLICIES_2 = BOTH | sections() | {
    "PolicySet": ("PolicySetId:uri! Version:version PolicyCombiningAlgId:uri!",
                  f"Description? PolicySetDefaults? Target {IN_SET} Obligations?"),
    "Policy": ("PolicyId:uri! Version:version RuleCombiningAlgId:uri!",
               f"Description? PolicyDefaults? CombinerParameters? Target {IN_POLICY} Obligations?"),
    "Target": ("", "Subjects? Resources? Actions? Environments?"),
    "Rule": ("RuleId:string! Effect:effect!", "Description? Target? Condition?"),
    "VariableDefinition": ("VariableId:string!", EXPRESSION_2),
    "AttributeSelector": ("RequestContextPath:string! DataType:uri! MustBePresent:boolean", ""),
    "AttributeValue": ("DataType:uri! *", "#any"),
    "Condition": ("", EXPRESSION_2),
    "Apply": ("FunctionId:uri!", f"{EXPRESSION_2}*"),
    "Obligations": ("", "Obligation+"),
    "Obligation": ("ObligationId:uri! FulfillOn:effect!", "AttributeAssignment*"),
    "AttributeAssignment": ("AttributeId:uri! DataType:uri! *", "#any"),
}
TABLES = {VERSION_3: POLICIES_3 | CONTEXTS_3, VERSION_2: POLICIES_2}
