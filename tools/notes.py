"""The second spans of a fault, as rustc's notes; a part of tools/lnorm.

    grammar.lalrpop:5:1: F25: `S` is the name of a nonterminal already, and this nonterminal has it too: rename one of them
    5 | S = "b";
      | ^
    grammar.lalrpop:3:1: note: the first definition is here
    3 | S = "a";
      | ^

They are read from the tree, or of `grammar<..>(..)`, of whose parameters the tree has no spans, from the text. Nothing is guessed: if they
do not decide, there is no note.

| Fault | Notes |
|---|---|
| F25 | the definition of that name before this one, or the rule of which it is the name of a level |
| F33 | each argument, of three calls at most, that is no quoted literal; the parameters of other macros are left out |
| F35 | the first symbol in the group that has a name |
| F45, F46 | the declaration of `'input`, of `input` |
| F48 | the name of the rule, behind which its type is declared |
"""
import copy

from tree_rules import Reader
from wanted import Refused, declared_names, expand_levels, has_levels, inner_symbols, one, remove_disabled, rules_of, symbols_under

MOST_CALLS = 3


def notes(code, span, tree, features, text):
    """The notes of the fault `code` at `span`: messages and spans, in bytes. `text` is a shown.Text, or None."""
    find = {"F25": earlier_definition, "F33": other_arguments, "F35": named_symbol, "F48": untyped_rule}.get(code)
    if find:
        tree = copy.deepcopy(tree)
        remove_disabled(tree, features)
        return find(tree, span)
    if code in ("F45", "F46") and text is not None:
        return parameter_of_grammar(text.text, text.behind_bytes(span[0]), code)
    return []


# ---- F25

def first_repetition(tree):
    """The first name that is declared twice, and the spans of its two declarations; None if there is none."""
    found = {}
    for name, _, span in declared_names(tree):
        if name in found:
            return name, found[name], span
        found[name] = span
    return None


def earlier_definition(tree, span):
    repetition = first_repetition(tree)
    if not repetition:
        try:
            expand_levels(tree)
        except Refused:
            return []
        repetition = first_repetition(tree)
    if not repetition or repetition[2] != span:
        return []
    name, earlier, _ = repetition
    # (the rule of a level has the span of the written rule, which has another name)
    is_level = any(rule["span"] == earlier and rule["name"] != name for rule in rules_of(tree))
    return [("`%s` is the name of a level of this rule" % name if is_level else "the first definition is here", earlier)]


# ---- F33

def other_arguments(tree, span):
    tested = [(rule, a["condition"]["lhs"]) for rule in rules_of(tree) for a in rule["alternatives"]
              if a["condition"] and a["condition"]["span"] == span]
    if len(tested) != 1 or has_levels(tested[0][0]) or tested[0][1] not in tested[0][0]["args"]:
        return []
    rule, parameter = tested[0]
    index, found = rule["args"].index(parameter), []
    for caller, call in calls_of(tree, rule["name"]):
        argument = call["args"][index] if len(call["args"]) == len(rule["args"]) else None
        if argument and not may_be_quoted(argument["kind"], caller["args"]):
            found.append(("this call of `%s` gives `%s` a symbol that is no quoted literal" % (rule["name"], parameter), argument["span"]))
    return found[:MOST_CALLS]


def calls_of(tree, name):
    """The calls of a macro, with the rules that they are in."""
    for rule in rules_of(tree):
        for alternative in rule["alternatives"]:
            for symbol in symbols_under(alternative["expr"]["symbols"]):
                kind, content = one(symbol["kind"])
                if kind == "Macro" and content["name"] == name:
                    yield rule, content


def may_be_quoted(kind, parameters):
    """Whether an argument is a quoted literal, or a parameter of the macro that the call is in."""
    name, content = one(kind)
    if name == "Terminal":
        return one(content)[0] == "Literal" and one(one(content)[1])[0] == "Quoted"
    return name in ("AmbiguousId", "Nonterminal") and content in parameters


# ---- F35

def named_symbol(tree, span):
    for rule in rules_of(tree):
        for alternative in rule["alternatives"]:
            for symbol in symbols_under(alternative["expr"]["symbols"]):
                kind, content = one(symbol["kind"])
                if kind == "Expr" and symbol["span"] == span:
                    return [("this symbol has a name", s["span"]) for s in inner_symbols(kind, content)
                            if one(s["kind"])[0] in ("Name", "Tuple")][:1]
    return []


# ---- F48

def untyped_rule(tree, span):
    return [("the type of `%s` is to be declared here" % rule["name"], rule["span"]) for rule in rules_of(tree)
            if rule["type_decl"] is None and any(a["span"] == span for a in rule["alternatives"])]


# ---- F45, F46

def parameter_of_grammar(text, start, code):
    """The declaration of `'input` or `input`, in the text from the keyword `grammar` on."""
    reader, lifetimes, names = Reader(text, start=start), [], []
    reader.take("grammar")
    if reader.takes("<"):
        reader.list_until(">", lambda: (lifetimes.append(reader.peek()), reader.type_parameter()))
    if reader.takes("("):
        reader.list_until(")", lambda: (names.append(reader.peek()), reader.parameter()))
    tokens, name = (lifetimes, "'input") if code == "F45" else (names, "input")
    return [("`%s` is declared here" % name, reader.span_of(token)) for token in tokens if token.said == name][:1]
