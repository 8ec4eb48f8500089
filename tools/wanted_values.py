"""Tables of types, and what a lowered grammar is asked for that no pass asks, with values that no grammar holds; a part of wanted.py."""
from wanted_forms import one, pattern, terminal, type_text
from wanted_lowered import conversions_of, name_rows, symbol_text, terminal_of, terminal_rows
from wanted_types import chosen_types, named, path_key, text_of

USIZE = named("usize")


# ---- tables of types

def option(ty):
    return "None" if ty is None else "Some(%s)" % text_of(ty)


def terminals_of(types):
    """The terminals that are listed, in order, and their types."""
    return terminal_rows([(terminal_of(t), ty) for t, ty in types.terminals.items()] + [("Error", types.of_fault("ErrorRecovery"))])


def map_text(rows):
    return "{%s}" % ", ".join("%s: %s" % row for row in rows)


def table_text(types):
    text = "token: %s\nlocation: %s\nerror: %s\n" % (text_of(types.token), option(types.location), option(types.stated_error))
    text += "recovery: %s\nparse error: %s\n" % (text_of(types.of_fault("ErrorRecovery")), text_of(types.of_fault("ParseError")))
    text += "terminals: %s\n" % map_text((terminal(t), text_of(ty)) for t, ty in terminals_of(types))
    return text + "rules: %s\n" % map_text((name, text_of(ty)) for name, ty in name_rows(types.known.items()))


def made_types(types):
    place = types.location or ("Tuple", ())
    text = "location %s, error %s" % (text_of(place), text_of(types.error))
    text += ", triple " + text_of(("Tuple", (place, types.token, place)))
    text += ", spanned %s\n" % text_of(("Tuple", (place, USIZE, place)))
    text += "error terminal %s\n" % text_of(types.of_fault("ErrorRecovery"))
    terminals = ", ".join(text_of(ty) for _, ty in terminals_of(types))
    return text + "lists [%s] [%s]\n" % (terminals, ", ".join(text_of(ty) for _, ty in name_rows(types.known.items())))


# ---- a lowered type

def rebuilt(ty, parts):
    """The type with these parts in the place of its own, which are a list of types."""
    form, *rest = ty
    if form == "Tuple":
        return form, tuple(parts)
    if form == "Slice":
        return form, parts[0]
    if form in ("Nominal", "TraitObject"):
        return form, rest[0], tuple(parts)
    if form == "Ref":
        return form, rest[0], rest[1], parts[0]
    if form == "Fn":
        count = len(rest[2])
        return form, rest[0], rest[1], tuple(parts[:count]), parts[count] if rest[3] is not None else None
    return ty


def parts_of(ty):
    form, *rest = ty
    if form in ("Tuple", "Slice"):
        return list(rest[0]) if form == "Tuple" else [rest[0]]
    if form in ("Nominal", "TraitObject"):
        return list(rest[1])
    if form == "Fn":
        return list(rest[2]) + [rest[3]] * (rest[3] is not None)
    return [rest[2]] if form == "Ref" else []


def bottom_up(ty, call):
    return call(rebuilt(ty, [bottom_up(part, call) for part in parts_of(ty)]))


def met_in(ty, listed):
    """The parameters that are met in a type, in reading order; those that a function type binds are none."""
    form, *rest = ty
    if form == "Fn":
        listed = [p for p in listed if p not in rest[0]]
    own = []
    if form in ("Nominal", "TraitObject", "Fn"):
        absolute, names = rest[1] if form == "Fn" else rest[0]
        own = [("Id", names[0])] if not absolute and len(names) == 1 else []
    elif form in ("Lifetime", "Ref"):
        own = [("Lifetime", rest[0])]
    elif form == "Associated":
        own = [("Id", rest[0])]
    return [p for p in own if p in listed] + [p for part in parts_of(ty) for p in met_in(part, listed)]


def free_in(ty, listed):
    return list(dict.fromkeys(met_in(ty, listed)))


def with_names(ty, listed):
    """The type with a name for each anonymous lifetime, the parameters and the clauses then."""
    listed, clauses = list(listed), []

    def fresh():
        listed.append(("Lifetime", "'__%d" % len(listed)))
        return listed[-1][1]

    def name(part):
        if part[0] == "Lifetime" and part[1] == "'_":
            return "Lifetime", fresh()
        if part[0] != "Ref":
            return part
        lifetime = fresh() if part[1] in (None, "'_") else part[1]
        for _, free in free_in(part[3], listed):
            if (free, lifetime) not in clauses:
                clauses.append((free, lifetime))
        return part[0], lifetime, part[2], part[3]

    return bottom_up(ty, name), listed, clauses


def behind_blanks(values):
    return "".join(" " + value for value in values)


def walks(ty):
    """What a walk calls a closure with that puts `usize` in place of each named type; and how many calls one makes whose second fails."""
    seen = []

    def see(part):
        seen.append(text_of(part))
        return USIZE if part[0] == "Nominal" else part

    answer = text_of(bottom_up(ty, see))
    end = "refused" if len(seen) > 1 else "not refused"
    return "  a walk is called with%s and answers %s\n  a walk is %s after 1\n" % (behind_blanks(seen), answer, end)


def type_lines(ty, listed):
    text = "type %s speaks of%s" % (text_of(ty), behind_blanks(name for _, name in free_in(ty, listed)))
    renamed, parameters, clauses = with_names(ty, listed)
    text += "; with names %s over%s" % (text_of(renamed), behind_blanks(name for _, name in parameters))
    text += ", where%s\n" % behind_blanks("%s: %s" % pair for pair in clauses) + walks(ty)
    return text + ("  copy %s\n" % text_of(ty) if ty[0] == "Nominal" else "")


# ---- patterns, clauses, actions

def with_numbers(value, numbers):
    """The pattern, in which each chosen type has the next number in its place."""
    name, content = one(value["kind"])
    if name in ("Enum", "TupleStruct"):
        content = [content[0], [with_numbers(p, numbers) for p in content[1]]]
    elif name == "Struct":
        content = [content[0], [dict(f, pattern=with_numbers(f["pattern"], numbers)) for f in content[1]], content[2]]
    elif name == "Tuple":
        content = [with_numbers(p, numbers) for p in content]
    elif name == "Choose":
        name, content = "Usize", next(numbers)
    return {"span": value["span"], "kind": name if content is None else {name: content}}


def pattern_lines(value, plain):
    chosen = [text_of(plain(t)) for t in chosen_types(value)]
    numbered = pattern(with_numbers(value, iter(range(len(chosen)))))
    text = "pattern %s chooses [%s]\n" % (pattern(value), ", ".join(chosen))
    text += "  is called with%s and is %s\n" % (behind_blanks(chosen), numbered)
    text += "  is called with%s and is %s\n" % (behind_blanks(chosen[:1]), "refused" if chosen else numbered)
    name, content = one(value["kind"])
    text += "  kind %s\n" % with_units(value, plain)
    rows = content[1] if name == "Struct" else []
    return text + "".join("  field %s: %s\n" % (f["field_name"], with_units(f["pattern"], plain)) for f in rows)


def is_unit(ty):
    return str(ty == ("Tuple", ())).lower()


def with_units(value, plain):
    """The text of a pattern with whether each chosen type is the unit type in its place."""
    return pattern(with_numbers(value, (is_unit(plain(t)) for t in chosen_types(value))))


def bound_text(value, plain):
    name, content = one(value)
    if name == "Lifetime":
        return content
    head = ("for<%s> " % ", ".join(one(p)[1] for p in content["forall"]) if content["forall"] else "")
    head += text_of(("Nominal", path_key(content["path"]), ()))
    if name == "Fn":
        ret = " -> " + text_of(plain(content["ret"])) if content["ret"] else ""
        return head + "(%s)" % ", ".join(text_of(plain(t)) for t in content["parameters"]) + ret
    arguments = [bound_argument(p, lambda t: text_of(plain(t))) for p in content["parameters"]]
    return head + ("<%s>" % ", ".join(arguments) if arguments else "")


def bound_argument(value, shown):
    name, content = one(value)
    if name == "Lifetime":
        return content
    return shown(content) if name == "TypeParameter" else content[0] + " = " + shown(content[1])


def clause_line(text):
    """A clause, and the clause under an empty binder."""
    return "where %s\n  quantified for<> %s\n" % (text, text)


def argument_lines(bound, plain):
    name, content = one(bound)
    rows = content["parameters"] if name == "Trait" else []
    pairs = ((bound_argument(p, lambda t: text_of(plain(t))), bound_argument(p, lambda t: is_unit(plain(t)))) for p in rows)
    return "".join("  argument %s is %s\n" % pair for pair in pairs)


def clause_lines(value, plain):
    """A clause for each bound, and the arguments of its bound, if it has no binder."""
    name, content = one(value)
    if name == "Lifetime":
        return "".join(clause_line("%s: %s" % (content["lifetime"], b)) for b in content["bounds"])
    head = "for<%s> " % ", ".join(one(p)[1] for p in content["forall"]) if content["forall"] else ""
    text = ""
    for bound in content["bounds"]:
        text += clause_line("%s%s: %s" % (head, text_of(plain(content["ty"])), bound_text(bound, plain)))
        text += "" if content["forall"] else argument_lines(bound, plain)
    return text


def argument_text(value):
    name, content = one(value)
    if name == "Tuple":
        return "(%s)" % ", ".join(map(argument_text, content["tuples"]))
    return ("mut " if content["mutable"] else "") + content["name"]


def action_line(action):
    name, content = one(action["kind"])
    if name == "Lookaround":
        return "action %s\n" % content
    pairs = zip(content["arg_patterns"], content["arg_types"])
    arguments = ", ".join("%s: %s" % (argument_text(p), type_text(t)) for p, t in pairs)
    return "action fn _(%s) -> %s { %s }\n" % (arguments, type_text(action["ret_type"]), content["code"])


# ---- the whole

# what no grammar has a part in
CONSTANT = """\
action fn _(..) { ActionFn(22)(Y, ActionFn(44)(A, b)) }
paths alloc::vec::Vec usize str Option
types usize str
lifetime '_ of length 2, empty false, anonymous true
lifetime 'static of length 7, empty false, anonymous false
lifetime 'input of length 6, empty false, anonymous false
owned Expr<"\u00e9">
texts Term and "Term", equal true, order Equal
texts Term and "Tern", equal false, order Less
MatchToken { contents: [MatchContents { items: [CatchAll(Span(5, 6))] }], span: Span(3, 8) }
MatchToken { contents: [MatchContents { items: [CatchAll(Span(5, 6))] }, MatchContents { items: [CatchAll(Span(6, 7))] }], span: Span(3, 8) }
F49 3..8: no type follows
F49 3..8: no type follows
memory
memory
F56 3..8: the grammar has more than 4294967296 actions: make it smaller
side "left": left
side "right": right
side "none": none
side "all": all
side "": provided value was neither `left`, `right` nor `none`
side "Left": provided value was neither `left`, `right` nor `none`
side "left ": provided value was neither `left`, `right` nor `none`
side "both": provided value was neither `left`, `right` nor `none`
no side: all
"""


def nonterminal_lines(lowered, name):
    _, ty, _, made = lowered.found[name]
    text = "nonterminal %s of length %d, empty %s of type %s\n" % (name, len(name.encode()), str(not name).lower(), text_of(ty))
    for (line, _), (symbols, _) in zip(made, lowered.sources[name]):
        text += "  %s\n" % line
        text += "".join("    symbol %s, terminal %s\n" % (symbol_text(s), str(s[0]).lower()) for s in symbols)
    return text


def values_text(lowered):
    """Of the lowered grammar with two parameters, two type parameters and an action more."""
    types, tree = lowered.types, lowered.tree
    listed = [one(p) for p in tree["type_parameters"]] + [("Lifetime", "'input"), ("Id", "T")]
    text = table_text(types) + made_types(types)
    parameters = [(p["name"], types.plain(p["ty"])) for p in tree["parameters"]] + [("n", USIZE), ("m", USIZE)]
    text += "".join("parameter %s: %s\n" % (name, text_of(ty)) + type_lines(ty, listed) for name, ty in parameters)
    text += "".join("of a type parameter %s\n" % name for _, name in listed)
    text += "".join(clause_lines(c, types.plain) for c in tree["where_clauses"])
    text += "".join(pattern_lines(p, types.plain) for _, p in terminal_rows(conversions_of(tree)))
    text += "".join(nonterminal_lines(lowered, name) for name, _ in name_rows(lowered.found.items()))
    return text + "".join(map(action_line, lowered.actions)) + CONSTANT
