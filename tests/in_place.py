#!/usr/bin/env python3
"""NLRIs are compared in the table memory: what the compiler has in the functions that compare, and in those that the table's calls reach.

usage: tests/in_place.py      reads what `rt lib` has built of the crates in CALLS_ON_TABLES and of those they use

From each comparison every call is followed, over crates, to its leaves: parameters, results and locals are numbers, bools and `&[u8]`
alone, but for what a search answers. From the table's calls likewise, each that the roots of their crates name: what they reach has the
arrays and the functions of the toolchain that are named here and no others, and no struct or enum of more than four numbers. What is handed
to a call is followed too: closures, and methods of traits. What they have is taken from the compiler's own form of the code, so that nothing
is guessed from the source: parameters, results, locals, and what their types hold at any depth. What this reader does not know in that form
it reports. What a number holds is not told, nor what is written into memory that a caller lends.
"""
import collections
import copy
import functools
import json
import re
import sys

# The order of two NLRIs, and whether they are the same; the search of install, withdraw, next and salvage; the comparison of each place with
# the one before it, by which a table is sound; that of two route distinguishers, by which a match chooses.
BY_INDEX = ["octets::order::comes_before", "octets::order::is_same", "changes::find::position", "changes::find::stands_at"]
SEARCHES = BY_INDEX + ["changes::find::search"]
SALVAGES = BY_INDEX + ["changes::find::position_from_last", "changes::find::search_from_last"]
PASSES = ["places::sound::follows"]
CHOICES = ["matches::scan::is_lower"]
COMPARISONS = list(dict.fromkeys(SEARCHES + SALVAGES + PASSES + CHOICES))

# The crates whose calls take a table, and each public call that their roots name, with what it must reach.
CALLS_ON_TABLES = ["table", "matches", "salvage"]
CALLS = {
    "table::making::make": [],
    "table::installing::install": SEARCHES + PASSES,
    "table::withdrawing::withdraw": SEARCHES + PASSES,
    "table::restarting::mark": PASSES,
    "table::restarting::sweep": PASSES,
    "table::following::next": SEARCHES + PASSES,
    "table::table_info::info": PASSES,
    "salvage::salvaging::salvage": SALVAGES,
    "matches::matching::match_flow": PASSES + CHOICES,
    "matches::explaining::explain": PASSES + CHOICES,
    "matches::shared::match_shared": PASSES + CHOICES,
}

# The one struct or enum of the comparisons: the place where a search found an NLRI, or where it belongs. It holds two numbers of 64 bits, of
# which a caller sees one, and no octets.
FOUND = "core::result::Result<u64, u64>"
ANSWERS = {"changes::find::search": FOUND, "changes::find::search_from_last": FOUND, "changes::find::answer_at": FOUND}

# What a comparison may call of the toolchain: the lower of two numbers.
STEPS = {"usize::min"}

# The arrays of what the table's calls reach: octets that are written behind each other, the header that a table must have, the numbers of an
# enum's cases, by which it is ordered, the four reasons of an explanation, a place in a salvage's list. Each with how many locals have it.
ARRAYS = {
    "matches::explaining::explain: an array, in `routes::Explained`": 1,
    "octets::blocks::place_4: an array": 2,
    "octets::blocks::place_8: an array": 2,
    "octets::wide::place_three: an array": 2,
    "places::header::is_header_sound: an array": 3,
    "places::header::start_of: an array": 1,
    "places::header::write_header: an array": 5,
    "places::place::write_place: an array": 2,
    "routes::Explained::refused: an array": 1,
    "routes::Explained::refused: an array, in `routes::Explained`": 1,
    "routes::ExplainedFromResultExplanationRefusal::from: an array": 1,
    "routes::ExplainedFromResultExplanationRefusal::from: an array, in `routes::Explained`": 2,
    "routes::Reasons::numbers: an array": 1,
    "routes::TierPartialOrd::partial_cmp: an array": 1,
    "salvage::salvaging::enlist: an array": 2,
    "tunnel::encoding::put_header: an array": 2,
}

# The most numbers of a struct or an enum of what they reach, bools among them and all variants together: an answer's.
MOST_NUMBERS = 4

# The toolchain's structs and enums that they may have. Each has what its arguments have, and numbers, and is counted as any other.
TYPES = {
    "(,)",
    "core::cmp::Ordering",
    "core::iter::adapters::Zip",
    "core::iter::ranges::Range",
    "core::iter::ranges::RangeFrom",
    "core::iter::ranges::RangeTo",
    "core::iter::slices::Iter",
    "core::ops::ControlFlow",
    "core::option::NoValue",
    "core::option::Option",
    "core::result::ErrResidual",
    "core::result::Result",
}

# A `?`, which any of them may have: its two halves, and how it hands on a refusal. What these take and give is in locals.
QUESTION_MARK = {"ResultTry::branch", "ResultFromResidualErrResidual::from_residual", "AnyFrom::from"}

# What they call of the toolchain beside that, or hand to what they call, each with the functions that do.
TOOLCHAIN = {
    # the one copy of octets: to where they are written
    "slice+T::copy_from_slice": {"octets::parts::place"},
    # inside the lent table: places are moved, and cleared; an octet is a number, whose copy is that number
    "slice+T::copy_within": {"changes::change::close_gap", "changes::change::keep", "changes::change::move_up"},
    "slice+T::fill": {"changes::change::clear_places", "changes::change::close_from", "changes::change::close_gap"},
    "AnySliceRange::within": {"changes::change::close_gap", "changes::change::keep", "changes::change::move_up"},
    "RangeFromRangeBounds::end_bound": {"changes::change::close_gap"},
    "RangeFromRangeBounds::start_bound": {"changes::change::close_gap"},
    "RangeRangeBounds::end_bound": {"changes::change::keep"},
    "RangeRangeBounds::start_bound": {"changes::change::keep"},
    "RangeToRangeBounds::end_bound": {"changes::change::move_up"},
    "RangeToRangeBounds::start_bound": {"changes::change::move_up"},
    "U8Clone::clone": {
        "changes::change::clear_places", "changes::change::close_from", "changes::change::close_gap", "changes::change::keep",
        "changes::change::move_up", "octets::parts::place",
    },
    # octets that are looked at where they lie, each by a closure
    "slice+T::iter": {"octets::order::are_each_zero", "octets::order::is_each_zero"},
    "Iterator::fold": {"octets::order::are_each_zero", "octets::order::is_each_zero"},
    "Iterator::zip": {"octets::order::are_each_zero"},
    "IterIterator::next": {"octets::order::are_each_zero", "octets::order::is_each_zero"},
    "IterIterator::size_hint": {"octets::order::are_each_zero", "octets::order::is_each_zero"},
    "RefSliceIntoIterator::into_iter": {"octets::order::are_each_zero"},
    "ZipIterator::next": {"octets::order::are_each_zero"},
    "ZipIterator::size_hint": {"octets::order::are_each_zero"},
    # the items of a lent list, each a part of it
    "Iterator::all": {"shared_trees::judge::are_addresses_sized"},
    "Iterator::size_hint": {"lists::item::ItemsIterator::size_hint"},
    "AnyIntoIterator::into_iter": {
        "groups::lent::class_along", "shared_trees::eligible::has_source", "shared_trees::judge::check_source_actives",
    },
    # what is asked of a slice, a result, an option, a bool, a number, and of cases without numbers
    "slice+T::is_empty": {
        "fec_elements::nested::opens_as", "matches::tier::Sought::any_source_tier", "matches::tier::Sought::flow_tier",
        "matches::tier::Sought::source_tier",
    },
    "Result::is_err": {"places::sound::is_place_sound"},
    "Result::is_ok": {"fec_elements::header::is_fec_type", "nlri::read::is_s_pmsi_under", "places::header::is_family"},
    "OptionTry::branch": {"matches::answer::answer"},
    "OptionFromResidualNoValue::from_residual": {"matches::answer::answer"},
    "bool::then_some": {"matches::tier::Sought::any_source_tier", "matches::tier::Sought::source_tier"},
    "usize::min": {"octets::order::comes_before_by_words", "octets::order::comes_each_before"},
    "usize::to_be_bytes": {"places::header::write_header"},
    "PartialEq::ne": {"matches::scan::is_ahead", "shared_trees::judge::is_early"},
    "PartialOrd::lt": {"matches::explaining::reason", "matches::scan::is_ahead"},
    "IsizePartialOrd::partial_cmp": {"routes::TierPartialOrd::partial_cmp"},
}

# The words of a body in the compiler's form: steps, places, values, and types among them. `Fn` is a function that is called, `Impl` what is
# handed to it; there is no call by a function pointer or a bound.
WORDS = set(
    "Add AddrOf Aggregate Array Assign Call Cast Const Copy Deref Div Exit Field Fn If Impl Int Ints Le LendStatic Lit Lt Mul Named NumOf Op1 "
    "Op2 Opd Param Parts Ref Rem Repeat Shr Struct Sub Switch Variant dicts lifetimes local name steps types value values width".split()
)

# What the compiler makes for a value that is let go, of any type: it does nothing.
LETTING_GO = "Destruct++none::drop"


# ---- the compiler's form


def crates_below(names):
    uses = {}
    with open("crates.txt", encoding="utf-8") as f:
        for line in f:
            name, colon, used = line.partition("#")[0].partition(":")
            if colon:
                uses[name.split()[0]] = used.split()
    found, left = [], list(names)
    while left:
        name = left.pop()
        if name in uses and name not in found:
            found.append(name)
            left += uses[name]
    return found


def functions_of(crates):
    """Each function of the crates as the compiler has it, by its name."""
    found = {}
    for crate in crates:
        with open(f"crates/{crate}/out/rlib/{crate}.rlib/toolchain/mir.json", encoding="utf-8") as f:
            found.update((name, Function(form)) for name, form in json.load(f))
    return found


def parts(value):
    """Yields every key with its value, at any depth."""
    if isinstance(value, dict):
        for key, inner in value.items():
            yield key, inner
            yield from parts(inner)
    elif isinstance(value, list):
        for inner in value:
            yield from parts(inner)


def word_of(of):
    """The word of a type, with what it is said of."""
    return next(iter(of.items())) if isinstance(of, dict) else (of, None)


def text_of(of):
    """A type as the source has it."""
    word, inner = word_of(of)
    if word == "Int":
        return f"u{inner}"
    if word == "Ref":
        return ("&mut " if inner[1] == "Mut" else "&") + text_of(inner[2])
    if word == "Struct" and inner[0] == "&[]":
        _, kind, to = inner[1][0]["Ref"]
        return ("&mut [" if kind == "Mut" else "&[") + text_of(to) + "]"
    if word == "Array":
        return f"[{text_of(inner[0])}; {text_of(inner[1])}]"
    if word == "Named":
        name, given = inner[0]["name"], ", ".join(text_of(it) for it in inner[1])
        return f"({given})" if name.startswith("(") else name + f"<{given}>" * bool(given)
    return {"Bool": "bool", "Unit": "()"}.get(word, str(inner or word))


def put_in(of, given):
    """A type with the arguments of the struct or enum that it stands in, for its parameters."""
    word, inner = word_of(of)
    if word == "Param":
        return given[inner]
    if word == "Ref":
        return {word: inner[:2] + [put_in(inner[2], given)]}
    if word in ("Named", "Struct"):
        return {word: [inner[0], [put_in(it, given) for it in inner[1]]]}
    if word == "Array":
        return {word: [put_in(it, given) for it in inner]}
    return of


def fields_of(of, shapes):
    """The types in a struct, or in all variants of an enum."""
    name, given = of["Named"]
    word, inner = word_of(shapes[name["name"]])
    return [put_in(it, given) for it in (inner if word == "Fields" else sum(inner, []))]


def is_known(of, shapes, inside):
    """Whether a struct or an enum can be looked into: the compiler gives its shape, and it does not hold itself."""
    return word_of(shapes.get(of["Named"][0]["name"]))[0] in ("Fields", "Variants") and of not in inside


def numbers_in(of, shapes, inside=()):
    """How many numbers and bools a type holds, those behind references too, those in arrays and slices left out."""
    word, inner = word_of(of)
    if word in ("Int", "Bool"):
        return 1
    if word == "Ref":
        return numbers_in(inner[2], shapes, inside)
    if word == "Named" and is_known(of, shapes, inside):
        return sum(numbers_in(it, shapes, inside + (of,)) for it in fields_of(of, shapes))
    return 0


# Something that a function has: a line of text, and of a struct or an enum its name, the whole type, and its numbers.
Told = collections.namedtuple("Told", "kind text name whole numbers", defaults=("", "", 0))
OF_CALLER = Told("unread", "cannot read a type that its caller gives")


def what_is_in(of, shapes, inside=()):
    """Yields what a type has, at any depth: arrays, references, structs and enums, and what cannot be read."""
    word, inner = word_of(of)
    if word == "Array":
        yield Told("array", f"an array, in `{inside[-1]['Named'][0]['name']}`" if inside else "an array")
        yield from what_is_in(inner[0], shapes, inside)
    elif word == "Ref":
        yield Told("reference", "has `&mut`" if inner[1] == "Mut" else "has `&`")
        yield from what_is_in(inner[2], shapes, inside)
    elif word == "Struct" and inner[0] == "&[]":
        _, kind, to = inner[1][0]["Ref"]
        if kind == "Mut" or to != {"Int": 8}:
            yield Told("reference", "has `&mut`" if kind == "Mut" else "has `&`")
        yield from what_is_in(to, shapes, inside)
    elif word == "Named" and is_known(of, shapes, inside):
        whole, numbers = text_of(of), numbers_in(of, shapes)
        yield Told("type", f"has `{whole}`, with {numbers} numbers", inner[0]["name"], whole, numbers)
        for it in fields_of(of, shapes):
            yield from what_is_in(it, shapes, inside + (of,))
    elif word == "Ptr":
        yield Told("reference", "has `*`")
    elif word == "Param":
        yield OF_CALLER
    elif word not in ("Int", "Bool", "Unit"):
        yield Told("unread", f"cannot read the type `{text_of(of)}`")


def is_place(of):
    """Where an octet of a slice is, or where a slice begins."""
    word, inner = word_of(of)
    return word == "Ptr" or (word == "Ref" and inner[1:] == ["Imm", {"Int": 8}])


class Function:
    """A function as the compiler has it."""

    def __init__(self, form):
        self.form = form

    @functools.cached_property
    def called(self):
        """What it calls."""
        return {inner[0] for key, inner in parts(self.form["body"]) if key == "Fn"}

    @functools.cached_property
    def handed(self):
        """What it hands to what it calls: its closures, and methods of traits."""
        methods = {it["name"]: it["methods"] for it in self.form["generics"]["impls"]}
        return {it for key, inner in parts(self.form["body"]) if key == "Impl" for it in methods.get(inner[0], [inner[0]])}

    @functools.cached_property
    def has(self):
        """What its result, its parameters, its locals and the types in its body have, each with how many of the first three have it."""
        shapes = {it["name"]: it["shape"] for it in self.form["types"]}
        found = collections.Counter()
        for at, local in enumerate(self.form["locals"]):
            if at <= self.form["params"] or not is_place(local["ty"]):
                found.update(set(what_is_in(local["ty"], shapes)))
        for key, inner in parts(self.form["body"]):
            if key in ("Array", "Named") and isinstance(inner, list):
                found.update(dict.fromkeys(what_is_in({key: inner}, shapes), 0))
            elif key not in WORDS:
                found[Told("unread", f"cannot read `{key}`")] += 1
        return found


# ---- the roots of the crates


def roots_of(crates):
    found = {}
    for crate in crates:
        with open(f"crates/{crate}/src/lib.rt", encoding="utf-8") as f:
            found[crate] = re.sub(r"//.*", "", f.read())
    return found


def named_in(crate, root):
    """Yields the path of each function and type that a root makes public, beside modules and constants; None for what is not read. With the text."""
    for item in re.findall(r"(?:^|[\]};])\s*pub\b(?!\s*\()\s*(use\b[^;]*|[^;{(\n]*)", root, re.M):
        word, _, rest = re.sub(r"^const fn\b", "fn", item).partition(" ")
        use = re.fullmatch(r"((?:\w+::)*)(?:(\w+)|\{([\w\s,]+)\})", rest)
        if word == "use" and use:
            within, name, names = use.groups()
            yield from ((f"{crate}::{within}{it}", item) for it in (re.findall(r"\w+", names) if names else [name]))
        elif word in ("fn", "struct", "enum"):
            yield f"{crate}::{re.match(r'[A-Za-z0-9_]*', rest).group()}", item
        elif word not in ("mod", "const"):
            yield None, item


def calls_named(functions, crate, root):
    """Yields the functions that a root makes public, and the methods of such types; None for what is not read. With the text."""
    for path, item in named_in(crate, root):
        if path and path.rpartition("::")[2][:1].isupper():
            yield from ((it, item) for it in functions if it.startswith(f"{path}::"))
        else:
            yield path, item


# ---- what is wrong


def reached(functions, names):
    found, left = set(), list(names)
    while left:
        name = left.pop()
        if name not in found and name in functions:
            found.add(name)
            left += functions[name].called | functions[name].handed
    return found


def of_toolchain(name):
    """The name of a function of the toolchain, with that of its type or trait."""
    return "::".join(name.split("::")[-2:])


def unfollowed(functions, name):
    """Yields what a function calls or hands over and cannot be followed, as a line, with the name that the toolchain has for it."""
    ours = {it.partition("::")[0] for it in functions}
    function = functions[name]
    for it in sorted(function.called | function.handed):
        if it.partition("::")[0] not in ours:
            yield f"{name}: {'calls' if it in function.called else 'hands over'} `{of_toolchain(it)}`, of the toolchain", of_toolchain(it)
        elif it not in functions:
            yield f"{name}: cannot follow `{it}`", ""


def faults_of_comparisons(functions):
    for name in COMPARISONS:
        if name not in functions:
            yield f"{name}: there is no such function"
    for name in sorted(reached(functions, COMPARISONS)):
        yield from (f"{name}: {it.text}" for it in functions[name].has if it.kind != "type" or it.whole != ANSWERS.get(name))
        yield from (line for line, called in unfollowed(functions, name) if called not in STEPS)


def faults_of_calls(functions):
    ours = {it.partition("::")[0] for it in functions}
    arrays, calls = collections.Counter(), set()
    for name in sorted(reached(functions, CALLS)):
        for it, count in functions[name].has.items():
            if it.kind == "array":
                arrays[f"{name}: {it.text}"] += count
            elif it.kind == "unread" and not (it == OF_CALLER and name.endswith(LETTING_GO)):
                yield f"{name}: {it.text}"
            elif it.kind == "type" and (MOST_NUMBERS < it.numbers or not (it.name.partition("::")[0] in ours or it.name in TYPES)):
                yield f"{name}: {it.text}"
        for line, called in unfollowed(functions, name):
            calls.add((called, name))
            if called not in QUESTION_MARK and name not in TOOLCHAIN.get(called, ()):
                yield line
    yield from sorted(arrays.keys() - ARRAYS.keys())
    yield from (f"{it}: no longer" for it in sorted(ARRAYS.keys() - arrays.keys()))
    yield from (it.replace("an array", f"{arrays[it]} arrays") for it in sorted(arrays.keys() & ARRAYS.keys()) if arrays[it] != ARRAYS[it])
    for called, names in TOOLCHAIN.items():
        yield from (f"{name}: has `{called}`, of the toolchain: no longer" for name in sorted(names) if (called, name) not in calls)


def faults_of_roots(functions, roots):
    public = set()
    for crate, root in roots.items():
        for call, item in calls_named(functions, crate, root):
            public.add(call)
            if not call:
                yield f"{crate}: cannot read `pub {item}`"
    yield from (f"{it}: a public call that is not named here" for it in sorted(public - CALLS.keys() - {None}))
    yield from (f"{it}: a public call: no longer" for it in sorted(CALLS.keys() - public))
    for call, wanted in CALLS.items():
        if call not in functions:
            yield f"{call}: there is no such function"
        got = reached(functions, [call])
        yield from (f"{call}: does not reach {it}" for it in wanted if it not in got)


def faults_of(functions, roots):
    """A line for each thing that is wrong."""
    found = [*faults_of_comparisons(functions), *faults_of_calls(functions), *faults_of_roots(functions, roots)]
    return list(dict.fromkeys(found))


# ---- edited copies, in each of which something is wrong


class Copy:
    """A copy of what the compiler has, and of the roots."""

    def __init__(self, functions, roots):
        self.functions, self.roots = dict(functions), dict(roots)

    def form(self, name):
        """The form of a function, to be changed."""
        self.functions[name] = Function(copy.deepcopy(self.functions[name].form))
        return self.functions[name].form

    def faults(self):
        return faults_of(self.functions, self.roots)


def array(of, length):
    return {"Array": [of, {"Lit": length}]}


def reference(of, kind="Imm"):
    return {"Ref": ["Erased", kind, of]}


def slice_of(of, kind="Imm"):
    return {"Struct": ["&[]", [reference(of, kind), NUMBER]]}


def named(name, *given):
    return {"Named": [{"name": name, "lifetimes": []}, list(given)]}


def struct(name, *fields):
    return {"name": name, "shape": {"Fields": list(fields)}}


def enum(name, *variants):
    return {"name": name, "shape": {"Variants": list(variants)}}


def mapped(value, key, change):
    """A form in which what stands at a key, at any depth, is changed."""
    if isinstance(value, dict):
        return {it: change(inner) if it == key else mapped(inner, key, change) for it, inner in value.items()}
    return [mapped(it, key, change) for it in value] if isinstance(value, list) else value


RESULT_PLACE = {"local": 0, "steps": []}


def together(*edits):
    return lambda it: [edit(it) for edit in edits]


def local(name, of, *types):
    """A function gets a local of a type, whose place is the answer; `types` are the structs and enums in it."""
    def edit(it):
        form = it.form(name)
        form["locals"].append({"ty": of, "home": "ValueLocal"})
        form["types"] += types
        return {"local": len(form["locals"]) - 1, "steps": []}
    return edit


def parameter(name, of, *types):
    """A function gets a parameter of a type, behind the others."""
    def edit(it):
        form = it.form(name)
        form["params"] = at = form["params"] + 1
        form["locals"].insert(at, {"ty": of, "home": "ValueLocal"})
        form["types"] += types
        form["body"] = mapped(form["body"], "local", lambda number: number + (at <= number))
    return edit


def of_another_crate(name, of, elsewhere):
    """A function gets a parameter of a type that another function has."""
    def edit(it):
        types = [each for each in it.functions[elsewhere].form["types"] if each["name"] == of]
        parameter(name, named(of), *types)(it)
    return edit


def step(name, first):
    """A function gets a step before its others."""
    def edit(it):
        form = it.form(name)
        form["body"] = ["Seq", first, *form["body"]]
    return edit


def made(name, value, of, *types):
    """A function makes a value of a type."""
    return lambda it: step(name, {"Assign": [local(name, of, *types)(it), value]})(it)


def lent(name, value, of):
    """A function has a constant of a type, behind a reference."""
    return lambda it: step(name, {"LendStatic": [local(name, reference(of))(it), of, value]})(it)


def call(name, called, to=RESULT_PLACE, hands=None):
    """A function calls another, and may hand it a closure or a trait's methods."""
    dicts = [{"Impl": [hands, [], []]}] if hands else []
    return step(name, {"Call": [{"Fn": [called, {"types": [], "dicts": dicts}]}, [], to]})


def function(name, of, *types, takes=()):
    """There is another function, which gives back a type."""
    def edit(it):
        it.functions[name] = Function({
            "params": len(takes), "locals": [{"ty": each, "home": "ValueLocal"} for each in (of, *takes)], "types": list(types),
            "generics": {"impls": []}, "body": ["Return"],
        })
    return edit


def given_back(name, called, of, *types):
    """A function calls another one, which gives back a type."""
    return together(function(called, of, *types), lambda it: call(name, called, local(name, of, *types)(it))(it))


def emptied(name):
    """A function does nothing any more."""
    return lambda it: it.form(name).update(locals=[], types=[], body=["Return"])


def without(name):
    return lambda it: it.functions.pop(name)


def calls_instead(name, called, other):
    """A function calls another in place of one."""
    def edit(it):
        form = it.form(name)
        form["body"] = mapped(form["body"], "Fn", lambda inner: [other if inner[0] == called else inner[0], inner[1]])
    return edit


def renamed(name, other):
    """A function has another name, in its calls too."""
    def edit(it):
        it.functions[other] = it.functions.pop(name)
        for caller in [each for each in it.functions if name in it.functions[each].called]:
            calls_instead(caller, name, other)(it)
    return edit


def taken_instead(name, called, other):
    """A function calls a copy of another, which has a name of its own."""
    return together(lambda it: it.functions.update({other: it.functions[called]}), calls_instead(name, called, other))


def root(crate, line):
    """A root has one more line."""
    return lambda it: it.roots.update({crate: f"{it.roots[crate]}{line}\n"})


def root_without(crate, line):
    return lambda it: it.roots.update({crate: it.roots[crate].replace(line, "")})


NUMBER, OCTET, ZERO = {"Int": 64}, {"Int": 8}, {"Int": {"width": 8, "value": 0}}
OCTETS = array(OCTET, 60)
EIGHT = struct("places::sound::Held", *[NUMBER] * 8)
HELD = named(EIGHT["name"])
PAIR = struct("octets::order::Pair", NUMBER, NUMBER)
FOUR = struct("places::sound::Four", *[NUMBER] * 4)
TWICE_FOUR = struct(EIGHT["name"], named(FOUR["name"]), named(FOUR["name"]))
IN_STRUCT = struct("changes::find::Octets", OCTETS)
TWO_DEEP = struct("changes::find::Held", named(IN_STRUCT["name"]))
IN_ENUM = enum("changes::find::Found", [], [OCTETS])
BITS = struct("places::sound::Bits", *["Bool"] * 64)
GENERIC = struct("places::sound::Eight", *[{"Param": 0}] * 8)
EITHER = enum("places::sound::Either", [NUMBER] * 4, [NUMBER] * 4)
TUPLE = struct("(,)", {"Param": 0}, {"Param": 1})
RANGE = struct("core::iter::ranges::Range", {"Param": 0}, {"Param": 0})
OPTION = enum("core::option::Option", [], [{"Param": 0}])
RESULT = enum("core::result::Result", [{"Param": 0}], [{"Param": 1}])
VEC = struct("std_alloc::vec::Vec", "Ptr", NUMBER, NUMBER)

COPY = "core::slice::edits::slice+T::copy_from_slice"
SEARCH, NLRI_AT, PLACE_AT = "changes::find::search", "changes::find::nlri_at", "places::place::place_at"
RISES, IS_SHORT_SAME = "octets::order::rises", "octets::order::is_short_same"
FOLLOWS, ALL_SOUND = "places::sound::follows", "places::sound::are_places_sound"
OF_ZEROS = "octets::order::fn::is_each_zero::fold"

# Each function, what is found in it, and the edit.
EDITS = [
    # in a comparison, an array: a local, in what it calls, and two calls further down
    (RISES, "an array", local(RISES, array(NUMBER, 1))),
    ("octets::order::comes_each_before", "an array", local("octets::order::comes_each_before", OCTETS)),
    ("octets::wide::two", "an array", made("octets::wide::two", {"Aggregate": [ZERO, ZERO]}, array(OCTET, 2))),
    # a parameter: alone, behind a reference, in a struct of another crate
    (PLACE_AT, "an array", parameter(PLACE_AT, array(OCTET, 128))),
    (NLRI_AT, "an array", parameter(NLRI_AT, reference(array(OCTET, 64008)))),
    (PLACE_AT, "an array, in `nlri::address::RouteDistinguisher`",
     of_another_crate(PLACE_AT, "nlri::address::RouteDistinguisher", "nlri::fields::distinguisher_in")),
    # from a call: alone, in a struct two deep, in an enum
    (IS_SHORT_SAME, "an array", given_back(IS_SHORT_SAME, "octets::order::held", OCTETS)),
    ("octets::order::held", "an array", given_back(IS_SHORT_SAME, "octets::order::held", OCTETS)),
    (SEARCH, "an array, in `changes::find::Octets`",
     given_back(SEARCH, "changes::find::held_at", named(TWO_DEEP["name"]), TWO_DEEP, IN_STRUCT)),
    ("changes::find::position", "an array, in `changes::find::Found`",
     given_back("changes::find::position", "changes::find::found", named(IN_ENUM["name"]), IN_ENUM)),
    # a constant, and one behind a reference, as a byte string is
    (IS_SHORT_SAME, "an array", made(IS_SHORT_SAME, {"Repeat": [ZERO, {"Lit": 8}]}, array(OCTET, 8))),
    (IS_SHORT_SAME, "an array", lent(IS_SHORT_SAME, {"Ints": {"width": 8, "values": [77, 86, 84]}}, array(OCTET, 3))),
    # a struct of numbers: as a parameter, made, given back and two deep; a tuple
    (PLACE_AT, "has `places::sound::Held`, with 8 numbers", parameter(PLACE_AT, HELD, EIGHT)),
    (IS_SHORT_SAME, "has `octets::order::Pair`, with 2 numbers",
     made(IS_SHORT_SAME, {"Aggregate": [ZERO, ZERO]}, named(PAIR["name"]), PAIR)),
    (FOLLOWS, "has `places::sound::Held`, with 8 numbers", given_back(FOLLOWS, "places::sound::held_at", HELD, TWICE_FOUR, FOUR)),
    (RISES, "has `(u64, u64)`, with 2 numbers", local(RISES, named(TUPLE["name"], NUMBER, NUMBER), TUPLE)),
    # a reference to write by, and one to other than octets
    (RISES, "has `&mut`", parameter(RISES, slice_of(OCTET, "Mut"))),
    (RISES, "has `&`", parameter(RISES, slice_of(NUMBER))),
    (RISES, "has `&`", parameter(RISES, reference(OCTET))),
    # a search that answers more than two numbers, or octets; its answer in another comparison
    (SEARCH, "has `core::result::Result<core::iter::ranges::Range<u64>, core::iter::ranges::Range<u64>>`, with 4 numbers",
     local(SEARCH, named(RESULT["name"], *[named(RANGE["name"], NUMBER)] * 2), RANGE)),
    (SEARCH, "has `core::result::Result<u8, u8>`, with 2 numbers", local(SEARCH, named(RESULT["name"], OCTET, OCTET))),
    (FOLLOWS, "has `core::result::Result<u64, u64>`, with 2 numbers", local(FOLLOWS, named(RESULT["name"], NUMBER, NUMBER), RESULT)),
    # the comparisons as they are, and beside them a copy that is compared: in an array, also where there are some, or one in a struct
    (ALL_SOUND, "an array",
     together(made(ALL_SOUND, {"Aggregate": [ZERO, ZERO]}, array(OCTET, 2)),
              function("places::sound::is_held", "Bool", takes=[array(OCTET, 2)]), call(ALL_SOUND, "places::sound::is_held"))),
    ("places::header::is_header_sound", "4 arrays", local("places::header::is_header_sound", array(OCTET, 4))),
    ("matches::explaining::explain", "an array", local("matches::explaining::explain", array(OCTET, 2))),
    # in a struct of numbers: alone, in an option, in a tuple, behind a reference, in a slice
    (ALL_SOUND, "has `places::sound::Held`, with 8 numbers", given_back(ALL_SOUND, "places::sound::held_at", HELD, EIGHT)),
    (ALL_SOUND, "has `core::option::Option<places::sound::Held>`, with 8 numbers",
     local(ALL_SOUND, named(OPTION["name"], HELD), OPTION, EIGHT)),
    (ALL_SOUND, "has `(places::sound::Four, &places::sound::Four)`, with 8 numbers",
     local(ALL_SOUND, named(TUPLE["name"], named(FOUR["name"]), reference(named(FOUR["name"]))), TUPLE, FOUR)),
    (ALL_SOUND, "has `places::sound::Held`, with 8 numbers", local(ALL_SOUND, reference(HELD), EIGHT)),
    (ALL_SOUND, "has `places::sound::Held`, with 8 numbers", parameter(ALL_SOUND, slice_of(HELD), EIGHT)),
    # in bools, in a generic struct, in the variants of an enum, in a type of the toolchain that is not named
    (ALL_SOUND, "has `places::sound::Bits`, with 64 numbers", local(ALL_SOUND, named(BITS["name"]), BITS)),
    (ALL_SOUND, "has `places::sound::Eight<u64>`, with 8 numbers", local(ALL_SOUND, named(GENERIC["name"], NUMBER), GENERIC)),
    (ALL_SOUND, "has `places::sound::Either`, with 8 numbers", local(ALL_SOUND, named(EITHER["name"]), EITHER)),
    (ALL_SOUND, "has `std_alloc::vec::Vec<u8>`, with 2 numbers", local(ALL_SOUND, named(VEC["name"], OCTET), VEC)),
    # in a closure: an array, a struct of numbers, a copy; in what a closure alone calls, and in methods that the toolchain calls
    (OF_ZEROS, "an array", local(OF_ZEROS, OCTETS)),
    (OF_ZEROS, "has `places::sound::Held`, with 8 numbers", local(OF_ZEROS, HELD, EIGHT)),
    (OF_ZEROS, "calls `slice+T::copy_from_slice`, of the toolchain", call(OF_ZEROS, COPY)),
    ("shared_trees::judge::is_originator_sized", "an array", local("shared_trees::judge::is_originator_sized", OCTETS)),
    ("lists::item::ItemsIterator::next", "an array", local("lists::item::ItemsIterator::next", OCTETS)),
    ("octets::refusal::RefusalPartialEq::eq", "an array", local("octets::refusal::RefusalPartialEq::eq", OCTETS)),
    # an array that is named, and is gone
    ("tunnel::encoding::put_header", "an array: no longer", emptied("tunnel::encoding::put_header")),
    # a comparison with another name; one that is gone
    ("octets::order::comes_before", "there is no such function", renamed("octets::order::comes_before", "octets::order::precedes")),
    (FOLLOWS, "there is no such function", renamed(FOLLOWS, "places::sound::comes_after")),
    (SEARCH, "there is no such function", without(SEARCH)),
    # a search that takes another comparison; a soundness pass that does
    ("table::installing::install", "does not reach changes::find::position",
     taken_instead(SEARCH, "changes::find::position", "changes::find::place_of")),
    ("table::withdrawing::withdraw", "does not reach places::sound::follows", taken_instead(ALL_SOUND, FOLLOWS, "places::sound::comes_after")),
    # what cannot be followed: a function that is not there, a closure that is not
    ("octets::order::comes_before_by_words", "cannot follow `octets::order::lesser`",
     call("octets::order::comes_before_by_words", "octets::order::lesser")),
    ("octets::order::is_each_zero", "cannot follow `octets::order::fn::is_each_zero::other+FnMut`",
     call("octets::order::is_each_zero", "core::iter::base::Iterator::fold", hands="octets::order::fn::is_each_zero::other+FnMut")),
    # a call by a function pointer, and one by a bound; a type that a caller gives, and one of which nothing is said
    (RISES, "cannot read `CallV`", step(RISES, {"CallV": [{"Copy": RESULT_PLACE}, {"abi": "Rattle", "types": ["Bool"]}, [], RESULT_PLACE]})),
    (RISES, "cannot read `Method`", step(RISES, {"Call": [{"Method": [{"Given": 0}, 0, {"types": [], "dicts": []}]}, [], RESULT_PLACE]})),
    (ALL_SOUND, "cannot read a type that its caller gives", parameter(ALL_SOUND, {"Param": 0})),
    (PLACE_AT, "cannot read the type `places::place::Held`", local(PLACE_AT, named("places::place::Held"))),
    # a function of the toolchain, among them a copy by one; one that other functions may call, or hand over; one that is named, and is gone
    (SEARCH, "calls `slice+T::to_vec`, of the toolchain", call(SEARCH, "std_alloc::slice::slice+T::to_vec")),
    (RISES, "calls `slice+T::copy_from_slice`, of the toolchain", call(RISES, COPY)),
    (RISES, "calls `mem::swap`, of the toolchain", call(RISES, "core::mem::swap")),
    ("octets::order::is_each_zero", "calls `Iterator::fold`, of the toolchain", call(RISES, "octets::order::is_each_zero")),
    (ALL_SOUND, "calls `slice+T::copy_from_slice`, of the toolchain", call(ALL_SOUND, COPY)),
    (ALL_SOUND, "calls `Iterator::all`, of the toolchain", call(ALL_SOUND, "core::iter::base::Iterator::all")),
    (ALL_SOUND, "calls `PartialOrd::lt`, of the toolchain", call(ALL_SOUND, "core::cmp::PartialOrd::lt")),
    ("octets::order::is_each_zero", "hands over `swap+FnMut::call_mut`, of the toolchain",
     call("octets::order::is_each_zero", "core::iter::base::Iterator::fold", hands="core::mem::swap+FnMut::call_mut")),
    ("octets::parts::place", "has `slice+T::copy_from_slice`, of the toolchain: no longer", emptied("octets::parts::place")),
    # a public call that is not named: brought into a root, written in one, of a type; one that is gone; a line that cannot be read
    ("table::following::last", "a public call that is not named here", root("table", "pub use following::{first, last};")),
    ("salvage::repair", "a public call that is not named here", root("salvage", "pub fn repair(table: &mut [u8]) {}")),
    ("matches::ahead::Ahead::find", "a public call that is not named here",
     together(root("matches", "pub use ahead::Ahead;"), function("matches::ahead::Ahead::find", "Unit"))),
    ("table::following::next", "a public call: no longer", root_without("table", "pub use following::next;")),
    ("table", "cannot read `pub use following::*`", root("table", "pub use following::*;")),
]


def main():
    functions, roots = functions_of(crates_below(CALLS_ON_TABLES)), roots_of(CALLS_ON_TABLES)
    found = faults_of(functions, roots)
    if found:
        sys.exit("in_place: " + "\n".join(found))
    for name, what, edit in EDITS:
        edited = Copy(functions, roots)
        edit(edited)
        if f"{name}: {what}" not in edited.faults():
            sys.exit(f"in_place: not found in an edited copy: {name}: {what}")
    count = len(reached(functions, COMPARISONS))
    print(f"in_place: numbers and octets alone in the {count} functions of {len(COMPARISONS)} comparisons")


main()
