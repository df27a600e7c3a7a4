"""Random declarations of types and traits, and questions about them, as the program `traits` reads them."""

import re

from traits_solver import Type, show

NUMBERS = "i32", "u8", "bool", "str", "!"
SIZED = "i32", "u8", "bool", "f64"
# Types of the prelude by the number of their arguments, which rustc knows, too.
OF_STD = {"Box": 1, "Vec": 1, "Rc": 1, "PhantomData": 1, "Cell": 1, "Option": 1, "Result": 2}
# Those of them that have what they hold somewhere else, or nowhere.
INDIRECT = "Box", "Vec", "Rc", "PhantomData"
# Those of them that may have types without size in them.
UNSIZED = "PhantomData", "Cell"


def path(name, *args):
    return Type(("type", name), args)


def param(name):
    return Type(("param", name))


def unify(left, right, of):
    """Whether two heads may be for one type, as far as that is easily seen. They have different parameters."""
    left, right = resolve(left, of), resolve(right, of)
    if left == right:
        return True
    for one, other in ((left, right), (right, left)):
        if one.head[0] == "param":
            of[one.head[1]] = other
            return True
    if left.head != right.head or len(left.args) != len(right.args):
        # Numbers of arrays tell no impls apart that rustc looks for by their outermost types.
        return False
    return all(unify(*pair, of) for pair in zip(left.args, right.args))


def resolve(type_, of):
    """What a parameter stands for by now."""
    while type_.head[0] == "param" and type_.head[1] in of:
        type_ = of[type_.head[1]]
    return type_


def renamed(type_, mark):
    """The type with a mark behind the names of its parameters."""
    if type_.head[0] == "param":
        return param(type_.head[1] + mark)
    return Type(type_.head, tuple(renamed(each, mark) for each in type_.args))


def params_of(type_):
    """The names of the parameters in a type."""
    if type_.head[0] == "param":
        return {type_.head[1]}
    return {name for each in type_.args for name in params_of(each)}


def has_reference(type_, in_function=False):
    """Whether there are references in a function's type, whose lifetimes are its parameters."""
    kind = type_.head[0]
    if in_function and kind in ("&", "&mut"):
        return True
    return any(has_reference(each, in_function or kind == "fn") for each in type_.args)


class Declarations:
    """Random declarations. For rustc there are no two impls for one type, no type of infinite size, and the like."""

    def __init__(self, chance, for_rustc, most_types=30, most_traits=10, growing=True, above=0.4):
        self.chance, self.for_rustc, self.growing = chance, for_rustc, growing
        # How often a trait has a supertrait.
        self.above = above
        names = [f"T{number}" for number in range(chance.randint(1, most_types))]
        self.types = {name: chance.choice((0, 0, 1, 1, 1, 2)) for name in names}
        kinds = ("plain", "plain", "marked", "auto")
        self.traits = {f"A{number}": chance.choice(kinds) for number in range(chance.randint(1, most_traits))}
        self.all_types = {**self.types, **OF_STD} if for_rustc else self.types
        # The items, for which heads there is an impl of which trait, and the parameters that questions may be about.
        self.lines, self.heads, self.scope = [], [], ()

    # Types.

    def any_type(self, params, depth, hidden=False):
        """A type of these parameters. Where it is hidden, it stands behind a pointer and may be of any size."""
        chance = self.chance
        roll = chance.random()
        if depth == 0 or roll < 0.2:
            return param(chance.choice(params)) if params and chance.random() < 0.8 else self.leaf()
        inner = lambda: self.any_type(params, depth - 1)
        if roll < 0.75:
            names = list(self.all_types)
            name = chance.choice(names)
            return path(name, *(inner() for _ in range(self.all_types[name])))
        return self.built_in(inner)

    def leaf(self):
        if self.for_rustc:
            return path(self.chance.choice(SIZED))
        return self.dyn() if self.chance.random() < 0.15 else path(self.chance.choice(NUMBERS))

    def dyn(self):
        count = self.chance.choice((1, 1, 2))
        return Type(("dyn", frozenset(self.chance.choice(list(self.traits)) for _ in range(count))))

    def built_in(self, inner):
        """A type of a form that is no path."""
        kind = self.chance.choice(("&", "&mut", "*const", "*mut", "tuple", "tuple", "array", "slice", "fn"))
        # For rustc a parameter stands for no type without size.
        kind = "array" if kind == "slice" and self.for_rustc else kind
        if kind == "tuple":
            return Type(("tuple",), tuple(inner() for _ in range(self.chance.choice((0, 1, 2, 2, 3)))))
        if kind == "array":
            return Type(("array", self.chance.choice("234")), (inner(),))
        if kind == "fn":
            return Type(("fn",), tuple(self.in_function(inner) for _ in range(self.chance.choice((1, 2, 3)))))
        return Type((kind,), (inner(),))

    def in_function(self, inner):
        """A part of a function's type, for rustc without references, whose lifetimes would be its parameters there."""
        while True:
            type_ = inner()
            if not self.for_rustc or not has_reference(type_, True):
                return type_

    def field(self, params):
        """The type of a field. For rustc, types of this text stand behind pointers, and there are no references."""
        type_ = self.any_type(params, self.chance.choice((0, 1, 2, 3) if self.growing else (0, 1)))
        if not self.for_rustc:
            return type_
        while "&" in show(type_):
            type_ = self.any_type(params, self.chance.choice((0, 1, 2)))
        if type_.head[0] == "param" or type_ in map(path, SIZED):
            return type_
        if type_.head[1:] and type_.head[1] in INDIRECT or type_.head[0].startswith("*"):
            return type_
        return path(self.chance.choice(INDIRECT), type_)

    # Items.

    def text(self, type_):
        """The type as a text, with lifetimes here and there."""
        return re.sub("&", lambda _: self.chance.choice(("&", "&", "&'static ", "&'_ ")), show(type_))

    def write_type(self, name, count):
        params = ["T", "U"][:count]
        fields = [self.field(params) for _ in range(self.chance.choice((0, 1, 1, 2, 3)))]
        if self.for_rustc:
            # Each parameter has to be used.
            fields += map(self.use, params)
        head = f"{name}<{', '.join(params)}>" if params else name
        texts = [show(each) if self.for_rustc else self.text(each) for each in fields]
        form = self.chance.randrange(3)
        if form == 0:
            self.lines.append(f"struct {head}({', '.join(texts)});")
        elif form == 1:
            named = ", ".join(f"f{place}: {each}" for place, each in enumerate(texts))
            self.lines.append(f"struct {head} {{ {named} }}")
        else:
            self.lines.append(f"enum {head} {{ None, {', '.join(self.variants(texts))} }}")

    def use(self, name):
        """A type that uses a parameter. Of some of these auto traits do not ask about it."""
        return path("PhantomData", param(name)) if self.chance.random() < 0.7 else Type(("fn",), (param(name),))

    def variants(self, texts):
        for place, each in enumerate(texts):
            yield f"V{place}({each})" if self.chance.random() < 0.6 else f"V{place} {{ x: {each} }}"

    def write_trait(self, name, kind):
        # For rustc no trait stands above itself.
        traits = list(self.traits)
        traits = traits[: traits.index(name)] if self.for_rustc else traits
        above = ""
        if kind != "auto" and traits and self.above and self.chance.random() < self.above:
            above = f": {self.chance.choice(traits)}"
        lead = {"plain": "", "marked": "#[rustc_coinductive] ", "auto": "auto "}[kind]
        self.lines.append(f"{lead}trait {name}{above} {{}}")

    def head(self, kind, negative):
        """What an impl is for. For rustc a negative one is for all types of a constructor."""
        if self.for_rustc and negative:
            name = self.chance.choice([*self.types, "PhantomData", "Cell", "Option", "Result", "&", "*const"])
            kind = ("type", name) if name in self.all_types else (name,)
            return Type(kind, tuple(map(param, "TU"[: self.all_types.get(name, 1)])))
        if self.chance.random() < 0.15 and not (self.for_rustc and kind == "auto"):
            return param("T")
        params = ["T", "U"][: self.chance.choice((0, 1, 1, 1, 2))]
        while True:
            head = self.any_type(params, self.chance.choice((1, 1, 1, 2, 3)))
            if head.head[0] != "param" and not (self.for_rustc and "array" in str(head)):
                return head

    def write_impls(self, trait, kind):
        heads = []
        for _ in range(self.chance.choice((1, 2, 3, 5, 8))):
            negative = kind == "auto" and self.chance.random() < 0.5
            head = self.head(kind, negative)
            if self.for_rustc and any(unify(renamed(head, "'"), each, {}) for each in heads):
                continue
            heads.append(head)
            self.heads.append((trait, head))
            self.write_impl(trait, negative, head)

    def write_impl(self, trait, negative, head):
        params = sorted(params_of(head))
        bounds = {each: [] for each in params}
        clauses = []
        for _ in range(0 if negative else self.chance.choice((0, 0, 0, 1, 1, 2, 3))):
            needed = self.chance.choice(list(self.traits))
            if params and self.chance.random() < 0.6:
                bounds[self.chance.choice(params)].append(needed)
                continue
            if params and self.chance.random() < 0.2:
                clauses.append(f"Self: {needed}")
                continue
            type_ = self.any_type(params, self.chance.choice((1, 1, 2) if self.growing else (1,)))
            if params_of(type_) or not self.for_rustc:
                clauses.append(f"{show(type_) if self.for_rustc else self.text(type_)}: {needed}")
        self.lines.append(self.impl_text(trait, negative, head, bounds, clauses))

    def impl_text(self, trait, negative, head, bounds, clauses):
        where, lifetimes = ", ".join(clauses), []
        if self.for_rustc and "&" in where:
            where, lifetimes = where.replace("&", "&'a "), ["'a"]
        for found in bounds.values():
            found += lifetimes
            if self.for_rustc and negative and head.head[-1] in UNSIZED:
                found.append("?Sized")
        params = [f"{each}: {' + '.join(found)}" if found else each for each, found in bounds.items()]
        generics = f"<{', '.join([*lifetimes, *params])}>" if params else ""
        where = f" where {where}" if where else ""
        return f"impl{generics} {'!' if negative else ''}{trait} for {show(head)}{where} {{}}"

    def write(self, questions):
        """The declarations as lines, and questions as pairs of texts."""
        for name, count in self.types.items():
            self.write_type(name, count)
        for name, kind in self.traits.items():
            self.write_trait(name, kind)
            self.write_impls(name, kind)
        if not self.for_rustc:
            self.chance.shuffle(self.lines)
        return self.lines, [self.question() for _ in range(questions)]

    def question(self):
        """A type and a trait, often one for which there is an impl that may fit."""
        while True:
            type_, trait = self.any_question()
            if not self.for_rustc or not has_reference(type_):
                return type_, trait

    def any_question(self):
        trait = self.chance.choice(list(self.traits))
        roll = self.chance.random()
        if roll < 0.6 and self.heads:
            trait, head = self.chance.choice(self.heads)
            return self.instance(head, {}), trait if roll < 0.5 else self.chance.choice(list(self.traits))
        if roll < 0.7 and not self.for_rustc:
            return self.dyn(), trait
        return self.any_type(self.scope, self.chance.choice((1, 1, 2, 2, 3))), trait

    def instance(self, head, of):
        """A type that the head fits, or nearly so."""
        if head.head[0] == "param":
            if head.head[1] not in of or self.chance.random() < 0.2:
                of[head.head[1]] = self.any_type(self.scope, self.chance.choice((0, 0, 1, 2)))
            return of[head.head[1]]
        return Type(head.head, tuple(self.instance(each, of) for each in head.args))

    def in_body(self, questions):
        """The parameters of a function and its where-clauses, as texts, and questions about the parameters."""
        chance, traits = self.chance, list(self.traits)
        self.scope = ["T", "U"][: chance.choice((1, 1, 2))]
        bounds = {each: chance.choices(traits, k=chance.choice((0, 0, 1, 1, 2))) for each in self.scope}
        parameters = ", ".join(f"{each}: {' + '.join(found)}" if found else each for each, found in bounds.items())
        clauses = [(self.question()[0], chance.choice(traits)) for _ in range(chance.choice((0, 1, 1, 2)))]
        # Without a parameter a clause is refused, and in rustc a reference has to have a lifetime there.
        right = lambda type_: params_of(type_) and not (self.for_rustc and "&" in show(type_))
        where = ", ".join(f"{show(type_)}: {trait}" for type_, trait in clauses if right(type_))
        asked = [self.question() for _ in range(questions)]
        self.scope = ()
        return f"<{parameters}>", f"where {where}" if where else "", asked


def rules(chance, for_rustc=False):
    """A few types and traits whose goals need each other in all ways, as lines, and all these goals as questions. For
    rustc there is no more than one impl for each, and nothing that it could judge without a question."""
    generic = for_rustc or chance.random() < 0.5
    types = [f"G{number}<T>" if generic else f"G{number}" for number in range(chance.randint(1, 5))]
    kinds = ("", "", "#[rustc_coinductive] ") if chance.random() < 0.8 else ("",)
    traits = {f"A{number}": chance.choice(kinds) for number in range(chance.randint(1, 3))}
    lines = [f"struct {each}{'(T)' * generic};" for each in types]
    lines += [f"{mark}trait {each} {{}}" for each, mark in traits.items()]
    need = lambda: f"{chance.choice(types)}: {chance.choice(list(traits))}"
    for type_ in types:
        for trait in traits:
            for _ in range(chance.choice((0, 1, 1, 1)) if for_rustc else chance.choice((0, 1, 1, 2, 3))):
                needs = [need() for _ in range(chance.choice((0, 1, 1, 2, 2, 3)))]
                where = f" where {', '.join(needs)}" if needs else ""
                lines.append(f"impl{'<T>' * generic} {trait} for {type_}{where} {{}}")
    asked = [(path(type_.split("<")[0], *[path("u8")] * generic), trait) for type_ in types for trait in traits]
    chance.shuffle(asked)
    return lines, asked
