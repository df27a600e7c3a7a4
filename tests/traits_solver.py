#!/usr/bin/env python3
"""A plain solver beside the program `traits`, which shares nothing with it: a reader of the same texts, and rounds over
all goals that a question reaches.

    traits_solver.py [--as-rustc] [--definitions] [FILE..]

It prints a line for each question as the program does, but says no cause of a maybe. It refuses what the program
refuses, with a line `FILE:LINE: WORD: what is wrong` and the status 2.

A goal is a trait and a type without parameters. It holds if all needs of one of its candidates do. What rests on itself
holds only if a goal of a coinductive trait is on the way round: so the goals that hold are the greatest set such that
each of its goals has a derivation which ends, where a need of a coinductive goal ends it if that need is in the set.
Of a goal that reaches too many others only some are looked at, and none that is farther away than the limit on depth
allows. It is answered if the answer is the same whatever holds of the others. The program may say maybe where this one
answers: its way to a goal may be longer than the shortest one.
"""

import re
import sys
from collections import deque
from pathlib import Path
from typing import NamedTuple

# How many goals are looked at for a question before the others are taken to be unknown.
BOUND = 600
DEFAULT_LIMIT = 128
# The attributes that set how a lint is told.
LEVELS = ("allow", "warn", "deny", "forbid")
PRIMITIVES = set("bool char str i8 i16 i32 i64 i128 isize u8 u16 u32 u64 u128 usize f32 f64".split())
KEYWORDS = set(
    "as async await break const continue crate dyn else enum extern false fn for gen if impl in let loop match mod "
    "move mut pub ref return self Self static struct super trait true type unsafe use where while abstract become box "
    "do final macro override priv try typeof unsized virtual yield".split()
)


class Refused(Exception):
    """The text is not read: the file, the line, the word that stands there, and what is wrong."""

    def __str__(self):
        file, line, word, what = self.args
        return f"{file}:{line}: {word}: {what}"


class Type(NamedTuple):
    """What is outermost, as a kind and what tells it from others of this kind, and the types in it."""

    head: tuple
    args: tuple = ()


class Need(NamedTuple):
    """A trait that a type has to implement."""

    type: Type
    trait: str


class Impl(NamedTuple):
    """What an impl says of the types that its head fits, its parameters, those that may have no size, and its first word."""

    positive: bool
    head: Type
    needs: list
    parameters: tuple = ()
    without_size: frozenset = frozenset()
    token: "Token" = None


class Environment(NamedTuple):
    """The parameters of a function and its where-clauses, as texts, which hold where its body asks."""

    parameters: str = ""
    where: str = ""


class Asked(NamedTuple):
    """A question: a need, or a call of the function that a word names, with the types and the values that it is given."""

    need: Need = None
    token: "Token" = None
    types: tuple = ()
    values: tuple = ()
    environment: Environment = Environment()


class Function(NamedTuple):
    """The parameters of a function, the types of its values, and what a call of it needs."""

    parameters: list
    values: list
    needs: list


class Trait(NamedTuple):
    """What is said of a trait."""

    auto: bool
    coinductive: bool
    above: list


class Token(NamedTuple):
    """A word of the text, where it stands, and whether it is a name, a lifetime, a number, a text or a mark."""

    kind: str
    text: str
    file: str
    line: int
    start: int
    end: int


NEVER, UNIT = Type(("type", "!")), Type(("tuple",))


# Types as texts.


def pointee(type_):
    """A type behind a mark, in parentheses if it would be read otherwise without."""
    text = show(type_)
    return f"({text})" if type_.head[0] == "dyn" and len(type_.head[1]) > 1 else text


def show(type_):
    """The type as Rust writes it."""
    (kind, *detail), args = type_
    if kind in ("type", "param", "constant"):
        return detail[0] + (f"<{', '.join(map(show, args))}>" if args else "")
    if kind == "tuple":
        return f"({', '.join(map(show, args))}{',' if len(args) == 1 else ''})"
    if kind == "slice":
        return f"[{show(args[0])}]"
    if kind == "array":
        return f"[{show(args[0])}; {detail[0]}]"
    if kind == "fn":
        result = "" if args[-1] == UNIT else f" -> {pointee(args[-1])}"
        return f"fn({', '.join(map(show, args[:-1]))}){result}"
    if kind == "dyn":
        return "dyn " + " + ".join(sorted(detail[0]))
    return kind + ("" if kind == "&" else " ") + pointee(args[0])


# The reader.

WORD = re.compile(
    r"(?P<blank>[ \n\t\r\x0b\x0c]+|//[^\n]*)|(?P<comment>/\*)"
    r"|(?P<name>[A-Za-z_][A-Za-z0-9_]*)|(?P<lifetime>'[A-Za-z_][A-Za-z0-9_]*)"
    r'|(?P<number>[0-9][A-Za-z0-9_]*)|(?P<text>"[^"\n]*")|(?P<mark>->|::|.)',
    re.DOTALL,
)


def words_of(text, file):
    """The words of a text, without blanks and comments."""
    at, line = 0, 1
    while at < len(text):
        found = WORD.match(text, at)
        end = found.end() if found.lastgroup != "comment" else end_of_comment(text, at, file, line)
        if found.lastgroup not in ("blank", "comment"):
            yield Token(found.lastgroup, found[0], file, line, at, end)
        line += text.count("\n", at, end)
        at = end
    yield Token("end", "end", file, line, at, at)


def end_of_comment(text, at, file, line):
    """Where a comment ends, in which others may be nested."""
    depth = 0
    for mark in re.compile(r"/\*|\*/").finditer(text, at):
        depth += 1 if mark[0] == "/*" else -1
        if depth == 0:
            return mark.end()
    raise Refused(file, line, "/*", "a comment without an end")


class Reader:
    """Reads files into a program."""

    def __init__(self):
        self.types, self.traits, self.impls, self.functions = {}, {}, [], {}
        # The structs whose names are values, too, and the words for such values.
        self.units, self.units_named = set(), []
        # Questions and calls in their order, and what holds of the parameters of functions in their bodies.
        self.asked, self.assumed, self.limit = [], [], DEFAULT_LIMIT
        # The parameters that are constants, and those that questions name, as the words for a function and for its parameter.
        self.constants, self.constants_named = set(), []
        # What has to be declared, each with the number of its arguments.
        self.types_named, self.traits_named = [], []
        # The places of questions and of functions that call, of questions in the short form, of calls, and of attributes
        # of the whole.
        self.questions_at, self.short_at, self.calls_at, self.attributes_at = [], [], [], []
        self.text, self.words, self.at, self.params, self.self_type = "", [], 0, {}, None
        # What the parameters of a function are in its body, the types of the values that have a name there, and what it
        # may assume.
        self.of, self.values, self.environment = {}, {}, Environment()
        # The parameters that may have no size, whether the last bounds say so, and the constants that have one.
        self.without_size, self.is_relaxed, self.sized = set(), False, []
        # The last words of types in where-clauses that name traits, with the types; and whether a question is read.
        self.subjects, self.is_asking = [], False
        # Whether an attribute says that the trait is coinductive which follows.
        self.marked = False

    # Words.

    @property
    def word(self):
        return self.words[self.at]

    def is_next(self, text, ahead=0):
        """Whether this mark or keyword is ahead."""
        token = self.words[min(self.at + ahead, len(self.words) - 1)]
        return token.text == text and token.kind in ("mark", "name")

    def refuse(self, what, token=None):
        token = token or self.word
        raise Refused(token.file, token.line, token.text, what)

    def take(self, text):
        """Passes over a word if it is this one."""
        if not self.is_next(text):
            return False
        self.at += 1
        return True

    def expect(self, *texts):
        for text in texts:
            if not self.take(text):
                self.refuse(f"`{text}` is expected here")

    def next_of(self, kind, what):
        token = self.word
        if token.kind != kind:
            self.refuse(f"{what} is expected here")
        self.at += 1
        return token

    def name(self):
        token = self.next_of("name", "a name")
        if token.text in KEYWORDS or token.text == "_":
            self.refuse("this is no name", token)
        return token

    def list_until(self, close, read_one, between=","):
        """What stands in a list, whose last part may have a comma behind it, and whether it ends with one."""
        found, comma = [], False
        while not self.take(close):
            if found and not comma:
                self.refuse(f"`{between}` or `{close}` is expected here")
            found.append(read_one())
            comma = self.take(between)
        return found, comma

    # Types.

    def type_(self, plus=True):
        """A type. Where no `+` may follow, `dyn` takes one bound."""
        token = self.word
        if self.take("("):
            parts, comma = self.list_until(")", self.type_)
            return parts[0] if len(parts) == 1 and not comma else Type(("tuple",), tuple(parts))
        if self.take("["):
            return self.array()
        if self.take("&"):
            if self.word.kind == "lifetime":
                self.at += 1
            return Type(("&mut" if self.take("mut") else "&",), (self.type_(False),))
        if self.take("*"):
            if not self.is_next("const") and not self.is_next("mut"):
                self.refuse("`const` or `mut` is expected here")
            self.at += 1
            return Type((f"*{self.words[self.at - 1].text}",), (self.type_(False),))
        if self.take("!"):
            return NEVER
        if self.take("fn"):
            self.expect("(")
            parts, _ = self.list_until(")", self.type_)
            return Type(("fn",), (*parts, self.type_(False) if self.take("->") else UNIT))
        if self.take("dyn"):
            bounds = frozenset(self.bounds(plus))
            if not bounds:
                self.refuse("a trait is expected here")
            return Type(("dyn", bounds))
        if self.take("Self"):
            return self.self_type or self.refuse("there is no `Self` here", token)
        return self.path()

    def array(self):
        inner = self.type_()
        if self.take("]"):
            return Type(("slice",), (inner,))
        self.expect(";")
        number = self.next_of("number", "a number").text
        self.expect("]")
        return Type(("array", number), (inner,))

    def path(self):
        token = self.name()
        if self.is_asking and self.take("::"):
            self.constants_named.append((token, self.name()))
            return Type(("constant", self.constants_named[-1][1].text, token.text))
        args = self.arguments() if self.take("<") else ()
        if token.text in self.params:
            if args:
                self.refuse("a parameter has no arguments", token)
            return self.of.get(token.text, Type(("param", token.text)))
        if token.text not in PRIMITIVES:
            self.types_named.append((token, len(args)))
        elif args:
            self.refuse("a primitive type has no arguments", token)
        return Type(("type", token.text), args)

    def arguments(self):
        found, _ = self.list_until(">", self.argument)
        return tuple(each for each in found if each is not None)

    def argument(self):
        if self.word.kind == "lifetime":
            self.at += 1
            return None
        return self.type_()

    def bounds(self, plus=True, questioned=False):
        """The traits that are named in bounds; lifetimes and `?Sized` say nothing."""
        found, self.is_relaxed = [], False
        while True:
            if self.word.kind == "lifetime":
                self.at += 1
            elif questioned and self.take("?"):
                self.expect("Sized")
                self.is_relaxed = True
            elif self.word.kind == "name" and self.word.text not in KEYWORDS:
                token = self.name()
                self.traits_named.append(token)
                found.append(token.text)
            else:
                return found
            if not plus or not self.take("+"):
                return found

    # Parts of items.

    def parameters(self):
        """Reads parameters, and returns what they need. They are known from now on."""
        self.params, needs = {}, []
        if self.take("<"):
            self.list_until(">", lambda: self.parameter(needs))
        return needs

    def parameter(self, needs):
        if self.word.kind == "lifetime":
            self.at += 1
        else:
            token = self.name()
            if token.text in self.params:
                self.refuse("this parameter is there already", token)
            self.params[token.text] = token
            if not self.is_next(":"):
                return
            needs_of = Type(("param", token.text))
            self.expect(":")
            needs += [Need(needs_of, trait) for trait in self.bounds(True, True)]
            self.relax(needs_of)
            return
        if self.take(":"):
            self.lifetimes()

    def relax(self, type_):
        if self.is_relaxed and type_.head[0] == "param":
            self.without_size.add(type_.head[1])

    def lifetimes(self):
        """Passes over the bounds of a lifetime."""
        while self.word.kind == "lifetime":
            self.at += 1
            if not self.take("+"):
                return

    def where_clauses(self):
        needs = []
        if self.take("where"):
            while not any(self.is_next(mark) for mark in "{;") and self.word.kind != "end":
                self.where_clause(needs)
                if not self.take(","):
                    break
        return needs

    def where_clause(self, needs):
        if self.word.kind == "lifetime":
            self.at += 1
            self.expect(":")
            self.lifetimes()
            return
        type_, last = self.type_(), self.words[self.at - 1]
        self.expect(":")
        traits = self.bounds(True, True)
        self.relax(type_)
        needs += [Need(type_, trait) for trait in traits]
        self.subjects += [(last, type_)] if traits else []

    def visibility(self):
        if self.take("pub") and self.is_next("(") and self.is_next("crate", 1):
            self.expect("(", "crate", ")")

    def named_fields(self):
        return self.list_until("}", self.named_field)[0]

    def named_field(self):
        self.visibility()
        self.name()
        self.expect(":")
        return self.type_()

    def tuple_fields(self):
        return self.list_until(")", self.tuple_field)[0]

    def tuple_field(self):
        self.visibility()
        return self.type_()

    # Items.

    def read(self, text, file):
        """Reads the items of a file."""
        self.text, self.words, self.at = text, list(words_of(text, file)), 0
        while self.word.kind != "end" or self.marked:
            self.params, self.self_type, self.of, self.values, self.subjects = {}, None, {}, {}, []
            self.environment, self.is_asking, self.without_size = Environment(), False, set()
            self.item()

    def item(self):
        token = self.word
        if self.take("#"):
            return self.attribute(token)
        if self.is_question() and not self.marked:
            return self.question()
        self.visibility()
        return self.item_after(token)

    def is_question(self):
        """Whether a type stands here, and no item."""
        if self.is_next("fn"):
            return self.is_next("(", 1)
        item = ("struct", "enum", "trait", "impl", "unsafe", "pub", "use")
        return not any(map(self.is_next, item)) and not (self.is_next("auto") and self.is_next("trait", 1))

    def item_after(self, start):
        """An item, behind a mark of visibility. Only a trait may be marked as coinductive."""
        is_unsafe = self.take("unsafe")
        if self.is_next("auto") or self.is_next("trait"):
            return self.trait(self.take("auto"))
        if self.marked:
            self.refuse("`trait` is expected here")
        if self.take("impl"):
            return self.impl(self.words[self.at - 1])
        if is_unsafe:
            self.refuse("`impl` or `trait` is expected here")
        if self.take("use"):
            return self.use()
        if self.take("struct"):
            return self.struct()
        if self.take("enum"):
            return self.enum()
        return self.function(start) if self.take("fn") else self.refuse("no item begins so")

    def use(self):
        """What is brought in has to be declared all the same."""
        self.used()
        self.expect(";")

    def used(self):
        if self.take("{"):
            return self.list_until("}", self.used)
        if self.take("*"):
            return None
        if not any(map(self.take, ("crate", "self", "super"))):
            self.name()
        return self.used() if self.take("::") else None

    def attribute(self, token):
        whole = self.take("!")
        self.expect("[")
        if whole and self.take("recursion_limit"):
            self.expect("=")
            number = self.next_of("text", "a number in quotes")
            if not re.fullmatch('"[0-9]{1,9}"', number.text):
                self.refuse("this is no limit", number)
            self.limit = int(number.text.strip('"'))
            self.expect("]")
        elif not whole and self.take("rustc_coinductive"):
            self.expect("]")
            self.marked = True
        elif not whole and self.take("marker"):
            self.expect("]")
        elif (whole and self.take("feature")) or any(map(self.take, LEVELS)):
            self.expect("(")
            self.list_until(")", self.lint)
            self.expect("]")
        else:
            self.refuse("this attribute is not read")
        if whole:
            self.attributes_at.append((token.file, token.start, self.words[self.at - 1].end))

    def lint(self):
        self.name()
        while self.take("::"):
            self.name()

    def declare(self, table, token, what):
        if token.text in table or (table is self.types and token.text in PRIMITIVES):
            self.refuse("this name is declared already", token)
        table[token.text] = what

    def struct(self):
        token = self.name()
        self.parameters()
        needs_end = True
        if self.take("("):
            fields = self.tuple_fields()
            self.where_clauses()
        else:
            self.where_clauses()
            fields, needs_end = (self.named_fields(), False) if self.take("{") else ([], True)
            self.units |= {token.text} if needs_end and not self.params else set()
        if needs_end:
            self.expect(";")
        self.declare(self.types, token, (list(self.params), fields))

    def enum(self):
        token = self.name()
        self.parameters()
        self.where_clauses()
        self.expect("{")
        variants, _ = self.list_until("}", self.variant)
        self.declare(self.types, token, (list(self.params), [field for fields in variants for field in fields]))

    def variant(self):
        self.name()
        if self.take("("):
            return self.tuple_fields()
        return self.named_fields() if self.take("{") else []

    def trait(self, auto):
        self.expect("trait")
        marked, self.marked = self.marked, False
        token = self.name()
        above = self.bounds(True, True) if self.take(":") else []
        self.expect("{", "}")
        self.declare(self.traits, token, Trait(auto, auto or marked, above))

    def impl(self, token):
        needs = self.parameters()
        positive = not self.take("!")
        trait = self.name()
        self.traits_named.append(trait)
        self.expect("for")
        head = self.type_()
        for name, parameter in self.params.items():
            if not has_param(head, name):
                self.refuse("this parameter does not stand in the type (E0207)", parameter)
        self.self_type = head
        needs += self.where_clauses()
        self.expect("{", "}")
        impl = Impl(positive, head, needs, tuple(self.params), frozenset(self.without_size), token)
        self.impls.append((trait.text, impl))

    def function(self, start):
        token = self.name()
        first = self.word.start
        needs = self.parameters()
        params = list(self.params)
        middle = self.word.start
        self.expect("(")
        values, _ = self.list_until(")", self.value_of_function)
        before = self.word.start
        needs += self.where_clauses()
        environment = Environment(self.text[first:middle], self.text[before : self.word.start])
        self.expect("{")
        calls = len(self.asked)
        if not self.is_next("}"):
            self.begin_body(token, needs, values, environment)
        while not self.take("}"):
            self.statement()
        if len(self.asked) > calls:
            self.questions_at.append((start.file, start.start, self.words[self.at - 1].end))
        self.declare(self.functions, token, Function(params, [type_ for _, type_ in values], needs))

    def pattern(self):
        """The name that a value has, or `_`."""
        if self.take("_"):
            return "_"
        self.take("mut")
        return self.name().text

    def value_of_function(self):
        name = self.pattern()
        if name != "_" and name in self.values:
            self.refuse("a value of this name is there already", self.words[self.at - 1])
        self.expect(":")
        self.values[name] = self.type_()
        return name, self.values[name]

    def begin_body(self, token, needs, values, environment):
        """In the body, the parameters are constants, of which all holds that the function needs."""
        for last, type_ in self.subjects:
            if not has_any_param(type_):
                self.refuse("a where-clause without a parameter says nothing that a body may assume", last)
        self.of = {name: Type(("constant", name, token.text)) for name in self.params}
        self.constants |= {*self.of.values()}
        self.sized += [type_ for name, type_ in self.of.items() if name not in self.without_size]
        self.assumed += [Need(put(need.type, self.of), need.trait) for need in needs]
        self.values = {name: put(type_, self.of) for name, type_ in values}
        self.environment = environment

    def statement(self):
        start = self.word
        if self.take("let"):
            name = self.pattern()
            self.expect(":")
            self.values[name] = self.type_()
            self.expect("=")
            self.no_value()
            self.expect(";")
            return
        token = self.name()
        types, values = (), []
        if self.take("::"):
            self.expect("<")
            types = self.arguments()
        self.expect("(")
        values, _ = self.list_until(")", self.value)
        # The last one may stand without it.
        if not self.is_next("}"):
            self.expect(";")
        if token.text in self.values:
            self.refuse("this is a value, and no function", token)
        self.calls_at.append((start.file, start.start, self.words[self.at - 1].end, len(self.asked)))
        self.asked.append(Asked(None, token, types, tuple(values), self.environment))

    def no_value(self):
        """What stands for a value of any type."""
        if self.take("loop"):
            self.expect("{", "}")
            return
        if self.name().text not in ("panic", "todo", "unimplemented", "unreachable"):
            self.refuse("this value is not read", self.words[self.at - 1])
        self.expect("!", "(", ")")

    def value(self):
        """A value, as the word that names it and its type."""
        if self.take("&"):
            kind = "&mut" if self.take("mut") else "&"
            token, type_ = self.value()
            return token, Type((kind,), (type_,))
        token = self.name()
        if token.text not in self.values:
            self.units_named.append(token)
            return token, Type(("type", token.text))
        type_ = self.values[token.text]
        if type_ == NEVER:
            self.refuse("of which type this value is where it is given rests on more", token)
        return token, type_

    def question(self):
        token, self.is_asking = self.word, True
        type_ = self.type_()
        self.expect(":")
        bounds = self.bounds()
        if not bounds or self.words[self.at - 1].text == "+":
            self.refuse("a trait is expected here")
        self.asked += [Asked(Need(type_, trait)) for trait in bounds]
        self.expect("?")
        self.questions_at.append((token.file, token.start, self.words[self.at - 1].end))
        self.short_at.append(self.questions_at[-1])

    # What can be said only once all is read.

    def check(self):
        for token, count in self.types_named:
            if token.text not in self.types:
                self.refuse("no type has this name", token)
            if len(self.types[token.text][0]) != count:
                self.refuse(f"{len(self.types[token.text][0])} arguments are expected here", token)
        for token in self.traits_named:
            if token.text not in self.traits:
                self.refuse("no trait has this name", token)
        for token in self.units_named:
            if token.text not in self.units:
                self.refuse("no value has this name", token)
        for function, token in self.constants_named:
            if Type(("constant", token.text, function.text)) not in self.constants:
                self.refuse("no function with a body has this parameter", token)

    def questions(self):
        """The questions, each a need without parameters, with what asks it."""
        for asked in self.asked:
            if asked.need:
                yield asked.need, asked
                continue
            token = asked.token
            if token.text not in self.functions:
                self.refuse("no function has this name", token)
            function = self.functions[token.text]
            of = self.given(function, asked)
            yield from ((Need(put(need.type, of), need.trait), asked) for need in function.needs)

    def definitions(self):
        """What the supertraits of their traits ask of the types of impls, each with the impl. Parameters are constants there."""
        for number, (trait, impl) in enumerate(self.impls, 1):
            if not impl.positive or not self.traits[trait].above:
                continue
            of = {name: Type(("constant", name, number)) for name in impl.parameters}
            self.sized += [type_ for name, type_ in of.items() if name not in impl.without_size]
            self.assumed += [Need(put(need.type, of), need.trait) for need in impl.needs if has_any_param(need.type)]
            yield from ((Need(put(impl.head, of), above), impl) for above in self.traits[trait].above)

    def given(self, function, asked):
        """What the parameters of a function stand for where it is called. Values have to be of just the types that it takes."""
        token = asked.token
        if asked.types and len(asked.types) != len(function.parameters):
            self.refuse(f"{len(function.parameters)} arguments are expected here", token)
        if len(asked.values) != len(function.values):
            self.refuse(f"{len(function.values)} values are expected here", token)
        of = dict(zip(function.parameters, asked.types))
        for (word, type_), pattern in zip(asked.values, function.values):
            if not instantiate(pattern, type_, of):
                self.refuse("another type is expected here", word)
        if len(of) < len(function.parameters):
            self.refuse("what a parameter stands for is not said", token)
        return of


def instantiate(pattern, type_, of):
    """Whether the type is an instance of the pattern, by what its parameters stand for, of which more are known then."""
    if pattern.head[0] == "param":
        return of.setdefault(pattern.head[1], type_) == type_
    if pattern.head != type_.head or len(pattern.args) != len(type_.args):
        return False
    return all(instantiate(part, arg, of) for part, arg in zip(pattern.args, type_.args))


def has_param(type_, name):
    return type_ == Type(("param", name)) or any(has_param(each, name) for each in type_.args)


def has_any_param(type_):
    return type_.head[0] == "param" or any(map(has_any_param, type_.args))


def put(type_, of):
    """The type with other types in the places of its parameters."""
    if type_.head[0] == "param":
        return of[type_.head[1]]
    return Type(type_.head, tuple(put(each, of) for each in type_.args)) if type_.args else type_


class Program:
    """What was read, with types as numbers, of which equal ones have the same."""

    def __init__(self, texts, definitions=False):
        """Reads texts, each with the name of its file, and with `definitions` asks about impls, too."""
        reader = Reader()
        for file, text in texts:
            reader.read(text, file)
        reader.check()
        asked = list(reader.questions())
        # The questions about impls stand last, each with its impl.
        self.defined = list(reader.definitions()) if definitions else []
        self.questions = [need for need, _ in asked + self.defined]
        # What asks each of them, with where the functions that call stand, and what they call.
        self.asked_by, self.calls_at, self.short_at = [by for _, by in asked], reader.calls_at, reader.short_at
        self.calls = reader.asked
        self.types, self.traits, self.limit = reader.types, reader.traits, reader.limit
        self.questions_at, self.attributes_at = reader.questions_at, reader.attributes_at
        self.impls = {}
        for trait, impl in reader.impls:
            self.impls.setdefault(trait, []).append(impl)
        # The head of each type, with the numbers of its parts, and the number of each.
        self.rows, self.numbers = [], {}
        assumed = reader.assumed + [Need(type_, "Sized") for type_ in reader.sized if "Sized" in self.traits]
        self.assumed = {(above, self.number(need.type)) for need in assumed for above in self.named_by([need.trait])}

    def number(self, type_, of=None):
        """The number of a type, with the numbers of those in the places of its parameters."""
        if type_.head[0] == "param":
            return of[type_.head[1]]
        row = type_.head, tuple(self.number(each, of) for each in type_.args)
        if row not in self.numbers:
            self.numbers[row] = len(self.rows)
            self.rows.append(row)
        return self.numbers[row]

    def fits(self, pattern, number, of):
        """Whether a type is an instance of the pattern, by what parameters stand for, of which more are known then."""
        if pattern.head[0] == "param":
            return of.setdefault(pattern.head[1], number) == number
        head, args = self.rows[number]
        if head != pattern.head or len(args) != len(pattern.args):
            return False
        return all(self.fits(part, arg, of) for part, arg in zip(pattern.args, args))

    def fields(self, number):
        """The types that an auto trait asks about."""
        (kind, *detail), args = self.rows[number]
        if kind == "fn":
            return ()
        if kind != "type" or detail[0] not in self.types:
            return args
        params, fields = self.types[detail[0]]
        of = dict(zip(params, args))
        return [self.number(field, of) for field in fields]

    def named_by(self, traits):
        """These traits, and all above them."""
        found, left = set(), list(traits)
        while left:
            trait = left.pop()
            if trait not in found:
                found.add(trait)
                left += self.traits[trait].above
        return found

    def candidates(self, goal):
        """The ways in which a goal may hold, each by the goals that it needs."""
        trait, number = goal
        head, args = self.rows[number]
        found, has_impl = [], False
        for impl in self.impls.get(trait, ()):
            has_impl = has_impl or (constructor(impl.head.head, len(impl.head.args)) == constructor(head, len(args)))
            of = {}
            if impl.positive and self.fits(impl.head, number, of):
                found.append([(need.trait, self.number(need.type, of)) for need in impl.needs])
        found += [[]] if goal in self.assumed else []
        if head[0] == "dyn":
            found += [[]] if trait in self.named_by(head[1]) else []
        elif head[0] != "constant" and self.traits[trait].auto and not has_impl:
            found.append([(trait, field) for field in self.fields(number)])
        return found

    def is_coinductive(self, goal):
        return self.traits[goal[0]].coinductive

    def reached(self, goal, bound=BOUND):
        """The goals that are reached, those that are near first, with their candidates, until there are so many."""
        found, left = {}, deque([goal])
        distances = {goal: 0}
        while left and len(found) < bound:
            here = left.popleft()
            if distances[here] > self.limit:
                break
            found[here] = self.candidates(here)
            for needs in found[here]:
                for need in needs:
                    if need not in distances:
                        distances[need] = distances[here] + 1
                        left.append(need)
        return found

    def answer(self, question, as_rustc=False, bound=BOUND):
        """`yes`, `no`, or `maybe`."""
        goal = question.trait, self.number(question.type)
        graph = Graph(self.reached(goal, bound), self.is_coinductive)
        if goal in graph.holding(False):
            return "yes"
        may_hold = graph.greatest(True) if as_rustc else graph.holding(True)
        return "maybe" if goal in may_hold else "no"

    def lines(self, as_rustc=False):
        """A line for each question."""
        for question in self.questions:
            yield f"{show(question.type)}: {question.trait} {self.answer(question, as_rustc)}"


def constructor(head, count):
    """What an impl has to be for, for the auto trait to look at no fields of a type; nothing for a parameter."""
    return None if head[0] == "param" else (head, count)


class Graph:
    """Goals with their candidates, and which of them hold."""

    def __init__(self, goals, is_coinductive):
        self.goals = goals
        self.coinductive = {goal for goal in goals if is_coinductive(goal)}
        self.beyond = {need for ways in goals.values() for needs in ways for need in needs if need not in goals}

    def least(self, outer):
        """The goals with a derivation that ends, where needs of coinductive goals end it if they are in `outer`."""
        held, left = set(outer & self.beyond), deque()
        # Of each candidate how many needs are open, and for each goal which candidates wait for it.
        open_needs, waiting = [], {}

        def hold(goal):
            if goal not in held:
                held.add(goal)
                left.append(goal)

        for goal, ways in self.goals.items():
            for needs in ways:
                known = outer if goal in self.coinductive else held
                missing = {need for need in needs if need not in known}
                if not missing:
                    hold(goal)
                elif goal not in self.coinductive:
                    for need in missing:
                        waiting.setdefault(need, []).append(len(open_needs))
                    open_needs.append([goal, len(missing)])
        return self.spread(hold, left, open_needs, waiting) or held

    @staticmethod
    def spread(hold, left, open_needs, waiting):
        """Lets goals hold that wait for others only that do."""
        while left:
            for place in waiting.get(left.popleft(), ()):
                open_needs[place][1] -= 1
                if open_needs[place][1] == 0:
                    hold(open_needs[place][0])

    def holding(self, beyond):
        """The greatest of such sets, if all goals that are not looked at hold, or if none of them does."""
        outer = set(self.goals) | (self.beyond if beyond else set())
        while True:
            held = self.least(outer)
            if held == outer:
                return held
            outer = held

    def greatest(self, beyond):
        """The goals that hold if nothing is held against a goal that rests on itself."""
        held = set(self.goals) | (self.beyond if beyond else set())
        while True:
            kept = {goal for goal, ways in self.goals.items() if any(held.issuperset(needs) for needs in ways)}
            kept |= held & self.beyond
            if kept == held:
                return held
            held = kept


def read_files(files):
    """The texts of the files, or of standard input."""
    for file in files or ["-"]:
        data = Path(file).read_bytes() if files else sys.stdin.buffer.read()
        try:
            yield file, data.decode()
        except UnicodeDecodeError as error:
            line = data.count(b"\n", 0, error.start) + 1
            raise Refused(file, line, f"byte {data[error.start]}", "this is no UTF-8") from error


def main():
    sys.setrecursionlimit(20000)
    as_rustc, definitions = "--as-rustc" in sys.argv, "--definitions" in sys.argv
    try:
        files = [each for each in sys.argv[1:] if each not in ("--as-rustc", "--definitions")]
        program = Program(read_files(files), definitions)
        lines = list(program.lines(as_rustc))
    except (Refused, OSError, RecursionError) as error:
        print(error, file=sys.stderr)
        return 2 if isinstance(error, Refused) else 3 if isinstance(error, OSError) else 4
    sys.stdout.write("".join(f"{line}\n" for line in lines))
    return 0


if __name__ == "__main__":
    sys.exit(main())
