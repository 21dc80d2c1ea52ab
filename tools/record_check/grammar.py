"""What a module text says by the grammar of docs/LANGUAGE.md, or the first fault of its tokens, grammar and names.

Each function of `Reader` takes a production of the grammar, by the next token alone (`throw new` by two). Of what is
taken nothing is kept but what analysis looks at and what the rules on names are asked of.
"""
import re
from typing import NamedTuple

from .tokens import NAME, NUMBER, RESERVED, TEXT, WORDS, Stopped, tokens_of

MOST_DEPTH = 64
MOST_EVENT = 64
END = "END"
FREE = (WORDS - RESERVED) | {NAME}
ALL = WORDS | {NAME}
EXPR_FIRSTS = {NUMBER, TEXT, "undefined", "import", "(", "-"} | FREE
STMT_FIRSTS = {"if", "throw", "import"} | FREE
TOP_FIRSTS = {"import", "throw"} | FREE
ITEM_FIRSTS = {"import", "export", "const", "let", "if", "throw"} | FREE
ONCE_FIRSTS = {"("} | FREE
EVENT = re.compile(rb"(?!\.{1,2}(?::|\Z))[A-Za-z0-9_.-]+(?::(?!\.{1,2}(?::|\Z))[A-Za-z0-9_.-]+)*")


class Module(NamedTuple):
    """What analysis looks at: specifiers in order, each with whether it imports, and the rest as docs/LANGUAGE.md says."""

    specifiers: list
    links: list
    exports: list
    self_accepts: bool
    declined: bool


class Within(NamedTuple):
    """Where a statement stands: at the top, in a callback of `dispose` or `prune` (`once`), or in one of `accept` or `on`
    (`accept`), with its parameters."""

    callback: str
    params: list


OUTSIDE = Within("", [])


class Reader:
    """The tokens of a text, taken from the first on."""

    def __init__(self, data):
        self.tokens = tokens_of(data)
        self.size = len(data)
        self.next = 0
        self.within = OUTSIDE
        self.broken = []
        self.bound = []
        self.lets = set()
        self.assigned = []
        self.specifiers, self.links, self.exports = [], [], []
        self.self_accepts = self.declined = False

    # Tokens.

    def kind(self, ahead=0):
        at = self.next + ahead
        return self.tokens[at].kind if at < len(self.tokens) else END

    def place(self):
        return self.tokens[self.next].at if self.next < len(self.tokens) else self.size

    def fail(self, word="unexpected"):
        raise Stopped(self.place(), word)

    def take(self, *kinds):
        """The next token, which has to be of one of these kinds."""
        if self.kind() not in kinds:
            self.fail()
        self.next += 1
        return self.tokens[self.next - 1]

    def take_all(self, *kinds):
        for kind in kinds:
            self.take(kind)

    def take_if(self, kind):
        if self.kind() != kind:
            return False
        self.next += 1
        return True

    def end(self):
        """The end of a statement: a semicolon, or nothing before `}`, a later line and the end of the text."""
        if self.take_if(";") or self.kind() in (END, "}") or self.tokens[self.next].is_later:
            return
        self.fail()

    def deep(self, firsts):
        """What may not begin here, since it would be too deep."""
        self.fail("too-deep" if self.kind() in firsts else "unexpected")

    # Rules on names.

    def breaks(self, is_broken, word, at):
        if is_broken:
            self.broken.append((at, word))

    def is_param(self, token):
        return token.value in self.within.params

    def alone(self, token):
        """A name that is read alone, where an expression is one: no parameter."""
        if token is not None:
            self.breaks(self.is_param(token), "unexpected", token.at)

    def all_different(self, tokens):
        known = set()
        for token in tokens:
            self.breaks(token.value in known, "duplicate-name", token.at)
            known.add(token.value)

    # Expressions. Each answers its token where it is a name alone, in parentheses or not, and None else.

    def expr(self, depth):
        if depth == 0:
            self.deep(EXPR_FIRSTS)
        whole = self.operands(depth, 0)
        if not self.take_if("?"):
            return whole
        self.alone(whole)
        self.alone(self.expr(depth - 1))
        self.take(":")
        self.alone(self.expr(depth - 1))
        return None

    OPERATORS = [("??",), ("+", "-"), ("*",)]

    def operands(self, depth, level):
        """Operands with the operators of a level between, and those that bind closer inside."""
        if level == len(self.OPERATORS):
            return self.unary(depth)
        whole = self.operands(depth, level + 1)
        while self.kind() in self.OPERATORS[level]:
            self.next += 1
            self.alone(whole)
            self.alone(self.operands(depth, level + 1))
            whole = None
        return whole

    def unary(self, depth):
        if self.take_if("-"):
            self.alone(self.prim(depth))
            return None
        return self.prim(depth)

    def prim(self, depth):
        if self.kind() in (NUMBER, TEXT, "undefined"):
            self.next += 1
            return None
        if self.take_if("import"):
            self.hot()
            self.bag_key()
            return None
        if self.take_if("("):
            whole = self.expr(depth - 1)
            self.take(")")
            return whole
        name = self.take(*FREE)
        if self.kind() not in (".", "?."):
            return name
        self.next += 1
        self.take(*ALL)
        self.breaks(not self.is_param(name), "unexpected", name.at)
        return None

    def exprs(self, depth):
        """Expressions with commas between, or none."""
        if self.kind() in EXPR_FIRSTS:
            self.alone(self.expr(depth))
            while self.take_if(","):
                self.alone(self.expr(depth))

    # Statements.

    def hot(self):
        self.take_all(".", "meta", ".", "hot", ".")

    def bag_key(self):
        self.take_all("data", ".")
        self.take(*ALL)

    def bag_act(self, depth):
        self.bag_key()
        self.take("=")
        self.alone(self.expr(depth))

    def name_act(self, depth):
        name = self.take(*FREE)
        if name.kind == "console" and self.take_if("."):
            self.take_all("log", "(")
            self.exprs(depth)
            self.take(")")
            return
        if self.take_if("."):
            self.take(*ALL)
            is_bag = self.within.callback == "once" and self.is_param(name)
            self.breaks(not is_bag, "unexpected", name.at)
        else:
            self.assigned.append((name, self.is_param(name)))
        self.take("=")
        self.alone(self.expr(depth))

    def throw(self, depth):
        self.take("throw")
        if self.kind() == "new" and self.kind(1) == "Error":
            self.take_all("new", "Error", "(")
            self.alone(self.expr(depth))
            self.take(")")
        else:
            self.alone(self.expr(depth))

    def import_stmt(self, depth):
        """A statement of a callback that begins with `import`."""
        at = self.take("import").at
        self.hot()
        if self.kind() == "data":
            self.bag_act(depth)
            return
        self.take_all("invalidate", "(")
        self.breaks(self.within.callback != "accept", "unexpected", at)
        if self.kind() in EXPR_FIRSTS:
            self.alone(self.expr(depth))
        self.take(")")

    def stmt(self, depth):
        if self.kind() == "if":
            self.if_stmt(depth)
            return
        if self.kind() == "throw":
            self.throw(depth)
        elif self.kind() == "import":
            self.import_stmt(depth)
        else:
            self.name_act(depth)
        self.end()

    def if_stmt(self, depth):
        self.take_all("if", "(")
        condition = self.expr(depth)
        if self.within.callback != "accept":
            self.alone(condition)
        self.take(")")
        self.block(depth)
        if not self.take_if("else"):
            return
        if self.kind() == "{":
            self.block(depth)
        elif depth == 0:
            self.deep({"if"})
        else:
            self.if_stmt(depth - 1)

    def block(self, depth):
        if depth == 0:
            self.deep({"{"})
        self.braces(depth - 1)

    def braces(self, depth):
        self.take("{")
        while self.kind() in STMT_FIRSTS:
            self.stmt(depth)
        self.take("}")

    # Callbacks.

    def body(self, callback, params):
        self.all_different(params)
        self.within = Within(callback, [token.value for token in params])
        if self.kind() == "{":
            self.braces(MOST_DEPTH)
        elif self.kind() == "import":
            self.import_stmt(MOST_DEPTH)
        else:
            self.name_act(MOST_DEPTH)
        self.within = OUTSIDE

    def callback(self, callback="accept"):
        if self.take_if("("):
            params = [self.take(*FREE)] if self.kind() in FREE else []
            self.take(")")
        else:
            params = [self.take(*FREE)]
        self.take("=>")
        self.body(callback, params)

    def list_callback(self):
        self.take("(")
        params = []
        if self.take_if("["):
            if self.kind() in FREE:
                params.append(self.take(*FREE))
                while self.take_if(","):
                    params.append(self.take(*FREE))
            self.take("]")
        self.take_all(")", "=>")
        self.body("accept", params)

    def once(self, callback):
        """A callback, or a closure of the embedding program."""
        if self.kind() == "host" and self.kind(1) == "(":
            self.take_all("host", "(", TEXT, ")")
        else:
            self.callback(callback)

    # Items.

    def accept(self):
        if self.kind() == TEXT:
            self.specifiers.append((self.take(TEXT).value, False))
            if self.take_if(","):
                self.callback()
        elif self.take_if("["):
            while self.kind() == TEXT:
                self.specifiers.append((self.take(TEXT).value, False))
                if not self.take_if(","):
                    break
            self.take("]")
            if self.take_if(","):
                self.list_callback()
        else:
            self.self_accepts = True
            if self.kind() in ONCE_FIRSTS:
                self.once("accept")

    def listen(self):
        event = self.take(TEXT)
        is_event = len(event.value) <= MOST_EVENT and EVENT.fullmatch(event.value) is not None
        self.breaks(not is_event, "unexpected", event.at)
        self.specifiers.append((b"/event/" + event.value.replace(b":", b"/"), False))
        self.take(",")
        self.callback()

    def hot_call(self):
        kind = self.take("accept", "dispose", "prune", "on", "decline").kind
        self.take("(")
        if kind == "accept":
            self.accept()
        elif kind == "on":
            self.listen()
        elif kind == "decline":
            self.declined = True
        else:
            self.once("once")
        self.take(")")

    def hot_top(self):
        self.hot()
        if self.kind() == "data":
            self.bag_act(MOST_DEPTH)
        else:
            self.hot_call()
        self.end()

    def plain_top(self):
        if self.kind() == "throw":
            self.throw(MOST_DEPTH)
        else:
            self.name_act(MOST_DEPTH)
        self.end()

    def guard(self):
        self.take_all("if", "(", "import", ".", "meta", ".", "hot", ")", "{")
        while self.kind() in TOP_FIRSTS:
            if self.take_if("import"):
                self.hot_top()
            else:
                self.plain_top()
        self.take("}")

    def declaration(self, is_exported):
        kind = self.take("const", "let").kind
        name = self.take(*FREE)
        self.bound.append(name)
        if kind == "let":
            self.lets.add(name.value)
        if is_exported:
            self.exports.append(name.value.decode())
        self.take("=")
        self.alone(self.expr(MOST_DEPTH))
        self.end()

    def import_names(self):
        """The names that an import takes of a module."""
        found = []
        while self.kind() in ALL:
            name = self.take(*ALL)
            found.append(name.value.decode())
            if name.kind in RESERVED:
                self.take("as")
                name = self.take(*FREE)
            elif self.take_if("as"):
                name = self.take(*FREE)
            self.bound.append(name)
            if not self.take_if(","):
                break
        return found

    def import_item(self):
        names = []
        if self.take_if("{"):
            names = self.import_names()
            self.take_all("}", "from")
        elif self.kind() != TEXT:
            self.hot_top()
            return
        specifier = self.take(TEXT).value
        self.specifiers.append((specifier, True))
        self.links += [(specifier, name) for name in names]
        self.end()

    def item(self):
        if self.take_if("import"):
            self.import_item()
        elif self.take_if("export"):
            self.declaration(True)
        elif self.kind() in ("const", "let"):
            self.declaration(False)
        elif self.kind() == "if":
            self.guard()
        else:
            self.plain_top()

    def module(self):
        """The whole text."""
        while self.kind() in ITEM_FIRSTS:
            self.item()
        if self.kind() != END:
            self.fail()
        self.all_different(self.bound)
        for name, is_param in self.assigned:
            self.breaks(is_param or name.value not in self.lets, "not-assignable", name.at)
        if self.broken:
            raise Stopped(*min(self.broken))
        return Module(self.specifiers, self.links, self.exports, self.self_accepts, self.declined)
