"""A reading of docs/FORMATS.md that shares nothing with the program: the tokens of a text, and the first cause for which a text is
no specification, no script, no database or no request. It goes over the tokens once and holds no tree.

`cause_of(text, form)` is None, or the end of the report as `bad byte at 13`; `place_of_request(line)` is the A of `bad line A`.
"""

PAIRS = {sign.encode(): sign for sign in ("::", "->", "==", "!=", "<=", ">=", "&&", "||")}
SIGNS = {sign.encode(): sign for sign in "()[]{},:.-+<>!|@"}
LOWER = set("static principal model create delete read write public none some if then else match with in has true false map flat_map self".split())
UPPER = set(
    "Bool Int Text Id Set Option Find CreateModel DeleteModel AddField RemoveField UpdateFieldPolicy WeakenFieldPolicy UpdatePolicy"
    " WeakenPolicy AddStatic RemoveStatic AddPrincipal".split()
)
ESCAPES = {ord(c) for c in '"\\nrt'}
LAST_NUMBER, LAST_POSITIVE = 9223372036854775808, 9223372036854775807


class Refused(Exception):
    """A cause, in the words of a report, and the byte of the text where it stands."""

    def __init__(self, what, at, token=None):
        super().__init__(what)
        self.what, self.at, self.token = what, at, token

    def report(self):
        return f"not grammar at token {self.token}" if self.token is not None else f"{self.what} at {self.at}"


def is_letter(b):
    return b in range(65, 91) or b in range(97, 123)


def is_digit(b):
    return b in range(48, 58)


def text_end(text, at):
    """Where the literal that opens at `at` ends, by its bytes in reading order."""
    i, size = at + 1, 0
    while True:
        if i == len(text) or text[i] == 10:
            raise Refused("unfinished", at)
        if text[i] == 34:
            if size > 4096:
                raise Refused("too many text bytes", at)
            return i + 1
        if text[i] == 92:
            after = text[i + 1 : i + 4]
            if not after or after[0] == 10:
                raise Refused("unfinished", at)
            if after[0] in ESCAPES:
                i, size = i + 2, size + 1
                continue
            if len(after) == 3 and after[0] == 120 and after[1:2] in b"01234567" and after[2:3] in b"0123456789abcdef":
                i, size = i + 4, size + 1
                continue
            raise Refused("bad byte", i)
        if text[i] < 32 or text[i] == 127:
            raise Refused("bad byte", i)
        i, size = i + 1, size + 1


def tokens_of(text):
    """The tokens, each as (kind, its text, its offset); kinds are `name`, `Name`, `number`, `text`, and signs and reserved words themselves."""
    try:
        text.decode("utf-8")
    except UnicodeDecodeError as e:
        raise Refused("not text", e.start) from None
    out, i = [], 0
    while i < len(text):
        b = text[i]
        if b in b" \t\r\n":
            i += 1
        elif b == 35:
            end = text.find(b"\n", i)
            i = len(text) if end < 0 else end
        elif is_letter(b):
            end = i
            while end < len(text) and (is_letter(text[end]) or is_digit(text[end]) or text[end] == 95):
                end += 1
            if end - i > 64:
                raise Refused("too many name bytes", i)
            word = text[i:end].decode()
            kind = word if word in LOWER or word in UPPER else "name" if word[0].islower() else "Name"
            out.append((kind, word, i))
            i = end
        elif is_digit(b):
            end = i
            while end < len(text) and is_digit(text[end]):
                end += 1
            if text[i] == 48 and end - i > 1 or end - i > 19 or int(text[i:end]) > LAST_NUMBER:
                raise Refused("bad number", i)
            out.append(("number", int(text[i:end]), i))
            i = end
        elif b == 34:
            end = text_end(text, i)
            out.append(("text", text[i:end], i))
            i = end
        else:
            sign = PAIRS.get(text[i : i + 2]) or SIGNS.get(text[i : i + 1])
            if sign is None:
                raise Refused("bad byte", i)
            out.append((sign, sign, i))
            i += len(sign)
    return out


class Reader:
    """Goes over the tokens by the productions of docs/FORMATS.md."""

    def __init__(self, tokens, length):
        self.tokens, self.length, self.next = tokens, length, 0
        self.level, self.outermost = 0, None

    def kind(self):
        return self.tokens[self.next][0] if self.next < len(self.tokens) else None

    def at(self):
        return self.tokens[self.next][2] if self.next < len(self.tokens) else self.length

    def refuse(self):
        raise Refused("not grammar", self.at(), self.next)

    def take(self, *kinds):
        kind = self.kind()
        if kind not in kinds:
            self.refuse()
        if self.outermost is not None:
            self.outermost += 1
            if self.outermost > 1024:
                raise Refused("too many tokens", self.at())
        self.next += 1
        return kind

    def taken(self, *kinds):
        return self.take(*kinds) if self.kind() in kinds else None

    def several(self, kinds):
        for kind in kinds.split():
            self.take(kind)

    def items(self, limit, what, firsts, one):
        count = 0
        while self.kind() in firsts:
            if count == limit:
                raise Refused(f"too many {what}", self.at())
            one()
            count += 1

    def listed(self, one, end):
        """Items with commas between them, or none, up to the sign that ends them."""
        if self.taken(end):
            return
        one()
        while self.take(",", end) == ",":
            one()

    # ---- specifications and scripts

    def spec(self):
        self.items(64, "statics", ("static",), lambda: self.several("static Name"))
        self.items(64, "models", ("principal", "model"), self.model)

    def model(self):
        self.taken("principal")
        self.several("model Name { create :")
        self.policy()
        self.several(", delete :")
        self.policy()
        fields = 0
        while self.take(",", "}") == "," and not self.taken("}"):
            if self.kind() == "name" and fields == 64:
                raise Refused("too many fields", self.at())
            self.field()
            fields += 1

    def field(self):
        self.several("name :")
        is_set = self.type()
        self.several("{ read :")
        self.policy()
        self.several(", write :")
        self.policy()
        self.take("}")
        return is_set

    def type(self):
        kind = self.take("Set", "Option", "Bool", "Int", "Text", "Id")
        if kind == "Set":
            self.several("( Id ( Name ) )")
        elif kind == "Id":
            self.several("( Name )")
        elif kind == "Option":
            self.take("(")
            if self.take("Bool", "Int", "Text", "Id") == "Id":
                self.several("( Name )")
            self.take(")")
        return kind == "Set"

    def policy(self):
        if self.take("public", "none", "name") == "name":
            self.take("->")
            self.whole(self.set)

    def whole(self, one):
        self.outermost = 0
        one()
        self.outermost = None

    def script(self):
        firsts = ("CreateModel", "DeleteModel", "AddStatic", "RemoveStatic", "AddPrincipal", "Name")
        self.items(256, "commands", firsts, self.command)

    def command(self):
        kind = self.take("CreateModel", "DeleteModel", "AddStatic", "RemoveStatic", "AddPrincipal", "Name")
        if kind == "Name":
            return self.of_model()
        self.take("(")
        if kind == "CreateModel":
            if self.kind() not in ("principal", "model"):
                self.refuse()
            self.model()
        else:
            self.take("Name")
        self.take(")")

    def of_model(self):
        self.take("::")
        kind = self.take("AddField", "RemoveField", "UpdateFieldPolicy", "WeakenFieldPolicy", "UpdatePolicy", "WeakenPolicy")
        self.take("(")
        if kind == "AddField":
            is_set = self.field()
            self.several(", name ->")
            self.whole(self.set if is_set else self.expr)
        elif kind == "RemoveField":
            self.take("name")
        else:
            if "Field" in kind:
                self.several("name ,")
            self.rights(("read", "write") if "Field" in kind else ("create", "delete"))
            if kind.startswith("Weaken"):
                self.several(", text")
        self.take(")")

    def rights(self, pair):
        self.take("{")
        first = self.take(*pair)
        self.take(":")
        self.policy()
        if first == pair[0] and self.taken(","):
            self.several(f"{pair[1]} :")
            self.policy()
        self.take("}")

    # ---- expressions and sets

    def below(self, firsts, one):
        if self.kind() not in firsts:
            self.refuse()
        if self.level == 64:
            raise Refused("too deep", self.at())
        self.level += 1
        one()
        self.level -= 1

    ATOMS = ("true", "false", "number", "-", "text", "none", "some", "name", "(")
    COMPARED = ("==", "!=", "<", "<=", ">", ">=")

    def expr(self):
        self.below(("if", "match", "!", *self.ATOMS), lambda: self.chosen(self.expr, self.either))

    def set(self):
        self.below(("if", "match", "public", "none", "[", "(", "Name", "name"), lambda: self.chosen(self.set, self.sum))

    def chosen(self, one, other):
        if self.taken("if"):
            self.expr()
            self.take("then")
            one()
            self.take("else")
            one()
        elif self.taken("match"):
            self.expr()
            self.several("with none ->")
            one()
            self.several("| some name ->")
            one()
        else:
            other()

    def either(self):
        self.compared()
        while self.taken("||", "&&"):
            self.compared()

    def compared(self):
        self.unary()
        if self.taken(*self.COMPARED):
            self.unary()
        elif self.taken("in"):
            if self.taken("{"):
                self.set()
                self.take("}")
            else:
                self.path()

    def unary(self):
        # An exclamation mark stands once: `!!x` is not in the grammar.
        self.taken("!")
        kind = self.kind()
        if kind in ("name", "("):
            return self.path()
        if kind == "number":
            return self.number(LAST_POSITIVE, 0)
        self.take(*self.ATOMS)
        if kind == "-":
            self.number(LAST_NUMBER, 1)
        elif kind == "some":
            self.take("(")
            self.expr()
            self.take(")")

    def number(self, last, first):
        if self.kind() != "number" or not first <= self.tokens[self.next][1] <= last:
            self.refuse()
        self.take("number")

    def path(self):
        if self.take("name", "(") == "(":
            self.expr()
            self.take(")")
        while self.taken("."):
            self.take("name")

    def sum(self):
        self.term()
        while self.taken("+", "-"):
            self.term()

    def term(self):
        kind = self.take("public", "none", "[", "(", "Name", "name")
        if kind == "[":
            self.listed(self.item, "]")
        elif kind == "(":
            self.set()
            self.take(")")
        elif kind == "Name":
            self.several(":: Find ( {")
            self.listed(self.filter, "}")
            self.take(")")
            self.mapped(False)
        elif kind == "name":
            self.mapped(True)

    def mapped(self, fields):
        """What stands behind the head of a chain: fields where it is a path, then each `map`, then a `flat_map`."""
        while self.taken("."):
            kind = self.take("map", "flat_map", *(["name"] if fields else []))
            if kind != "name":
                fields = False
                self.several("( name ->")
                (self.expr if kind == "map" else self.set)()
                self.take(")")
            if kind == "flat_map":
                return

    def item(self):
        self.taken("Name") or self.expr()

    def filter(self):
        self.take("name")
        self.take(":", "has", *self.COMPARED)
        self.expr()

    # ---- databases and requests

    def database(self):
        while self.kind() is not None:
            self.several("Name @ number {")
            while not self.taken("}"):
                self.take("@", "}")
                self.take("number")
                self.row(False)

    def row(self, is_new):
        def given():
            self.several("name :")
            self.value(is_new)

        self.take("{")
        self.listed(given, "}")

    def value(self, is_new=False):
        self.below(
            ("true", "false", "number", "-", "text", "@", "none", "some", "[", *(["self"] if is_new else [])), lambda: self.value_of(is_new)
        )

    def value_of(self, is_new):
        kind = self.kind()
        if kind == "number":
            return self.number(LAST_POSITIVE, 0)
        self.take(kind)
        if kind == "-":
            self.number(LAST_NUMBER, 1)
        elif kind == "@":
            self.take("number")
        elif kind == "some":
            self.take("(")
            self.value(is_new)
            self.take(")")
        elif kind == "[":
            self.listed(lambda: self.value(is_new), "]")

    # What stands behind the word of a request; `@?` is an `@` with its number, or nothing.
    REQUESTS = {
        "open": "name as Name @?", "renew": "name", "close": "name", "read": "name Name @ number name", "find": "name Name conditions",
        "write": "name Name @ number name value", "create": "name Name row", "delete": "name Name @ number", "migrate": "text",
    }  # fmt: skip

    def request(self):
        if self.kind() is None:
            return
        word = str(self.tokens[0][1])
        if word not in self.REQUESTS:
            self.refuse()
        self.next = 1
        for part in self.REQUESTS[word].split():
            if part == "@?":
                self.taken("@") and self.take("number")
            elif part == "as":
                if self.kind() != "name" or self.tokens[self.next][1] != "as":
                    self.refuse()
                self.next += 1
            elif part == "conditions":
                self.take("{")
                self.listed(self.condition, "}")
            elif part in ("value", "row"):
                self.value() if part == "value" else self.row(True)
            else:
                self.take(part)

    def condition(self):
        self.take("name")
        self.take(":", "has", *self.COMPARED)
        self.value()


def refusal_of(text, form):
    """Why the text is none of the form (`spec`, `script`, `database` or `request`), or None."""
    try:
        reader = Reader(tokens_of(text), len(text))
        getattr(reader, form)()
        if reader.kind() is not None:
            reader.refuse()
    except Refused as refused:
        return refused
    return None


def cause_of(text, form):
    refused = refusal_of(text, form)
    return refused and refused.report()


def place_of_request(line):
    refused = refusal_of(line, "request")
    return refused and refused.at
