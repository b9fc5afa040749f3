"""The changes that tools/mutants makes: tokens of a .rt file, its declarations, and one change after another of its code."""
import re
from collections import namedtuple

TOKEN = re.compile(
    r"//[^\n]*|b?\"(?:\\.|[^\"\\])*\"|b'(?:\\.|[^'\\])'|'[a-z_]\w*|\d[\d_]*(?:[a-z]\w*)?|[A-Za-z_]\w*"
    r"|\.\.=|\.\.|::|=>|->|&&|\|\||[=!<>+*/%|&^-]=|<<|>>|\S")
WORDS = {"let", "mut", "if", "else", "for", "in", "while", "loop", "match", "return", "break", "continue", "as", "true", "false", "fn",
         "move", "ref"}
CLAUSES = {"requires", "ensures", "ghost"}
INTEGERS = {"u8", "u16", "u32", "u64", "usize", "i8", "i16", "i32", "i64", "isize"}
COMPARED = {"<": ("<=", ">"), "<=": ("<", ">="), ">": (">=", "<"), ">=": (">", "<="), "==": ("!=",), "!=": ("==",)}
COUNTED = {"+": ("-",), "-": ("+",), "*": ("/", "%"), "/": ("*", "%"), "%": ("*", "/"), "+=": ("-=",), "-=": ("+=",)}
ESCAPES = {"\\t": 9, "\\n": 10, "\\r": 13, "\\0": 0, "\\\\": 92, "\\'": 39}
# Methods of std that are operators: comparisons and `&&`, then sums and products.
COMPARING = {"min": "max", "max": "min", "all": "any", "any": "all", "is_some": "is_none", "is_none": "is_some", "is_ok": "is_err",
             "is_err": "is_ok"}
COUNTING = {f"{how}_{name}": [f"{how}_{new}" for new in others] for how in ("checked", "saturating", "wrapping")
            for name, others in {"add": ["sub"], "sub": ["add"], "mul": ["div", "rem"], "div": ["mul", "rem"]}.items()}
# Methods of std that are lent a number, and those that are lent a condition.
NUMBERED = {*COUNTING, "min", "max", "abs_diff", "get", "contains", "strict_add_signed", "nth", "split_at", "clamp", "unwrap_or"}
ASKING = {"find", "filter", "any", "all", "position", "take_while", "skip_while", "partition_point", "is_some_and", "is_ok_and", "split"}

Mutant = namedtuple("Mutant", "file line column start end kind old new function lines")
Function = namedtuple("Function", "name params result first low high home")


def bare(kind):
    """The name of a type, without what it is lent by and its parameters."""
    return re.sub(r"^&\s*('\w+\s*)?(mut\s+)?|<.*", "", kind or "", flags=re.S)


class Source:
    """One .rt file as tokens, with its declarations and the regions of its code."""

    def __init__(self, path):
        """Reads the file and walks over its items."""
        self.path = path
        self.text = open(path, encoding="utf-8").read()
        found = [m for m in TOKEN.finditer(self.text) if not m.group().startswith("//")]
        self.at = [(m.start(), m.end()) for m in found]
        self.tok = [m.group() for m in found] + [""]
        self.functions, self.consts, self.structs, self.enums, self.calls = [], {}, {}, {}, {}
        self.items(0, len(found), "", "")

    def close(self, i):
        """The place of the bracket that closes the one at i."""
        depth = 0
        while True:
            depth += (self.tok[i] in ("(", "[", "{")) - (self.tok[i] in (")", "]", "}"))
            if depth == 0:
                return i
            i += 1

    def angles(self, i):
        """The place behind the parameters in angle brackets at i, or i where there are none."""
        depth = 0
        while self.tok[i] == "<" or depth:
            depth += {"<": 1, ">": -1, ">>": -2}.get(self.tok[i], 0)
            i += 1
            if depth == 0:
                break
        return i

    def until(self, i, ends, types=False):
        """The first place from i on, outside brackets, of one of the tokens; in types angle brackets count, elsewhere those behind ::."""
        while self.tok[i] not in ends:
            if self.tok[i] in ("(", "[", "{"):
                i = self.close(i) + 1
            elif self.tok[i] == "<" and (types or self.tok[i - 1] == "::"):
                i = self.angles(i)
            else:
                i += 1
        return i

    def parts(self, low, high, types=False):
        """The parts of a list between two brackets, as pairs of places."""
        out, i = [], low + 1
        while i < high:
            end = min(self.until(i, (",", ")", "]", "}"), types), high)
            out.append((i, end))
            i = end + 1
        return out

    def words(self, low, high):
        """The text of tokens low to high, high not included."""
        return self.text[self.at[low][0]:self.at[high - 1][1]] if low < high else ""

    def bared(self, i):
        """The place behind an attribute, a `pub` or a `mut` at i, and behind all that follow it."""
        while self.tok[i] in ("#", "pub", "mut"):
            bracket = i + 1 + (self.tok[i] == "#" and self.tok[i + 1] == "!")
            i = self.close(bracket) + 1 if self.tok[i] == "#" or self.tok[bracket] == "(" else i + 1
        return i

    def fields(self, low, high):
        """Names and types of the fields or parameters between two brackets; ghost fields are none, `self` has no name."""
        out = []
        for a, b in self.parts(low, high, True):
            a = self.bared(a)
            if self.tok[a] != "ghost":
                out.append((self.tok[a], self.words(a + 2, b)) if self.tok[a + 1] == ":" else ("", self.words(a, b)))
        return out

    def items(self, i, high, home, block):
        """Takes in the items from i to high: those of the type `home`, whose names Rattle has below `block`, or of none."""
        while i < high:
            first, i = i, self.bared(i)
            word = self.tok[i]
            if word in ("use", "mod", "ghost", "type"):
                i = self.until(i, (";",)) + 1
            elif word in ("impl", "trait"):
                i = self.impl(i)
            elif word in ("struct", "enum"):
                i = self.declared(i)
            elif word == "const" and self.tok[i + 2] == ":":
                i = self.const(i)
            elif word == "fn":
                i = self.function(first, i, home, block)
            else:
                i += 1

    def const(self, i):
        """Takes in the constant at i; the place behind it."""
        equal = self.until(i, ("=",))
        end = self.until(equal, (";",))
        self.consts[self.tok[i + 1]] = self.words(i + 3, equal)
        self.functions.append(Function("", [], "", i, equal, end, ""))
        return end + 1

    def declared(self, i):
        """Takes in the struct or enum at i; the place behind it."""
        name, low = self.tok[i + 1], self.until(i + 2, ("(", "{", ";"), True)
        if self.tok[low] == ";":
            return low + 1
        end = self.close(low)
        if self.tok[i] == "struct":
            self.shape(name, low, end)
            return end + 1
        self.enums[name] = {}
        for a, b in self.parts(low, end):
            a = self.bared(a)
            self.shape(f"{name}::{self.tok[a]}", a + 1, b - 1)
            self.enums[name][self.tok[a]] = self.structs[f"{name}::{self.tok[a]}"]
        return end + 1

    def shape(self, name, low, end):
        """Takes in the fields of a struct or a case between two brackets, or of one that has none."""
        self.structs[name] = self.fields(low, end) if low < end else []
        if self.tok[low] == "(":
            self.calls[name] = [[kind for _, kind in self.structs[name]]]

    def impl(self, i):
        """Takes in the items of the block at i; the place behind it. Rattle names one of a trait by the type, the trait and its types."""
        first = self.angles(i + 1)
        low = self.until(first, ("{",), True)
        behind = [j for j in range(first, low) if self.tok[j] == "for" and self.tok[j + 1] != "<"]
        home = self.tok[behind[0] + 1 if behind else first]
        trait = "".join(word for word in self.tok[first:behind[0]] if re.match(r"[A-Z]", word)) if behind else ""
        end = self.close(low)
        self.items(low + 1, end, home, home + trait)
        return end + 1

    def function(self, first, i, home, block):
        """Takes in the function at i, whose attributes begin at `first`; the place behind it."""
        name, low = self.tok[i + 1], self.angles(i + 2)
        end = self.close(low)
        body = self.until(end + 1, (*CLAUSES, "where", "{", ";"), True)
        result, params = self.words(end + 2, body), self.fields(low, end)
        while self.tok[body] not in ("{", ";"):
            clause = self.tok[body] in CLAUSES
            body = self.close(self.until(body, ("{",))) + 1 if clause else self.until(body + 1, (*CLAUSES, "{", ";"), True)
        own = [kind for word, kind in params if word]
        key = "." + name if len(own) < len(params) else f"{home}::{name}" if home else name
        self.calls.setdefault(key, []).append(own)
        if self.tok[body] == ";":
            return body + 1
        self.functions.append(Function(f"{block}::{name}" if block else name, params, result, first, body, self.close(body), home))
        return self.close(body) + 1


class Maker:
    """All changes of one file, in order."""

    def __init__(self, source, known):
        """Goes through the code of the file; `known` has the declarations of all crates."""
        self.s, self.known, self.out = source, known, []
        for f in source.functions:
            self.f = f
            self.lines = tuple(source.text.count("\n", 0, source.at[i][0]) + 1 for i in (f.first, f.high))
            self.indices = sorted({source.tok[i + 1] for i in range(f.low, f.high) if source.tok[i] == "[" and source.tok[i + 2] == "]"
                                   and self.is_name(i + 1)})
            self.types, self.patterns, self.short = set(), {}, set()
            for i in range(f.low + 1, f.high):
                self.mark(i)
                self.token(i)
            if f.name:
                self.results(f.low + 1, f.high)
        self.out = sorted(dict.fromkeys(self.out), key=lambda m: m.start)

    def emit(self, kind, low, high, new):
        """One change: the tokens low to high, high not included, become `new`."""
        s = self.s
        start, end = s.at[low][0], s.at[high - 1][1]
        line = s.text.count("\n", 0, start) + 1
        column = start - s.text.rfind("\n", 0, start)
        old = s.text[start:end]
        if new != old:
            self.out.append(Mutant(s.path, line, column, start, end, kind, old, new, self.f.name, self.lines))

    def mark(self, i):
        """Notes what stands behind the token at i and is a pattern or a type."""
        tok, until = self.s.tok, self.s.until
        if i in self.types or i in self.patterns:
            return
        if tok[i] == "let":
            end = until(i, (":", "=", ";"))
            self.pattern(i + 1, end, set() if tok[i - 1] in ("if", "while", "&&") else None)
            if tok[end] == ":":
                self.types.update(range(end, until(end, ("=", ";"), True)))
        elif tok[i] == "for":
            self.pattern(i + 1, until(i, ("in",)), None)
        elif tok[i] == "|" and not self.binary(i):
            self.closure(i)
        elif tok[i] == "match":
            self.cases(i)
        elif tok[i] == "matches" and tok[i + 1] == "!":
            low, high = self.s.parts(i + 2, self.s.close(i + 2))[1]
            self.pattern(low, min(until(low, ("if", ")", ",")), high), set())
        elif tok[i] == "::" and tok[i + 1] == "<":
            end = self.s.angles(i + 1)
            self.types.update(range(i + 1, end))
            for j in range(i + 2, end):
                if re.match(r"\d", tok[j]):
                    self.literal(j)
                elif tok[j].isupper():
                    self.name(j)
        elif tok[i] in CLAUSES and not self.binary(i + 1):
            self.types.update(range(i, self.s.close(until(i, ("{",))) + 1))

    def pattern(self, low, high, taken):
        """Notes a pattern, and the cases that may not be exchanged for another there; None where none may."""
        self.patterns.update(dict.fromkeys(range(low, high), taken))

    def closure(self, i):
        """Notes the parameters of the closure at i, and the type that it gives."""
        end = self.s.until(i + 1, ("|",), True)
        self.pattern(i, end + 1, None)
        if self.s.tok[end + 1] == "->":
            self.types.update(range(end + 1, self.s.until(end, (*CLAUSES, "{"), True)))

    def cases(self, i):
        """Notes the patterns of the match at i; where it has an arm for all others, a case may become one that it doesn't name."""
        tok, arms = self.s.tok, self.arms(i)
        rest = any(tok[low:high] == ["_"] for low, high, _, _ in arms)
        named = {tok[j + 1] for low, high, _, _ in arms for j in range(low, high) if tok[j] == "::"}
        for low, high, _, _ in arms:
            self.pattern(low, high, named if rest else None)

    def arms(self, i):
        """The arms of the match at i: where the pattern of each begins and ends, and its body."""
        tok, until = self.s.tok, self.s.until
        low = until(i + 1, ("{",))
        high, out, at = self.s.close(low), [], low + 1
        while at < high:
            end = until(at, ("if", "=>"))
            body = until(end, ("=>",)) + 1
            behind = self.s.close(body) + 1 if tok[body] == "{" else until(body, (",", "}"))
            out.append((at, end, body, behind))
            at = behind + (tok[behind] == ",")
        return out

    def binary(self, i):
        """Whether the token stands behind an operand."""
        before = self.s.tok[i - 1]
        return before in (")", "]", "?") or bool(re.match(r"\w", before)) and before not in WORDS

    def is_name(self, i):
        """Whether the token is the name of a value."""
        return bool(re.match(r"[a-z_]\w*$", self.s.tok[i])) and self.s.tok[i] not in WORDS

    def path_from(self, i):
        """The end of the plain operand (a name with fields) at i, or None."""
        tok = self.s.tok
        if not self.is_name(i):
            return None
        i += 1
        while tok[i] == "." and tok[i + 2] not in ("(", "[", "::"):
            i += 2
        return None if tok[i] in ("(", "[", "::", ".", "!", "?") else i

    def after(self, i):
        """The plain operand behind the token at i, a `*` with it, as a pair of places; or None."""
        end = self.path_from(i + 1 + (self.s.tok[i + 1] == "*"))
        return end and (i + 1, end)

    def before(self, i):
        """The plain operand, converted or not, that ends before i, a `*` with it, as a pair of places; or None."""
        tok = self.s.tok
        high = i - 2 if tok[i - 2] == "as" else i
        low = high - 1
        while tok[low - 1] == ".":
            low -= 2
        if self.path_from(low) != high:
            return None
        return (low - (tok[low - 1] == "*" and not self.binary(low - 1)), high)

    def plain(self, low, high):
        """The plain operand that the tokens are, converted or not, a `*` with it, as a pair of places; or None."""
        end = self.path_from(low + (self.s.tok[low] == "*"))
        whole = end is not None and (end == high or self.s.tok[end] == "as" and end + 2 == high)
        return (low, end) if whole else None

    def is_number(self, i):
        """Whether the token is a number or a byte, and no field's place."""
        return bool(re.match(r"\d|b'", self.s.tok[i])) and self.s.tok[i - 1] != "."

    def type_of(self, low, high):
        """The type of a plain operand: a parameter or self with fields; or of a field that has one type wherever there is one; or None."""
        tok, structs = self.s.tok, self.known["structs"]
        low += tok[low] == "*"
        bound = any(tok[j] == tok[low] for j in self.patterns)
        kind = None if bound else self.f.home if tok[low] == "self" else dict(self.f.params).get(tok[low])
        for i in range(low + 2, high, 2):
            fields = structs.get(bare(kind), [])
            alike = {dict(fs)[tok[i]] for name, fs in structs.items() if "::" not in name and tok[i] in dict(fs)} if kind is None else ()
            if tok[i].isdigit():
                kind = fields[int(tok[i])][1] if int(tok[i]) < len(fields) else None
            else:
                kind = dict(fields).get(tok[i]) or (min(alike) if len(alike) == 1 else None)
        return kind

    def more(self, place, signs="+"):
        """The plain operand with one added or taken away; a number with a type of its own is built anew, a case converted first."""
        if not place:
            return
        low, high = place
        kind = bare(self.type_of(low, high))
        own = [inner for name, inner in self.known["structs"].get(kind, []) if not name and inner in INTEGERS]
        if kind in self.known["enums"] and self.s.tok[high] == "as":
            high, kind = high + 2, ""
        words = self.s.words(low, high)
        for sign in signs if not kind or kind in INTEGERS or own else "":
            self.emit("operand ± 1", low, high, f"{kind}({words}.0 {sign} 1)" if own else f"({words} {sign} 1)")

    def key(self, i):
        """What is called or built by the bracket behind i: a function or type, a method as .name, a type's own or a case as Type::name."""
        tok = self.s.tok
        if i in self.types:
            while tok[i + 1] != "<" or tok[i] != "::":
                i -= 1
            i -= 1
        if tok[i - 1] == ".":
            return "." + tok[i]
        home = self.f.home if tok[i - 2] == "Self" else tok[i - 2]
        if tok[i - 1] == "::" and home[:1].isupper():
            return f"{home}::{tok[i]}"
        return self.f.home if tok[i] == "Self" else tok[i]

    def token(self, i):
        """All changes that begin at one token."""
        tok, word, before = self.s.tok, self.s.tok[i], self.s.tok[i - 1]
        if i in self.types:
            return
        self.value(i)
        if i in self.patterns:
            return
        binary = self.binary(i)
        if binary and (word in COMPARED or word in COUNTED):
            self.operator(i)
        if binary and word in ("&&", "||"):
            self.emit("comparison", i, i + 1, "||" if word == "&&" else "&&")
        if word in ("..", "..=") and tok[i + 1] != "]":
            self.more(self.after(i), "+-")
        if word in ("..", "..=") and binary:
            self.more(self.before(i))
        if word in ("if", "while") and tok[i + 1] != "let":
            self.condition(i)
        if word in ("if", "match") and i - 1 not in self.patterns:
            self.branches(i)
        if word == "!" and not binary and before not in ("if", "while"):
            self.emit("negated", i, i + 2, tok[i + 1])
        if word == "matches" and tok[i + 1] == "!" and before not in ("if", "while", "!"):
            self.emit("negated", i, i + 1, "!" + word)
        if word == "[" and (self.is_name(i - 1) or before in ("]", ")") or before.isupper()):
            self.index(i)
        if word == "(" and before != "!":
            self.call(i)
        if word == "{" and self.key(i - 1) in self.known["structs"]:
            self.literal_fields(i)
        if self.is_name(i) or word.isupper():
            self.name(i)
        if before == "return":
            self.result(i, self.s.until(i, (";", ",", "}")))
            if self.f.result in INTEGERS:
                self.more(self.after(i - 1))
        if before in ("{", "}", ";", "=>"):
            self.statement(i)

    def value(self, i):
        """The changes of a number, a byte, a truth value or a case, which may stand in a pattern."""
        tok, word, before = self.s.tok, self.s.tok[i], self.s.tok[i - 1]
        if re.match(r"\d", word) and before != ".":
            self.literal(i)
        if word.startswith(("b'", "b\"")):
            self.bytes(i)
        if word in ("true", "false"):
            self.emit("true/false", i, i + 1, "false" if word == "true" else "true")
        taken = self.patterns.get(i, set())
        cases = self.known["enums"].get(self.f.home if before == "Self" else before, {})
        if word == "::" and tok[i + 1] in cases and taken is not None:
            own = tok[i + 1]
            others = [case for case, fields in cases.items() if case == own or fields == cases[own] and case not in taken]
            self.emit("operand", i + 1, i + 2, others[(others.index(own) + 1) % len(others)])

    def operator(self, i):
        """The operator exchanged, and its plain operands with one more; beside + and - a number's own changes say the same."""
        tok, word = self.s.tok, self.s.tok[i]
        product = word in ("*", "/", "%")
        for new in COMPARED.get(word) or COUNTED[word]:
            self.emit("comparison" if word in COMPARED else "operator", i, i + 1, new)
        if product or not (self.is_number(i - 1) or self.is_number(i + 1)):
            self.more(self.after(i))
            if product or word in COMPARED:
                self.more(self.before(i))

    def condition(self, i):
        """The condition negated, which swaps the branches; one of a single == or != is turned as a comparison."""
        self.negated(i + 1, self.s.until(i + 1, ("{", "=>", ")")))

    def negated(self, low, high):
        """The condition between two places negated."""
        inner = self.s.tok[low:high]
        if inner[0] == "!":
            self.emit("negated", low, high, self.s.words(low + 1, high))
        if inner[0] == "!" and not {"&&", "||"} & set(inner):
            return
        if not {"==", "!=", "is_some", "is_none", "is_ok", "is_err"} & set(inner):
            self.emit("negated", low, high, f"!({self.s.words(low, high)})")

    def literal(self, i):
        """A number with one more and one less; the size of an array is left alone."""
        digits, suffix = re.match(r"([\d_]+)(.*)", self.s.tok[i]).groups()
        n = int(digits.replace("_", ""))
        if not (self.s.tok[i - 1] == ";" and self.s.tok[i + 1] == "]"):
            self.emit("literal ± 1", i, i + 1, f"{n + 1}{suffix}")
            if n > 0:
                self.emit("literal ± 1", i, i + 1, f"{n - 1}{suffix}")

    def bytes(self, i):
        """A byte as the next and the one before; a byte string with its last letter changed."""
        word = self.s.tok[i]
        if word.startswith("b\""):
            last = re.match(r"b\"(?:\\.|[^\\])*(?<!\\)([^\\\"])(?:\\.)*\"$", word)
            if last:
                at = last.start(1)
                self.emit("literal ± 1", i, i + 1, word[:at] + chr(ord(word[at]) + 1) + word[at + 1:])
        else:
            n = ESCAPES[word[2:-1]] if word[2] == "\\" else ord(word[2:-1])
            for near in (n + 1, n - 1):
                self.emit("literal ± 1", i, i + 1, f"{near}u8")

    def index(self, i):
        """An index that is no number: 0, one more, another index of the function."""
        end = self.s.close(i)
        inner = self.s.words(i + 1, end)
        if {"..", "..=", ";"} & set(self.s.tok[i:end]) or re.match(r"\d+$", inner):
            return
        self.emit("index", i + 1, end, "0")
        self.emit("index", i + 1, end, f"{inner} + 1")
        for other in [x for x in self.indices if x != inner][:1]:
            self.emit("index", i + 1, end, other)

    def call(self, i):
        """The changes of a call's arguments; a method of std that is an operator is exchanged, and a condition that it is lent negated."""
        places = self.s.parts(i, self.s.close(i))
        key = self.key(i - 1)
        for types in self.known["calls"].get(key, []):
            self.arguments(places, types, key)
        if key in ("Some", "Ok") or key == "from" and self.s.tok[i - 3] in INTEGERS and self.s.tok[i - 4] != "[":
            self.wrapped(*places[0])
        if key[0] == "." and key not in self.known["calls"]:
            word, low = key[1:], i - 1
            for new in [COMPARING[word]] if word in COMPARING else COUNTING.get(word, []):
                self.emit("comparison" if word in COMPARING else "operator", low, low + 1, new)
            for low, high in places if word in NUMBERED else []:
                self.more(self.plain(low + (self.s.tok[low] == "&"), high))
            for low, high in places if self.s.tok[i + 1] == "|" else []:
                self.lent(word, self.s.until(low + 1, ("|",), True) + 1, high)

    def wrapped(self, low, high):
        """A plain number in a Some or an Ok, or that is converted, with one more."""
        place = self.plain(low, high)
        if place and (self.s.tok[low - 2] == "from" or self.s.tok[place[1]] == "as" or self.type_of(*place) in INTEGERS):
            self.more(place)

    def lent(self, word, low, high):
        """The body of a closure that is lent to a method of std: a condition negated, a plain number with one more."""
        if word in ASKING:
            self.negated(low, high)
        if word == "map" and self.plain(low, high) and self.type_of(low, high) in INTEGERS:
            self.more(self.plain(low, high))

    def arguments(self, places, types, key):
        """Arguments of one type swapped, and plain numbers with one more, where there are others, a method's own value or a case's name."""
        if len(places) != len(types):
            return
        for j, (low, high) in enumerate(places):
            if types[j] in INTEGERS and (len(types) > 1 or key[0] == "." or "::" in key):
                self.more(self.plain(low, high))
            for k in range(j + 1, len(types)):
                if types[j] == types[k] and self.s.words(*places[j]) != self.s.words(*places[k]):
                    between = self.s.text[self.s.at[high - 1][1]:self.s.at[places[k][0]][0]]
                    self.emit("swapped", low, places[k][1], self.s.words(*places[k]) + between + self.s.words(low, high))

    def literal_fields(self, i):
        """Fields of one type swapped in a struct literal, plain numbers with one more, and an Ok and Err of one type exchanged."""
        types, tok = dict(self.known["structs"][self.key(i - 1)]), self.s.tok
        places = [(low, high, low + 2 if tok[low + 1] == ":" else low) for low, high in self.s.parts(i, self.s.close(i))]
        places = [place for place in places if tok[place[0]] in types]
        self.short.update(low for low, high, value in places if low == value)
        for j, (low, high, value) in enumerate(places):
            name = tok[low]
            if types[name] in INTEGERS and self.plain(value, high):
                self.emit("operand ± 1", low, high, f"{name}: {self.s.words(value, high)} + 1")
            if tok[value] in ("Ok", "Err") and re.match(r"Result<(.*), \1>$", types[name]):
                self.emit("operand", value, value + 1, "Err" if tok[value] == "Ok" else "Ok")
            for low2, high2, value2 in places[j + 1:]:
                mine, other, name2 = self.s.words(value, high), self.s.words(value2, high2), tok[low2]
                if types[name] == types[name2] and mine != other:
                    between = self.s.text[self.s.at[high - 1][1]:self.s.at[low2][0]]
                    self.emit("swapped", low, high2, f"{name}: {other}{between}{name2}: {mine}")
                    break

    def name(self, i):
        """A parameter, constant or field exchanged for the next one of its type."""
        tok, word = self.s.tok, self.s.tok[i]
        if tok[i + 1] in ("(", "::", "!", ":") or tok[i - 1] == "::" or tok[i - 1] == "mut" and tok[i - 2] != "&":
            return
        if tok[i - 1] == ".":
            groups = self.fields_at(i)
        else:
            groups = [self.f.params, list(self.known["consts"].items())]
        new = set()
        for group in groups:
            alike = [name for name, kind in group if kind == dict(group).get(word)]
            if word in alike:
                new.add(alike[(alike.index(word) + 1) % len(alike)])
        for other in sorted(new - {word}):
            other = self.known["homes"].get(other, other)
            self.emit("operand", i, i + 1, f"{word}: {other}" if i in self.short else other)

    def fields_at(self, i):
        """The fields of each struct that has the one at i; of a parameter or self those only that its own struct has too."""
        low = i - 2
        while self.s.tok[low - 1] == ".":
            low -= 2
        kind = bare(self.type_of(low, i - 1)) if self.is_name(low) else ""
        structs = {name: fields for name, fields in self.known["structs"].items() if "::" not in name}
        groups = [fields for fields in structs.values() if self.s.tok[i] in dict(fields)]
        return [[field for field in fields if field in structs[kind]] for fields in groups] if kind in structs else groups

    def statement(self, i):
        """A statement dropped: an assignment, a call, an `if` with no else, a jump behind other statements."""
        tok, end, arm = self.s.tok, None, self.s.tok[i - 1] == "=>"
        if tok[i] == "if" and not arm and i - 1 not in self.patterns:
            close = self.s.close(self.body(i))
            end = None if tok[close + 1] == "else" else close + 1
        elif tok[i] in ("return", "break", "continue") and tok[i - 1] not in ("{", "=>"):
            end = self.s.until(i, (";",)) + 1
        elif self.is_name(i) or tok[i] == "*":
            j = self.chain(i + (tok[i] == "*"))
            called = tok[j - 1] in (")", "?")
            if tok[j] in ("=", "+=", "-=", "*=", "|=", "&=") or tok[j] == ";" and called:
                end = self.s.until(j, (",", "}") if arm else (";",)) + (not arm)
            elif tok[j] == "}" and called and not arm and not self.f.result:
                end = j
        if end:
            self.emit("dropped", i, end, "{}" if arm else "")

    def chain(self, i):
        """The place behind the name at i and all fields, calls and indices that follow it."""
        tok, i = self.s.tok, i + 1
        while tok[i] in (".", "::", "[", "(", "?", "!"):
            if tok[i] in ("[", "("):
                i = self.s.close(i) + 1
            elif tok[i + 1] == "<":
                i = self.s.angles(i + 1)
            else:
                i += 1 if tok[i] in ("?", "!") else 2
        return i

    def body(self, i):
        """The place of the bracket that opens the block of the `if`, `while`, `for`, `match` or `loop` at i."""
        if self.s.tok[i] == "for" or self.s.tok[i + 1] == "let":
            i = self.s.until(i, ("in", "="))
        return self.s.until(i + 1, ("{",))

    def blocks(self, i):
        """The brackets that open the blocks of the `if`, loop or `match` at i, whose last ends it; none where there is no such thing."""
        tok, out = self.s.tok, []
        i += 2 * tok[i].startswith("'")
        if tok[i] == "{":
            return [i]
        if tok[i] in ("if", "match", "while", "for", "loop"):
            out.append(self.body(i))
            while tok[self.s.close(out[-1]) + 1] == "else":
                behind = self.s.close(out[-1]) + 2
                out.append(self.body(behind) if tok[behind] == "if" else behind)
        return out

    def branches(self, i):
        """The plain numbers that the branches or arms of the `if` or `match` at i give, with one more."""
        if self.s.tok[i] == "match":
            places = [(body, behind) for _, _, body, behind in self.arms(i)]
        else:
            places = [(block + 1, self.s.close(block)) for block in self.blocks(i)]
        for low, high in places:
            self.more(self.plain(low, high))

    def results(self, low, high):
        """What a block from low to high gives: the changes of its last operand, or of what its branches or arms give."""
        tok = self.s.tok
        while low < high:
            blocks = self.blocks(low)
            end = self.s.close(blocks[-1]) + 1 if blocks else self.s.until(low, (";", "}"))
            if end >= high:
                break
            low = end + (tok[end] == ";")
        if low >= high or not blocks:
            self.result(low, high)
        elif tok[low] == "match":
            for _, _, body, behind in self.arms(low):
                self.results(*((body + 1, behind - 1) if tok[body] == "{" else (body, behind)))
        elif tok[low] in ("if", "{"):
            for block in blocks:
                self.results(block + 1, self.s.close(block))

    def result(self, low, high):
        """A result that is a plain number with one more, in a Some or an Ok too; one that says only yes or no as the other."""
        inner = re.match(r"(?:Option|Result)<(\w+)", self.f.result)
        if inner and self.s.tok[low] in ("Some", "Ok") and self.s.tok[low + 1] == "(" and self.s.close(low + 1) == high - 1:
            low, high, kind = low + 2, high - 1, inner[1]
        else:
            kind = self.f.result
        if low < high and kind in INTEGERS:
            self.more(self.plain(low, high))
        if self.f.result == "Option<()>" and self.s.words(low, high) in ("None", "Some(())"):
            self.emit("true/false", low, high, "Some(())" if self.s.tok[low] == "None" else "None")
