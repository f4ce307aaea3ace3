#!/usr/bin/env python3
"""Erases the contracts of the proved library, and leaves ordinary Rust.

    erase.py CRATES OUT    writes a module of OUT for each crate in CRATES that the Rust crate needs
    erase.py --rules       prints each rule and why it is needed

It works in two steps. The first removes what Rattle adds to Rust, character by character, since
contracts hold text that is no Rust. The second rewrites tokens of Rust. Each change belongs to a
rule in RULES. It stops at what no rule knows, and it puts no text of its own in place of a
function's body.

The shim, which the erased code calls in place of Rattle's standard library, is written by hand in
rust/crate/src/codec. rust/crate/src/level.rs says what a level is. rust/make.sh runs this script.
"""
import collections
import pathlib
import re
import sys

# The crates, and the modules that they become.
MODULES = {
    "cesu8_bytes": "bytes",
    "cesu8_encode": "encode",
    "cesu8_decode": "decode",
    "simd_cesu8": "calls",
}

# The crates of Rattle's kit that these use. They are not ours to erase.
KIT = ("simdutf8",)

# Each rule and why it is needed.
RULES = {
    "ghost use": "imports names for contracts alone",
    "ghost member": "a member of a trait, an impl or a struct that contracts alone name",
    "clause": "`requires` and `ensures`: they are proved, and Rust has no place for them",
    "comment among clauses": "a comment between clauses is about one of them",
    "tactic": "tells the prover how to search",
    "unit test": "Rattle's tests take a runtime as an argument; tests/ has Rust's own",
    "example": "an example in a doc comment is Rattle, with an allocator: it stays as text",
    "derive(Drop)": "in Rattle a type says that it may be dropped; every type of Rust may",
    "bound Drop": "the same, for a parameter",
    "crate path": "crates become modules, named by `super`, as there is a copy for each level",
    "std path": "`std::simd` and `std::alloc` are modules of the shim; the rest is in `core`",
    "kit": "a file that uses a crate of the kit gives way to the shim's functions of its names",
    "prelude": "`core` has no `Vec` and `String` in its prelude",
    "allocator": "Rattle passes the allocator to each call that builds; Rust has one",
    "reserve": "a request for memory returns a `Result` in Rattle",
    "push_reserved": "`push` to a vector that has the capacity, which Rust does not know",
    "append loop": "a loop of `push_reserved` is one call, with one test of the capacity",
    "fmt parameter": "the formatter has a parameter in Rattle",
    "vector width": "an item for vectors of any width says that the machine has that width",
    "constant lanes": "the positions of a shuffle are a constant for `rustc` too",
    "load at": "a load or store at an offset tests its bounds once, not a slice's and a vector's",
    "load before": "a load before an offset first tests the offset, as a load there has done before",
    "part": "a range is in bounds, and a panic that tells where one is not is much code",
    "array by reference": "`rustc` takes an array of 16 bytes that it passes apart byte by byte",
    "as_chunks": "it came with Rust 1.88, and the crate is for 1.85",
    "table": "a constant that is only borrowed is a static, of which a program has one copy",
    "level": "a function that is not inlined is compiled with the features of its level",
    "reader": "a level may leave to the compiler where what passes no vector is inlined",
    "writer": "the same, for a function that writes: a level may inline it and no reader",
    "loop": "the same, for a loop without `return`, not over a mask's bits: a call takes little beside",
    "method": "a method is inlined, since it can't have a function with features in it",
    "inline": "without optimization, inlining everything takes minutes to compile",
}

WORD = re.compile(r"[A-Za-z_][A-Za-z0-9_]*")
TOKEN = re.compile(
    r"\s+|'[A-Za-z_]\w*|[A-Za-z_]\w*|\d\w*(?:\.\d\w*)?|::|->|=>|\.\.=|\.\.|[^\s\w]"
)
OPEN, CLOSE = set("{(["), set("})]")
RAW_STRING = re.compile(r'b?r(#*)"')
STRING = re.compile(r'b?"(?:\\.|[^"\\])*"', re.S)
CHARACTER = re.compile(r"b?'(?:\\(?:x[0-9A-Fa-f]{2}|u\{[0-9A-Fa-f]+\}|.)|[^'\\\n])'")
VECTOR = r"\b(?:Simd|Mask|u8x\d+)\b"
# The doc comment at the start of a file, and blank lines.
HEAD = re.compile(r"(?:[ \t]*//![^\n]*\n|[ \t]*\n)*")


class Unknown(Exception):
    """A form that no rule knows."""


def literal_end(text, at):
    """Returns the end of the comment or literal that begins at `at`, or `at` if none does."""
    if text.startswith("//", at):
        end = text.find("\n", at)
        return len(text) if end < 0 else end
    if text.startswith("/*", at):
        return text.index("*/", at) + 2
    if at and text[at] in "br" and (text[at - 1].isalnum() or text[at - 1] == "_"):
        return at
    raw = RAW_STRING.match(text, at)
    if raw:
        return text.index('"' + raw[1], raw.end()) + 1 + len(raw[1])
    found = STRING.match(text, at) or CHARACTER.match(text, at)
    return found.end() if found else at


def braces_end(text, at):
    """Returns the offset after the brace that closes the one at `at`, in text of contracts."""
    depth = 0
    for i in range(at, len(text)):
        depth += (text[i] == "{") - (text[i] == "}")
        if depth == 0:
            return i + 1
    raise Unknown(f"no brace closes {text[at:at + 40]!r}")


def is_blank(token):
    return not token.strip() or token.startswith(("//", "/*"))


def next_solid(tokens, at):
    """Returns the index of the first token from `at` on that is no space or comment."""
    while at < len(tokens) and is_blank(tokens[at]):
        at += 1
    return at


def closing(tokens, at):
    """Returns the index of the token that closes the bracket at `at`."""
    depth = 0
    for i in range(at, len(tokens)):
        depth += (tokens[i] in OPEN) - (tokens[i] in CLOSE)
        if depth == 0:
            return i
    raise Unknown(f"no bracket closes {''.join(tokens[at:at + 12])!r}")


def closing_angle(tokens, at):
    depth = 0
    for i in range(at, len(tokens)):
        depth += (tokens[i] == "<") - (tokens[i] == ">")
        if depth == 0:
            return i
    raise Unknown(f"no > closes {''.join(tokens[at:at + 12])!r}")


def parts(tokens):
    """Splits at the commas outside brackets."""
    found, part, depth = [], [], 0
    for token in tokens:
        depth += (token in OPEN or token == "<") - (token in CLOSE or token == ">")
        if token == "," and depth == 0:
            found.append(part)
            part = []
        else:
            part.append(token)
    if "".join(part).strip():
        found.append(part)
    return found


def tokenize(text):
    tokens, at = [], 0
    while at < len(text):
        end = literal_end(text, at)
        if end == at:
            token = TOKEN.match(text, at)
            if not token:
                raise Unknown(repr(text[at:at + 40]))
            end = token.end()
        tokens.append(text[at:end])
        at = end
    return tokens


class Eraser:
    def __init__(self):
        self.uses = collections.Counter()
        # A pattern of the types that are vectors, or have some.
        self.vectors = VECTOR

    def know(self, source):
        """Adds the structs of a source that have vectors to `vectors`."""
        structs = re.findall(r"\bstruct (\w+)[^;{]*(\{[^}]*\}|;)", source)
        found = None
        while found != self.vectors:
            found = self.vectors
            for name, fields in structs:
                if re.search(self.vectors, fields) and not re.search(self.vectors, name):
                    self.vectors += rf"|\b{name}\b"

    def use(self, rule):
        if rule not in RULES:
            raise KeyError(rule)
        self.uses[rule] += 1

    # The first step, by characters.

    def without_ghosts(self, text):
        out, at = [], 0
        while at < len(text):
            end = literal_end(text, at)
            if end > at:
                out.append(text[at:end])
                at = end
                continue
            word = WORD.match(text, at)
            if not word or (at and (text[at - 1].isalnum() or text[at - 1] in "_'")):
                out.append(text[at])
                at += 1
                continue
            end = self.ghost_end(text, word[0], word.end(), out)
            if end is None:
                out.append(word[0])
                end = word.end()
            at = end
        text = "".join(out)
        text = re.sub(r"\n[ \t]+(?=\n)", "\n", text)
        text = re.sub(r"\n+[ \t]*;", ";", text)
        return re.sub(r"\n{3,}", "\n\n", text)

    def ghost_end(self, text, word, after, out):
        """Returns the end of the ghost item or clause that a word begins, or None."""
        if word == "ghost":
            if re.compile(r"\s+use\b").match(text, after):
                self.use("ghost use")
                return text.index(";", after) + 1
            member = re.compile(r"\s+\w+\s*[:=]\s*\{").match(text, after)
            if member:
                self.use("ghost member")
                out[:] = [self.without_attributes("".join(out))]
                end = braces_end(text, member.end() - 1)
                return re.compile(r"\s*[;,]?").match(text, end).end()
        if word in ("requires", "ensures"):
            clause = re.compile(r"\s*(\w+\s*)?\{").match(text, after)
            if clause:
                self.use("clause")
                return braces_end(text, clause.end() - 1)
        return None

    @staticmethod
    def without_attributes(text):
        """Takes back the doc comment and the attributes at the end, which are a ghost member's."""
        lines = text.rstrip().split("\n")
        while lines and re.match(r"\s*(///|#\[)", lines[-1]):
            lines.pop()
        return "\n".join(lines) + "\n"

    # The second step, by tokens.

    def attributes(self, tokens):
        """Drops tactics, unit tests and what is derived for Rattle alone."""
        out, at = [], 0
        while at < len(tokens):
            inner = tokens[at + 1:at + 2] == ["!"]
            start = at + 2 if inner else at + 1
            if tokens[at] != "#" or tokens[start:start + 1] != ["["]:
                out.append(tokens[at])
                at += 1
                continue
            end = closing(tokens, start)
            attribute = "".join(tokens[at:end + 1])
            at = end + 1
            if re.match(r"#!?\[tactic\b", attribute):
                self.use("tactic")
                attribute = ""
            elif attribute == "#[cfg(test)]":
                self.use("unit test")
                at = next_solid(tokens, at)
                if tokens[at] != "mod":
                    raise Unknown("a #[cfg(test)] that is no module")
                while tokens[at] != "{":
                    at += 1
                at = closing(tokens, at) + 1
                attribute = ""
            elif re.match(r"#\[derive\(.*\bDrop\b", attribute):
                self.use("derive(Drop)")
                attribute = re.sub(r",?\s*\bDrop\b,?", "", attribute)
                attribute = "" if attribute == "#[derive()]" else attribute
            if attribute:
                out.append(attribute)
            elif at < len(tokens) and tokens[at].startswith("\n"):
                tokens[at] = tokens[at].replace("\n", "", 1)
        return out

    def paths(self, tokens, crate, depth):
        """Makes the names of crates those of modules."""
        root, out, at = "super::" * depth, [], 0
        while at < len(tokens):
            token = tokens[at]
            is_path = tokens[at + 1:at + 2] == ["::"] and tokens[max(at - 1, 0)] != "::"
            if is_path and token in ("crate", *MODULES):
                self.use("crate path")
                token = root + MODULES[crate if token == "crate" else token]
            elif is_path and token in KIT:
                raise Unknown(f"a use of {token}")
            elif is_path and token == "std":
                self.use("std path")
                rest = tokens[at + 2:at + 5]
                if rest[0] == "simd":
                    token, at = root + "simd", at + 2 + 2 * (rest[2] == "prelude")
                elif rest[0] == "alloc":
                    token, at = root + "memory", at + 2
                else:
                    token = "core"
            out.append(token)
            at += 1
        return out

    def calls(self, tokens, depth):
        """Rewrites what takes an allocator, and what has another name or another result in Rust."""
        root, out, at = "super::" * depth, [], 0
        while at < len(tokens):
            rest = "".join(tokens[at:at + 12])
            end, text = self.call(tokens, at, rest, root, depth)
            if end is None:
                end, text = at + 1, tokens[at]
            out.append(text)
            at = end
        return tokenize("".join(out))

    def call(self, tokens, at, rest, root, depth):
        """Returns the end of a form that begins at `at`, and what it becomes, or None. `rest` is
        the text of the next tokens."""
        def inside(start, end):
            return "".join(self.calls(tokens[start:end], depth))

        if rest.startswith("Vec::with_capacity("):
            self.use("allocator")
            return at + 3, root + "memory::with_capacity"
        if rest.startswith("Vec::new("):
            self.use("allocator")
            return closing(tokens, at + 3) + 1, "Vec::new()"
        if re.match(r"\w+\.reserve\(", rest):
            self.use("reserve")
            return at + 4, f"{root}memory::reserve({tokens[at]}, "
        if rest.startswith(".push_reserved("):
            self.use("push_reserved")
            return at + 2, ".push"
        if tokens[at] == "for":
            return self.append_loop(tokens, at)
        if re.match(r"(from_slice\(&|copy_to_slice\(&mut )\w+\[", rest):
            load = tokens[at] == "from_slice"
            name = at + (3 if load else 5)
            end = closing(tokens, name + 1)
            if tokens[end - 1] == ".." and tokens[end + 1] == ")":
                self.use("load at")
                borrow = "&" if load else "&mut "
                offset = inside(name + 2, end - 1)
                before = re.fullmatch(r"(\w+) - (\w+)", offset)
                if load and before:
                    self.use("load before")
                    arguments = f"&{tokens[name]}[..], {before[1]}, {before[2]}"
                    return end + 2, f"from_slice_before({arguments})"
                return end + 2, f"{tokens[at]}_at({borrow}{tokens[name]}[..], {offset})"
        if tokens[at] == "&":
            return self.part(tokens, at, inside)
        if re.match(r"\w+\[", rest):
            end = closing(tokens, at + 1)
            if ".." in tokens[at:end] and tokens[end + 1:end + 3] == [".", "copy_from_slice"]:
                self.use("part")
                return end + 1, f"{tokens[at]}.part_mut({inside(at + 2, end)})"
        if rest.startswith("from_array(*"):
            self.use("array by reference")
            return at + 3, "from_ref("
        if rest.startswith(".as_chunks::<"):
            self.use("as_chunks")
            return at + 2, ".in_chunks"
        if rest.startswith("fmt<W: "):
            self.use("fmt parameter")
            return closing_angle(tokens, at + 1) + 1, "fmt"
        if rest.startswith("Formatter<W>"):
            return at + 4, "Formatter<'_>"
        if re.match(r"(: | \+ )Drop[>;,]", rest):
            self.use("bound Drop")
            return at + (3 if tokens[at] == ":" else 4), ""
        if re.match(r"\.(shuffle|swizzle)::<", rest):
            return self.shuffle(tokens, at, depth)
        return None, None

    def part(self, tokens, at, inside):
        """Makes `&a.b[c..d]` a call of the shim, unless `.`, `[` or `?` follows it."""
        is_mutable = tokens[at + 1] == "mut"
        start = at + 3 if is_mutable else at + 1
        bracket = start
        while WORD.fullmatch(tokens[bracket]) and tokens[bracket + 1] == ".":
            bracket += 2
        bracket += 1
        # A name in capitals is a constant. The rule on tables needs its borrows as they are.
        is_variable = WORD.fullmatch(tokens[start]) and not tokens[start].isupper()
        if not is_variable or tokens[bracket] != "[":
            return None, None
        end = closing(tokens, bracket)
        if ".." not in tokens[bracket:end] or tokens[end + 1] in (".", "[", "?"):
            return None, None
        self.use("part")
        name = "part_mut" if is_mutable else "part"
        return end + 1, f"{''.join(tokens[start:bracket])}.{name}({inside(bracket + 1, end)})"

    def append_loop(self, tokens, at):
        """Makes `for a in b { out.push_reserved(*a); }`, or `for _ in 0..count` with one value, one
        call of the shim."""
        body = at
        while tokens[body] != "{":
            body += 1
        end = closing(tokens, body)
        text = " ".join("".join(t for t in tokens[at:end + 1] if not t.startswith("//")).split())
        each = re.fullmatch(r"for (\w+) in (\w+) \{ (\w+)\.push_reserved\(\*\1\); \}", text)
        if each:
            self.use("append loop")
            return end + 1, f"{each[3]}.append_bytes({each[2]});"
        same = re.fullmatch(r"for _ in 0\.\.(\w+) \{ (\w+)\.push_reserved\((\w+)\); \}", text)
        if same:
            self.use("append loop")
            return end + 1, f"{same[2]}.append_times({same[3]}, {same[1]});"
        return None, None

    def shuffle(self, tokens, at, depth):
        """Replaces the positions in `a.shuffle::<M>(b, POSITIONS)` by a type that has them."""
        self.use("constant lanes")
        angle = closing_angle(tokens, at + 3)
        width = "".join(tokens[at + 4:angle]).strip()
        end = closing(tokens, angle + 1)
        arguments = parts(tokens[angle + 2:end])
        arguments = ["".join(self.calls(part, depth)).strip() for part in arguments]
        arguments[-1] = f"positions!({width}, {arguments[-1]})"
        return end + 1, f".{tokens[at + 1]}({', '.join(arguments)})"

    def widths(self, tokens):
        """Adds `where Width<N>: Lanes` to an item that is generic over the width of vectors."""
        out, at = [], 0
        while at < len(tokens):
            names, body = [], at
            if tokens[at] in ("fn", "impl", "trait"):
                names, body = self.widths_of(tokens, at)
            if not names:
                out.append(tokens[at])
                at += 1
                continue
            self.use("vector width")
            head = tokens[at:body]
            while head and not head[-1].strip():
                head.pop()
            bounds = ", ".join(f"Width<{name}>: Lanes" for name in names)
            if "where" in head:
                where = head.index("where")
                head[where + 1:where + 1] = [f" {bounds},"]
            else:
                line = "".join(out).rsplit("\n", 1)[-1]
                indent = line[:len(line) - len(line.lstrip())]
                head.append(f"\n{indent}where\n{indent}    {bounds},")
                head.append(f"\n{indent}" if tokens[body] == "{" else "")
            out += head
            at = body
        return tokenize("".join(out))

    def widths_of(self, tokens, at):
        """Returns the parameters of an item that are widths, and where its body begins."""
        start = next_solid(tokens, at + 1)
        if tokens[at] != "impl":
            start = next_solid(tokens, start + 1)
        body = start
        while body < len(tokens) and tokens[body] not in ("{", ";"):
            body = closing(tokens, body) + 1 if tokens[body] in OPEN else body + 1
        if tokens[start:start + 1] != ["<"] or body == len(tokens):
            return [], body
        generics = parts(tokens[start + 1:closing_angle(tokens, start)])
        solid = [[t for t in generic if not is_blank(t)] for generic in generics]
        names = [g[1] for g in solid if g[0] == "const" and g[3] == "usize"]
        end = closing(tokens, body) if tokens[body] == "{" else body
        item = "".join(tokens[start:end + 1])
        return [name for name in names if self.is_width(name, item)], body

    @staticmethod
    def is_width(name, item):
        """Whether a parameter is passed on as a width, as to `Simd<u8, N>`, not as in `[u8; N]`."""
        return bool(re.search(rf"[<,]\s*{name}\s*>", item))

    def functions(self, tokens):
        """Puts the body of each function into an inner function with the features of its level,
        which `at_level!` (level.rs) defines and calls.

        A method is inlined instead, and so is a function that Rattle always inlines and that has
        vectors in its signature.
        """
        # `open_items` has a word for each open brace, `item` the tokens since the last brace or
        # semicolon, and the attributes of the next item begin in `out` at `start`.
        out, at, open_items, item, start = [], 0, [], [], None
        while at < len(tokens):
            token = tokens[at]
            if token == "{":
                open_items.append("methods" if item and item[0] in ("impl", "trait") else "other")
            elif token == "}":
                open_items.pop()
            if token in ("{", "}", ";"):
                item = []
            elif not is_blank(token) and token not in ("pub", "unsafe"):
                item.append(token)
            if token == "#" and tokens[at + 1] == "[":
                end = closing(tokens, at + 1)
                start = len(out) if start is None else start
                out.append("".join(tokens[at:end + 1]))
                item, at = [], end + 1
                continue
            if token == "pub":
                start = len(out) if start is None else start
                end = closing(tokens, at + 1) if tokens[at + 1] == "(" else at
                out.append("".join(tokens[at:end + 1]))
                at = end + 1
                continue
            name = next_solid(tokens, at + 1)
            is_item = token == "fn" and "other" not in open_items and WORD.fullmatch(tokens[name])
            if not is_item:
                if not is_blank(token):
                    start = None
                out.append(token)
                at += 1
                continue
            at, start, item = self.function(tokens, at, name, out, start, open_items), None, []
        return out

    def function(self, tokens, at, name, out, start, open_items):
        """Writes a function, and returns the index after it."""
        begin, generics = next_solid(tokens, name + 1), []
        if tokens[begin] == "<":
            end = closing_angle(tokens, begin)
            generics = parts(tokens[begin + 1:end])
            begin = next_solid(tokens, end + 1)
        end_of_parameters = closing(tokens, begin)
        parameters = parts(tokens[begin + 1:end_of_parameters])
        body = end_of_parameters
        while tokens[body] not in ("{", ";"):
            body += 1
        for i in range(end_of_parameters, body):
            if tokens[i].startswith("//"):
                self.use("comment among clauses")
                tokens[i] = ""
        signature = "".join(tokens[name:body]).rstrip()
        signature = re.sub(r"\s*\n\s*\n\s*", "\n", signature)
        if tokens[body] == ";":
            out += ["fn ", signature, ";"]
            return body + 1
        end = closing(tokens, body)
        text = "".join(tokens[body:end + 1])
        first = len(out) if start is None else start
        head = "".join(out[first:])
        indent = "    " if open_items else ""
        before_body = f"\n{indent}" if re.search(r"\n\s*where\n", signature) else " "
        always = "#[inline(always)]" in head
        if always and (open_items or re.search(self.vectors, signature)):
            out += ["fn ", signature, before_body, text]
            return end + 1
        attribute = re.search(r"#\[inline(\(never\))?\]", head)
        hint = f"{attribute[0]} " if attribute else ""
        if always:
            kind = self.kind(signature, tokens[body:end + 1])
            self.use(kind)
            hint = f"{kind} "
        elif attribute:
            head = head.replace(attribute[0], "#[inline(always)]")
        else:
            visibility = re.search(r"(pub(\([a-z]+\))?\s+)?$", head).start()
            head = head[:visibility] + "#[inline(always)]\n" + indent + head[visibility:]
        out[first:] = [head]
        if open_items:
            self.use("method")
            out += ["fn ", signature, before_body, text]
            return end + 1
        if not always:
            self.use("level")
        solid = [[t for t in g if not is_blank(t)] for g in generics]
        names = [g[1] if g[0] == "const" else g[0] for g in solid if not g[0].startswith("'")]
        solid = [[t for t in p if not is_blank(t)] for p in parameters]
        arguments = ", ".join(p[1] if p[0] == "mut" else p[0] for p in solid)
        turbofish = "::<" + ", ".join(names) + ">" if names else ""
        inner = signature[len(tokens[name]):].strip()
        out += [
            f"fn {signature}{before_body}{{\n    at_level! {{\n        {hint}{{\n        ",
            f"fn at_level{inner}{before_body}{text}",
            f"\n        }} at_level{turbofish}({arguments})\n    }}\n}}",
        ]
        return end + 1

    @staticmethod
    def kind(signature, body):
        """Returns the rule for a function that Rattle always inlines and that passes no vector."""
        if "&mut" not in signature:
            return "reader"
        is_loop = "while" in body or "for" in body
        # A mask has few bits, so a call takes much time beside a loop over them.
        is_over_bits = re.search(r"\b(\w+) &= \1 - 1;", "".join(body))
        return "loop" if is_loop and "return" not in body and not is_over_bits else "writer"

    # Both steps, and what follows them.

    def erase(self, source, crate="simd_cesu8", depth=1, module="calls"):
        """Returns a file of a crate as Rust: a module with `depth` modules around it."""
        self.know(source)
        text = self.without_ghosts(source)
        if re.search(rf"^use ({'|'.join(KIT)})::", text, re.M):
            return self.shim_file(text, depth)
        if re.search(r"//[/!] ```rust\b", text):
            self.use("example")
            text = re.sub(r"(//[/!] ```)rust\b", r"\1text", text)
        tokens = self.attributes(tokenize(text))
        tokens = self.calls(self.paths(tokens, crate, depth), depth)
        tokens = self.widths(tokens)
        text = self.tables("".join(self.functions(tokens)), module)
        text = re.sub(r"^mod (\w+);", r"pub(crate) mod \1;", text, flags=re.M)
        self.refuse(text)
        text = self.with_imports(text, depth)
        if "#[inline(always)]" in text:
            self.use("inline")
            text = text.replace(
                "#[inline(always)]", "#[cfg_attr(not(debug_assertions), inline(always))]"
            )
        return re.sub(r"\n{3,}", "\n\n", text).lstrip("\n")

    def tables(self, text, module):
        """Makes constants of arrays, written or expanded from a macro, static if each use of them in
        the file borrows them.

        `table!` of a level defines the static, or imports that of another level, for which modules
        are visible in the crate.
        """
        array = r"= (?:\[|\w+!\()"
        for name in re.findall(rf"^const (\w+): [^=]*{array}", text, re.M):
            code = re.sub(r"//[^\n]*", "", text)
            uses = len(re.findall(rf"\b{name}\b", code)) - 1
            if uses == len(re.findall(rf"&{name}\b", code)):
                self.use("table")
                text = re.sub(
                    rf"((?:^(?:///|#\[).*\n)*)^const ({name}: [^=]*{array}[^=]*?;)$",
                    rf"table! {{ ({module})\n\1static \2\n}}",
                    text,
                    flags=re.M,
                )
        return text

    def shim_file(self, text, depth):
        """Returns a file that exports the shim's functions with the names of this file's."""
        self.use("kit")
        head = "".join(line + "\n" for line in text.split("\n") if line.startswith("//!"))
        names = ", ".join(re.findall(r"^pub fn (\w+)", text, re.M))
        return f"{head}\npub use {'super::' * depth}kit::{{{names}}};\n"

    @staticmethod
    def refuse(text):
        """Stops at what is left of Rattle."""
        for token in tokenize(text):
            is_literal = token[:1] in "\"'" or token[:2] in ('b"', "b'", 'r"', "r#")
            if is_blank(token) or is_literal:
                continue
            rattle = ("ghost", "requires", "ensures", "prove", "lemma", "invariant", "decreases")
            rattle += ("push_reserved", "allocator", "tactic", "HostRuntime")
            if token in rattle or not token.isascii():
                line = text[:text.index(token)].count("\n") + 1
                raise Unknown(f"{token!r} in line {line} of what is left")

    def with_imports(self, text, depth):
        """Imports what Rattle's prelude has, and what the rewritten code uses of the shim."""
        code = re.sub(r"//[^\n]*", "", text)
        names = [name for name in ("Vec", "String") if re.search(rf"\b{name}\b", code)]
        uses = [f"alloc::{name.lower()}::{name}" for name in names]
        if uses:
            self.use("prelude")
        if ".append_bytes(" in code or ".append_times(" in code:
            uses.append("super::" * depth + "memory::Append")
        if ".part(" in code or ".part_mut(" in code:
            uses.append("super::" * depth + "memory::Part")
        if "simd::*;" not in code:
            shim = {
                "Width<": "Lanes, Width",
                ".in_chunks": "InChunks",
                "positions!": "Positions, positions",
            }
            names = [names for form, names in shim.items() if form in code]
            if names:
                uses.append("super::" * depth + "simd::{" + ", ".join(names) + "}")
        at = HEAD.match(text).end()
        return text[:at] + "".join(f"use {path};\n" for path in uses) + text[at:]


def main(arguments):
    if arguments == ["--rules"]:
        print("\n".join(f"{rule}: {why}" for rule, why in RULES.items()))
        return 0
    if len(arguments) != 2 or arguments[0].startswith("-"):
        print("usage: erase.py CRATES OUT | erase.py --rules", file=sys.stderr)
        return 2
    crates, out = map(pathlib.Path, arguments)
    eraser = Eraser()
    for crate in MODULES:
        for path in sorted((crates / crate / "src").rglob("*.rt")):
            eraser.know(path.read_text())
    for crate, module in MODULES.items():
        source = crates / crate / "src"
        for path in sorted(source.rglob("*.rt")):
            part = path.relative_to(source)
            is_root = part.name == "lib.rt"
            to = out / module / part.with_name("mod.rs" if is_root else part.stem + ".rs")
            depth = len(part.parts) + (0 if is_root else 1)
            try:
                parts_of_path = part.parent.parts if is_root else part.with_suffix("").parts
                path_of_module = "::".join((module, *parts_of_path))
                text = eraser.erase(path.read_text(), crate, depth, path_of_module)
            except Unknown as unknown:
                print(f"{path}: erase.py does not know {unknown}", file=sys.stderr)
                return 1
            to.parent.mkdir(parents=True, exist_ok=True)
            to.write_text(text)
    for rule in RULES:
        print(f"{eraser.uses[rule]:5} {rule}")
    return 0


if __name__ == "__main__":
    sys.exit(main(sys.argv[1:]))
