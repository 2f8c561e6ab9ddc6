"""Which functions stand in a source file, and where their bodies are, by a scan of its brackets."""

import re

TOKEN = re.compile(
    r"""//[^\n]*|/\*.*?\*/|r(#*)".*?"\1|b?"(?:\\.|[^"\\])*"|b?'(?:\\[^\n]+?|[^'\\\n])'"""
    r"""|'\w+|\w+|[{}();\[\]<>]|->|[^\s\w]""",
    re.S,
)
ITEMS = set("fn impl mod trait struct enum static const use type union macro_rules".split())
# What can stand right before a word that begins an item.
BEFORE_ITEM = {"", *"} ; ] { pub unsafe const ghost default extern )".split()}


class Function:
    """A function in a source file: the paths by which the prover may know it, the places of its item and of
    its body, and its text."""

    def __init__(self, paths, item, body, text, is_method):
        self.paths, self.item, self.body, self.is_method = paths, item, body, is_method
        self.text = text[item[0] : item[1]]
        self.inside = text[body[0] : body[1]]
        self.attributes = text[max(0, item[0] - 200) : item[0]]

    def calls_itself(self):
        """Whether it may call itself: a method by its type's name or by self, another function by its bare
        name; or says that it is in a cycle."""
        name = self.paths[0].split("::")[-1]
        before = r"(?:\bSelf::|\bself\.)" if self.is_method else r"(?<![.:\w])"
        return "#[cycle" in self.attributes or bool(re.search(rf"{before}{name}\s*(?:\(|::<)", self.inside))


def tokens_of(text):
    return [it for it in TOKEN.finditer(text) if not it[0].startswith(("//", "/*"))]


def words_of(text):
    """The tokens of a text, without blanks and comments."""
    return [it[0] for it in tokens_of(text)]


def module_of(file):
    """The module that a file src/a/b.rt is, as a path."""
    parts = file.removeprefix("src/").removesuffix(".rt").split("/")
    return [] if parts in (["lib"], ["main"]) else parts[:-1] if parts[-1] == "mod" else parts


def behind_parameters(head):
    """The head of an impl without the parameters in angles that it begins with."""
    depth = 0
    for at, letter in enumerate(head):
        depth += (letter == "<") - (letter == ">" and head[at - 1] != "-")
        if not depth:
            return head[at + 1 :].strip()
    return head


def name_of_impl(head):
    """The name under which the prover lists the methods of an impl with this head: the type, or the type and
    the trait."""
    head = re.sub(r"\s+", " ", head).strip()
    head = re.split(r"\swhere\s", behind_parameters(head) if head.startswith("<") else head)[0]
    plain = lambda it: re.split(r"[<(\s]", it.strip().lstrip("&"))[0].split("::")[-1]
    trait, is_of, type_name = head.partition(" for ")
    return plain(type_name) + plain(trait) if is_of else plain(head)


class Scan:
    """A walk over the tokens of a file. `inside` has each impl, module and trait that is open, with the depth
    of braces within; `item` is the item that is open: its word, its name, where it starts, where its head
    ends, and its blocks of braces, of which the last is a function's body."""

    def __init__(self, file, text):
        self.text, self.module = text, module_of(file)
        self.found, self.inside, self.item = [], [], None
        self.depth = self.rounds = 0

    def level(self):
        return self.inside[-1][1] if self.inside else 0

    def is_outside(self):
        """Whether the walk stands among items, or between the parts of one."""
        return self.depth == self.level() and not self.rounds

    def close(self, end):
        """Ends the item that is open."""
        item, self.item = self.item, None
        if item and item["word"] == "fn" and item["blocks"]:
            names = [name for name, _ in self.inside]
            paths = ["::".join([*self.module, *names, item["name"]])]
            self.found.append(
                Function(paths, (item["start"], end), item["blocks"][-1], self.text, bool(names))
            )

    def begin(self, token, following):
        self.close(token.start())
        self.item = {
            "word": token[0],
            "name": following,
            "start": token.start(),
            "head": token.end(),
            "blocks": [],
        }

    def open_brace(self, token):
        if self.item and self.is_outside():
            if self.item["word"] in ("impl", "mod", "trait"):
                head = self.text[self.item["head"] : token.start()]
                name = name_of_impl(head) if self.item["word"] == "impl" else self.item["name"]
                self.inside.append((name, self.depth + 1))
                self.item = None
            else:
                self.item["blocks"].append([token.start(), None])
        self.depth += 1

    def close_brace(self, token):
        self.depth -= 1
        if self.item and self.is_outside() and self.item["blocks"]:
            self.item["blocks"][-1][1] = token.end()
        elif self.inside and self.depth == self.level() - 1:
            self.close(token.start())
            self.inside.pop()

    def walk(self):
        tokens, before = tokens_of(self.text), ""
        for token, following in zip(tokens, [*(it[0] for it in tokens[1:]), ""]):
            word = token[0]
            begins = word in ITEMS and before in BEFORE_ITEM and self.is_outside()
            if begins and not (word == "const" and following in ("fn", "unsafe", "extern")):
                self.begin(token, following)
            elif word in "([":
                self.rounds += 1
            elif word in ")]":
                self.rounds -= 1
            elif word == "{":
                self.open_brace(token)
            elif word == "}":
                self.close_brace(token)
            elif word == ";" and self.is_outside():
                # (also of a trait's method that has no body)
                self.item = None
            before = word
        self.close(len(self.text))
        return self.found


def functions_of(file, text):
    """The functions of a source file that have bodies and stand in modules, impls and traits."""
    return Scan(file, text).walk()
