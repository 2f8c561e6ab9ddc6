"""Wrong bodies: the edits of crates/NAME/must-fail, and which function each of them makes wrong."""

import os
import re

from kit import rt, sources_of, text_of
from sources import functions_of, words_of

# A line of an edit that names functions which it has to be refused at: those that stand on a definition or a
# statement that it changes.
REFUSED_AT = re.compile(r"^refused at: (.*)$", re.M)
DECLARED = re.compile(r"\b(?:const|static|struct|enum|type|for)\s+(?:mut\s+)?([A-Za-z_]\w+)")


def outline(text, functions):
    """The tokens of a file without these functions' bodies."""
    for it in sorted(functions, key=lambda it: -it.body[0]):
        text = text[: it.body[0]] + "{}" + text[it.body[1] :]
    return words_of(text)


def adds_items_alone(old, new):
    """Whether the new tokens are the old ones with whole items put in at one place."""
    at = next((at for at, (a, b) in enumerate(zip(old, new)) if a != b), min(len(old), len(new)))
    back = 0
    while back < min(len(old), len(new)) - at and old[-1 - back] == new[-1 - back]:
        back += 1
    # (where the added text begins as what follows it does, it can be read as standing a little earlier)
    added = new[at : len(new) - back]
    while at and (not added or added[-1] not in ("}", ";")) and len(old) == at + back:
        at, back = at - 1, back + 1
        added = new[at : len(new) - back]
    balance = sum(it in "([{" for it in added) - sum(it in ")]}" for it in added)
    is_whole = (
        bool(added) and not balance and added[-1] in ("}", ";") and (not at or old[at - 1] in ("}", ";", "{"))
    )
    return len(old) == at + back and is_whole


def names_of(own, listed):
    """What the prover calls this function of a source file. A method stands under its type's module, wherever
    its impl stands, and what the impl is of can follow the type's name."""
    if exact := [it for it in own.paths if it in listed]:
        return exact
    tails = [it.split("::")[-2:] for it in own.paths if "::" in it]
    ends = [(it, it.split("::")[-2:]) for it in listed]
    same = [it for it, end in ends if end in tails]
    return same or [
        it
        for it, end in ends
        if any(len(end) == 2 and end[0].startswith(tail[0]) and end[1] == tail[1] for tail in tails)
    ]


class WrongBody:
    """An edit. `function` is the one whose body alone it changes, as the prover calls it; where it has none,
    `why` says why. Where the edit changes another item of src/, `aims` are the functions that name that
    item, and where it says at which functions it is refused, these."""

    def __init__(self, path, folder, listed):
        self.path, self.name = path, os.path.basename(path)
        self.function, self.aims, self.why = None, [], None
        self.texts, self.why = rt.read_edit(path, folder)
        if self.why:
            return
        if said := REFUSED_AT.search(text_of(path)):
            self.aims = said[1].split(", ")
            self.why = f"it isn't refused at {said[1]}, or that is no function"
            return
        self.why = "it changes more than one file, or one outside src/"
        if len(self.texts) == 1 and next(iter(self.texts)).startswith("src/"):
            self.look(folder, listed)

    def look(self, folder, listed):
        """Finds the function whose body the edit changes, or else the functions that name the item that it
        changes."""
        ((self.file, new),) = self.texts.items()
        old = text_of(f"{folder}/{self.file}")
        was, by_edit = functions_of(self.file, old), functions_of(self.file, new)
        now = {it.paths[0]: it for it in by_edit}
        known = {it.paths[0] for it in was}
        outlines = outline(old, was), outline(new, [it for path, it in now.items() if path in known])
        changed = [
            it
            for it in was
            if it.paths[0] in now and words_of(it.inside) != words_of(now[it.paths[0]].inside)
        ]
        self.why = "it changes more than the body of one function"
        self.is_body_alone = outlines[0] == outlines[1]
        if (
            len(changed) != 1
            or len(now) < len(by_edit)
            or not (self.is_body_alone or adds_items_alone(*outlines))
        ):
            self.aim(folder, old, new, listed)
            return
        own = changed[0]
        names = names_of(own, listed)
        if "#[cycle" in own.attributes:
            self.why = "its function is in a cycle of calls"
        elif len(names) != 1:
            self.why = f"no function of the listing is its own: {', '.join(own.paths)}"
        else:
            self.function, self.why, self.span = names[0], None, own.body
            self.old_body, self.new_body = own.inside, now[own.paths[0]].inside
            # (an edit's texts are one line each, so no line moves)
            self.lines = [old.count("\n", 0, it) + 1 for it in own.item]

    def aim(self, folder, old, new, listed):
        """Finds the functions that name the item beside functions' bodies that the edit changes first."""
        start = next((at for at, (a, b) in enumerate(zip(old, new)) if a != b), 0)
        declared = [*DECLARED.finditer(old, 0, start + 1)]
        if not declared:
            return
        name = re.compile(rf"\b{declared[-1][1]}\b")
        for file in sources_of(folder):
            for own in functions_of(file, text_of(f"{folder}/{file}")):
                if name.search(own.text):
                    self.aims += [it for it in names_of(own, listed) if it not in self.aims]

    def clashes(self, other, seen_calls):
        """Whether the two can't be judged in one check: they change one function, or one's function calls the
        other's, or their texts can't stand together."""
        if self.file == other.file and not (self.is_body_alone and other.is_body_alone):
            return True
        pairs = (self.function, other.function), (other.function, self.function)
        is_seen = self.function == other.function or bool({*pairs} & seen_calls)
        return is_seen or may_call(self.new_body, other.function) or may_call(other.new_body, self.function)


def may_call(text, path):
    """Whether a function's text may call the function of that path. (A call by an operator or a macro is
    found by what a check says.)"""
    return bool(re.search(rf"\b{re.escape(path.split('::')[-1])}\b\s*(\(|::<)", text))


def texts_with(folder, bodies):
    """The texts of the files in which all these wrong bodies stand together."""
    texts = {}
    for it in sorted(bodies, key=lambda it: -it.span[0]):
        if not it.is_body_alone:
            # (it adds items, and no other edit of a round changes its file)
            texts[it.file] = it.texts[it.file]
            continue
        text = texts.get(it.file) or text_of(f"{folder}/{it.file}")
        assert text[it.span[0] : it.span[1]] == it.old_body
        texts[it.file] = text[: it.span[0]] + it.new_body + text[it.span[1] :]
    return texts
