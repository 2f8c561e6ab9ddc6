"""One check that judges many wrong bodies of a crate, each by its own function's goals.

Proof is modular: a function is proved against the contracts of what it calls, never against their bodies. So
a check judges as many wrong bodies as stand in different functions, none of which calls another of them.
Every other function is an empty loop there, and its proof a hole, so that it costs nothing."""

import collections
import json
import os
import re
import shutil
import subprocess
import tempfile

from edits import texts_with, names_of
from kit import rt, say, sources_of, text_of
from sources import functions_of

STUB = """use Rattle.{crate}.proofs.{path}.Statement.{{statement}}

pub {name}_spec : {{M : Type 1}} → statement M
{name}_spec = ?
"""
NAMES_ALONE = (
    "(only because a proof file names what the edit took away, so this says little of the contract: "
    "change a value and keep the names)"
)
# Errors of a proof file that only name what an edit took away, and what cites that proof, as in `rt`.
NAMES = re.compile(r"has no field|is not in scope|has no `|was not admitted|was not checked")
# The last line of a check that came to its end.
ENDED = re.compile(r"only=\d+ holes=\d+")
# How often a wrong body is judged once more that stood in one check with a wrong body of what it calls.
MOST_AGAIN = 3


class Verdict:
    """What a check says of one function: its line, the goals of its own that failed, and the names that its
    proof files lack."""

    def __init__(self, lines, crate, path):
        self.path = path
        name, parts = f"{crate}::{path}", path.split("::")
        # (closures and loops of a function are listed below it, behind the word `fn`)
        inner = tuple(f"{crate}::{'::'.join([*parts[:at], 'fn', *parts[at:]])}::" for at in range(len(parts)))
        self.line = next((it for it in lines if it.startswith(f"fn {name}: ")), "")
        self.is_refused = bool(re.match(r"fn \S+: (not proved|no proof)", self.line))
        self.goals, self.names, self.calls = [], [], []
        self.read_proof_files(lines)
        for at, line in enumerate(lines):
            found = re.match(r"fn (\S+): (.*)", line)
            if found and (found[1] == name or found[1].startswith(inner)):
                self.read_goals(lines, at, *found.groups())
                if found[1] == name:
                    self.calls = re.findall(rf"`{crate}::([^`]+)`", found[2].partition("it calls")[2])

    def read_proof_files(self, lines):
        above, slash, name = self.path.replace("::", "/").rpartition("/")
        # (functions that call one another have one proof, whose folder has a `+` before the name of one)
        folders = tuple(f"./proofs/{above}{slash}{plus}{name}/" for plus in ("", "+"))
        for line in lines:
            found = re.match(r"(\S+?):\d+:\d+: error: (.*)", line)
            if found and found[1].startswith(folders):
                (self.names if NAMES.search(found[2]) else self.goals).append(line.removeprefix("./"))

    def read_goals(self, lines, at, name, said):
        """Reads the goals that a function's line names, and those of the notes right above it."""
        for goal in re.findall(r"`search` did not prove ((?:`[^`]*`(?:, | and )?)+)", said):
            self.goals.append(f"{name}: `search` did not prove {goal}")
        above = at - 1
        while above >= 0 and lines[above].startswith(("note: ", "  ")):
            if re.match(r"note: src/\S+:\d+:\d+: it is not proved ", lines[above]):
                self.goals.append(lines[above].removeprefix("note: "))
            above -= 1

    def names_of_its_own(self, crate):
        """Names that the edit took out of the function's own modules."""
        above, dot, name = self.path.replace("::", ".").rpartition(".")
        own = re.compile(rf"`Rattle\.{crate}\.proofs\.{re.escape(above + dot)}\+?{re.escape(name)}\.")
        return [it for it in self.names if own.search(it)]


def functions_of_crate(crate):
    """The functions of a crate as the prover calls them, where `rt` took over an earlier proof and says
    nothing of them: by the names of their proofs, which `rattle` writes and which lack those that call
    themselves. (A kit that writes none has each wrong body tried alone.)"""
    with tempfile.TemporaryDirectory(prefix="wrong-bodies-") as room:
        words = [rt.rtlib.RATTLE, "check", *crate.words(["--jobs", "1"], keeps=False)]
        words += ["--generated", f"{room}/names", "--old-names"]
        how = {"cwd": crate.folder, "stdin": subprocess.DEVNULL, "capture_output": True}
        subprocess.run([*rt.rtlib.guarded(), *words], **how)
        if not os.path.exists(f"{room}/names/names.json"):
            return []
        names = json.loads(text_of(f"{room}/names/names.json"))
    found = [re.fullmatch(rf"Rattle-{crate.name}-proofs\.([\w.]+)\.Lts", it) for it in names]
    paths = [it[1].split(".") for it in found if it]
    return ["::".join(it) for it in paths if "fn" not in it]


class Judge:
    """Judges the wrong bodies of a crate, whose functions are `listed`; `kept` is a folder for what its
    checks share. It counts its checks, and their processor seconds."""

    def __init__(self, crate, listed, kept):
        self.crate, self.listed, self.kept = crate, listed, kept
        self.seconds, self.checks = 0.0, 0
        # Functions that are checked with the proofs that they have, since theirs can't be holes.
        self.real = self.in_cycles()
        # Pairs of functions of which the first calls the second, as a check said.
        self.seen_calls = set()

    def own_functions(self):
        for file in sources_of(self.crate.folder):
            for own in functions_of(file, text_of(f"{self.crate.folder}/{file}")):
                yield own

    def in_cycles(self):
        """The functions that call themselves or one another: these have one proof of all their contracts."""
        return {
            name for own in self.own_functions() if own.calls_itself() for name in names_of(own, self.listed)
        }

    def check(self, texts, functions):
        """Checks these functions over the crate with these texts in place of its own. Returns rattle's status
        and lines."""
        with tempfile.TemporaryDirectory(prefix="wrong-bodies-") as room:
            for part in rt.rtlib.PARTS:
                if os.path.isdir(f"{self.crate.folder}/{part}"):
                    shutil.copytree(f"{self.crate.folder}/{part}", f"{room}/{part}")
            for path, text in texts.items():
                write(f"{room}/{path}", text)
            self.empty_others(room, {*functions, *self.real})
            words = [
                rt.rtlib.RATTLE,
                "check",
                *self.crate.words(["--jobs", "1"], keeps=False),
                "--incremental",
                self.kept,
                "--allow-holes",
            ]
            words += [word for path in functions for word in ("--only", path)]
            how = {
                "cwd": room,
                "stdin": subprocess.DEVNULL,
                "stdout": subprocess.PIPE,
                "stderr": subprocess.STDOUT,
                "errors": "replace",
            }
            with subprocess.Popen([*rt.rtlib.guarded(), *words], **how) as ran:
                said = ran.stdout.read()
                _, status, used = os.wait4(ran.pid, 0)
                ran.returncode = os.waitstatus_to_exitcode(status)
        self.seconds, self.checks = self.seconds + used.ru_utime + used.ru_stime, self.checks + 1
        return ran.returncode, said.rstrip("\n").split("\n")

    def empty_others(self, room, kept):
        """Has each function but those `kept` be a loop that does nothing, with a hole for its proof. No line
        moves."""
        for file in sources_of(self.crate.folder):
            text = text_of(f"{room}/{file}")
            for own in reversed(functions_of(file, text)):
                names = names_of(own, self.listed)
                if len(names) == 1 and names[0] not in kept and not is_const(own):
                    text = (
                        text[: own.body[0]]
                        + "{ loop {} "
                        + "\n" * own.inside.count("\n")
                        + "}"
                        + text[own.body[1] :]
                    )
            write(f"{room}/{file}", text)
        for path in self.listed:
            if path not in kept:
                self.leave_open(room, path)

    def leave_open(self, room, path):
        """Has a hole stand for the proof of a function."""
        folder, parts = f"{room}/proofs/{path.replace('::', '/')}", path.split("::")
        os.makedirs(folder, exist_ok=True)
        for name in ("Answers.antt", "Invariants.antt"):
            if os.path.exists(f"{folder}/{name}"):
                os.remove(f"{folder}/{name}")
        write(
            f"{folder}/Proof.antt", STUB.format(crate=self.crate.name, path=".".join(parts), name=parts[-1])
        )

    def verdict(self, lines, path):
        found = Verdict(lines, self.crate.name, path)
        self.seen_calls |= {(path, callee) for callee in found.calls}
        return found

    def next_round(self, bodies):
        """Wrong bodies that one check can judge, those of the most edited functions first, and the others."""
        count = collections.Counter(it.function for it in bodies)
        chosen, left = [], []
        for it in sorted(bodies, key=lambda it: (-count[it.function], it.function)):
            clashes = any(it.clashes(other, self.seen_calls) for other in chosen)
            (left if clashes else chosen).append(it)
        return chosen, left

    def unread(self, lines, bodies, is_ended):
        """The wrong bodies whose text the front end or antt could not read, by the places that errors name:
        of the function there, or of the whole file."""
        bad = []
        for it in lines:
            at = re.match(r"(?:\./)?(src/\S+?):(\d+):\d+: error", it)
            if not at or is_ended and not rt.unread(it, {body.file for body in bodies}):
                continue
            of_file = [body for body in bodies if body.file == at[1]]
            here = [body for body in of_file if body.lines[0] <= int(at[2]) <= body.lines[1]]
            bad += [body for body in here or of_file if body not in bad]
        return bad

    def judge(self, bodies):
        """Judges these wrong bodies. Returns for each of their names what was found, None where it has to be
        tried alone."""
        self.found, self.again, left = {}, collections.Counter(), list(bodies)
        while left:
            chosen, left = self.next_round(left)
            left += self.judge_round(chosen)
        return self.found

    def judge_round(self, chosen):
        """Judges wrong bodies in one check. Returns those that have to be judged once more."""
        functions = [it.function for it in chosen]
        status, lines = self.check(texts_with(self.crate.folder, chosen), functions)
        broken = {it for line in lines if (it := hole_at(line))} - self.real
        if broken:
            # (a function whose proof can't be a hole is checked with its own from now on)
            self.real |= broken
            return chosen
        is_ended = bool(ENDED.match(lines[-1]))
        bad = self.unread(lines, chosen, is_ended)
        if bad:
            self.found |= dict.fromkeys((it.name for it in bad), None)
            return [it for it in chosen if it not in bad]
        if is_ended and status == 1:
            return [
                again
                for it in chosen
                for again in self.settle(it, self.verdict(lines, it.function), functions)
            ]
        if len(chosen) == 1:
            self.found[chosen[0].name] = None
            return []
        # (antt could not tell, or all is proved)
        half = len(chosen) // 2
        return self.judge_round(chosen[:half]) + self.judge_round(chosen[half:])

    def settle(self, body, verdict, functions):
        """Writes down what was found of a wrong body. Returns it in a list where it has to be judged once
        more."""
        if verdict.is_refused and verdict.goals:
            self.found[body.name] = f"{verdict.path}: {verdict.goals[0][:200]}"
            return []
        own = verdict.names_of_its_own(self.crate.name)
        if verdict.is_refused and own:
            self.found[body.name] = f"{NAMES_ALONE} {own[0][:200]}"
            return []
        calls_another = {b for a, b in self.seen_calls if a == verdict.path} & {*functions}
        if calls_another and self.again[body.name] < MOST_AGAIN:
            # (what it calls was wrong in the same check, so its goals may not all have been tried)
            self.again[body.name] += 1
            return [body]
        self.found[body.name] = None
        only_names = verdict.is_refused and verdict.names
        why = "only names that its proof files cite" if only_names else verdict.line.partition(": ")[2][:100]
        why = f"({verdict.path}: {why or 'no line'})"
        say(f"{self.crate.name}/{body.name}: PROVES, or can't be told beside others {why}")
        return []

    def judge_aimed(self, body):
        """Judges a wrong body that changes another item, by the functions that name the item, and the lemmas
        that these stand on. Returns what was found, or None."""
        status, lines = self.check(body.texts, body.aims)
        if status != 1 or not ENDED.match(lines[-1]) or any(rt.unread(it, body.texts) for it in lines):
            return None
        lemmas = [
            it for it in lines if re.match(r"\./proofs/\S+:\d+:\d+: error: ", it) and not NAMES.search(it)
        ]
        verdicts = [self.verdict(lines, it) for it in body.aims]
        found = [(it.path, *it.goals, *lemmas) for it in verdicts if it.is_refused]
        return next((f"{path}: {goals[0][:200]}" for path, *goals in found if goals), None)

    def spoiled(self, functions):
        """Checks these functions unchanged in the same surroundings, where each must have no open goal.
        Returns those that have."""
        _, lines = self.check({}, functions)
        holds = re.compile(r"fn \S+: (no holes|depends on a hole)")
        found = [self.verdict(lines, it) for it in functions]
        bad = [it for it in found if it.is_refused or it.goals or it.names or not holds.match(it.line)]
        for it in bad:
            said = f"{it.line} {it.goals[:1]} {it.names[:1]}"
            say(f"{self.crate.name}: unchanged, and not without open goals: {said}")
        well = len(functions) - len(bad)
        say(f"{self.crate.name}: {well} of {len(functions)} functions hold unchanged")
        return {it.path for it in bad}


def is_const(own):
    """Whether this is a function that a constant may call, and so can't be a loop."""
    return bool(re.search(r"\bconst\s+$", own.attributes))


def write(path, text):
    with open(path, "w", encoding="utf-8") as file:
        file.write(text)


def hole_at(line):
    """The function whose hole this line calls an error, if it does."""
    found = re.match(r"\./proofs/(\S+)/Proof\.antt:(\d+:\d+:)? error", line)
    return found[1].replace("/", "::") if found else None
