"""Where a call is shown and promised: the captures that name it, and the lines of docs/PROMISES.md."""
import os
import re

from afp.explain import codes_told

SCRIPTS = "crates/test_captures/scripts"
CAPTURES = "crates/test_captures/data/captures"
PROMISES = "docs/PROMISES.md"
COMMANDS = "crates/afp_calls_grammar/src/grammar/commands.rt"


def read(top, path, mode="r"):
    full = os.path.join(top, path)
    if not os.path.exists(full):
        return "" if mode == "r" else b""
    with open(full, mode, **({} if "b" in mode else {"encoding": "utf-8"})) as file:
        return file.read()


def names_in(top, folder):
    full = os.path.join(top, folder)
    return sorted(os.listdir(full)) if os.path.isdir(full) else []


class Captures:
    """Which scripts name a call, how often; and where a capture first tells it a code."""

    def __init__(self, top):
        self.scripts, self.told = {}, {}
        for name in names_in(top, SCRIPTS):
            for call in re.findall(r"\bFP[A-Za-z0-9]+", read(top, f"{SCRIPTS}/{name}")):
                counts = self.scripts.setdefault(call, {})
                counts[name] = counts.get(name, 0) + 1
        for name in names_in(top, CAPTURES):
            for call, code, line in codes_told(read(top, f"{CAPTURES}/{name}", "rb")):
                codes = self.told.setdefault(call, {})
                codes.setdefault(code, (name, line))

    def naming(self, call):
        """The scripts that name a call, those that name it most often first."""
        counts = self.scripts.get(call, {})
        return sorted(counts, key=lambda name: (-counts[name], name))


class Promise:
    def __init__(self, heading, line, text):
        self.heading, self.line, self.text = heading, line, text

    @property
    def anchor(self):
        return slug(self.heading)


class Promises:
    """The lines of a page of promises, each under its heading."""

    def __init__(self, top):
        self.lines, heading = [], ""
        for number, line in enumerate(read(top, PROMISES).split("\n"), 1):
            match = re.match(r"#+ (.*)", line)
            if match:
                heading = match[1]
            elif line.startswith("|") and not re.match(r"\|[\s|:-]*$", line):
                self.lines.append(Promise(heading, number, line.strip("| ")))

    def of(self, call, function):
        """The lines that name a call, and those that name the crate of its function, or the function in it."""
        return [promise for promise in self.lines if names_call(promise.text, call) or names_function(promise.text, function)]


def names_call(text, call):
    return re.search(rf"\b{call}\b", text) is not None


def names_function(text, function):
    if function is None:
        return False
    for named in re.findall(r"`([^`]*)`", text):
        crate, _, inner = named.partition("::")
        if crate == function.crate and (not inner or function.name in re.findall(r"\w+", inner)):
            return True
    return False


def slug(heading):
    """The anchor of a heading, as it is made where Markdown is shown."""
    return re.sub(r"[^\w\- ]", "", heading.lower()).replace(" ", "-")


def summaries(top):
    """What each call does, in a sentence, where the numbers of the commands stand."""
    return dict(re.findall(r"/// (FP\w+): (.*)\npub const", read(top, COMMANDS)))
