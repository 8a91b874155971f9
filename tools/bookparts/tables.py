"""Refusals as a tree of choices, and the lines of the table that a reader goes down."""
from bookparts.reduce import apply, taken_apart
from bookparts.specs import Constructor, Declared, Definition
from bookparts.terms import App, Bin, Name, Var, shown, text_of


class Line:
    """A line of a table of conditions: how far it stands in, its condition and what is told, as terms and plain texts, and the comments of its words."""

    def __init__(self, level, condition, told=None, codes=(), reply=None, words=()):
        self.level, self.condition, self.told, self.codes, self.reply, self.words = level, condition, told, list(codes), reply, list(words)


class Refuse:
    """The end of a list of refusals: the code that is told, and the reply where it is not empty."""

    def __init__(self, code, reply):
        self.code, self.reply = code, reply

    def __eq__(self, other):
        return isinstance(other, Refuse) and self.code == other.code and self.reply == other.reply


class Choice:
    """A choice in a list of refusals: by a condition that has a comment of its own, or none."""

    def __init__(self, condition, yes, no, comment=""):
        self.condition, self.yes, self.no, self.comment = condition, yes, no, comment

    def __eq__(self, other):
        return isinstance(other, Choice) and (self.condition, self.yes, self.no) == (other.condition, other.yes, other.no)


class Ways:
    """What comes of a term by what it may be: each a pattern and a tree."""

    def __init__(self, of, ways):
        self.of, self.ways = of, ways

    def __eq__(self, other):
        return isinstance(other, Ways) and (self.of, self.ways) == (other.of, other.ways)


def choice(condition, yes, no, comment=""):
    """A choice, where it is one."""
    return yes if yes == no else Choice(condition, yes, no, comment)


class Lines:
    """Writes a tree of refusals as the lines of a table. `refused` is what each term cannot be behind them: the term's text, and a constructor."""

    def __init__(self):
        self.lines, self.refused = [], set()

    def of(self, tree):
        self.write(tree, 0)
        return self.lines

    def write(self, tree, level):
        if isinstance(tree, Choice):
            self.write_choice(tree, level)
        elif isinstance(tree, Ways):
            self.write_ways(tree, level)
        elif isinstance(tree, Refuse):
            self.add(level, ["always"], tree, [])

    def write_choice(self, tree, level):
        comments = comments_of(tree.condition, tree.comment)
        if isinstance(tree.yes, Refuse):
            self.add(level, [tree.condition], tree.yes, comments)
            self.write(tree.no, level)
        elif isinstance(tree.no, Refuse):
            self.add(level, [apply(Name("not", None), [tree.condition])], tree.no, comments)
            self.write(tree.yes, level)
        else:
            self.lines.append(Line(level, ["Where ", tree.condition, ":"], words=comments))
            self.write(tree.yes, level + 1)
            self.lines.append(Line(level, ["Else:"]))
            self.write(tree.no, level + 1)

    def write_ways(self, tree, level):
        comments = comments_of(tree.of)
        going = [(pattern, way) for pattern, way in tree.ways if not isinstance(way, Refuse)]
        for pattern, way in tree.ways:
            if isinstance(way, Refuse):
                self.refused.add((text_of(tree.of), taken_apart(pattern)[0]))
                rest = ["; else it is ", going[0][0]] if len(going) == 1 and has_names(going[0][0]) else []
                self.add(level, [tree.of, " is ", pattern, *rest], way, comments, tree.of)
        further = [(pattern, way) for pattern, way in going if way is not None]
        if len(going) == 1:
            self.write(going[0][1], level)
            return
        for pattern, way in further:
            self.lines.append(Line(level, ["Where ", tree.of, " is ", pattern, ":"], words=comments))
            self.write(way, level + 1)

    def add(self, level, condition, told, comments, of=None):
        code = told.code
        if isinstance(code, Var):
            words = codes_under(of)
            codes = sorted(words)
            named = [": ", *joined([Name(name, words[name]) for name in codes])] if codes else []
            self.lines.append(Line(level, condition, ["that ", code, *named], codes, None, comments))
        else:
            self.lines.append(Line(level, condition, [code], [text_of(code).split(".")[-1]], told.reply, comments))


def joined(terms):
    """Terms with commas between them, and an `or` before the last."""
    parts = []
    for at, term in enumerate(terms):
        parts += [" or " if at == len(terms) - 1 else ", "] if at else []
        parts.append(term)
    return parts


def has_names(pattern):
    apart = taken_apart(pattern)
    return bool(apart and apart[1])


def comments_of(term, own=""):
    """What the comments say of a condition: its own, or those of the definitions that it is put together of."""
    if own:
        return [own]
    if isinstance(term, Bin) and term.mark in ("&&", "||"):
        return comments_of(term.left) + [text for text in comments_of(term.right) if text not in comments_of(term.left)]
    head, args = (term.head, term.args) if isinstance(term, App) else (term, [])
    if isinstance(head, Name) and head.text in ("not", "is_none", "is_some") and len(args) == 1:
        return comments_of(args[0])
    word = head.word if isinstance(head, Name) else None
    return [word.comment] if isinstance(word, Definition) and word.comment else []


def codes_under(term):
    """The codes that the definitions of a term name, all that they are made of included: each with its word."""
    found, seen, open_ = {}, set(), [word for _, word in shown(term)]
    while open_:
        word = open_.pop()
        word = word.of if isinstance(word, Constructor) else word
        if isinstance(word, Declared) and word.name == "Code" and word.variant:
            found[word.variant] = word
        elif isinstance(word, Definition) and word.key not in seen:
            seen.add(word.key)
            open_ += word.cited
    return found
