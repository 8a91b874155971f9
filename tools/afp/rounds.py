"""Texts that are said once for many: `for I in 1..9:`, with {I}, {I+2} or {3*I-1} in what follows."""
import re

from afp.texts import BadText

HEAD = re.compile(r"for ([A-Z]) in (\d+)\.\.(\d+):")
NUMBER = re.compile(r"(?<![\w.*\\])(?:0|[1-9]\d*)(?![\w.*])")
FEWEST = 4
LONGEST_ROUND = 6


def value_at(text, name, value):
    """The text with the name's value in its braces."""
    def number(found):
        times = int(found[1][:-1]) if found[1] else 1
        return str(times * value + int(found[2] or 0))
    return re.sub(r"\{(\d+\*)?" + name + r"([+-]\d+)?\}", number, text)


def rounds(head):
    """The name and the values of a head."""
    found = HEAD.fullmatch(head)
    if not found:
        raise BadText(f"{head} is no round")
    return found[1], range(int(found[2]), int(found[3]) + 1)


def numbers(text):
    return [int(it) for it in NUMBER.findall(text)]


def steps_between(text, following):
    """By how much each number rises from one text to the next; nothing where they differ by more, or a number falls."""
    if NUMBER.sub("#", text) != NUMBER.sub("#", following):
        return None
    steps = [after - before for before, after in zip(numbers(text), numbers(following))]
    return None if any(step < 0 for step in steps) else steps


def alike(texts):
    """How many of the texts, from the first, differ by numbers alone that rise by the same steps each time."""
    last, count, steps = next(texts), 1, None
    for text in texts:
        now = steps_between(last, text)
        if now is None or steps not in (None, now):
            break
        last, count, steps = text, count + 1, now
    return count


def template(text, steps, name):
    """The text with braces for the numbers that rise, and the first value of the name."""
    pairs = list(zip(numbers(text), steps))
    rising = [pair for pair in pairs if pair[1]]
    start = (rising[0][0] if rising[0][1] == 1 else 0) if rising else 1
    left = iter(pairs)

    def braces(found):
        value, step = next(left)
        more = value - step * start
        return found[0] if step == 0 else "{" + (f"{step}*" if step > 1 else "") + name + (f"{more:+d}" if more else "") + "}"
    return NUMBER.sub(braces, text), start


def best_round(texts, at, longest):
    """How many texts from this place make a round that covers the most, and how often it comes: a size of 0 where there is none."""
    best = (0, 0)
    for size in range(1, longest + 1):
        count = alike("\0".join(texts[place:place + size]) for place in range(at, len(texts) - size + 1, size)) if at + size <= len(texts) else 0
        if count >= FEWEST and count * size > best[0] * best[1]:
            best = (size, count)
    return best


def folded(texts, name, longest=1):
    """The texts, those that are alike folded: each as a head and the texts under it, or as no head and one text."""
    at = 0
    while at < len(texts):
        size, count = best_round(texts, at, longest)
        if not size:
            yield "", [texts[at]]
            at += 1
            continue
        group, following = ("\0".join(texts[place:place + size]) for place in (at, at + size))
        text, start = template(group, steps_between(group, following), name)
        yield f"for {name} in {start}..{start + count - 1}:", text.split("\0")
        at += size * count
