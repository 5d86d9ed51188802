"""Stemmers as tables, written from docs/DEFINITIONS.md: a table's text, and the stem that it makes of a word."""

DEEPEST = 400


def rows_of(words):
    return [(suffix, int(number)) for number, suffix in zip(words[::2], words[1::2])]


class Stemmer:
    """The stemmer of a table's text."""

    def __init__(self, text):
        head, *lines = text.split("\n")
        numbers = [int(word) for word in head.split(" ")]
        self.before, self.main = numbers[:2]
        self.marks = list(zip(numbers[2::2], numbers[3::2]))
        self.steps = [line.split(" ") for line in lines]

    @staticmethod
    def is_in(group, c):
        return c not in group[1:] if group[:1] == "^" else c in group

    def without(self, group, text, count):
        """The text without its last characters, as many, if the last one is in the class."""
        return text[: len(text) - 1] if len(text) >= count and self.is_in(group, text[-1]) else None

    def apply(self, number, text, regions, depth=DEEPEST):
        """What the step makes of the text, or None if it does not apply."""
        if depth == 0 or number >= len(self.steps):
            return text
        head, *words = self.steps[number]
        begin = lambda k: regions[int(k)] if int(k) < len(regions) else 0
        step = lambda word, text: self.apply(int(word), text, regions, depth - 1)
        sign = head[0]
        if sign == "+":
            return text + words[0]
        if sign == "@":
            return text if len(text) >= begin(words[0]) else None
        if sign == ".":
            return self.without(words[0], text, 1)
        if sign == ":":
            return self.without(words[0], text, 2) if text[-1:] == text[-2:-1] else None
        if sign == "*":
            while text and self.is_in(words[0], text[-1]):
                text = text[:-1]
            return text
        if sign == "-":
            found = [row for row in rows_of(words[1:])
                     if text.endswith(row[0]) and len(text) - len(row[0]) >= begin(words[0])]
            if not found:
                return None
            suffix, named = max(found, key=lambda row: len(row[0]))
            return step(named, text[: len(text) - len(suffix)])
        if sign == "&":
            first = step(words[0], text)
            return None if first is None else step(words[1], first)
        if sign == "|":
            first = step(words[0], text)
            return step(words[1], text) if first is None else first
        if sign == "!":
            return text if step(words[0], text) is None else None
        if sign == "=":
            front = step(words[0], text)
            changed = None if front is None else step(words[1], front)
            return None if changed is None else changed + text[len(front):]
        if not any(self.is_in(words[0], c) for c in text):
            return text
        typed = ""
        for c in text:
            changed = step(words[1], typed + c)
            typed = typed + c if changed is None else changed
        return typed

    def stem(self, word):
        text = self.apply(self.before, word, [])
        text = word if text is None else text
        regions = [0]
        for number, least in self.marks:
            rest = self.apply(number, text[::-1], [])
            regions.append(max(least, len(text) - len(rest or "")))
        stem = self.apply(self.main, text, regions)
        return text if stem is None else stem
