"""Texts that are changed: what a judge has to refuse."""


def changed_texts(text):
    """The text with one line left out, doubled or behind its neighbour, or with one number raised."""
    lines = text.split("\n")[:-1]
    for at, line in enumerate(lines):
        yield text_of(lines[:at] + lines[at + 1 :])
        yield text_of(lines[: at + 1] + lines[at:])
        is_last = at + 1 == len(lines)
        yield text_of(lines[::-1] if is_last else lines[:at] + lines[at + 1 : at + 2] + [line] + lines[at + 2 :])
        words = line.split(" ")
        for place, word in enumerate(words):
            if word.isdigit():
                raised = " ".join([*words[:place], str(int(word) + 1), *words[place + 1 :]])
                yield text_of(lines[:at] + [raised] + lines[at + 1 :])


def text_of(lines):
    return "\n".join([*lines, ""])
