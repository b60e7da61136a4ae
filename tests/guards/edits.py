"""The edits of must-fail/, as rt reads and makes them."""


def pairs_of(edit):
    """The file, the old text and the new text of each pair of an edit."""
    file = old = ""
    for line in edit.split("\n"):
        if line.startswith("file: "):
            file = line.removeprefix("file: ")
        elif line.startswith("old: "):
            old = line.removeprefix("old: ")
        elif line.startswith("new:"):
            yield file, old, line.removeprefix("new:").removeprefix(" ")
            old = ""


def refused(pairs, texts):
    """Why rt cannot make an edit in these files, pair after pair, or None."""
    texts = dict(texts)
    for file, old, new in pairs:
        times = texts.get(file, "").count(old) if old else 0
        if times != 1:
            return f"{file} has this text {times} times: {old}"
        texts[file] = texts[file].replace(old, new)
    return None
