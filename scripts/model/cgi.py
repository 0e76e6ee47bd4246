"""The output of a script: a second description of docs/SCRIPTS.md."""

MOST_BYTES = 32_768
MOST_NAME_BYTES = 255
OF_FILES = (b"cat", b"wc")


class Private(bytes):
    """The bytes of a file that neither the server nor a worker may read."""


def line_of(text):
    """Returns the word and the rest of a line, or None if it is no line of a script."""
    word, space, rest = text.partition(b" ")
    if word in (b"query", b"pause"):
        return None if space else (word, b"")
    if word == b"emit":
        return word, rest
    if word in OF_FILES and 1 <= len(rest) <= MOST_NAME_BYTES:
        return word, rest
    return None


def lines_of(text):
    """Returns the lines of a script, or None if the text is no script."""
    try:
        text.decode()
    except UnicodeDecodeError:
        return None
    lines = [line_of(line) for line in text.split(b"\n") if line]
    return None if len(text) > MOST_BYTES or None in lines else lines


def counts(data):
    return b"%d %d\n" % (data.count(b"\n"), len(data))


def of_file(name, files, output_of):
    """Returns the output for a file, or the reason why it has none."""
    if name not in files:
        return b"[NoFile]\n"
    return b"[Denied]\n" if isinstance(files[name], Private) else output_of(files[name])


def parts(lines, query, files):
    """Returns the output of each line."""
    outputs = {
        b"emit": lambda rest: rest + b"\n",
        b"query": lambda _: query + b"\n",
        b"pause": lambda _: b"",
        b"cat": lambda name: of_file(name.decode(), files, lambda data: data),
        b"wc": lambda name: of_file(name.decode(), files, counts),
    }
    return [outputs[word](rest) for word, rest in lines]
