"""Draws a random stream of requests. Each seed gives one fixed stream. docs/HTTP.md defines the responses."""
import random

from model.http import WINDOW

DRAWN = 25
SIZES = (0, 1, 100, 4000, 4063, 4064, 4065, 4096)  # bytes of a piece of output; a worker's page holds 4,064 bytes of text
MOST_TEXT = 32_000  # the most bytes of a script's drawn lines; a script may have 32,768
FILES = {
    "index.html": b"hi\n", "empty.txt": b"", "f.txt": b"0123456789" * 10, "a b.css": b"a{}\n", "\u00fc.js": b"1\n",
    "large.bin": bytes(range(251)) * 280, "%41.json": b"{}", "x.png": b"\x89PNG", "y.jpg": b"\xff\xd8",
    "plain": b"\0\r\n\r\n", **{f"{size}.txt": (b"abcdefg\n" * 509)[:size] for size in (1, 4063, 4064, 4065)},
}
SCRIPTS = {
    "all.cgi": b"emit hi\n\nquery\ncat f.txt\nwc f.txt\npause\ncat none\nwc none\nemit", "empty.cgi": b"", ".cgi": b"emit\n",
    "a b.cgi": b"query", "large.cgi": b"emit 0\ncat large.bin\nwc large.bin\n", "4096.cgi": b"emit " + b"x" * 4095,
    "4097.cgi": b"emit " + b"x" * 4096, "own.cgi": b"cat own.cgi\nwc empty.txt\ncat empty.txt\n",
    "longest.cgi": b"emit " + b"y" * 32_763, "\u00fc.cgi": "emit \u00fc\r\ncat \u00fc.js\ncat a b.css\n".encode(),
    "too long.cgi": b"emit " + b"y" * 32_764, "no words.cgi": b"emit a\ncat\n", "space.cgi": b"query \n",
    "bytes.cgi": b"emit \xff\n", "case.cgi": b"Emit a\n", "name.cgi": b"cat " + b"n" * 256, "longest name.cgi": b"cat " + b"n" * 255,
}
BAD_TARGETS = (
    "/%zz", "/%", "/a/../b", "/.", "/%2e%2E/x", "/a%00", "/%ff", "*", "a:80", "ftp://a/f.txt", "/f.txt#x", "/a<b",
    "/f.txt?<", "", "/\u00fc.js", "/f`", "http:///f.txt", "/f.txt?\"",
)
CONNECTIONS = ([], [], [], ["Connection: close"], ["Connection: keep-alive, CLOSE"], ["Connection:closed"],
               ["Connection: keep-alive"])
OTHERS = ([], [], ["Accept: */*"], ["X: \u00e9\t"], ["If-Range: \"x\""], ["Content-Length: 0"])
BAD_FIELDS = (
    ["Transfer-Encoding: chunked"], ["Content-Length: 5"], ["Content-Length: 00"], ["X : a"], ["X: a", " folded"],
    ["X: a\x01"], ["(X): a"], ["X"], *([f"X{at}: a" for at in range(count)] for count in range(60, 66)),
)
PLACES = (0, 1, 5, 99, 100, 70_279, 70_280, 10**14)
RAW = {*range(0x21, 0x7F)} - {*b"#<>?`%"}  # bytes that a path may contain unescaped


def drawn_script(chance):
    """Returns a random script. Its pieces of output have various sizes."""
    names = [*FILES, *SCRIPTS, "none"]
    lines = {
        "emit": lambda: b"emit " + b"z" * max(0, chance.choice(SIZES) - 1),
        "query": lambda: b"query",
        "pause": lambda: b"pause",
        "cat": lambda: b"cat " + chance.choice(names).encode(),
        "wc": lambda: b"wc " + chance.choice(names).encode(),
        "none": lambda: b"",
    }
    drawn = b""
    for _ in range(chance.choice((1, 3, 6, 6, 60))):
        line = lines[chance.choice((*lines, "emit", "cat"))]() + b"\n"
        if len(drawn + line) <= MOST_TEXT:
            drawn += line
    return drawn if chance.random() < 0.5 else drawn.removesuffix(b"\n")


def drawn_scripts():
    """Returns the random scripts of the site by name. They are the same in each run."""
    chance = random.Random(0)
    return {f"{number}.cgi": drawn_script(chance) for number in range(DRAWN)}


SITE = {**FILES, **SCRIPTS, **drawn_scripts()}


class Stream:
    """Draws a random stream of requests to a site."""

    def __init__(self, seed, site):
        self.chance, self.site = random.Random(seed), site
        self.end = self.chance.choice(("\r\n", "\r\n", "\r\n", "\n"))

    def often(self, good, bad, how_bad=0.03):
        return self.chance.choice(bad if self.chance.random() < how_bad else good)

    def path(self):
        name = self.chance.choice([*self.site, *self.site, "none", "dir/f.txt", "/f.txt", "none.cgi", ""])
        return "/" + "".join(self.written(byte) for byte in name.encode())

    def written(self, byte):
        if byte in RAW and self.chance.random() < 0.9:
            return chr(byte)
        return f"%{byte:02X}" if self.chance.random() < 0.5 else f"%{byte:02x}"

    def target(self):
        query = self.chance.choice(("", "", "", "?", "?q=1", "?a?b/../%zz`"))
        site = self.chance.choice(("", "", "", "http://a", "HTTPS://a.b:80"))
        path = "" if site and self.chance.random() < 0.2 else self.path()
        return self.often((site + path + query,), BAD_TARGETS, 0.1)

    def fields(self):
        host = self.often(("a", "127.0.0.1:80", "", "[::1]", " a\t"), ("a b", "a/b", "a@b", "a#", "\u00e9"))
        yield from self.often(([f"Host:{host}"],), ([], [f"Host: {host}"] * 2))
        yield from self.chance.choice(CONNECTIONS)
        yield from self.chance.choice(OTHERS)
        yield from self.often(([], [self.range()]), ([self.range(), self.range()],))
        yield from self.often(([],), BAD_FIELDS, 0.06)

    def range(self):
        first, last = self.chance.choice(PLACES), self.chance.choice(PLACES)
        good = (f"{first}-{last}", f"{first}-", f"-{last}")
        value = self.often(good, (f"{first}-{last},5-6", "-", "a-b", f"{10**15}-"), 0.2)
        return f"{self.chance.choice(('Range', 'range', 'RANGE'))}: {self.often(('bytes',), ('bites', 'Bytes'))}={value}"

    def request(self):
        method = self.often(("GET", "GET", "GET", "HEAD"), ("POST", "PUT", "TRACE", "get", "FOO", "G(T", ""))
        version = self.often(("HTTP/1.1",) * 5 + ("HTTP/1.0",), ("HTTP/1.2", "HTTP/2", "http/1.1", ""))
        lines = [f"{method} {self.target()} {version}", *self.fields()]
        if self.chance.random() < 0.05:
            spare = WINDOW - len(self.end.join([*lines, "X: ", "", ""])) + self.chance.randint(-3, 3)
            lines.append(f"X: {'x' * max(0, spare)}")
        text = self.end * (self.chance.random() < 0.1) + self.end.join([*lines, "", ""])
        return self.changed(text.encode("latin-1" if self.chance.random() < 0.1 else "utf-8"))

    def changed(self, text):
        """Returns the text, rarely with one byte changed, inserted or removed."""
        at, byte = self.chance.randrange(len(text)), bytes([self.chance.choice((0, 9, 10, 13, 32, 58, 127, 195, 65))])
        if self.chance.random() < 0.9 or b"//" in text:
            return text
        return text[:at] + self.chance.choice((b"", byte)) + text[at + self.chance.choice((0, 1)):]

    def whole(self):
        """Returns the whole stream: some requests, an oversized head, or a stream that is cut off."""
        if self.chance.random() < 0.03:
            return (b"GET / HTTP/1.1\r\nHost: a\r\nX: " + b"x" * WINDOW)[:WINDOW + self.chance.randint(-2, 2)]
        stream = b"".join(self.request() for _ in range(self.chance.choice((1, 1, 2, 3, 6))))
        return stream[:self.chance.randrange(len(stream))] if self.chance.random() < 0.1 else stream

    def pieces(self, stream):
        """Splits a stream into pieces. There are few enough that the server still reads them after a response that closes."""
        most = max(self.chance.choice((1, 7, 100, 5000, len(stream) + 1)), len(stream) // 50)
        while stream:
            count = self.chance.randint(1, most)
            yield stream[:count]
            stream = stream[count:]
