"""The worked rows: requests to a site, and steps of a borrowed path, with their replies."""
from in_memory import SITE, ByTurns, Served, Steps
from model.cgi import Private
from model.http import WINDOW, lined

INDEX = {"index.html": b"hi\n"}
SIX = {"f": b"mnopqr", "empty": b""}
GUESTS = {**INDEX, "p": Private(b"secret")}
TURNS = {"f": b"one", "s.cgi": b"emit a\nquery\ncat f"}
OUTCOMES = {
    "f": b"a\nb", "p": Private(b"secret"), "all.cgi": b"wc f\ncat none\nemit", "p.cgi": b"cat p", "junk.cgi": b"jump",
    "pauses.cgi": b"pause\npause\npause\nemit a", "own.cgi": Private(b"emit a"),
}
CHUNKS = {
    "two.cgi": b"emit a\nquery", "none.cgi": b"", "4096.cgi": b"cat page", "5000.cgi": b"cat more", "page": b"z" * 4096,
    "more": b"z" * 5000,
}
PIECES = {"f": b"x", "page": b"y" * 4065, "s.cgi": b"wc f\ncat f\n" * 20 + b"cat page\nwc f"}
BIG = {"big": b"z" * 2**20, "s.cgi": b"cat big", "t.cgi": b"cat big\nemit"}


def get(target, *fields, what="GET", version="1.1"):
    return lined(f"{what} {target} HTTP/{version}", *fields, "")


def of_host(target, *fields, **how):
    return get(target, "Host: a", *fields, **how)


SMALL = of_host("/", f"X: {'y' * 31}")  # a head of 63 bytes
GET_AND_HEAD = of_host("/") + of_host("/", what="HEAD")
REFUSED = {
    "no host": get("/"),
    "others": of_host("/", what="POST") + of_host("/", what="BREW") + of_host("/none"),
    "half an escape": of_host("/a%2"),
    "two dots": of_host("/../x"),
    "a body": of_host("/", "Content-Length: 5", what="POST") + b"hello",
    "too large": b"a" * WINDOW,
}
THREE = ("bytes=-2", "bytes=9-", "bytes=2-1")
TABLE = ("bytes=4-99", "bytes=0-0", "bytes=-9", "bytes=-0", "bytes=0-1,3-4", "Bytes=0-1")


def ranges(*values):
    return b"".join(of_host("/f", f"Range: {value}") for value in values)


OTHER_RANGES = (of_host("/f", "Range: bytes=0-1", "Range: bytes=0-1") + of_host("/f", "Range: bytes=0-1", "If-Range: x")
                + of_host("/f", "Range: bytes=0-1", what="HEAD") + of_host("/empty", "Range: bytes=0-0"))


def heads_at_the_limit():
    """Yields heads of 8,191, 8,192 and 8,193 bytes, and two heads after an empty line."""
    for before, count in (("", 8159), ("", 8160), ("", 8161), ("\r\n", 8158), ("\r\n", 8159)):
        yield f"{before!r} {count}", before.encode() + of_host("/", f"X: {'y' * count}")


def of_server():
    yield Served("get-and-head-byte-by-byte", INDEX, GET_AND_HEAD, late=SITE, few="1")
    yield Served("get-and-head-byte-by-byte, whole", INDEX, GET_AND_HEAD)
    for name, stream in REFUSED.items():
        yield Served(f"refused-heads, {name}", INDEX, stream, late=SITE)
    curl = get("/index.html", "Host: 127.0.0.1:8080", "User-Agent: curl/8.5.0", "Accept: */*")
    yield Served("head-of-curl", INDEX, curl, late=SITE)
    yield Served("http-1.0-closes", INDEX, get("/", version="1.0"))
    yield Served("private-file", GUESTS, of_host("/p") + of_host("/"), late=SITE)
    yield Served("three-ranges", SIX, ranges(*THREE), late=SITE)
    yield Served("table-of-ranges", SIX, ranges(*TABLE) + OTHER_RANGES, late=SITE)
    yield Served("five requests, and half a head", INDEX, of_host("/") * 5 + b"GET / HT")
    yield Served("heads-of-63-bytes", INDEX, SMALL * 12)
    for name, stream in heads_at_the_limit():
        yield Served(f"heads at the limit, {name}", INDEX, stream)


def of_scripts():
    yield ByTurns("script-and-file-by-turns", TURNS, of_host("/s.cgi?q=1"), of_host("/f"), late=SITE)
    requested = ("/all.cgi", "/p.cgi", "/junk.cgi", "/pauses.cgi", "/own.cgi", "/lost.cgi")
    yield Served("outcomes-of-a-script", OUTCOMES, b"".join(map(of_host, requested)), late=SITE)
    yield Served("two-lines-chunked", CHUNKS, of_host("/two.cgi?q=1") + of_host("/two.cgi?q=1", what="HEAD"))
    yield Served("two-lines-chunked, byte by byte", CHUNKS, of_host("/two.cgi?q=1"), few="1")
    yield Served("two-lines-chunked, HTTP/1.0", CHUNKS, get("/two.cgi?q=1", version="1.0"))
    lengths = b"".join(map(of_host, ("/none.cgi", "/4096.cgi", "/5000.cgi")))
    yield Served("two-lines-chunked, lengths", CHUNKS, lengths, chunks=2)
    yield Served("small-pieces", PIECES, of_host("/s.cgi"))
    yield Served("big-cat", BIG, of_host("/s.cgi"), chunks=17)
    yield Served("big-cat, and a line", BIG, of_host("/t.cgi"), chunks=17)


def lines(*texts):
    return "".join(f"{text}\n" for text in texts).encode()


ECHO = ("fd 0", "agg 1", "count 3", "done")
IN, END, FAILED = "in %d false false", "in 0 true false", "in 0 false true"
# The most bytes that a writer takes at once, the number of bytes requested, the bytes taken, and the number of writes.
WRITES = ((9, 9, "abcde", 2), (9, 4, "abcd", 2), (9, 3, "abc", 1), (9, 0, "", 0), (2, 9, "abcde", 3), (1, 9, "abcde", 5),
          (1, 3, "abc", 3), (0, 9, "", 1))


def taken_in(*arrivals):
    """Returns the replies of arrivals, one read for each."""
    return [f"{reply}, {reads} reads" for reads, reply in enumerate(arrivals, 1)]


def of_readers():
    yield Steps("borrowed-get", (1, "GET"), (8, 0), (1, 2), "in 8 in 8 echo 9 out 8 segment 9", lines(
        *taken_in(IN % 3, END), *ECHO, "out 1 true, 2 writes", "G", "segment baab", "ET"))
    yield Steps("refused before it reads", (65_537, "a"), (4096, 0), (9, 0), "in 9999 " * 16 + "in 9 end 0 in 0 in 9", lines(
        *taken_in(*[IN % 4096] * 16), "in refused WouldBlock, 16 reads", "done", "in refused BadRange, 16 reads",
        "in refused BrokenPipe, 16 reads"))
    whole = [IN % 4, IN % 2, END]
    for fails in (1, 2, 3):
        replies = [*whole[:fails - 1], FAILED, *whole[fails - 1:]]
        yield Steps(f"read {fails} fails", (1, "abcdef"), (4, fails), (9, 0), "in 9 " * 4, lines(*taken_in(*replies)))


def of_writers():
    """Yields rows in which two buffers, of three bytes and of two, wait to be sent."""
    waits = [*taken_in(IN % 3, IN % 2), "fd 0", "agg 1", "count 5", "done"]
    for fails, sent, writes in ((1, "", 4), (2, "ab", 4), (3, "abc", 4)):
        replies = [f"out {len(sent)} true, {fails} writes", sent, f"out {5 - len(sent)} false, {writes} writes", "abcde"]
        steps = "in 9 in 9 echo 9 out 9 out 9"
        yield Steps(f"write {fails} fails", (1, "abcde"), (3, 0), (2, fails), steps, lines(*waits, *replies))
    for most, requested, sent, writes in WRITES:
        replies = [f"out {len(sent)} {'true' if most == 0 else 'false'}, {writes} writes", sent]
        steps = f"in 9 in 9 echo 9 out {requested}"
        yield Steps(f"{most} bytes per write, {requested} requested", (1, "abcde"), (3, 0), (most, 0), steps, lines(*waits, *replies))


def rows():
    """Yields all rows, the longest ones first."""
    for some in (of_scripts, of_server, of_readers, of_writers):
        yield from some()
