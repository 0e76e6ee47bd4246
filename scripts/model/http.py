"""The responses to a stream of requests, from files and scripts: a second description of docs/HTTP.md."""
import re
from urllib.parse import unquote_to_bytes

from model import cgi

WINDOW = 8192
CHUNK = 4096
MOST_FIELDS = 64
PHRASES = {
    200: "OK", 206: "Partial Content", 400: "Bad Request", 403: "Forbidden", 404: "Not Found",
    405: "Method Not Allowed", 416: "Range Not Satisfiable", 431: "Request Header Fields Too Large", 500: "Internal Server Error",
    501: "Not Implemented", 503: "Service Unavailable",
}
TYPES = {
    ".html": "text/html", ".txt": "text/plain", ".css": "text/css", ".js": "text/javascript", ".json": "application/json",
    ".png": "image/png", ".jpg": "image/jpeg",
}
NOT_SERVED = (b"POST", b"PUT", b"DELETE", b"CONNECT", b"OPTIONS", b"TRACE", b"PATCH")
TOKEN = rb"[!#$%&'*+\-.^_`|~0-9A-Za-z]+"
VALUE = rb"[\t\x20-\x7e\x80-\xff]*"
HEAD = re.compile(rb"(%s) ([^\x00-\x20\x7f]+) HTTP/1\.([01])\r?\n((?:%s:%s\r?\n)*)\r?\n" % (TOKEN, TOKEN, VALUE))
FIELD = re.compile(rb"(%s):(%s)\r?\n" % (TOKEN, VALUE))
EMPTY_LINES = re.compile(rb"(?:\r?\n)*")
END = re.compile(rb"\n\r?\n")
HOST = re.compile(rb"(?:(?![/?#@])[\x21-\x7e])*")
TARGET = re.compile(rb"(?:https?://[^/?#]+)?([^?#]*)(?:\?([^#]*))?", re.IGNORECASE)
PATH = re.compile(rb"(?:/(?:(?![#<>?`])[\x21-\x7e\x80-\xff])*)?")
QUERY = re.compile(rb"(?:(?![\"#<>])[\x21-\x7e\x80-\xff])*")
UNESCAPED = re.compile(rb"%(?![0-9A-Fa-f]{2})")
RANGE = re.compile(rb"bytes=(?:([0-9]{1,15})-([0-9]{1,15})?|-([0-9]{1,15}))")


def lined(*lines):
    return "".join(f"{line}\r\n" for line in lines).encode()


def response(code, kind="text/plain", body=None, more=(), closes=False, is_head=False):
    """Returns a response: a head, and a body unless it is for HEAD. The default body is that of a refusal."""
    body = f"{code} {PHRASES[code]}\n".encode() if body is None else body
    allow = ["Allow: GET, HEAD"] if code == 405 else []
    fields = (f"Content-Type: {kind}", f"Content-Length: {len(body)}", *more, *allow, *["Connection: close"] * closes)
    head = lined(f"HTTP/1.1 {code} {PHRASES[code]}", *fields, "")
    return head if is_head else head + body


def chunked(data):
    """Returns a body in chunks (RFC 9112, section 7.1)."""
    pieces = [data[at:at + CHUNK] for at in range(0, len(data), CHUNK)]
    return b"".join(b"%x\r\n%s\r\n" % (len(piece), piece) for piece in [*pieces, b""])


def response_in_chunks(data, closes=False, is_head=False, is_old=False):
    """Returns the response with the output of a script. For HTTP/1.0 the body is not chunked, and ends with the connection."""
    fields = ["Transfer-Encoding: chunked"] * (not is_old) + ["Connection: close"] * closes
    head = lined("HTTP/1.1 200 OK", "Content-Type: text/plain", *fields, "")
    if is_head:
        return head
    return head + (data if is_old else chunked(data))


def type_of(name):
    return next((kind for end, kind in TYPES.items() if name.endswith(end)), "application/octet-stream")


def is_utf8(data):
    try:
        data.decode()
    except UnicodeDecodeError:
        return False
    return True


def file_and_query(target):
    """Returns the name of the target's file, and the query; None if the target is refused."""
    found = TARGET.fullmatch(target)
    path = (found[1] or (b"" if target.startswith(b"/") else b"/")) if found else b""
    is_absolute = bool(found) and found.start(1) > 0
    if not found or not path or not (is_absolute or target.startswith(b"/")) or not PATH.fullmatch(path):
        return None
    if not QUERY.fullmatch(found[2] or b"") or UNESCAPED.search(path):
        return None
    decoded = unquote_to_bytes(path)
    if not is_utf8(decoded) or b"\0" in decoded or {b".", b".."} & {*decoded.split(b"/")}:
        return None
    return decoded.removeprefix(b"/").decode() or "index.html", found[2] or b""


class Head:
    """A head that matches the grammar: the parts that the server uses."""

    def __init__(self, found):
        self.method, self.target, minor, fields = found.groups()
        self.is_old = minor == b"0"
        self.fields = [(name.lower(), value.strip(b" \t")) for name, value in FIELD.findall(fields)]
        options = [part.strip(b" \t").lower() for value in self.values(b"connection") for part in value.split(b",")]
        self.closes = self.is_old or b"close" in options
        self.is_head = self.method == b"HEAD"

    def values(self, name):
        return [value for its, value in self.fields if its == name]

    def refusal(self):
        """Returns the code of the first check that fails, or None."""
        hosts = self.values(b"host")
        if not self.is_old and (len(hosts) != 1 or not HOST.fullmatch(hosts[0])):
            return 400
        if self.values(b"transfer-encoding") or any(value != b"0" for value in self.values(b"content-length")):
            return 400
        if self.method not in (b"GET", b"HEAD"):
            return 405 if self.method in NOT_SERVED else 501
        return 400 if file_and_query(self.target) is None else None

    def part(self, size):
        """Returns the range requested of a body of `size` bytes, or None if the whole body is requested."""
        values = self.values(b"range")
        found = RANGE.fullmatch(values[0]) if len(values) == 1 else None
        if not found or self.is_head or self.values(b"if-range") or size == 0:
            return None
        first, last, count = (None if number is None else int(number) for number in found.groups())
        if count is not None:
            return max(0, size - count) if count else size, size
        return None if last is not None and last < first else (first, size if last is None else min(last + 1, size))

    def script_response(self, parts):
        """Returns the response of a script whose lines have these outputs."""
        return response_in_chunks(b"".join(parts), self.closes, self.is_head, self.is_old)

    def refused(self, code):
        """Returns the response if a call on the requested file is refused."""
        return response(code, closes=self.closes, is_head=self.is_head)

    def requested(self, files):
        """Returns the name of the requested file, and the query, or None if there is no such file."""
        named = None if self.refusal() else file_and_query(self.target)
        return named if named and named[0] in files else None

    def file_response(self, name, data):
        """Returns the response with a file, or with the requested part of it."""
        how = {"closes": self.closes, "is_head": self.is_head}
        part = self.part(len(data))
        if part is None:
            return response(200, type_of(name), data, **how)
        first, end = part
        if first >= len(data):
            return response(416, more=[f"Content-Range: bytes */{len(data)}"], **how)
        more = [f"Content-Range: bytes {first}-{end - 1}/{len(data)}"]
        return response(206, type_of(name), data[first:end], more, **how)

    def answer(self, files):
        """Returns the response, and whether the connection closes."""
        code = self.refusal()
        if code:
            closes = self.closes or code == 400
            return response(code, closes=closes, is_head=self.is_head), closes
        name, query = file_and_query(self.target)
        if name not in files:
            return self.refused(404), self.closes
        if isinstance(files[name], cgi.Private):
            return self.refused(403), self.closes
        if not name.endswith(".cgi"):
            return self.file_response(name, files[name]), self.closes
        lines = cgi.lines_of(files[name])
        text = self.refused(500) if lines is None else self.script_response(cgi.parts(lines, query, files))
        return text, self.closes


def head_of(text):
    """Returns a head, or None if the text is no head or has too many fields."""
    found = HEAD.fullmatch(text)
    head = Head(found) if found and is_utf8(found[2]) else None
    return head if head and len(head.fields) <= MOST_FIELDS else None


def replies(stream, files):
    """Yields for each request of a stream that ends, in order, its head (or None if it is no head) and its response."""
    while True:
        window = stream[:WINDOW]
        start = EMPTY_LINES.match(window).end()
        end = END.search(window, start)
        if not end:
            if len(window) == WINDOW:
                yield None, response(431, closes=True)
            return
        head = head_of(window[start:end.end()])
        text, closes = head.answer(files) if head else (response(400, closes=True), True)
        yield head, text
        if closes:
            return
        stream = stream[end.end():]


def answer_to(stream, files):
    """Returns the responses to a stream that ends."""
    return b"".join(text for _, text in replies(stream, files))
