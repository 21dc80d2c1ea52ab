"""What `page` answers to HTTP requests, by the modules of examples/site.

The table of answers stands in docs/COMMANDS.md.
"""
import pathlib

from rows import Run

SITE = str(pathlib.Path(__file__).parent.parent / "examples" / "site")
A = b"export const n = 1;\n"
M = b'import "/a.js?v=1";\n'
REASONS = {
    200: "OK",
    400: "Bad Request",
    404: "Not Found",
    405: "Method Not Allowed",
    414: "URI Too Long",
    431: "Request Header Fields Too Large",
}


def answer(status, closes, body=None, bare=False):
    """The bytes of an answer; its body is told for 200 alone."""
    if body is None:
        body = f"{status} {REASONS[status]}\n".encode()
    lines = [f"HTTP/1.1 {status} {REASONS[status]}"]
    if status == 405:
        lines.append("Allow: GET, HEAD")
    lines.append("Content-Type: text/" + ("javascript" if status == 200 else "plain"))
    lines.append(f"Content-Length: {len(body)}")
    lines.append("Connection: " + ("close" if closes else "keep-alive"))
    return "".join(line + "\r\n" for line in [*lines, ""]).encode() + (b"" if bare else body)


def head(first, *fields):
    return "".join(line + "\r\n" for line in [first, *fields, ""]).encode()


def page(text, *answers):
    return Run(["page", SITE], text, 0, b"".join(answers))


def of_length(size):
    """A head of so many bytes."""
    first = head("GET /a.js HTTP/1.1", "x: ")
    return head("GET /a.js HTTP/1.1", "x: " + "x" * (size - len(first)))


GET_M = head("GET /m.js HTTP/1.1", "Host: x")
ON_A = answer(200, False, A)
ON_M = answer(200, False, M)
BAD = answer(400, True)


def worked():
    """The two cases with which the answers are told."""
    yield page(GET_M, ON_M)
    first = head("POST /m.js HTTP/1.1", "Host: x")
    second = head("GET /x.js HTTP/1.0")
    yield page(first + second, answer(405, False), answer(404, True))


def turns():
    """One request after another, up to an answer that closes."""
    yield page(b"")
    yield page(GET_M * 3, ON_M, ON_M, ON_M)
    yield page(head("GET /m.js HTTP/1.0") + GET_M, answer(200, True, M))
    yield page(head("GET /m.js HTTP/1.0", "Connection: keep-alive") + GET_M, answer(200, True, M))
    yield page(head("GET /m.js HTTP/1.1", "CONNECTION: Close") + GET_M, answer(200, True, M))
    yield page(head("GET /m.js HTTP/1.1", "CONNECTION:  Close ") + GET_M, answer(200, True, M))
    yield page(head("GET /m.js HTTP/1.1", "Connection: keep-alive, close") + GET_M, ON_M, ON_M)
    yield page(b"\r\n" + GET_M, ON_M)
    yield page(head("HEAD /m.js HTTP/1.1") + GET_M, answer(200, False, M, bare=True), ON_M)
    yield page(head("HEAD /x.js HTTP/1.1"), answer(404, False, bare=True))
    yield page(GET_M + b"\r\n" + GET_M, ON_M, ON_M)


def cut():
    """An input that ends within a head, and heads at the limit."""
    yield page(GET_M[:-1], BAD)
    yield page(GET_M + b"G", ON_M, BAD)
    yield page(b"\r\n\r\n" + GET_M, BAD)
    yield page(of_length(8192), ON_A)
    yield page(of_length(8193), answer(431, True))
    yield page(b"x" * 8191, BAD)
    yield page(b"x" * 8192, answer(431, True))


def refused():
    """Heads that ask for a body, or that are no heads."""
    yield page(head("GET /m.js HTTP/1.1", "Content-Length: 0") * 2, ON_M, ON_M)
    yield page(head("GET /m.js HTTP/1.1", "Content-Length: 0", "Content-Length: 0"), ON_M)
    yield page(head("GET /m.js HTTP/1.1", "Content-Length: 0", "Content-Length: 1"), BAD)
    for field in ["Content-Length: 00", "Content-Length: 0, 0", "Content-Length: 1", "transfer-ENCODING: identity"]:
        yield page(head("GET /m.js HTTP/1.1", field) + GET_M, BAD)
    yield page(head("HEAD /m.js HTTP/1.1", "Content-Length: 1") + GET_M, answer(400, True, bare=True))
    yield page(head("POST /m.js HTTP/1.1", "Content-Length: 1") + b"x", BAD)
    yield page(b"GET /m.js HTTP/1.1\nHost: x\n\r\n\r\n", BAD)
    yield page(b"GET /m.js HTTP/1.1\n\n\r\n\r\n", BAD)
    yield page(b"GET /m.js HTTP/1.1\na: b\r\n\r\n", ON_M)
    for version in ["2.0", "1.2"]:
        yield page(head(f"GET /m.js HTTP/{version}"), BAD)
    yield page(head("GET /m.js HTTP/1.1", *["a: b"] * 64), ON_M)
    yield page(head("GET /m.js HTTP/1.1", *["a: b"] * 65), BAD)
    yield page(b"GET /\xff.js HTTP/1.1\r\n\r\n", BAD)


def targets():
    """Names and what isn't served under one."""
    yield page(head("GET /m.js?v=1 HTTP/1.1") + head("GET /m.js? HTTP/1.1"), ON_M, ON_M)
    for target in ["/", "?/m.js", "/m.js/", "/%6d.js", "/a%20b.js", "//m.js", "http://x/m.js", "*"]:
        yield page(head(f"GET {target} HTTP/1.1"), answer(404, False))
    yield page(head(f"GET /{'x' * 1023} HTTP/1.1"), answer(404, False))
    yield page(head(f"GET /{'x' * 1024} HTTP/1.1"), answer(414, False))
    yield page(head(f"PUT /{'x' * 1024} HTTP/1.1"), answer(405, False))
    yield page(head(f"HEAD /{'x' * 1024} HTTP/1.0"), answer(414, True, bare=True))


def runs():
    yield from worked()
    yield from turns()
    yield from cut()
    yield from refused()
    yield from targets()
    yield Run(["page", SITE + "/none"], b"", 6, b"")
