"""The short forms in the rows of tests/rows/server, and what they stand for."""
import email.utils
import re

LENGTHS = "content-type: application/xml; charset=utf-8\r\ncontent-length: {}\r\n\r\n"
FILE = 'HTTP/1.1 200 OK\r\netag: "{}"\r\nlast-modified: Thu, 01 Jan 1970 00:00:01 GMT\r\ncontent-type: application/octet-stream\r\naccept-ranges: bytes\r\ncontent-length: {}\r\n\r\n'
ASKED = '<D:lockinfo xmlns:D="DAV:"><D:lockscope><D:{}/></D:lockscope><D:locktype><D:write/></D:locktype>{}</D:lockinfo>'
ACTIVE = (
    "<D:activelock><D:lockscope><D:{scope}></D:{scope}></D:lockscope><D:locktype><D:write></D:write></D:locktype><D:depth>{depth}</D:depth>"
    "{owner}<D:timeout>{timeout}</D:timeout>{token}<D:lockroot><D:href>{path}</D:href></D:lockroot></D:activelock>"
)
MEMBER = "<D:response><D:href>{}</D:href><D:status>HTTP/1.1 423 Locked</D:status><D:error><D:{}></D:{}></D:error></D:response>"
FAILED = "<D:response><D:href>{}</D:href><D:status>HTTP/1.1 424 Failed Dependency</D:status></D:response>"


def document(status, name, inside):
    """An answer whose body is this element of `DAV:`."""
    body = f'<D:{name} xmlns:D="DAV:">{inside}</D:{name}>'
    return f"HTTP/1.1 {status}\r\n" + LENGTHS.format(len(body.encode())) + body


def body(text):
    """The end of a request with this body."""
    return f"Content-Length: {len(text.encode())}\r\n\r\n{text}"


def active(words, tokens):
    """A lock that an answer tells."""
    lock, found, owner = words.partition(" <")
    scope, depth, timeout, number, path = lock.split(" ", 4)
    token = "" if number == "-" else f"<D:locktoken><D:href>{tokens[int(number)]}</D:href></D:locktoken>"
    return ACTIVE.format(scope=scope, depth=depth, timeout=timeout, token=token, path=path, owner=found.strip() + owner)


def discovered(status, locks, tokens):
    """An answer that tells locks."""
    inside = "".join(active(lock, tokens) for lock in locks.split("~"))
    return document(status, "prop", f"<D:lockdiscovery>{inside}</D:lockdiscovery>")


def granted(told, tokens):
    head, _, locks = told.partition("~")
    number, _, status = head.partition(" ")
    return discovered(f"{status}\r\nlock-token: <{tokens[int(number)]}>", locks, tokens)


def below(told):
    at, _, path = told.partition(" ")
    return document("207 Multi-Status", "multistatus", MEMBER.format(at, "no-conflicting-lock", "no-conflicting-lock") + FAILED.format(path))


def asked(told):
    scope, _, owner = told.partition(" ")
    return body(ASKED.format(scope, owner))


FORMS = {
    "n": lambda told: "\n",
    "h": lambda told: " HTTP/1.1\r\nHost: h",
    "bare": lambda told: f"HTTP/1.1 {told}\r\ncontent-length: 0\r\n\r\n",
    "made": lambda told: f'HTTP/1.1 201 Created\r\netag: "{told}"\r\ncontent-length: 0\r\n\r\n',
    "kept": lambda told: f'HTTP/1.1 204 No Content\r\netag: "{told}"\r\n\r\n',
    "file": lambda told: FILE.format(told, told.partition("-")[2]),
    "placed": lambda told: f"HTTP/1.1 201 Created\r\nlocation: {told}\r\ncontent-length: 0\r\n\r\n",
    "locked": lambda told: document("423 Locked", "error", f"<D:lock-token-submitted><D:href>{told}</D:href></D:lock-token-submitted>"),
    "member": lambda told: document("207 Multi-Status", "multistatus", MEMBER.format(told, "lock-token-submitted", "lock-token-submitted")),
    "no": lambda told: document("409 Conflict", "error", "<D:lock-token-matches-request-uri></D:lock-token-matches-request-uri>"),
    "conflict": lambda told: document("423 Locked", "error", f"<D:no-conflicting-lock><D:href>{told}</D:href></D:no-conflicting-lock>"),
    "below": below,
    "body": body,
    "ask": asked,
}
OF_LOCKS = {"granted": granted, "refreshed": lambda told, tokens: discovered("200 OK", told, tokens)}


def written_out(text, tokens):
    """A request or an answer of a row as its bytes are."""

    def named(found):
        form, _, told = found[1].partition(" ")
        if form in FORMS:
            return FORMS[form](told)
        return OF_LOCKS[form](told, tokens) if form in OF_LOCKS else tokens[int(form)]

    return re.sub(r"\{([^}]*)\}", named, text.replace("|", "\r\n"), flags=re.DOTALL).encode()


def dated(answer, second):
    """An answer with its date behind its first line."""
    status, _, rest = answer.partition(b"\r\n")
    return status + b"\r\ndate: " + email.utils.formatdate(second, usegmt=True).encode() + b"\r\n" + rest
