"""What a server answers to curl, and to a client that asks for much at once, for tests/clients."""
import contextlib
import os
import re
import select
import socket
import ssl
import subprocess
import tempfile
import urllib.parse
import xml.etree.ElementTree

from frames import request

# A body has so many bytes at most.
LIMIT = 300_000


def curl(url, *words):
    """The status, the body, and the headers that curl is told."""
    with tempfile.NamedTemporaryFile() as headers, tempfile.NamedTemporaryFile() as body:
        told = subprocess.run(["curl", "-s", "-D", headers.name, "-o", body.name, "-w", "%{http_code}", *words, url], stdout=subprocess.PIPE, timeout=300)
        return int(told.stdout), open(body.name, "rb").read(), open(headers.name, "rb").read().lower()


def tag_in(headers):
    """The entity tag that the headers of an answer show; none where there is not exactly one."""
    tags = re.findall(rb'^etag: ("[^"]*")\r?$', headers, re.MULTILINE)
    return tags[0].decode() if len(tags) == 1 else None


def resumed(url, path, text):
    """What is in a file that has the first half of a text, once curl has resumed its download."""
    with open(path, "wb") as file:
        file.write(text[: len(text) // 2])
    subprocess.run(["curl", "-s", "-C", "-", "-o", path, url], timeout=60)
    with open(path, "rb") as file:
        return file.read()


def by_range(url, folder, large):
    part = curl(url, "-r", "0-3")
    yield "the first bytes", part[:2] == (206, large[:4]) and b"content-range: bytes 0-3/%d\r" % len(large) in part[2]
    yield "bytes within", curl(url, "-r", "1000-200000")[:2] == (206, large[1000:200001])
    yield "the last bytes", curl(url, "-r", "-5")[:2] == (206, large[-5:])
    yield "bytes from a place on", curl(url, "-r", "299990-")[:2] == (206, large[299990:])
    yield "several ranges", curl(url, "-r", "0-3,5-6")[:2] == (200, large)
    past = curl(url, "-r", "%d-" % len(large))
    yield "past the end", past[:2] == (416, b"") and b"content-range: bytes */%d\r" % len(large) in past[2]
    yield "a resumed download", resumed(url, os.path.join(folder, "resumed"), large) == large
    tag = tag_in(part[2])
    yield "a range of the same file", curl(url, "-r", "0-3", "-H", f"If-Range: {tag}")[:2] == (206, large[:4])
    yield "a range of another file", curl(url, "-r", "0-3", "-H", 'If-Range: "other"')[:2] == (200, large)


def by_condition(url, folder):
    def put(name, *words):
        return curl(url, "-T", os.path.join(folder, name), *words)[0]

    yield "put once", put("small", "-H", "If-None-Match: *") == 201
    yield "put once more", put("small", "-H", "If-None-Match: *") == 412
    old = tag_in(curl(url)[2])
    yield "a tag", old is not None and tag_in(curl(url, "-I")[2]) == old
    status, body, headers = curl(url, "-H", f"If-None-Match: {old}")
    yield "not modified", (status, body, tag_in(headers)) == (304, b"", old)
    yield "another tag", curl(url, "-H", 'If-None-Match: "other"')[0] == 200
    yield "put on the same file", put("other", "-H", f"If-Match: {old}") == 204
    new = tag_in(curl(url)[2])
    yield "put on a file that has changed", put("small", "-H", f"If-Match: {old}") == 412
    yield "a new tag", new not in (None, old) and curl(url)[1] == b"other\n"
    yield "if that holds", put("small", "-H", f"If: <{url}> ([{new}])") == 204
    yield "if that doesn't hold", put("other", "-H", f"If: ([{old}])") == 412
    yield "if before anything else", curl(url + "-none", "-H", "If: (<urn:x>)")[0] == 412
    yield "if that isn't read", curl(url, "-H", "If: no list")[0] == 400
    yield "behind the conditions", curl(url)[:2] == (200, b"hello\n")


def properties_in(response):
    """The properties of one resource that are told with their values, by their names."""
    told = [it.find("{DAV:}prop") for it in response.iter("{DAV:}propstat") if " 200 " in it.findtext("{DAV:}status")]
    return {it.tag: it for prop in told for it in prop}


def of_properties(url):
    def patched(name, change):
        body = f'<D:propertyupdate xmlns:D="DAV:" xmlns:o="urn:o">{change}</D:propertyupdate>'
        return curl(url + name, "-X", "PROPPATCH", "-d", body)[:2]

    def found(name, depth, asked):
        body = f'<D:propfind xmlns:D="DAV:">{asked}</D:propfind>'
        status, told, _ = curl(url + name, "-X", "PROPFIND", "-H", f"Depth: {depth}", "-d", body)
        if status != 207:
            return status, []
        return status, [(it.findtext("{DAV:}href"), properties_in(it)) for it in xml.etree.ElementTree.fromstring(told)]

    place = urllib.parse.urlsplit(url).path
    yield "a folder with properties", curl(url, "-X", "MKCOL")[0] == 201 and curl(url + "a", "-X", "PUT", "-d", "abc")[0] == 201
    set_one = "<D:set><D:prop><o:colour xml:lang='en'>r&amp;d <o:deep/></o:colour></D:prop></D:set>"
    status, body = patched("a", set_one)
    yield "a property is set", status == 207 and b"200 OK" in body
    status, answers = found("", 1, "<D:allprop/>")
    yield "what stands there", status == 207 and [path for path, _ in answers] == [place, place + "a"]
    folder, file = (told for _, told in answers)
    yield "a length, a tag", file["{DAV:}getcontentlength"].text == "3" and file["{DAV:}getetag"].text == tag_in(curl(url + "a", "-I")[2])
    yield "which is a folder", [len(it["{DAV:}resourcetype"]) for it in (folder, file)] == [1, 0] and "{urn:o}colour" not in folder
    kept = file["{urn:o}colour"]
    yield "a property is told", (kept.text, [it.tag for it in kept], kept.get("{http://www.w3.org/XML/1998/namespace}lang")) == ("r&d ", ["{urn:o}deep"], "en")
    status, body = patched("a", "<D:remove><D:prop><o:colour/></D:prop></D:remove><D:set><D:prop><D:getetag>x</D:getetag></D:prop></D:set>")
    yield "all or none", status == 207 and b"403 Forbidden" in body and b"424 Failed Dependency" in body and b"200 OK" not in body
    asked = "<D:prop xmlns:o='urn:o'><o:colour/><o:none/></D:prop>"
    yield "what is asked for", [[*told] for _, told in found("a", 0, asked)[1]] == [["{urn:o}colour"]]
    yield "a property is removed", patched("a", "<D:remove><D:prop><o:colour/></D:prop></D:remove>")[0] == 207 and found("a", 0, asked)[1] == [(place + "a", {})]
    yield "properties of nothing", (patched("none", set_one)[0], found("none", 0, asked)[0], curl(url + "none")[0]) == (404, 404, 404)
    yield "a body that is none", found("a", 0, "<D:prop>")[0] == 400


def by_curl(url, folder):
    small, large = b"hello\n", bytes(n * n % 251 for n in range(LIMIT))
    for name, text in (("small", small), ("other", b"other\n"), ("large", large), ("longer", large + b"-")):
        with open(os.path.join(folder, name), "wb") as file:
            file.write(text)

    def put(name, path):
        return curl(url + path, "-T", os.path.join(folder, name))[0]

    yield "put", put("small", "a.txt") == 201
    yield "put again", put("small", "a.txt") == 204
    yield "get", curl(url + "a.txt")[:2] == (200, small)
    status, _, headers = curl(url + "a.txt", "-I")
    yield "head", status == 200 and b"content-type: text/plain" in headers
    yield "put what is large", put("large", "b%20c") == 201
    yield "get what is large", curl(url + "b%20c")[:2] == (200, large)
    yield "past the limit", put("longer", "d") == 413
    yield "what was past the limit", curl(url + "d")[0] == 404
    status, body, headers = curl(url)
    yield "a folder", status == 200 and b"text/html" in headers and b'href="/a.txt"' in body and b"b%20c" in body
    yield "put on a folder", curl(url, "-X", "PUT", "--data-binary", "@" + os.path.join(folder, "small"))[0] == 405
    yield "put below a file", put("small", "a.txt/b") == 409
    yield "put without a folder", put("small", "none/b") == 409
    status, body, headers = curl(url, "-X", "OPTIONS")
    yield "options", status == 200 and b"dav: 1, 2" in headers and b" lock, unlock\r" in headers
    yield "a method that is not served", curl(url + "a.txt", "-X", "PATCH")[0] == 501
    yield from by_range(url + "b%20c", folder, large)
    yield from by_condition(url + "conditions", folder)
    yield from of_folders(url, folder)
    yield from of_removals(url)
    yield from of_copies(url)
    yield from of_moves(url)
    yield from by_tag(url)
    yield from of_properties(url + "properties/")
    yield from of_large_folders(url)


def of_folders(url, folder):
    yield "a new folder", curl(url + "made/", "-X", "MKCOL")[0] == 201
    yield "a folder once more", curl(url + "made", "-X", "MKCOL")[0] == 405
    yield "a folder in place of a file", curl(url + "a.txt", "-X", "MKCOL")[0] == 405
    yield "a folder below a file", curl(url + "a.txt/made", "-X", "MKCOL")[0] == 409
    yield "a folder below nothing", curl(url + "none/made", "-X", "MKCOL")[0] == 409
    yield "a folder with a body", curl(url + "with-body", "-X", "MKCOL", "-d", "x")[0] == 415
    yield "put into a folder", curl(url + "made/small", "-T", os.path.join(folder, "small"))[0] == 201
    yield "the page of a folder", b'href="/made/small"' in curl(url + "made")[1]
    yield "unlock without a token", curl(url + "made", "-X", "UNLOCK")[0] == 400
    status, body, headers = curl(url + "made", "-X", "UNLOCK", "-H", "Lock-Token: <urn:x>")
    yield "unlock what isn't locked", status == 409
    yield "why it isn't unlocked", b"<D:lock-token-matches-request-uri>" in body and b"content-type: application/xml; charset=utf-8" in headers


def of_removals(url):
    def delete(path, *words):
        return curl(url + path, "-X", "DELETE", *words)[0]

    yield "delete the root", delete("") == 403
    yield "delete the root to a depth", delete("", "-H", "Depth: 0") == 400
    yield "delete a folder to a depth", delete("made", "-H", "Depth: 1") == 400
    yield "what was not deleted", curl(url + "made/small")[0] == 200
    yield "delete a folder", delete("made") == 204
    yield "what was in it", curl(url + "made/small")[0] == 404
    yield "delete it once more", delete("made") == 404
    yield "delete below a file", delete("a.txt/b") == 404
    yield "delete a file", delete("b%20c", "-H", "Depth: infinity") == 204
    yield "what was a file", curl(url + "b%20c")[0] == 404
    yield "a wide folder", makes(url, WIDE)
    yield "delete a wide folder", delete("wide") == 204
    yield "a deep folder", makes(url, DEEP)
    yield "delete a deep folder", delete("deep") == 204
    yield "what is left", delete("wide") == 404 and delete("deep") == 404 and curl(url + "a.txt")[0] == 200


def by_tag(url):
    """A client that deletes and moves a file as it has seen it, by the tag."""
    def put(text):
        return tag_in(curl(url + "tagged", "-X", "PUT", "-d", text)[2])

    for method, words, done in (("DELETE", (), 204), ("MOVE", ("-H", f"Destination: {url}moved-by-tag"), 201)):
        seen, there = put("seen"), put("changed behind its back")
        asked = [url + "tagged", "-X", method, *words, "-H"]
        yield f"{method} by tag: two tags", None not in (seen, there) and seen != there
        yield f"{method} by the tag of what has changed", curl(*asked, f"If-Match: {seen}")[0] == 412
        yield f"{method} by tag: what is left", curl(url + "tagged")[:2] == (200, b"changed behind its back") and curl(url + "moved-by-tag")[0] == 404
        yield f"{method} by the tag of what is there", curl(*asked, f"If-Match: {there}")[0] == done
        yield f"{method} by tag: what is gone", curl(url + "tagged")[0] == 404
    yield "what was moved by tag", curl(url + "moved-by-tag")[:2] == (200, b"changed behind its back")


def sends(url, method, path, to, *words):
    """The status of a COPY or a MOVE to a place."""
    return curl(url + path, "-X", method, "-H", f"Destination: {to}", *words)[0]


def of_transfers(url, method):
    """What a COPY and a MOVE share; the file `from-METHOD` and the folder `folder-METHOD` stay."""
    source, into = f"from-{method}", f"folder-{method}"
    made = answers(url, [b"PUT /" + source.encode(), b"PUT /there", b"MKCOL /" + into.encode(), b"PUT /%b/member" % into.encode()])
    yield f"{method}: what is there", made.count(b"HTTP/1.1 201 ") + made.count(b"HTTP/1.1 204 ") == 4
    for name, path, to, words, wanted in (
        ("to a depth", into, "/n", ("-H", "Depth: 1"), 400),
        ("where something stands", source, "/there", ("-H", "Overwrite: F"), 412),
        ("an overwrite that isn't read", source, "/n", ("-H", "Overwrite: no"), 400),
        ("to no URL", source, "n", (), 400),
        ("to another host", source, "http://other/n", (), 502),
        ("to another port", source, "http://127.0.0.1:1/n", (), 502),
        ("to another scheme", source, ("http:" if is_secure(url) else "https:") + url.partition(":")[2] + "n", (), 502),
        ("out of the root", source, "/../n", (), 403),
        ("onto itself", source, url + source, (), 403),
        ("to above itself", f"{into}/member", "/" + into, (), 403),
        ("onto the root", source, url, (), 403),
        ("of nothing", "none", "/n", (), 404),
        ("below nothing", source, "/none/n", (), 409),
        ("below a file", source, url + "there/n", (), 409),
        ("if that doesn't hold", source, "/n", ("-H", "If: (<urn:x>)"), 412),
    ):
        yield f"{method} {name}", sends(url, method, path, to, *words) == wanted
    yield f"{method} without a destination", curl(url + source, "-X", method)[0] == 400
    yield f"{method}: what is left", [curl(url + path)[0] for path in (source, "there", f"{into}/member", "n")] == [200, 200, 200, 404]


def of_copies(url):
    yield from of_transfers(url, "COPY")
    text = curl(url + "a.txt")[1]
    yield "copy a file", sends(url, "COPY", "a.txt", url + "copied") == 201
    yield "the copy", curl(url + "copied")[:2] == (200, text) == curl(url + "a.txt")[:2]
    yield "copy onto a file", sends(url, "COPY", "a.txt", "/there", "-H", "Overwrite: T") == 204
    yield "what was another file", curl(url + "there")[:2] == (200, text)
    yield "copy a folder", sends(url, "COPY", "folder-COPY", "/copies/", "-H", "Depth: infinity") == 201
    yield "what is in the copy", curl(url + "copies/member")[0] == 200
    yield "copy a folder alone", sends(url, "COPY", "folder-COPY", url + "alone", "-H", "Depth: 0") == 201
    yield "what isn't in the copy", curl(url + "alone/member")[0] == 404
    yield "copy onto a folder", sends(url, "COPY", "alone", "/copies") == 204
    yield "what was in it", curl(url + "copies/member")[0] == 404
    yield "copy to below itself", sends(url, "COPY", "folder-COPY", "/folder-COPY/n") == 201
    yield "once", [curl(url + "folder-COPY" + path)[0] for path in ("/member", "/n/member", "/n/n")] == [200, 200, 404]


def of_moves(url):
    yield from of_transfers(url, "MOVE")
    yield "move the root", sends(url, "MOVE", "", "/n") == 403
    yield "move to below itself", sends(url, "MOVE", "folder-MOVE", "/folder-MOVE/n") == 403
    yield "move a folder alone", sends(url, "MOVE", "folder-MOVE", "/n", "-H", "Depth: 0") == 400
    text = curl(url + "copied")[1]
    yield "move a file", sends(url, "MOVE", "copied", url + "moved") == 201
    yield "what was moved", curl(url + "moved")[:2] == (200, text) and curl(url + "copied")[0] == 404
    yield "move onto a file", sends(url, "MOVE", "moved", "/there", "-H", "Overwrite: T") == 204
    yield "what is there", curl(url + "there")[:2] == (200, text) and curl(url + "moved")[0] == 404
    yield "move a folder", sends(url, "MOVE", "folder-MOVE", "/moves/", "-H", "Depth: infinity") == 201
    yield "what was in it", [curl(url + path)[0] for path in ("moves/member", "folder-MOVE/member", "folder-MOVE")] == [200, 404, 404]
    yield "move onto a folder", sends(url, "MOVE", "alone", "/moves") == 204
    yield "what is in it", [curl(url + path)[0] for path in ("moves", "moves/member", "alone")] == [200, 404, 404]


WIDE = [b"MKCOL /wide", *(b"PUT /wide/%d" % n for n in range(10_000))]
DEEP = [b"MKCOL " + b"/deep" * n for n in range(1, 1001)]


def makes(url, requests):
    """Whether each of the requests makes something."""
    return answers(url, requests).count(b"HTTP/1.1 201 ") == len(requests)


def of_large_folders(url):
    def members(path):
        return curl(url + path)[1].count(b"<li>")

    def bottom(path):
        return curl(url + path + "/deep" * 999)[0]

    yield "a wide folder again", makes(url, WIDE)
    yield "copy a wide folder", sends(url, "COPY", "wide", "/wide-copy") == 201
    yield "its members", members("wide") == members("wide-copy") == 10_000
    yield "move a wide folder", sends(url, "MOVE", "wide", "/wide-moved") == 201
    yield "its members there", members("wide-moved") == 10_000 and curl(url + "wide")[0] == 404
    yield "move onto a wide folder", sends(url, "MOVE", "wide-moved", "/wide-copy") == 204
    yield "its members then", members("wide-copy") == 10_000 and curl(url + "wide-moved")[0] == 404
    yield "delete a wide copy", curl(url + "wide-copy", "-X", "DELETE")[0] == 204
    yield "a deep folder again", makes(url, DEEP)
    yield "copy a deep folder", sends(url, "COPY", "deep", "/deep-copy") == 201
    yield "its bottom", (bottom("deep"), bottom("deep-copy")) == (200, 200)
    yield "move a deep folder", sends(url, "MOVE", "deep", "/deep-moved") == 201
    yield "its bottom there", (bottom("deep-moved"), bottom("deep")) == (200, 404)
    yield "copy onto a deep folder", sends(url, "COPY", "deep-moved", "/deep-copy") == 204
    yield "its bottom then", (bottom("deep-moved"), bottom("deep-copy")) == (200, 200)
    yield "delete the deep folders", [curl(url + path, "-X", "DELETE")[0] for path in ("deep-moved", "deep-copy")] == [204, 204]
    yield "what is left of the large ones", [curl(url + path)[0] for path in ("wide", "wide-moved", "wide-copy", "deep", "deep-moved", "deep-copy", "a.txt")] == [404] * 6 + [200]


def answers(url, requests):
    """What a client is told that sends all of the requests, each without a body, before it waits for an answer."""
    sent = b"".join(request(line, b"") for line in requests[:-1]) + request(requests[-1], b"", b"Connection: close\r\n")
    with socket.create_connection(place_of(url)) as client:
        client = secured(client) if is_secure(url) else client
        client.setblocking(False)
        told = bytearray()
        while True:
            select.select([client], [client] if sent else [], [], 300)
            with contextlib.suppress(BlockingIOError, ssl.SSLWantReadError, ssl.SSLWantWriteError):
                if sent:
                    # As much as goes into one record: what is refused has to come again as it was.
                    sent = sent[client.send(sent[:16_384]):]
            with contextlib.suppress(BlockingIOError, ssl.SSLWantReadError, ssl.SSLWantWriteError):
                piece = client.recv(1 << 16)
                if not piece:
                    return bytes(told)
                told += piece


def is_secure(url):
    return url.startswith("https:")


def secured(client):
    """A client that speaks TLS, and trusts what curl does."""
    return ssl.create_default_context(cafile=os.environ["CURL_CA_BUNDLE"]).wrap_socket(client, server_hostname="127.0.0.1")


def place_of(url):
    where = urllib.parse.urlsplit(url)
    return where.hostname, where.port
