"""What TLS takes of the listener and of nginx, beside each other in one run, for bench/servers --tls."""
import contextlib
import os
import re
import socket
import ssl
import subprocess
import sys
import tempfile

from foreign import made_certificate
from programs import need
from serving import family, free_port, on_one_processor, on_the_others, processors, stopped, wait_for

TOP = os.path.join(os.path.dirname(os.path.abspath(__file__)), "..")
ROUNDS, SECONDS, IDLE = 5, 2, 400
FILES = {"1k": 1000, "10m": 10_000_000}
OF_LISTENER = ["--connections", "5000", "--connections-per-address", "5000", "--idle", "600"]
NGINX = """
user root;
daemon off;
worker_processes 1;
pid {folder}/pid;
error_log {folder}/errors;
events {{ worker_connections 4000; }}
http {{
    access_log off;
    sendfile on;
    tcp_nopush on;
    keepalive_requests 100000000;
    keepalive_timeout 600s;
    client_body_temp_path {folder}/body; proxy_temp_path {folder}/proxy; fastcgi_temp_path {folder}/fastcgi; uwsgi_temp_path {folder}/uwsgi; scgi_temp_path {folder}/scgi;
    upstream davserve {{ server 127.0.0.1:{behind}; keepalive 64; keepalive_requests 100000000; }}
    ssl_protocols TLSv1.2 TLSv1.3;
    ssl_session_tickets on;
    ssl_certificate {folder}/tls/cert.pem;
    ssl_certificate_key {folder}/tls/key.pem;
    server {{ listen 127.0.0.1:{plain}; listen 127.0.0.1:{secured} ssl; root {folder}/files; }}
    server {{
        listen 127.0.0.1:{front} ssl;
        location / {{ proxy_pass http://davserve; proxy_http_version 1.1; proxy_set_header Connection ""; proxy_set_header Host $http_host; proxy_request_buffering off; proxy_buffering off; }}
    }}
}}
"""
# The rows of the table, each with its scheme and the processes that take the time.
PLAIN, TLS, FRONT, NGINX_PLAIN, NGINX_TLS = "davserve", "davserve, TLS", "davserve behind nginx with TLS", "nginx, its own files", "nginx, its own files, TLS"


class Row:
    """A server at a URL, and what was found of it: by each name the least."""

    def __init__(self, port, is_secure, *processes):
        self.port, self.is_secure, self.processes, self.found = port, is_secure, [it.pid for it in processes], {}

    @property
    def url(self):
        return f"{'https' if self.is_secure else 'http'}://127.0.0.1:{self.port}/"

    def spent(self):
        """The processor seconds of its processes, by the scheduler's own clock."""
        total = 0
        for each in {each for process in self.processes for each in family(process)}:
            with contextlib.suppress(OSError), open(f"/proc/{each}/schedstat", encoding="ascii") as file:
                total += int(file.read().split()[0]) / 1e9
        return total

    def resident(self):
        """Their memory, in kilobytes."""
        total = 0
        for each in {each for process in self.processes for each in family(process)}:
            with open(f"/proc/{each}/smaps_rollup", encoding="ascii") as file:
                total += sum(int(line.split()[1]) for line in file if line.startswith("Rss:"))
        return total

    def note(self, name, value):
        self.found[name] = min(self.found.get(name, value), value)

    def measure(self, name, words, counted):
        """Notes the microseconds for each of what a client says that it has done."""
        before = self.spent()
        told = subprocess.run(words, stdout=subprocess.PIPE, text=True, check=True, preexec_fn=on_the_others).stdout
        self.note(name, (self.spent() - before) / max(counted(told), 1) * 1e6)


def of_wrk(told):
    if "Non-2xx" in told or "Socket errors" in told:
        sys.exit(f"wrk was refused: {told}")
    return int(re.search(r"(\d+) requests in", told)[1])


def begun(stack, words, *ports):
    it = stack.enter_context(stopped(subprocess.Popen(words, stdout=subprocess.DEVNULL, stderr=subprocess.DEVNULL, preexec_fn=on_one_processor, start_new_session=True)))
    for port in ports:
        wait_for(port)
    return it


def rows_of(stack, folder, listen, davserve):
    tls, _ = made_certificate(os.path.join(folder, "tls"))
    os.mkdir(os.path.join(folder, "files"))
    for name, count in FILES.items():
        with open(os.path.join(folder, "files", name), "wb") as file:
            file.write(os.urandom(count))
    ports = {name: free_port() for name in ("behind", "own", "plain", "secured", "front")}
    with open(os.path.join(folder, "nginx.conf"), "w", encoding="ascii") as file:
        file.write(NGINX.format(folder=folder, **ports))
    behind = begun(stack, [listen, *OF_LISTENER, str(ports["behind"]), davserve], ports["behind"])
    own = begun(stack, [listen, *OF_LISTENER, *tls, str(ports["own"]), davserve, "--scheme", "https"], ports["own"])
    nginx = begun(stack, ["nginx", "-c", file.name], ports["plain"], ports["secured"], ports["front"])
    rows = {PLAIN: Row(ports["behind"], False, behind), TLS: Row(ports["own"], True, own), FRONT: Row(ports["front"], True, nginx, behind), NGINX_PLAIN: Row(ports["plain"], False, nginx), NGINX_TLS: Row(ports["secured"], True, nginx)}
    for row in (rows[PLAIN], rows[TLS]):
        for name in FILES:
            subprocess.run(["curl", "-fsk", "-T", os.path.join(folder, "files", name), row.url + name], check=True)
    return rows


def idle(row):
    """Notes the kilobytes for each of many connections that rest behind a request."""
    context, held = ssl.SSLContext(ssl.PROTOCOL_TLS_CLIENT), []
    context.check_hostname, context.verify_mode = False, ssl.CERT_NONE
    before = row.resident()
    for _ in range(IDLE):
        client = socket.create_connection(("127.0.0.1", row.port))
        held.append(context.wrap_socket(client) if row.is_secure else client)
        held[-1].sendall(b"GET /1k HTTP/1.1\r\nHost: localhost\r\n\r\n")
        came = 0
        while came < FILES["1k"] and (piece := held[-1].recv(4096)):
            came += len(piece)
    row.note("idle, kB", (row.resident() - before) / IDLE)
    for client in held:
        client.close()


def verdicts(rows):
    """What TLS adds to the listener, beside what it adds to nginx: at most a third more."""
    for name in FILES:
        ours, theirs = (rows[tls].found[name] - rows[plain].found[name] for tls, plain in ((TLS, PLAIN), (NGINX_TLS, NGINX_PLAIN)))
        yield f"TLS adds {ours:.1f} µs to a GET of {name}, and to nginx's {theirs:.1f}: at most a third more", ours <= theirs * 4 / 3
    more = rows[TLS].found["idle, kB"] - rows[PLAIN].found["idle, kB"]
    yield f"an idle connection takes {more:.1f} kB more: under 20", more < 20


def tell(rows):
    names = list(dict.fromkeys(name for row in rows.values() for name in row.found))
    print("", f"| µs of processor, but for kB | {' | '.join(names)} |", "|---" * (len(names) + 1) + "|", sep="\n")
    for name, row in rows.items():
        print(f"| {name} | {' | '.join(f'{row.found[key]:.1f}' if key in row.found else '–' for key in names)} |")
    print("", *(f"- {what}: {'yes' if holds else 'no'}" for what, holds in verdicts(rows)), sep="\n")


def compare(listen, davserve):
    for name, package in (("wrk", "wrk"), ("nginx", "nginx-light"), ("gcc", "gcc"), ("openssl", "openssl"), ("curl", "curl")):
        need(name, package)
    print(processors())
    with contextlib.ExitStack() as stack:
        folder = stack.enter_context(tempfile.TemporaryDirectory(dir="/dev/shm"))
        os.chmod(folder, 0o755)
        shakes = os.path.join(folder, "shakes")
        subprocess.run(["gcc", "-O2", "-o", shakes, os.path.join(TOP, "bench", "shakes.c"), "-lssl", "-lcrypto"], check=True)
        rows = rows_of(stack, folder, listen, davserve)
        for _ in range(ROUNDS):
            for row in rows.values():
                for name in FILES:
                    row.measure(name, ["wrk", "-t", "1", "-c", "8", "-d", f"{SECONDS}s", row.url + name], of_wrk)
                for version, resumed in (("13", "0"), ("13", "1"), ("12", "0"), ("12", "1")) if row.is_secure else ():
                    what = f"TLS 1.{version[1]}, {'resumed' if resumed == '1' else 'full'}"
                    row.measure(what, [shakes, str(row.port), version, resumed, "1"], lambda told: int(told.split()[0]))
        for row in rows.values():
            idle(row)
        tell(rows)
