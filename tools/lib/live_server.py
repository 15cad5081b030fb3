"""A page on this machine alone that is loaded anew whenever there is a new one."""
from __future__ import annotations

import threading
from http.server import BaseHTTPRequestHandler, ThreadingHTTPServer
from urllib.parse import parse_qs, urlsplit

from faults import BadFile
from page_text import escaped

HOST = "127.0.0.1"
# a question waits so long for a new page, and is then asked again
WAIT_SECONDS = 20
# what each page gets: it asks until the number of the newest page is not its own
RELOADS = """<script>
(async () => {
  for (;;) {
    try {
      const newest = await (await fetch("/newest?seen=%d")).text();
      if (newest !== "%d") location.reload();
    } catch {
      await new Promise((done) => setTimeout(done, 1000));
    }
  }
})();
</script>
"""
WRONG = """<!DOCTYPE html><html lang="en"><head><meta charset="utf-8"><title>%s</title><style>
body { background: #101216; color: #e8eaee; font: 14px/1.5 ui-monospace, "DejaVu Sans Mono", monospace; padding: 2em; }
pre { color: #ffb3bf; white-space: pre-wrap; }</style></head><body><h1>%s</h1><pre>%s</pre></body></html>
"""


class Pages:
    """The newest page and its number; questions wait here for the next."""

    def __init__(self) -> None:
        self.changed = threading.Condition()
        self.number = 0
        self.text = "<!DOCTYPE html><title>live</title>"

    def show(self, text: str) -> None:
        with self.changed:
            self.number += 1
            self.text = text
            self.changed.notify_all()

    def show_wrong(self, name: str, said: str) -> None:
        self.show(WRONG % (escaped(name), escaped(name), escaped(said)))

    def newest(self, seen: int) -> int:
        """The number of the newest page; waits a while where it is the one that was seen."""
        with self.changed:
            self.changed.wait_for(lambda: self.number != seen, WAIT_SECONDS)
            return self.number

    def page(self) -> str:
        with self.changed:
            return self.text + RELOADS % (self.number, self.number)


class Answer(BaseHTTPRequestHandler):
    """An answer to a browser: the page, or the number of the newest."""

    pages: Pages

    def do_GET(self) -> None:
        where = urlsplit(self.path)
        if self.headers.get("Host", "").rpartition(":")[0] not in (HOST, "localhost"):
            self.send_error(403)
        elif where.path == "/newest":
            seen = parse_qs(where.query).get("seen", ["0"])[0]
            self.answer("text/plain", str(self.pages.newest(int(seen) if seen.isdecimal() else 0)))
        elif where.path == "/":
            self.answer("text/html; charset=utf-8", self.pages.page())
        else:
            self.send_error(404)

    def answer(self, kind: str, text: str) -> None:
        data = text.encode("utf-8", "backslashreplace")
        self.send_response(200)
        self.send_header("Content-Type", kind)
        self.send_header("Content-Length", str(len(data)))
        self.send_header("Cache-Control", "no-store")
        self.end_headers()
        self.wfile.write(data)

    def log_message(self, *unused: object) -> None:
        """Says nothing of each question."""


class Server(ThreadingHTTPServer):
    """The server; a browser that goes away is no fault."""

    daemon_threads = True

    def handle_error(self, *unused: object) -> None:
        pass


def serve(pages: Pages, port: int) -> Server:
    """Starts the server in threads of its own."""
    kind = type("AnswerOfPages", (Answer,), {"pages": pages})
    try:
        server = Server((HOST, port), kind)
    except OSError as fault:
        raise BadFile(f"port {port}", f"{(fault.strerror or str(fault)).lower()}; --port names another") from None
    threading.Thread(target=server.serve_forever, daemon=True).start()
    return server
