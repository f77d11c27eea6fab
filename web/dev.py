"""A server for work on the page: it serves the files of this folder, and hands all else on to a desk that runs.

    python3 web/dev.py PORT DESK_PORT

Open http://127.0.0.1:PORT then. What is changed in a file is there when the page is loaded again.
"""

import http.client
import http.server
import pathlib
import socket
import sys

HERE = pathlib.Path(__file__).resolve().parent
PAGES = {
    "/": ("index.html", "text/html"),
    "/web/desk.css": ("desk.css", "text/css"),
    "/web/desk.js": ("desk.js", "text/javascript"),
}


class Server(http.server.ThreadingHTTPServer):
    """Listens on a port of the loopback address. So many replies to writes are lost as `lose` says."""

    def __init__(self, port, desk_port):
        super().__init__(("127.0.0.1", port), Handler)
        self.desk_port = desk_port
        self.lose = 0
        self.writes = []


class Handler(http.server.BaseHTTPRequestHandler):
    def do_GET(self):
        if self.path in PAGES:
            name, kind = PAGES[self.path]
            self.answer(200, kind, (HERE / name).read_bytes())
        else:
            self.hand_on("GET", None)

    def do_POST(self):
        self.hand_on("POST", self.rfile.read(int(self.headers.get("Content-Length", 0))))

    def hand_on(self, method, body):
        """Asks the desk. It takes requests of its own page alone, so the port in `Origin` becomes that of the desk."""
        port = self.server.desk_port
        headers = {"Origin": f"http://127.0.0.1:{port}"} if "Origin" in self.headers else {}
        desk = http.client.HTTPConnection("127.0.0.1", port)
        desk.request(method, self.path, body, headers)
        reply = desk.getresponse()
        text = reply.read()
        desk.close()
        if self.path.startswith(("/do/", "/steward/")):
            self.server.writes.append((self.path, body, reply.status))
            if self.server.lose > 0:
                self.server.lose -= 1
                self.close_connection = True
                self.connection.shutdown(socket.SHUT_RDWR)
                return
        self.answer(reply.status, reply.headers["Content-Type"], text)

    def answer(self, status, kind, text):
        self.send_response(status)
        self.send_header("Content-Type", kind)
        self.send_header("Content-Length", str(len(text)))
        self.send_header("Connection", "close")
        self.end_headers()
        self.wfile.write(text)

    def log_message(self, *_):
        """One line for each request is what the desk writes; this server writes none."""


if __name__ == "__main__":
    if len(sys.argv) != 3:
        sys.exit("usage: dev.py PORT DESK_PORT")
    Server(int(sys.argv[1]), int(sys.argv[2])).serve_forever()
