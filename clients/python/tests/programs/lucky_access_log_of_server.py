"""Each request is entered into an access log under a lock, which happens to stand between the plain touches.

due: possible
thing: sessions
"""

import threading
import urllib.request
from http.server import BaseHTTPRequestHandler, ThreadingHTTPServer

from itc_trace import shared

sessions = shared({"ann": "new"}, "sessions")
access_log, access_lock = [], threading.Lock()


class Handler(BaseHTTPRequestHandler):
    def do_GET(self):
        if self.path == "/login":
            sessions["ann"] = "in"  # race: write
            self.enter()
            self.answer(b"welcome")
        else:
            self.enter()
            self.answer(sessions["ann"].encode())  # race: read

    def enter(self):
        with access_lock:
            access_log.append(self.path)

    def answer(self, body):
        self.send_response(200)
        self.send_header("Content-Length", str(len(body)))
        self.end_headers()
        self.wfile.write(body)

    def log_message(self, *args):
        pass


with ThreadingHTTPServer(("127.0.0.1", 0), Handler) as server:
    serving = threading.Thread(target=server.serve_forever, kwargs={"poll_interval": 0.01})
    serving.start()
    for path in ("/login", "/who"):
        with urllib.request.urlopen(f"http://127.0.0.1:{server.server_port}{path}") as response:
            print(response.read().decode())
    server.shutdown()
    serving.join()
