"""A server with threads counts its hits under a lock of the server.

due: none
"""

import threading
import urllib.request
from http.server import BaseHTTPRequestHandler, ThreadingHTTPServer


class Server(ThreadingHTTPServer):
    def __init__(self, address):
        super().__init__(address, Handler)
        self.lock = threading.Lock()
        self.hits = {}

    def hit(self, path):
        with self.lock:
            self.hits[path] = self.hits.get(path, 0) + 1
            return self.hits[path]


class Handler(BaseHTTPRequestHandler):
    def do_GET(self):
        body = str(self.server.hit(self.path)).encode()
        self.send_response(200)
        self.send_header("Content-Length", str(len(body)))
        self.end_headers()
        self.wfile.write(body)

    def log_message(self, *args):
        pass


def main():
    with Server(("127.0.0.1", 0)) as server:
        thread = threading.Thread(target=server.serve_forever, args=(0.01,))
        thread.start()
        for path in ("/", "/", "/a"):
            with urllib.request.urlopen(f"http://127.0.0.1:{server.server_port}{path}") as response:
                print(path, response.read().decode())
        server.shutdown()
        thread.join()


main()
