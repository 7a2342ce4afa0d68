"""A server with a thread for each request counts its hits without a lock.

due: race
thing: hits
"""

import threading
import urllib.request
from http.server import BaseHTTPRequestHandler, ThreadingHTTPServer

from itc_trace import shared


class Hits:
    count = 0


hits = shared(Hits(), "hits")


class Handler(BaseHTTPRequestHandler):
    def do_GET(self):
        hits.count += 1  # race: read, write
        self.send_response(200)
        self.send_header("Content-Length", "2")
        self.end_headers()
        self.wfile.write(b"ok")

    def log_message(self, *args):
        pass


def ask():
    with urllib.request.urlopen(f"http://127.0.0.1:{server.server_port}/") as response:
        print(response.read().decode())


with ThreadingHTTPServer(("127.0.0.1", 0), Handler) as server:
    thread = threading.Thread(target=server.serve_forever, kwargs={"poll_interval": 0.01})
    thread.start()
    clients = [threading.Thread(target=ask) for _ in range(2)]
    for client in clients:
        client.start()
    for client in clients:
        client.join()
    server.shutdown()
    thread.join()
