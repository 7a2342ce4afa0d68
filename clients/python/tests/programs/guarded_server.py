"""A server with a thread for each request counts under a lock.

due: none
thing: hits
"""

import threading
import urllib.request
from http.server import BaseHTTPRequestHandler, ThreadingHTTPServer

from itc_trace import shared


class CountingServer(ThreadingHTTPServer):
    def __init__(self, *words):
        super().__init__(*words)
        self.lock = threading.Lock()
        self.hits = shared({"count": 0}, "hits")


class Handler(BaseHTTPRequestHandler):
    def do_GET(self):
        with self.server.lock:
            self.server.hits["count"] += 1
            body = str(self.server.hits["count"]).encode()
        self.send_response(200)
        self.send_header("Content-Length", str(len(body)))
        self.end_headers()
        self.wfile.write(body)

    def log_message(self, *args):
        pass


def ask(port):
    with urllib.request.urlopen(f"http://127.0.0.1:{port}/") as response:
        return response.read()


with CountingServer(("127.0.0.1", 0), Handler) as server:
    serving = threading.Thread(target=server.serve_forever, kwargs={"poll_interval": 0.01})
    serving.start()
    clients = [threading.Thread(target=ask, args=(server.server_port,)) for _ in range(3)]
    for client in clients:
        client.start()
    for client in clients:
        client.join()
    server.shutdown()
    serving.join()
print("served")
