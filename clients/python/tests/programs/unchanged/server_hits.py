"""A server with threads counts hits in an attribute of its handler's class.

due: race
thing: Handler.hits
"""

import threading
import urllib.request
from http.server import BaseHTTPRequestHandler, ThreadingHTTPServer


class Handler(BaseHTTPRequestHandler):
    hits = 0

    def do_GET(self):
        Handler.hits += 1  # race: read, write
        self.send_response(204)
        self.end_headers()

    def log_message(self, *args):
        pass


def ask(port):
    urllib.request.urlopen(f"http://127.0.0.1:{port}/").close()


def main():
    server = ThreadingHTTPServer(("127.0.0.1", 0), Handler)
    thread = threading.Thread(target=server.serve_forever, args=(0.01,))
    thread.start()
    clients = [threading.Thread(target=ask, args=(server.server_port,)) for _ in range(2)]
    for client in clients:
        client.start()
    for client in clients:
        client.join()
    server.shutdown()
    thread.join()
    server.server_close()


main()
print("served")
