"""A server with threads counts its hits without a lock, and its one client happens to ask again only once it was answered.

due: possible
thing: Handler.hits
"""

import threading
import urllib.request
from http.server import BaseHTTPRequestHandler, ThreadingHTTPServer


class Handler(BaseHTTPRequestHandler):
    hits = 0

    def do_GET(self):
        Handler.hits += 1  # race: read, write
        self.send_response(200)
        self.end_headers()
        self.wfile.write(b"ok")

    def log_message(self, *args):
        pass


def main():
    server = ThreadingHTTPServer(("127.0.0.1", 0), Handler)
    thread = threading.Thread(target=server.serve_forever, args=(0.01,))
    thread.start()
    for _ in range(2):
        urllib.request.urlopen(f"http://127.0.0.1:{server.server_port}/").close()
    server.shutdown()
    thread.join()
    server.server_close()


main()
print("served")
