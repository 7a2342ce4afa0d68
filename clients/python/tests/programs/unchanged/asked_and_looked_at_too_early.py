"""A client looks at what its server keeps as soon as the headers of the answer have come.

due: race
thing: kept
"""

import http.client
import threading
from http.server import BaseHTTPRequestHandler, ThreadingHTTPServer

kept = []


class Handler(BaseHTTPRequestHandler):
    protocol_version = "HTTP/1.1"

    def do_POST(self):
        text = self.rfile.read(int(self.headers["Content-Length"]))
        self.send_response(200)
        self.send_header("Content-Length", "2")
        self.end_headers()
        kept.append(text)  # race: write
        self.wfile.write(b"ok")

    def log_message(self, *args):
        pass


with ThreadingHTTPServer(("127.0.0.1", 0), Handler) as server:
    serving = threading.Thread(target=server.serve_forever, args=(0.01,))
    serving.start()
    connection = http.client.HTTPConnection("127.0.0.1", server.server_port)
    connection.request("POST", "/", "one")
    answer = connection.getresponse()
    print(len(kept) <= 1)  # race: read
    print(answer.read())
    connection.close()
    server.shutdown()
    serving.join()
