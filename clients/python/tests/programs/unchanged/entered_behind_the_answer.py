"""A server enters a request into its log behind the answer, and the client looks at the log once it has the answer.

due: race
thing: log
"""

import http.client
import threading
from http.server import BaseHTTPRequestHandler, ThreadingHTTPServer

log = []


class Handler(BaseHTTPRequestHandler):
    protocol_version = "HTTP/1.1"

    def do_GET(self):
        self.send_response(200)
        self.send_header("Content-Length", "2")
        self.end_headers()
        self.wfile.write(b"ok")
        log.append(self.path)  # race: write

    def log_message(self, *args):
        pass


with ThreadingHTTPServer(("127.0.0.1", 0), Handler) as server:
    serving = threading.Thread(target=server.serve_forever, args=(0.01,))
    serving.start()
    connection = http.client.HTTPConnection("127.0.0.1", server.server_port)
    connection.request("GET", "/")
    print(connection.getresponse().read())
    print(len(log) <= 1)  # race: read
    connection.close()
    server.shutdown()
    serving.join()
