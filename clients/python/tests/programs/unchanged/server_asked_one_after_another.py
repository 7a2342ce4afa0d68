"""Clients ask a server one after another, which counts them without a lock. It forgets threads that are over.

due: race or possible
thing: hits
"""

import socket
import socketserver
import threading

hits = 0


class Handler(socketserver.BaseRequestHandler):
    def handle(self):
        global hits
        self.request.recv(10)
        hits += 1  # race: read, write
        self.request.sendall(b"ok")


class Server(socketserver.ThreadingTCPServer):
    allow_reuse_address = True


with Server(("127.0.0.1", 0), Handler) as server:
    thread = threading.Thread(target=server.serve_forever)
    thread.start()
    for _ in range(3):
        with socket.create_connection(server.server_address) as client:
            client.sendall(b"hi")
            client.recv(10)
    server.shutdown()
    thread.join()
print(hits)
