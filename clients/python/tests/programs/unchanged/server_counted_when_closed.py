"""Clients ask a server one after another, which counts them under a lock. The sum is looked at when it is closed.

due: none
"""

import socket
import socketserver
import threading

guard = threading.Lock()
sizes = []


class Handler(socketserver.BaseRequestHandler):
    def handle(self):
        asked = self.request.recv(10)
        with guard:
            sizes.append(len(asked))
        self.request.sendall(b"ok")


class Server(socketserver.ThreadingTCPServer):
    allow_reuse_address = True


with Server(("127.0.0.1", 0), Handler) as server:
    thread = threading.Thread(target=server.serve_forever)
    thread.start()
    for _ in range(3):
        with socket.create_connection(server.server_address) as client:
            client.sendall(b"hi")
            client.recv(10)
    server.shutdown()
    thread.join()
print(sum(sizes))
