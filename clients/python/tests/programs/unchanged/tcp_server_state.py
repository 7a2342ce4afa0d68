"""A TCP server with a thread for each client keeps the last message in a field of the server.

due: race
thing: Server.last
"""

import socket
import socketserver
import threading

together = threading.Barrier(2)


class Handler(socketserver.StreamRequestHandler):
    def handle(self):
        together.wait()
        self.server.last = self.rfile.readline()  # race: write
        self.wfile.write(b"thanks\n")


class Server(socketserver.ThreadingTCPServer):
    last = b""


def send(address, text):
    with socket.create_connection(address) as connection:
        connection.sendall(text + b"\n")
        return connection.recv(16)


with Server(("127.0.0.1", 0), Handler) as server:
    serving = threading.Thread(target=server.serve_forever, args=(0.01,))
    serving.start()
    clients = [threading.Thread(target=send, args=(server.server_address, text)) for text in (b"one", b"two")]
    for client in clients:
        client.start()
    for client in clients:
        client.join()
    server.shutdown()
    serving.join()
print("served")
