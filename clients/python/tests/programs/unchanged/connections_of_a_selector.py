"""A selector's thread and a pool of workers share a table of connections.

due: race
thing: sessions
"""

import selectors
import socket
import threading
from concurrent.futures import ThreadPoolExecutor

selector = selectors.DefaultSelector()
sessions = {}
closed = threading.Semaphore(0)


def serve(connection):
    connection.setblocking(True)
    connection.recv(10)
    sessions.pop(connection.fileno(), None)  # race: write
    connection.close()
    closed.release()


def accept(listener, executor):
    connection, _ = listener.accept()
    executor.submit(serve, connection)
    sessions[connection.fileno()] = "open"  # race: write


with socket.create_server(("127.0.0.1", 0)) as listener, ThreadPoolExecutor(2) as executor:
    selector.register(listener, selectors.EVENT_READ)
    clients = [socket.create_connection(listener.getsockname()) for _ in range(2)]
    for _ in clients:
        selector.select()
        accept(listener, executor)
    for client in clients:
        client.sendall(b"bye")
    for client in clients:
        closed.acquire()
        client.close()
    selector.close()
print("closed")
