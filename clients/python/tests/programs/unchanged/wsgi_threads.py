"""A WSGI application counts in a variable of its closure and is served by threads.

due: race
thing: requests
"""

import socketserver
import threading
import urllib.request
from wsgiref.simple_server import WSGIRequestHandler, WSGIServer, make_server


class ThreadingServer(socketserver.ThreadingMixIn, WSGIServer):
    pass


class Quiet(WSGIRequestHandler):
    def log_message(self, *args):
        pass


def make_application():
    requests = 0
    together = threading.Barrier(2)

    def application(environ, start_response):
        nonlocal requests
        together.wait()
        requests += 1  # race: read, write
        start_response("200 OK", [("Content-Type", "text/plain")])
        return [b"ok"]

    return application


def ask(port):
    with urllib.request.urlopen(f"http://127.0.0.1:{port}/") as response:
        print(response.read())


with make_server("127.0.0.1", 0, make_application(), ThreadingServer, Quiet) as server:
    serving = threading.Thread(target=server.serve_forever, args=(0.01,))
    serving.start()
    clients = [threading.Thread(target=ask, args=(server.server_port,)) for _ in range(2)]
    for client in clients:
        client.start()
    for client in clients:
        client.join()
    server.shutdown()
    serving.join()
