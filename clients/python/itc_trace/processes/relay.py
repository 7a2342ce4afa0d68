"""Lets any number of processes report to one tenant: it hands their lines to the one session that the collector takes.

A report is answered only once the collector has answered it, so a relay that dies loses none that was answered. A
client that breaks off in the middle of a line ends its own session alone, and that line is dropped.
"""

from __future__ import annotations

import selectors
import socket
import threading
import time
from collections import deque
from types import TracebackType

from ..record.collector import HOST
from .relay_parts import FORGET, LEAVES, PARTS, REFUSED, RelayParts

MOST_LINE = 200
MOST_BYTES = 262144
MOST_UNSENT = 1048576
"""A client that reads no replies is not listened to while so many bytes wait for it."""
MOST_REQUESTS = 1_000_000
"""A session is left, and another one opened, before the collector would end it."""
READ = selectors.EVENT_READ
WRITE = selectors.EVENT_WRITE
TRIES = 200
REST = 0.01
DESK_TAKEN = b"421"
FAULTY_LINE = b"?"
QUIT = b"quit"


class Pipe:
    """A connection that never waits: what cannot be sent is kept."""

    def __init__(self, relay: Relay, connection: socket.socket) -> None:
        self.relay = relay
        self.connection = connection
        self.unsent = bytearray()
        self.is_open = True
        self.reads = True
        self.ends_when_sent = False
        connection.setblocking(False)
        connection.setsockopt(socket.IPPROTO_TCP, socket.TCP_NODELAY, 1)
        relay.selector.register(connection, READ, self)

    def send(self, text: bytes) -> None:
        if not self.is_open:
            return
        if not self.unsent:
            try:
                text = text[self.connection.send(text):]
            except BlockingIOError:
                pass
            except OSError:
                self.close()
                return
        if text:
            self.unsent += text
            self.attend()

    def attend(self) -> None:
        """Says to the selector what is waited for."""
        if self.is_open:
            events = (READ if self.reads else 0) | (WRITE if self.unsent else 0)
            self.relay.attend(self, events)

    def written(self) -> None:
        try:
            del self.unsent[: self.connection.send(self.unsent)]
        except BlockingIOError:
            return
        except OSError:
            self.close()
            return
        if not self.unsent and self.ends_when_sent:
            self.close()
            return
        self.drained()
        self.attend()

    def drained(self) -> None:
        """Some of what was kept is sent."""

    def read(self) -> None:
        try:
            text = self.connection.recv(MOST_BYTES)
        except BlockingIOError:
            return
        except OSError:
            text = b""
        if text:
            self.took(text)
        else:
            self.over()

    def took(self, text: bytes) -> None:
        raise NotImplementedError

    def over(self) -> None:
        self.close()

    def end(self) -> None:
        """Closes it once all is sent."""
        if self.unsent:
            self.ends_when_sent = True
            self.reads = False
            self.attend()
        else:
            self.close()

    def close(self) -> None:
        if self.is_open:
            self.is_open = False
            self.relay.forget(self)
            self.connection.close()


class Client(Pipe):
    """A process that reports or views."""

    def __init__(self, relay: Relay, connection: socket.socket) -> None:
        super().__init__(relay, connection)
        self.rest = b""
        self.is_skipping = False
        self.upstream: Upstream | None = None
        self.view: View | None = None
        self.waiting = 0
        self.is_leaving = False
        self.knows_parts: bool | None = None

    def took(self, text: bytes) -> None:
        if self.view is not None:
            self.view.send(text)
            return
        *lines, self.rest = (self.rest + text).split(b"\n")
        if lines and self.is_skipping:
            lines[0], self.is_skipping = FAULTY_LINE, False
        if len(self.rest) > MOST_LINE + 1:
            self.rest, self.is_skipping = b"", True
        if lines and self.upstream is None:
            self._begin(lines.pop(0), lines)
        elif lines:
            self._hand_on(lines)

    def _begin(self, line: bytes, lines: list[bytes]) -> None:
        """The first line says what for."""
        words = line.removesuffix(b"\r").split(b" ")
        try:
            self._open(words, line, lines)
        except OSError:  # There is no collector.
            self.close()

    def _open(self, words: list[bytes], line: bytes, lines: list[bytes]) -> None:
        if len(words) == 2 and words[0] == b"view":
            self.view = self.relay.open_view(self)
            self.view.send(b"\n".join([line, *lines, self.rest]))
            self.rest = b""
        elif len(words) == 2 and words[0] == b"report" and len(line) <= MOST_LINE:
            self.upstream = self.relay.upstream(words[1])
            self.upstream.begin(self, lines)
        else:
            self.send(b"400 line\n")
            self.end()

    def _hand_on(self, lines: list[bytes]) -> None:
        assert self.upstream is not None
        is_last = False
        for place, line in enumerate(lines):
            if line == QUIT or line == QUIT + b"\r":
                del lines[place:]
                is_last = True
                break
        if self.relay.parts is not None and self.knows_parts is None and lines:
            self.knows_parts = lines[0] == PARTS
            if not self._may_take_part(self.relay.parts):
                return
            lines = lines[self.knows_parts:]
        if lines:
            self.waiting += len(lines) - sum(line.startswith((FORGET, LEAVES)) for line in lines)
            self.upstream.ask(self, [line if len(line) <= MOST_LINE + 1 else FAULTY_LINE for line in lines])
        if is_last:
            self.leave()

    def _may_take_part(self, parts: RelayParts) -> bool:
        """Who knows nothing of parts may report in the first one, and has it be the only one."""
        if self.knows_parts:
            return True
        if parts.number > 1:
            self.send(REFUSED)
            self.end()
            return False
        parts.is_shared = True
        return True

    def leave(self) -> None:
        """No more is asked; what was asked is still answered."""
        self.is_leaving = True
        self.reads = False
        self.attend()
        if self.waiting == 0:
            self.end()

    def answer(self, replies: bytes, count: int) -> None:
        self.waiting -= count
        if not self.is_open:
            return
        self.send(replies)
        if self.is_leaving and self.waiting == 0:
            self.end()
        elif len(self.unsent) > MOST_UNSENT and self.reads:
            self.reads = False
            self.attend()

    def drained(self) -> None:
        if not self.reads and not self.is_leaving and len(self.unsent) < MOST_UNSENT // 2:
            self.reads = True

    def over(self) -> None:
        """The end of its lines. A line that was cut off is none."""
        if self.view is not None:
            self.view.finish()
            self.reads = False
            self.attend()
        elif self.upstream is not None and self.waiting > 0:
            self.leave()
        else:
            self.close()

    def close(self) -> None:
        view, self.view = self.view, None
        super().close()
        if view is not None:
            view.close()


class View(Pipe):
    """The session of one client that views: bytes pass through both ways."""

    def __init__(self, relay: Relay, client: Client, connection: socket.socket) -> None:
        super().__init__(relay, connection)
        self.client = client
        self.is_finished = False

    def took(self, text: bytes) -> None:
        self.client.send(text)
        if len(self.client.unsent) > MOST_UNSENT:
            self.reads = False
            self.attend()
            self.relay.held_back[self.client] = self

    def finish(self) -> None:
        self.is_finished = True
        if not self.unsent:
            self._shut()

    def drained(self) -> None:
        if self.is_finished and not self.unsent:
            self._shut()

    def _shut(self) -> None:
        try:
            self.connection.shutdown(socket.SHUT_WR)
        except OSError:
            self.close()

    def over(self) -> None:
        self.close()
        self.client.view = None
        self.client.end()


class Upstream(Pipe):
    """The one session that reports for a tenant."""

    def __init__(
        self, relay: Relay, tenant: bytes, connection: socket.socket, tries: int = 0,
        begins_with: list[bytes] | None = None,
    ) -> None:
        """A part of a trace begins with these lines."""
        super().__init__(relay, connection)
        self.lines: deque[bytes] = deque()
        """What the collector has not answered yet, if the trace may be divided."""
        self.beginning = len(begins_with or [])
        self.tenant = tenant
        self.tries = tries
        self.rest = b""
        self.asked: deque[tuple[Client, int]] = deque()
        self.clients: set[Client] = set()
        self.requests = 1
        self.is_accepted: bool | None = None
        self.held: deque[tuple[Client, list[bytes]]] = deque()
        self.send(b"\n".join([b"report " + tenant, b"count", *(begins_with or []), b""]))

    def begin(self, client: Client, lines: list[bytes]) -> None:
        self.clients.add(client)
        if lines:
            client._hand_on(lines)

    def ask(self, client: Client, lines: list[bytes]) -> None:
        if self.is_accepted is None or self.held or self.requests + len(lines) > MOST_REQUESTS:
            self.held.append((client, lines))
            self._hand_over_when_due()
            return
        if self.relay.parts is not None:
            lines, held = self.relay.parts.fitting(lines)
            self.lines += lines
            if held:
                self.held.append((client, held))
        if lines:
            self.requests += len(lines)
            self.asked.append((client, len(lines)))
            self.relay.gather(self, lines)
        else:
            self._hand_over_when_due()

    def _hand_over_when_due(self) -> None:
        """Before a session has made all its requests, another one goes on.

        So it does with a new part before the one before is full.
        """
        if not self.is_accepted or self.asked or not self.held or self.beginning:
            return
        if self.relay.parts is not None and self.requests + len(self.held[0][1]) <= MOST_REQUESTS:
            self.relay.parts.settle()
            if self.relay.parts.has_room_for(self.held[0][1][0]):
                self._ask_held()
            else:
                self.relay.divide(self, self.relay.parts)
        elif self.requests > 1:
            self.relay.renew(self)

    def _ask_held(self) -> None:
        held, self.held = self.held, deque()
        for client, lines in held:
            self.ask(client, lines)

    def took(self, text: bytes) -> None:
        *replies, self.rest = (self.rest + text).split(b"\n")
        if self.is_accepted is None and replies:
            self._opened(replies.pop(0))
        if self.beginning and replies:
            begun = replies[:self.beginning]
            del replies[:self.beginning]
            self.beginning -= len(begun)
            if not all(reply.startswith(b"201 ") for reply in begun):
                self.over()
                return
            if not self.beginning:
                self._ask_held()
        place = 0
        while place < len(replies) and self.asked:
            client, count = self.asked[0]
            given = replies[place : place + count]
            if self.relay.parts is not None:
                given = [self.relay.parts.answered(self.lines.popleft(), reply) for reply in given]
            client.answer(b"\n".join(given) + b"\n", len(given))
            place += len(given)
            if len(given) == count:
                self.asked.popleft()
            else:
                self.asked[0] = client, count - len(given)
        if self.held:
            self._hand_over_when_due()

    def _opened(self, reply: bytes) -> None:
        if reply.startswith(DESK_TAKEN) and self.tries > 0:
            time.sleep(REST)  # The collector has not yet seen that the session before this one is over.
            self.relay.replace(self, self.tries - 1)
            return
        self.is_accepted = reply.startswith(b"200 ")
        if not self.is_accepted:
            self.relay.drop(self)
            for client in list(self.clients):
                client.send(reply + b"\n")
                client.end()
            self.close()
            return
        if not self.beginning:
            self._ask_held()

    def left(self, client: Client) -> None:
        self.clients.discard(client)

    def over(self) -> None:
        """The collector is gone, and with it all sessions of this tenant."""
        self.relay.drop(self)
        clients = list(self.clients)
        self.close()
        for client in clients:
            client.end()


class Relay:
    """Listens, and passes lines and replies on, in one thread."""

    def __init__(
        self, listen: int, port: int, host: str = HOST, tries: int = 0, parts: RelayParts | None = None,
    ) -> None:
        """A tenant to which another session still reports is tried again so often.

        With parts, a trace that is nearly full goes on in another one.
        """
        self.parts = parts
        self.selector = selectors.DefaultSelector()
        self._target = (host, port)
        self._tries = tries
        self._door = socket.create_server((HOST, listen), backlog=512)
        self._door.setblocking(False)
        self.port: int = self._door.getsockname()[1]
        self.selector.register(self._door, READ, None)
        self._upstreams: dict[bytes, Upstream] = {}
        self._gathered: dict[Upstream, list[bytes]] = {}
        self.held_back: dict[Client, View] = {}
        self._is_running = True

    def serve(self) -> None:
        while self._is_running:
            for key, events in self.selector.select(0.5):
                if key.data is None:
                    self._accept()
                    continue
                self._attend_to(key.data, events)
            self._send_gathered()

    def stop(self) -> None:
        self._is_running = False

    def close(self) -> None:
        self._door.close()
        for key in list(self.selector.get_map().values()):
            if key.data is not None:
                key.data.close()
        self.selector.close()

    @staticmethod
    def _attend_to(pipe: Pipe, events: int) -> None:
        if events & WRITE and pipe.is_open:
            pipe.written()
        if events & READ and pipe.is_open and pipe.reads:
            pipe.read()

    def _accept(self) -> None:
        try:
            connection, _ = self._door.accept()
        except OSError:
            return
        Client(self, connection)

    def _connect(self) -> socket.socket:
        return socket.create_connection(self._target)

    def open_view(self, client: Client) -> View:
        return View(self, client, self._connect())

    def upstream(self, tenant: bytes) -> Upstream:
        found = self._upstreams.get(tenant)
        if found is None:
            found = self._upstreams[tenant] = Upstream(self, tenant, self._connect(), self._tries)
        return found

    def drop(self, upstream: Upstream) -> None:
        if self._upstreams.get(upstream.tenant) is upstream:
            del self._upstreams[upstream.tenant]

    def renew(self, old: Upstream) -> None:
        """Opens another session for the tenant, with the clients of the old one and what they have asked since."""
        old.connection.setblocking(True)
        old.connection.sendall(b"quit\n")
        old.connection.shutdown(socket.SHUT_WR)
        while old.connection.recv(MOST_BYTES):
            pass
        self.replace(old, TRIES)

    def divide(self, old: Upstream, parts: RelayParts) -> None:
        """Goes on at another collector, with the clients of the old one and what they have asked since."""
        port, begins_with = parts.divide()
        self._target = self._target[0], port
        self.replace(old, TRIES, begins_with)

    def replace(self, old: Upstream, tries: int, begins_with: list[bytes] | None = None) -> None:
        """Another session takes over the clients of this one, and what they have asked since."""
        new = self._upstreams[old.tenant] = Upstream(self, old.tenant, self._connect(), tries, begins_with)
        new.clients, old.clients = old.clients, set()
        new.held, old.held = old.held, deque()
        for client in new.clients:
            client.upstream = new
        old.close()

    def gather(self, upstream: Upstream, lines: list[bytes]) -> None:
        self._gathered.setdefault(upstream, []).extend(lines)

    def _send_gathered(self) -> None:
        while self._gathered:
            upstream, lines = self._gathered.popitem()
            upstream.send(b"\n".join(lines) + b"\n")

    def attend(self, pipe: Pipe, events: int) -> None:
        """Waits for these events of a connection. One that waits for none stays known, for its end to be noticed."""
        try:
            key = self.selector.get_key(pipe.connection)
        except KeyError:
            if events:
                self.selector.register(pipe.connection, events, pipe)
            return
        if not events:
            self.selector.unregister(pipe.connection)
        elif key.events != events:
            self.selector.modify(pipe.connection, events, pipe)
        if isinstance(pipe, Client):
            self._let_go_on(pipe)

    def _let_go_on(self, client: Client) -> None:
        view = self.held_back.get(client)
        if view is not None and len(client.unsent) < MOST_UNSENT // 2:
            del self.held_back[client]
            view.reads = True
            view.attend()

    def forget(self, pipe: Pipe) -> None:
        try:
            self.selector.unregister(pipe.connection)
        except (KeyError, ValueError):
            pass
        if isinstance(pipe, Client):
            self.held_back.pop(pipe, None)
            if pipe.upstream is not None:
                pipe.upstream.left(pipe)


class Relaying:
    """A relay to a collector, in a thread of its own."""

    def __init__(self, port: int, parts: RelayParts | None = None) -> None:
        self._relay = Relay(0, port, tries=TRIES, parts=parts)
        self.port: int = self._relay.port
        self._thread = threading.Thread(target=self._relay.serve, daemon=True)
        self._thread.start()

    def close(self) -> None:
        self._relay.stop()
        self._thread.join()
        self._relay.close()

    def __enter__(self) -> Relaying:
        return self

    def __exit__(
        self, kind: type[BaseException] | None, error: BaseException | None, trace: TracebackType | None
    ) -> None:
        self.close()


def relay(listen: int, port: int, host: str = HOST) -> None:
    """Serves until it is ended."""
    serving = Relay(listen, port, host)
    print(f"listening {serving.port}", flush=True)
    try:
        serving.serve()
    except KeyboardInterrupt:
        pass
    finally:
        serving.close()

