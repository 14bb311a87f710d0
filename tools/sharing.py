"""Several clients and one server: what tools/share does while the server is at work.

What a client sends is cut into items, and whole ones alone are handed on.  While the server has something to answer, what comes
is kept; then all that is there is handed on in one write, in the order in which it came, as much as the server takes with one
read.  So all who wait share a turn of the server, and its two syncs.  Answers come in that order too.

Nobody waits for a client that takes no answers: the server's answers are always read.  So that none needs much memory a client is
read no further while it has much that was not handed on; no more of it is handed on while it has answers to take, or while the
answer to a question or a migration of its own, which may be long, is on its way.
"""
import collections
import functools
import os
import selectors
import signal
import socket
import struct
import subprocess
import time

import stamps
import talks

READ, WRITE = selectors.EVENT_READ, selectors.EVENT_WRITE
# What one read of the server takes, and how many bytes of answers a client may leave before no more of it is handed on.
TURN, MUCH = 65536, 1 << 20
COUNT = b"? count\n"
NOT_YOURS, ENDED, UNSURE = b"no 1 not-yours\n", b"no 1 ended\n", b"no 1 unsure\n"
STOPS = (signal.SIGTERM, signal.SIGINT, signal.SIGHUP)

# An item that waits: its bytes, or the answer that it gets here; how many bytes it had; whether it is a unit; and whether its
# answer may be long.
Waiting = collections.namedtuple("Waiting", "data answer size is_unit is_long")


class Asked:
    """An item that was handed on, or is answered here: who asked, the number of a unit, and how much of its answer has come."""

    def __init__(self, client, number, item):
        self.client, self.number, self.answer, self.is_long, self.given = client, number, item.answer, item.is_long, 0


class Server:
    """The program with its streams."""

    def __init__(self, program, store):
        # Ctrl-C stops those who share it, and the program ends with its input
        self.child = subprocess.Popen([program, store], stdin=subprocess.PIPE, stdout=subprocess.PIPE, bufsize=0, start_new_session=True)
        self.input, self.output = self.child.stdin.fileno(), self.child.stdout.fileno()
        self.unsent, self.answers, self.has_ended = bytearray(), talks.Answers(), False

    def opens(self):
        """Waits until the store is open, and says whether it is."""
        self.unsent += COUNT
        self.flush()
        while not self.has_ended:
            if any(is_end for _, is_end in self.receive()):
                os.set_blocking(self.input, False)
                os.set_blocking(self.output, False)
                return True
        return False

    def flush(self):
        """Sends what goes."""
        try:
            while self.unsent:
                sent = os.write(self.input, memoryview(self.unsent)[:TURN])
                del self.unsent[:sent]
        except BlockingIOError:
            pass
        except BrokenPipeError:
            self.unsent.clear()

    def receive(self):
        """The pieces of answers that have come, each with whether an answer ends with it."""
        try:
            data = os.read(self.output, 1 << 18)
        except BlockingIOError:
            return ()
        self.has_ended = not data
        return self.answers.take(data)

    def close_input(self):
        if not self.child.stdin.closed:
            self.child.stdin.close()


class Client:
    """A program that is connected: what came of it, and what it has still to take."""

    def __init__(self, connection):
        self.connection = connection
        connection.setblocking(False)
        _, user, _ = struct.unpack("iII", connection.getsockopt(socket.SOL_SOCKET, socket.SO_PEERCRED, 12))
        self.user = stamps.name_of(user)
        self.cutter, self.waiting, self.size, self.parked = talks.Cutter(), collections.deque(), 0, 0
        self.out, self.took, self.asked = bytearray(), time.monotonic(), 0
        self.is_new, self.is_busy, self.has_ended, self.is_gone, self.watched = True, False, False, False, 0

    def receive(self):
        """What has come: no bytes at the end, and None where there is nothing."""
        try:
            return self.connection.recv(TURN)
        except BlockingIOError:
            return None
        except OSError:
            return b""

    def put(self, item):
        self.waiting.append(item)
        self.size += item.size

    def take_next(self):
        item = self.waiting.popleft()
        self.size -= item.size
        return item

    def answer(self, piece):
        """A piece of an answer, which the client takes when it can."""
        if not self.is_gone:
            self.took = self.took if self.out else time.monotonic()
            self.out += piece

    def flush(self):
        """Sends what the client takes."""
        try:
            while self.out:
                sent = self.connection.send(memoryview(self.out)[:TURN])
                del self.out[:sent]
                self.took = time.monotonic()
        except BlockingIOError:
            pass
        except OSError:
            self.is_gone = True
            self.out.clear()

    def is_held(self):
        """Whether no more of it is handed on now."""
        return self.is_busy or len(self.out) > MUCH

    def events(self):
        """What it is watched for."""
        return (0 if self.has_ended or self.size >= TURN else READ) | (WRITE if self.out else 0)

    def is_done(self):
        return self.has_ended and not (self.waiting or self.asked or self.out)


class Hub:
    """The clients of a server, from the first to the last."""

    def __init__(self, server, listener, signals, number, rights=None, has_times=True, patience=60):
        self.server, self.listener, self.signals, self.number, self.rights = server, listener, signals, number, rights
        self.has_times, self.patience, self.is_stopping, self.is_full = has_times, patience, False, False
        self.clients, self.changed = set(), set()
        # one place for each item that came and was not handed on, in the order in which they came; and what was
        self.arrivals, self.under_way = collections.deque(), collections.deque()
        self.selector = selectors.DefaultSelector()

    # From beginning to end.

    def run(self):
        """Serves until the server ends, or a signal stops it."""
        self.selector.register(self.server.output, READ, self.on_answers)
        self.selector.register(self.listener, READ, self.on_connection)
        self.selector.register(self.signals.told, READ, self.on_signal)
        while not self.server.has_ended:
            ready = self.selector.select(1 if self.is_full or any(client.out for client in self.clients) else None)
            self.listen_again()
            for key, events in ready:
                key.data(events)
            self.drop_those_who_take_nothing()
            self.go_on()
            if self.is_stopping and not self.clients:
                self.server.close_input()

    def go_on(self):
        """Hands on what has come and sends what there is, until nothing more changes."""
        self.hand_on()
        while self.changed:
            changed, self.changed = self.changed, set()
            for client in changed:
                self.look_at(client)
            self.hand_on()

    def on_signal(self, _):
        self.signals.told.recv(4096)
        if not self.is_stopping:
            self.is_stopping = True
            self.stop_listening()
            self.end_inputs()

    def end_inputs(self):
        """Lets no client say more: what it sends from now on fails, and what it has sent is taken."""
        for client in self.clients:
            self.changed.add(client)
            try:
                client.connection.shutdown(socket.SHUT_RD)
            except OSError:
                pass
            while not client.has_ended:
                data = client.receive()
                client.has_ended = not data
                self.take(client, data or b"")

    # Clients come and go.

    def on_connection(self, _):
        if self.is_stopping:
            return
        try:
            self.accept()
        except (BlockingIOError, ConnectionError):
            pass
        except OSError:
            # as many are connected as the system allows: who comes now waits
            self.is_full = True
            self.selector.unregister(self.listener)

    def listen_again(self):
        """Tries again to let those in who wait, where there was no room for them."""
        if self.is_full and not self.is_stopping:
            self.is_full = False
            self.selector.register(self.listener, READ, self.on_connection)

    def accept(self):
        client = Client(self.listener.accept()[0])
        self.clients.add(client)
        self.changed.add(client)

    def stop_listening(self):
        """Lets nobody come any more: who tries from now on is refused, and who has come is taken."""
        if self.listener.fileno() < 0:
            return
        if not self.is_full:
            self.selector.unregister(self.listener)
        try:
            self.listener.shutdown(socket.SHUT_RD)
            while True:
                self.accept()
        except OSError:
            self.listener.close()

    def look_at(self, client):
        """Sends what a client takes, and lets it go where it is done; else it is watched."""
        client.flush()
        if client.parked and not client.is_held():
            self.arrivals.extend([client] * client.parked)
            client.parked = 0
        if client.is_done():
            self.let_go(client)
        else:
            self.watch(client, client.events())

    def watch(self, client, events):
        if events == client.watched or client not in self.clients:
            return
        if not client.watched:
            self.selector.register(client.connection, events, functools.partial(self.on_client, client))
        elif not events:
            self.selector.unregister(client.connection)
        else:
            self.selector.modify(client.connection, events, functools.partial(self.on_client, client))
        client.watched = events

    def let_go(self, client):
        """Ends with a client: what it has not taken is dropped."""
        self.watch(client, 0)
        self.clients.discard(client)
        client.waiting.clear()
        client.out.clear()
        client.has_ended = client.is_gone = True
        client.connection.close()

    def drop_those_who_take_nothing(self):
        late = time.monotonic() - self.patience
        for client in [client for client in self.clients if client.out and client.took < late]:
            self.let_go(client)

    # What comes of clients.

    def on_client(self, client, events):
        self.changed.add(client)
        if events & READ and not client.has_ended:
            data = client.receive()
            if data == b"":
                client.has_ended = True
                if client.cutter.is_inside():
                    self.put(client, Waiting(None, client.cutter.refusal_of_rest(), 1, False, False))
            elif data:
                self.take(client, data)

    def take(self, client, data):
        for cut in client.cutter.take(data):
            self.put(client, self.understood(client, cut))

    def put(self, client, item):
        client.put(item)
        self.arrivals.append(client)

    def understood(self, client, cut):
        """What an item of a client is."""
        is_first, client.is_new = client.is_new, False
        if cut.data is None:
            return Waiting(None, talks.too_long(cut.within), 1, False, False)
        size, is_question = len(cut.data), cut.words[0] == b"?"
        if is_first and cut.words in talks.HEADERS:
            return Waiting(COUNT, None, size, False, False)
        if self.rights and not self.rights.allow(client.user, cut.words):
            return Waiting(None, NOT_YOURS, size, False, False)
        return Waiting(cut.data, None, size, not is_question, is_question or cut.words[1:2] == [b"migrate"])

    # What is handed on, and answered.

    def hand_on(self):
        """Hands on all that is there, where the server has answered what it was handed before."""
        while self.arrivals and not self.under_way:
            self.gather(self.server.unsent, stamps.now() if self.has_times else None)
            self.send()
            self.answer_here()

    def gather(self, batch, now):
        """Gathers what has come, up to what the server takes with one read."""
        while self.arrivals:
            client = self.arrivals.popleft()
            if not client.waiting:
                continue
            if client.is_held():
                client.parked += 1
                continue
            item = client.waiting[0]
            data = (self.stamp(client, now) if item.is_unit else b"") + (item.data or b"")
            if batch and len(batch) + len(data) > TURN:
                self.arrivals.appendleft(client)
                return
            client.take_next()
            self.number += item.is_unit
            batch += data
            self.under_way.append(Asked(client, self.number if item.is_unit else None, item))
            client.asked += 1
            client.is_busy = item.is_long
            self.changed.add(client)

    def stamp(self, client, now):
        return stamps.stamp(now, client.user, self.number + 1) if now else stamps.stamp(self.number + 1)

    def send(self):
        """Sends to the server what it takes, and watches for the rest."""
        self.server.flush()
        is_watched = self.server.input in self.selector.get_map()
        if self.server.unsent and not is_watched:
            self.selector.register(self.server.input, WRITE, lambda _: self.send())
        elif not self.server.unsent and is_watched:
            self.selector.unregister(self.server.input)

    def on_answers(self, _):
        for piece, is_end in self.server.receive():
            self.answer(piece, is_end)
            self.answer_here()

    def answer_here(self):
        """Gives the answers that are given here, and come next."""
        while self.under_way and self.under_way[0].answer is not None:
            self.answer(self.under_way[0].answer, True)

    def answer(self, piece, is_end):
        """Gives a piece of an answer to whose it is."""
        asked = self.under_way[0]
        asked.client.answer(piece)
        self.changed.add(asked.client)
        asked.given += len(piece)
        if is_end:
            self.under_way.popleft()
            asked.client.asked -= 1
            asked.client.is_busy = asked.client.is_busy and not asked.is_long

    # The server has ended.

    def unanswered(self):
        """The numbers of the units that were handed on, and not answered to their end."""
        self.stop_listening()
        self.end_inputs()
        return {asked.number for asked in self.under_way if asked.number}

    def tell_end(self, answers):
        """Tells each client of each of its items whether it is stored: `answers` has those of the units that are, or is None."""
        while self.under_way:
            asked = self.under_way[0]
            whole = asked.answer or (answers or {}).get(asked.number)
            missing = UNSURE if answers is None and asked.number else ENDED
            self.answer(whole[asked.given:] if whole else missing, True)
        for client in self.clients:
            while client.waiting:
                client.answer(client.take_next().answer or ENDED)

        self.arrivals.clear()
        self.take_leave()

    def take_leave(self):
        """Waits until the clients have taken what they were told."""
        for stream in {self.server.input, self.server.output} & set(self.selector.get_map()):
            self.selector.unregister(stream)
        for client in list(self.clients):
            self.look_at(client)
        while self.clients:
            self.selector.select(1)
            self.drop_those_who_take_nothing()
            for client in list(self.clients):
                self.look_at(client)


class Signals:
    """Signals that stop the work are told by a socket and do nothing else, until the context ends."""

    def __enter__(self):
        self.told, self.wakes = socket.socketpair()
        for end in self.told, self.wakes:
            end.setblocking(False)
        signal.set_wakeup_fd(self.wakes.fileno())
        self.before = [signal.signal(number, lambda *_: None) for number in STOPS]
        return self

    def __exit__(self, *_):
        signal.set_wakeup_fd(-1)
        for number, handler in zip(STOPS, self.before):
            signal.signal(number, handler)
