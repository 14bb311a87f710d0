"""The brokers, as the scripts of this folder see them: streams that are read from a place on, and messages that are confirmed.

The brokers are those of the variable BROKERS, URLs with blanks between them; where it is not set, the one of this machine.
Whoever loses one goes on with the next.  What they need of RabbitMQ is packaged for the system's own Python: python3-pika.
"""
import collections
import itertools
import os
import signal
import sys
import time

sys.path.insert(0, os.path.join(os.path.dirname(os.path.realpath(__file__)), "..", "..", "tools"))
import commands

try:
    import pika
    import pika.exceptions
except ImportError:
    pika = None

SYSTEM = "/usr/bin/python3"
LOCAL = "amqp://127.0.0.1:5672"
# Messages that are on their way to a reader; seconds that a call may take, and after which a silent stream is attached anew.
AHEAD, PATIENCE, SILENT = 64, 30, 20
# The exchange by which questions are answered, and the stream whose first message is put last.
REPLIES, MARKED = "replies", "answers-0"

Message = collections.namedtuple("Message", "offset headers body")


class Lost(Exception):
    """The connection is not there, or does not do what it should."""


class Refused(Exception):
    """There is no such stream (`streams` makes them), or the user may not do that: the words of the broker."""


def needs_pika():
    """Goes on with the system's own Python, where this one has no pika."""
    if pika is None and os.path.exists(SYSTEM) and not os.environ.get("WITHOUT_PIKA"):
        os.environ["WITHOUT_PIKA"] = "yes"
        os.execv(SYSTEM, [SYSTEM, *sys.argv])
    if pika is None:
        sys.exit("%s: there is no pika: it is Debian's package python3-pika" % os.path.basename(sys.argv[0]))


def said(what):
    commands.say("%s: %s" % (os.path.basename(sys.argv[0]), what))


def patient(call, seconds=PATIENCE):
    """Makes a call that waits for the broker, which is lost where it takes too long."""
    def late(_number, _frame):
        raise Lost("no answer within %d seconds" % seconds)

    before = signal.signal(signal.SIGALRM, late)
    signal.setitimer(signal.ITIMER_REAL, seconds)
    try:
        return call()
    except pika.exceptions.ChannelClosedByBroker as why:
        is_refused = why.reply_code == 403 or why.reply_code == 404 and "no " in why.reply_text
        raise (Refused if is_refused else Lost)(why.reply_text) from why
    except (pika.exceptions.ProbableAuthenticationError, pika.exceptions.ProbableAccessDeniedError) as why:
        raise Refused(str(why)) from why
    except (pika.exceptions.AMQPError, OSError, EOFError) as why:
        raise Lost(repr(why)) from why
    finally:
        signal.setitimer(signal.ITIMER_REAL, 0)
        signal.signal(signal.SIGALRM, before)


class Reader:
    """A stream that is read from a place on, or a queue: what it brings waits in `came`."""

    def __init__(self, link, queue, place=None, ahead=AHEAD):
        self.link, self.queue, self.place, self.ahead = link, queue, place, ahead
        self.channel = None
        self.attach()

    def attach(self):
        """Begins behind what came."""
        if self.channel:
            patient(self.channel.close)
        self.came, self.heard = collections.deque(), time.monotonic()
        self.channel = patient(self.link.connection.channel)
        patient(lambda: self.channel.basic_qos(prefetch_count=self.ahead))
        arguments = {} if self.place is None else {"x-stream-offset": self.place}
        patient(lambda: self.channel.basic_consume(self.queue, self.take, arguments=arguments))

    def take(self, _channel, method, properties, body):
        self.heard = time.monotonic()
        self.came.append((method.delivery_tag, properties, body))

    def next(self, seconds=None):
        """The next message of a stream, once it is there; None where none came within so many seconds."""
        until = None if seconds is None else time.monotonic() + seconds
        while True:
            while self.came:
                tag, properties, body = self.came.popleft()
                self.done(tag)
                offset = int(properties.headers["x-stream-offset"])
                if not isinstance(self.place, int) or offset >= self.place:
                    self.place = offset + 1
                    return Message(offset, properties.headers, body)
            if until is not None and time.monotonic() >= until:
                return None
            self.link.wait(1 if until is None else min(1, max(0.001, until - time.monotonic())))
            self.look()

    def done(self, tag):
        """A message was taken: the broker may send another one."""
        patient(lambda: self.channel.basic_ack(tag))

    def look(self):
        """A stream that is silent is attached anew."""
        if not self.came and time.monotonic() - self.heard > SILENT:
            self.attach()


    def reply(self, tag, asked, body):
        """Answers a message of a queue, which is done with it."""
        properties = pika.BasicProperties(correlation_id=asked.correlation_id)
        if asked.reply_to:
            patient(lambda: self.channel.basic_publish(REPLIES, asked.reply_to, body, properties))
        self.done(tag)


class Link:
    """A connection to one of the brokers."""

    def __init__(self, url):
        parameters = pika.URLParameters(url)
        parameters.socket_timeout = parameters.stack_timeout = PATIENCE
        self.connection = patient(lambda: pika.BlockingConnection(parameters))
        self.confirmed = patient(self.connection.channel)
        patient(self.confirmed.confirm_delivery)

    def wait(self, seconds):
        """Waits for what comes, at most so long."""
        try:
            self.connection.process_data_events(seconds)
        except (pika.exceptions.AMQPError, OSError, EOFError) as why:
            raise Lost(repr(why)) from why

    def wake(self):
        """Ends the wait of another thread."""
        try:
            self.connection.add_callback_threadsafe(lambda: None)
        except pika.exceptions.AMQPError:
            pass

    def put(self, queue, body, headers, **more):
        """Puts a message, by the exchange that has the name of its stream or queue, and goes on when it is confirmed."""
        properties = pika.BasicProperties(headers=headers, delivery_mode=2, **more)
        patient(lambda: self.confirmed.basic_publish(queue, "", body, properties, mandatory=True))

    def own_queue(self):
        """The reader of a queue of this connection alone, to which replies go."""
        queue = patient(lambda: self.confirmed.queue_declare("", exclusive=True)).method.queue
        patient(lambda: self.confirmed.queue_bind(queue, REPLIES, queue))
        return Reader(self, queue)

    def close(self):
        try:
            patient(self.connection.close, 5)
        except (Lost, Refused):
            pass


def linked():
    """A connection to a broker that answers, and with the next call to another one; it is waited for."""
    urls = os.environ.get("BROKERS", LOCAL).split()
    for turn in itertools.count():
        try:
            TURNS.rotate(-1)
            return Link(urls[TURNS[0] % len(urls)])
        except Lost as why:
            if turn == len(urls):
                said("no broker answers: %s" % why)
            if turn % len(urls) == 0:
                time.sleep(1)


def begun():
    """A connection, and how many partitions there are."""
    while True:
        link = linked()
        try:
            return link, partitions(link)
        except Lost as why:
            lose(link, why)


def lose(link, why):
    """A connection was lost: that is said, and what is left of it is closed."""
    said("lost a broker: %s" % why)
    if link:
        link.close()
    time.sleep(0.1)


# Which broker is next: not the same one for all that begin at once.
TURNS = collections.deque(range(os.getpid() % 7 * 60, os.getpid() % 7 * 60 + 420))


def partitions(link, seconds=None):
    """How many partitions there are: the first message of each stream says it, and that of MARKED was put last."""
    first = Reader(link, MARKED, "first").next(seconds)
    return first and first.headers["partitions"]
