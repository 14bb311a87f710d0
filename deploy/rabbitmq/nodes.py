"""Three nodes of RabbitMQ on the loopback of this machine, in a folder of their own: for trying, and for trials.

Each node has its own name, ports and folder, and all find one another by an epmd of their own.  They are children of the
program that starts them, and are ended by their ids.
"""
import os
import shutil
import signal
import socket
import subprocess
import time

COUNT, HOST = 3, "127.0.0.1"
# Seconds that a node has to begin, and to end.
BEGINS, ENDS = 180, 60
PROGRAM = "/usr/lib/rabbitmq/bin/rabbitmq-server"
CONFIG = """listeners.tcp.1 = %s:%d
cluster_name = tried
cluster_formation.peer_discovery_backend = classic_config
%s
vm_memory_high_watermark.absolute = 512MB
disk_free_limit.absolute = 64MB
log.file.level = warning
"""
# One scheduler for each node: what they take is seen beside the rest, and a machine has room for all three.
ERLANG = "+S 1:1 +SDio 1 +A 1 -kernel inet_dist_use_interface {127,0,0,1}"


class NotStarted(Exception):
    """A node does not answer, or cannot be started; where it says why, or what is missing."""


def write(path, text, mode=0o644):
    with open(path, "w", encoding="utf-8") as file:
        file.write(text)
    os.chmod(path, mode)


class Node:
    """One node: its name, its folder and its ports."""

    def __init__(self, folder, name, ports, epmd, peers):
        self.folder, self.name, self.port, self.child = os.path.join(folder, name.split("@")[0]), name, ports[0], None
        os.makedirs(self.folder, exist_ok=True)
        write(self.path("plugins"), "[].\n")
        nodes = "\n".join("cluster_formation.classic_config.nodes.%d = %s" % pair for pair in enumerate(peers, 1))
        write(self.path("rabbitmq.conf"), CONFIG % (HOST, self.port, nodes))
        self.environment = {
            "PATH": os.environ["PATH"], "HOME": folder, "LANG": "C.UTF-8", "ERL_EPMD_PORT": str(epmd), "ERL_EPMD_ADDRESS": HOST,
            "RABBITMQ_NODENAME": name, "RABBITMQ_DIST_PORT": str(ports[1]), "RABBITMQ_MNESIA_BASE": self.path("data"),
            "RABBITMQ_LOG_BASE": self.path("log"), "RABBITMQ_CONFIG_FILE": self.path("rabbitmq.conf"),
            "RABBITMQ_ENABLED_PLUGINS_FILE": self.path("plugins"), "RABBITMQ_CONF_ENV_FILE": os.devnull,
            "RABBITMQ_SERVER_ADDITIONAL_ERL_ARGS": ERLANG, "RABBITMQ_ALLOW_INPUT": "yes"}

    def path(self, name):
        return os.path.join(self.folder, name)

    def start(self):
        """Starts it; it is at work once its port answers."""
        with open(self.path("said"), "ab") as said:
            self.child = subprocess.Popen([PROGRAM, "-noinput"], env=self.environment, stdin=subprocess.DEVNULL, stdout=said, stderr=said,
                                          cwd=self.folder, start_new_session=True)

    def answers(self):
        try:
            socket.create_connection((HOST, self.port), 1).close()
            return True
        except OSError:
            return False

    def wait(self, seconds=BEGINS):
        """Waits until it answers."""
        until = time.monotonic() + seconds
        while not self.answers():
            if self.child.poll() is not None or time.monotonic() > until:
                raise NotStarted(self.path("said"))
            time.sleep(0.2)

    def end(self, by=signal.SIGTERM):
        """Ends it, where it runs."""
        if self.child and self.child.poll() is None:
            self.child.send_signal(by)
            try:
                self.child.wait(ENDS)
            except subprocess.TimeoutExpired:
                self.child.kill()
                self.child.wait()


class Cluster:
    """Three nodes in a folder; ports are a port for each node's clients, one for each node's peers, and that of epmd."""

    def __init__(self, folder, ports):
        if not os.path.exists(PROGRAM) or not shutil.which("epmd"):
            raise NotStarted("there is no %s: it is Debian's package rabbitmq-server" % PROGRAM)
        folder = os.path.abspath(folder)
        os.makedirs(folder, exist_ok=True)
        cookie = os.path.join(folder, ".erlang.cookie")
        if not os.path.exists(cookie):
            write(cookie, os.urandom(12).hex(), 0o400)
        peers = ["tried%d@localhost" % number for number in range(1, COUNT + 1)]
        self.epmd, self.port = None, ports[2 * COUNT]
        self.nodes = [Node(folder, name, (ports[at], ports[COUNT + at]), self.port, peers) for at, name in enumerate(peers)]

    def start(self):
        self.epmd = subprocess.Popen(["epmd", "-port", str(self.port), "-address", HOST], start_new_session=True)
        for node in self.nodes:
            node.start()
        for node in self.nodes:
            node.wait()

    def urls(self):
        """What the variable BROKERS is for this cluster."""
        return " ".join("amqp://%s:%d" % (HOST, node.port) for node in self.nodes)

    def end(self):
        for node in self.nodes:
            if node.child and node.child.poll() is None:
                node.child.terminate()
        for node in self.nodes:
            node.end()
        if self.epmd:
            self.epmd.terminate()
            self.epmd.wait()
