"""The servers that bench/serve, bench/many, bench/beside and bench/checkpoint_stall measure, and a client's connection to one, over 127.0.0.1: ours,
and beside it PostgreSQL where that is installed (its own cluster, by a user that isn't root, with fsync and synchronous_commit on)."""
import glob, os, pwd, re, shutil, signal, socket, struct, subprocess, sys, time

found = sorted(glob.glob("/usr/lib/postgresql/*/bin/postgres"))
postgres = os.path.dirname(found[-1]) if found else None


def free_port():
    with socket.socket() as probe:
        probe.bind(("127.0.0.1", 0))
        return probe.getsockname()[1]


def query(text):
    return b"Q" + struct.pack(">I", len(text) + 5) + text.encode() + b"\0"


def packet(user):
    text = f"user\0{user}\0database\0postgres\0\0".encode()
    return struct.pack(">II", len(text) + 8, 196608) + text


class Line:
    """A connection of a client."""

    def __init__(self, port, user="ann"):
        self.socket = socket.create_connection(("127.0.0.1", port), timeout=60)
        self.stream = self.socket.makefile("rb")
        self.pid = None
        self.socket.sendall(packet(user))
        self.hear()

    def hear(self):
        """The first column of each row, up to ReadyForQuery."""
        rows = []
        while True:
            head = self.stream.read(5)
            if len(head) < 5:
                raise ConnectionError("the server ended the connection")
            body = self.stream.read(struct.unpack(">I", head[1:])[0] - 4)
            if head[:1] == b"K":
                self.pid = struct.unpack(">I", body[:4])[0]
            if head[:1] == b"D":
                rows.append(int(body[6 : 6 + struct.unpack(">I", body[2:6])[0]]))
            if head[:1] == b"E":
                raise ConnectionError(body.decode())
            if head[:1] == b"Z":
                return rows

    def ask(self, text):
        self.socket.sendall(query(text))
        return self.hear()

    def close(self):
        try:
            self.socket.sendall(b"X\0\0\0\4")
        except OSError:
            pass
        self.socket.close()


class Server:
    """A server over a cluster, whose log comes line by line."""

    def __init__(self, work):
        self.work, self.port, self.process = work, free_port(), None

    def wait_for(self, text):
        """The moment at which a line with this text comes."""
        for line in self.process.stderr:
            if text in line:
                return time.perf_counter()
        sys.exit(f"the server ended without: {text}")

    def start(self, connections=20):
        """Seconds up to the line that tells that it is ready. There may be so many connections: PostgreSQL has 200 of them."""
        self.connections = connections
        started = time.perf_counter()
        self.process = subprocess.Popen(
            self.words(), stdin=subprocess.PIPE, stderr=subprocess.PIPE, text=True, bufsize=1, start_new_session=True
        )
        took = self.wait_for("ready to accept connections") - started
        return took

    def fill(self, rows):
        """New rows, from key 0 on."""
        line = Line(self.port)
        for first in range(0, rows, 500):
            keys = range(first, min(first + 500, rows))
            line.ask("; ".join(f"INSERT INTO kv VALUES ({key}, 'sixteen bytes ..')" for key in keys))
        line.close()

    def ask_by(self, kind, count, seconds, first):
        """Clients that ask for so many seconds from now on, beside others."""
        words = [f"{self.work}/clients", str(self.port), kind, str(count), str(seconds), str(first)]
        return subprocess.Popen(words, stdout=subprocess.PIPE, stderr=subprocess.PIPE, text=True)

    def told_by(self, clients):
        """How many answers a second they got, and the median and the 99th part of the microseconds that one took."""
        told, why = clients.communicate()
        if clients.returncode != 0:
            sys.exit(f"{self.name}, {' '.join(clients.args[2:])}: {why}")
        return tuple(float(word) for word in told.split())

    def clients(self, kind, count, seconds, first):
        """The same of clients that are alone."""
        return self.told_by(self.ask_by(kind, count, seconds, first))

    def idle(self, count):
        """So many sessions. Those that were closed before may still have their places for a moment."""
        lines, end = [], time.monotonic() + 10
        while len(lines) < count:
            try:
                lines.append(Line(self.port))
            except ConnectionError as error:
                if "53300" not in str(error) or time.monotonic() > end:
                    raise
                time.sleep(0.01)
        return lines

    def crash(self, count=20):
        """A child is killed while so many sessions idle: seconds from its end, as the log tells it, up to `ready`, and from the
        order up to the greeting of the next connection."""
        idle = self.idle(count)
        asked = time.perf_counter()
        self.kill(idle[0].pid)
        ended = self.wait_for(self.killed)
        ready = self.wait_for("ready to accept connections")
        while True:
            try:
                Line(self.port).close()
                break
            except OSError:
                pass
        greeted = time.perf_counter()
        for line in idle:
            line.close()
        return ready - ended, greeted - asked

    def held(self):
        """Kilobytes of memory of the server with all its processes, shared pages counted once."""
        held = 0
        for process in [self.process.pid] + self.children():
            with open(f"/proc/{process}/smaps_rollup", encoding="utf-8") as file:
                held += int(re.search(r"^Pss: +(\d+) kB", file.read(), re.M).group(1))
        return held

    def memory(self, count=20):
        """The same while so many sessions idle."""
        idle = self.idle(count)
        time.sleep(0.5)
        held = self.held()
        for line in idle:
            line.close()
        return held

    def children(self):
        listed = subprocess.run(["ps", "-o", "pid=", "--ppid", str(self.process.pid)], capture_output=True, text=True)
        return [int(pid) for pid in listed.stdout.split()]

    def lose(self):
        """Kills all of it at once."""
        processes = self.children() + [self.process.pid]
        for process in processes:
            os.kill(process, signal.SIGKILL)
        self.process.communicate()
        while any(os.path.exists(f"/proc/{process}") for process in processes):
            time.sleep(0.01)

    def end(self):
        if self.process and self.process.poll() is None:
            self.shut()
            try:
                self.process.communicate(timeout=60)
            except subprocess.TimeoutExpired:
                os.killpg(self.process.pid, signal.SIGKILL)


class Ours(Server):
    name, killed = "pg_postmaster", "was terminated by signal 9"

    def __init__(self, work, program, name=name):
        super().__init__(work)
        self.program, self.name, self.options = program, name, []

    def make(self):
        shutil.rmtree(f"{self.work}/ours", ignore_errors=True)
        subprocess.run([self.program, "initdb", "--data", f"{self.work}/ours"], check=True, stdout=subprocess.DEVNULL)

    def words(self):
        words = [self.program, "serve", "--data", f"{self.work}/ours", "--port", str(self.port)]
        return words + ["--max-connections", str(self.connections), *self.options]

    def tell(self, line):
        self.process.stdin.write(line + "\n")
        self.process.stdin.flush()

    def kill(self, pid):
        self.tell(f"kill {pid}")

    def shut(self):
        self.tell("fast")


class Theirs(Server):
    name, killed = "PostgreSQL", "was terminated by signal 9"

    def __init__(self, work):
        super().__init__(work)
        self.user = account()
        os.mkdir(f"{work}/theirs")
        shutil.chown(f"{work}/theirs", self.user)
        os.chmod(f"{work}/theirs", 0o700)

    def by_user(self, words):
        return ["runuser", "-u", self.user, "--"] + words if os.geteuid() == 0 else words

    def make(self):
        subprocess.run(self.by_user(["rm", "-rf", f"{self.work}/theirs/data"]), check=True)
        words = [f"{postgres}/initdb", "-D", f"{self.work}/theirs/data", "-U", "ann", "--auth=trust", "--no-sync"]
        subprocess.run(self.by_user(words), check=True, stdout=subprocess.DEVNULL)
        self.start()
        line = Line(self.port)
        line.ask("CREATE TABLE kv (k bigint PRIMARY KEY, v text)")
        line.close()
        self.end()

    def words(self):
        settings = {"listen_addresses": "127.0.0.1", "port": self.port, "unix_socket_directories": "", "fsync": "on"}
        settings |= {"synchronous_commit": "on", "max_connections": 200, "lc_messages": "C"}
        return self.by_user(
            [f"{postgres}/postgres", "-D", f"{self.work}/theirs/data"] + [f"-c{name}={value}" for name, value in settings.items()]
        )

    def postmaster(self):
        """The server's own process, which isn't the one that runuser left behind."""
        with open(f"{self.work}/theirs/data/postmaster.pid", encoding="utf-8") as file:
            return int(file.readline())

    def children(self):
        listed = subprocess.run(["ps", "-o", "pid=", "--ppid", str(self.postmaster())], capture_output=True, text=True)
        return [self.postmaster()] + [int(pid) for pid in listed.stdout.split()]

    def kill(self, pid):
        os.kill(pid, signal.SIGKILL)

    def shut(self):
        os.kill(self.postmaster(), signal.SIGINT)


def account():
    """By whom PostgreSQL is run: it refuses to be by root."""
    if os.geteuid() != 0:
        return pwd.getpwuid(os.geteuid()).pw_name
    names = {entry.pw_name for entry in pwd.getpwall()}
    return "postgres" if "postgres" in names else "nobody"


def synced_pairs(work):
    """How many pairs of small synced writes the machine makes a second."""
    file = os.open(f"{work}/rate", os.O_RDWR | os.O_CREAT)
    started, at = time.perf_counter(), 0
    while time.perf_counter() < started + 1:
        os.pwrite(file, b"\0" * 39, at + 1)
        os.fdatasync(file)
        os.pwrite(file, b"\1", at)
        os.fdatasync(file)
        at += 40
    os.close(file)
    os.remove(f"{work}/rate")
    return at / 40


def servers_in(work, program):
    """Ours, and theirs where it is installed. A signal that ends the script ends them too, where it ends them at its exit."""
    signal.signal(signal.SIGTERM, lambda *_: sys.exit(1))
    if not postgres:
        print("PostgreSQL isn't installed here")
        return [Ours(work, program)]
    return [Ours(work, program), Theirs(work)]


def show(table, servers, form):
    """A table: what was measured, and for each server the values that were noted of it, in this form."""
    print("| | " + " | ".join(server.name for server in servers) + " |")
    print("|---" * (len(servers) + 1) + "|")
    for what, by_name in table.items():
        print(f"| {what} | " + " | ".join(form(what, by_name[server.name]) for server in servers) + " |")
