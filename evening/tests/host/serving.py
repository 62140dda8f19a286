"""The host's face to the net: requests, routes, bodies, workers that serve one connection at a time, and the end."""
import json, re, socket, threading, time
from host import chess, texts
from host.arena import Arena, Refused

WORDS = {200: "OK", 400: "Bad Request", 401: "Unauthorized", 403: "Forbidden", 404: "Not Found", 405: "Method Not Allowed",
         409: "Conflict", 413: "Payload Too Large", 431: "Request Header Fields Too Large", 501: "Not Implemented",
         503: "Service Unavailable"}
STATUS = {"NoRoute": 404, "NoGame": 404, "BadMethod": 405, "NoKey": 401, "UnknownKey": 401, "BadParam": 400, "BadHead": 400,
          "BadLength": 400, "Illegal": 400, "NotYours": 403, "Full": 503, "BodyTooLong": 413, "HeadTooLong": 431, "NotSupported": 501}
ROUTES = [("GET", r"/api/arena", "arena"), ("GET", r"/api/standing/([^/]+)", "standing"), ("GET", r"/api/teams", "teams"),
          ("GET", r"/api/me", "me"), ("GET", r"/api/game/([^/]+)", "game"), ("GET", r"/api/journal/([^/]+)", "journal"),
          ("POST", r"/api/(enter|pause|leave)", "wish"), ("POST", r"/api/game/([^/]+)/move/([^/]+)", "move"),
          ("POST", r"/api/game/([^/]+)/draw/([^/]+)", "draw"), ("POST", r"/api/game/([^/]+)/(resign|claim|berserk)", "short")]
KEYED = ("me", "wish", "move", "draw", "short")
HEAD, BODY, PER_CONNECTION = 8192, 4096, 100


class Fault(Exception):
    """A request that is answered by an error's name; `last` where nothing can follow it."""

    def __init__(self, name, extra="", last=False):
        super().__init__(name)
        self.name, self.extra, self.last = name, extra, last


class Gone(Exception):
    """The other side has nothing more, or does not answer in time."""


def number(text, most):
    if not re.fullmatch(r"0|[1-9]\d{0,9}", text) or int(text) > most:
        raise Fault("BadParam")
    return int(text)


class Requests:
    """The requests of one connection."""

    def __init__(self, source):
        self.source, self.held = source, b""

    def more(self):
        try:
            piece = self.source.recv(4096)
        except OSError as e:
            raise Gone from e
        if not piece:
            raise Gone
        self.held += piece

    def next(self):
        """The method, path, key or None, and whether the connection closes behind it."""
        while True:
            start = re.match(rb"(?:\r?\n)*", self.held).end()
            end = re.compile(rb"\n\r?\n").search(self.held, start)
            if end and end.end() <= HEAD:
                break
            if len(self.held) >= HEAD:
                raise Fault("HeadTooLong", last=True)
            self.more()
        lines = self.held[start:end.end()].decode("latin-1").replace("\r\n", "\n").split("\n")[:-2]
        self.held = self.held[end.end():]
        first = re.fullmatch(r"([!#$%&'*+.^_`|~0-9A-Za-z-]+) ([!-~\x80-\xff]+) HTTP/1\.([01])", lines[0])
        fields = [re.fullmatch(r"([!#$%&'*+.^_`|~0-9A-Za-z-]+):[ \t]*(.*?)[ \t]*", line) for line in lines[1:]]
        if not first or None in fields or len(fields) > 64:
            raise Fault("BadHead", last=True)
        fields = [(f[1].lower(), f[2]) for f in fields]
        self.drop_body(fields)
        closes = first[3] == "0" or any("close" in [w.strip(" \t").lower() for w in v.split(",")] for k, v in fields if k == "connection")
        bearer = next((v for k, v in fields if k == "authorization"), "")
        return first[1], first[2].split("?")[0], bearer[7:] if bearer[:7].lower() == "bearer " else None, closes

    def drop_body(self, fields):
        if any(k == "transfer-encoding" for k, _ in fields):
            raise Fault("NotSupported", last=True)
        lengths = [v for k, v in fields if k == "content-length"]
        if len(lengths) > 1 or lengths and not re.fullmatch(r"[0-9]+", lengths[0]):
            raise Fault("BadLength", last=True)
        length = int(lengths[0]) if lengths else 0
        if length > BODY:
            raise Fault("BodyTooLong", last=True)
        while len(self.held) < length:
            self.more()
        self.held = self.held[length:]


class Host:
    def __init__(self, setup, port, workers):
        self.arena = Arena(setup)
        self.keys = {p["key"]: i for i, p in enumerate(setup["players"])}
        self.began = time.monotonic()
        self.lock = threading.Lock()
        self.seen = [0] * workers
        self.door = socket.create_server(("127.0.0.1", port), backlog=256)
        self.door.setblocking(False)

    def now(self):
        return int(1000 * (time.monotonic() - self.began))

    def run(self):
        """Serves until the arena is over."""
        threads = [threading.Thread(target=self.worker, args=(i,)) for i in range(len(self.seen))]
        for thread in threads:
            thread.start()
        for thread in threads:
            thread.join()

    def worker(self, i):
        while True:
            try:
                connection, _ = self.door.accept()
            except BlockingIOError:
                time.sleep(0.01)
            else:
                self.serve(i, connection)
            if self.turn(i):
                return

    def turn(self, i):
        """The turn between two connections: what is due falls, and a wave starts where one is due."""
        with self.lock:
            a, now = self.arena, self.now()
            if a.running and any(a.games[g].due(a.stamp(now)) for g in a.running):
                a.tick(i, now)
            if a.wave_due(now):
                a.commit(i, now, a.plan())
            self.seen[i] = len(a.entries)
            return a.over(now)

    def serve(self, i, connection):
        connection.settimeout(5)
        connection.setsockopt(socket.IPPROTO_TCP, socket.TCP_NODELAY, 1)
        requests = Requests(connection)
        with connection:
            for k in range(PER_CONNECTION):
                try:
                    last = self.answer(i, connection, requests, k == PER_CONNECTION - 1)
                except (Gone, OSError):
                    return
                if last:
                    return

    def answer(self, i, connection, requests, hundredth):
        extra, last = "", hundredth
        try:
            method, path, key, closes = requests.next()
            last = last or closes
            status, body = 200, self.reply(i, method, path, key)
        except Fault as f:
            status, body, extra, last = STATUS.get(f.name, 409), {"error": f.name}, f.extra, last or f.last
        except Refused as r:
            status, body = STATUS.get(str(r), 409), {"error": str(r)}
        text = json.dumps(body, sort_keys=True, separators=(",", ":")).encode()
        head = (f"HTTP/1.1 {status} {WORDS[status]}\r\nContent-Type: application/json\r\nContent-Length: {len(text)}\r\n"
                f"X-Arena-Seen: {self.seen[i]}\r\n{extra}{'Connection: close' + chr(13) + chr(10) if last else ''}\r\n")
        connection.sendall(head.encode() + text)
        return last

    def reply(self, i, method, path, key):
        if re.search(r"[^!-~]", path):
            raise Fault("NoRoute")
        for verb, form, name in ROUTES:
            found = re.fullmatch(form, path)
            if found:
                break
        else:
            raise Fault("NoRoute")
        if method != verb:
            raise Fault("BadMethod", f"Allow: {verb}\r\n")
        player = None
        if name in KEYED:
            player = self.keys.get(key)
            if player is None:
                raise Fault("NoKey" if key is None else "UnknownKey", "WWW-Authenticate: Bearer\r\n")
        words = self.checked(name, found.groups())
        with self.lock:
            try:
                return getattr(self, "on_" + name)(i, self.now(), player, *words)
            finally:
                self.seen[i] = len(self.arena.entries)

    @staticmethod
    def checked(name, words):
        limit = {"standing": 999, "journal": 8_000_000, "game": 2**32 - 1, "move": 2**32 - 1, "draw": 2**32 - 1, "short": 2**32 - 1}
        out = [number(words[0], limit[name])] + list(words[1:]) if name in limit else list(words)
        if name == "move" and chess.read_move(out[1]) is None or name == "draw" and out[1] not in ("offer", "accept", "decline"):
            raise Fault("BadParam")
        return out

    # ---- one call for each kind of route

    def on_arena(self, i, now, _):
        a, t = self.arena, self.arena.stamp(now)
        state = "before" if t < a.setup["starts"] else "over" if t >= a.setup["ends"] else "running"
        return {"begun": len(a.games), "ends": a.setup["ends"], "entered": len(a.entered), "running": len(a.running),
                "starts": a.setup["starts"], "state": state, "time": t}

    def on_standing(self, i, now, _, page):
        order = self.arena.table()
        rows = [self.arena.row(10 * page + k, p) for k, p in enumerate(order[10 * page:10 * page + 10])]
        return {"page": page, "players": rows, "total": len(order)}

    def on_teams(self, i, now, _):
        return {"teams": self.arena.teams()}

    def on_me(self, i, now, p):
        a = self.arena
        rank = a.table().index(p) if p in a.entered else None
        row = a.row(rank, p)
        del row["games"]
        return row | {"game": a.playing.get(p), "seat": a.seat(p)}

    def on_game(self, i, now, _, g):
        if g >= len(self.arena.games):
            raise Fault("NoGame")
        return self.arena.games[g].view(g, self.arena.names, self.arena.stamp(now))

    def on_journal(self, i, now, _, start):
        entries = self.arena.entries
        return {"entries": entries[start:start + 1000], "from": start, "total": len(entries)}

    def on_wish(self, i, now, p, word):
        self.arena.say_wish(i, now, p, word)
        return self.on_me(i, now, p)

    def on_move(self, i, now, p, g, word):
        self.arena.act(i, now, p, g, "move", "move " + word, word)
        return self.on_game(i, now, p, g)

    def on_draw(self, i, now, p, g, word):
        self.arena.act(i, now, p, g, texts.ACTS[word], word)
        return self.on_game(i, now, p, g)

    on_short = on_draw
