"""Players' pages and hall screens without browsers: their requests, with their timing, over kept connections to nginx."""
import asyncio, collections, gzip, json, pathlib, random, re, time
from stand import key_of

# One game a line: how it ends (# by mate, or draw, or resign), and its moves.
LINES = [line.split() for line in (pathlib.Path(__file__).parent / "games.txt").read_text().splitlines()]
NAMES = ("ada ben cleo dan eva finn gil hana igor juno kai lena max nora otto pia quin rosa sam tess uma vik willa xeno yara zoe "
         "alma bruno carla dario edith felix greta hugo ines jonas").split()


def name_of(i):
    return NAMES[i % len(NAMES)] + (str(i // len(NAMES) + 1) if i >= len(NAMES) else "")


class HostGone(Exception):
    """nginx says that there is no host: the evening is over."""


class Figures:
    """What a crowd has seen."""

    def __init__(self):
        self.times, self.errors = collections.defaultdict(list), collections.Counter()
        self.bytes = self.moves = 0


class Net:
    """One kept connection of one page."""

    def __init__(self, port, figures):
        self.port, self.figures, self.pipe = port, figures, None

    async def ask(self, method, path, name=None):
        """The status and body; status 0 where no answer came."""
        begun = time.perf_counter()
        head = f"{method} /api/{path} HTTP/1.1\r\nHost: arena\r\nAccept: */*\r\nAccept-Encoding: gzip\r\n"
        head += f"Authorization: Bearer {key_of(name)}\r\n" if name else ""
        head += "Content-Length: 0\r\n\r\n" if method == "POST" else "\r\n"
        try:
            if self.pipe is None:
                self.pipe = await asyncio.open_connection("127.0.0.1", self.port)
            self.pipe[1].write(head.encode())
            top, data = await asyncio.wait_for(self.answer(self.pipe[0]), 6)
        except (OSError, asyncio.IncompleteReadError, asyncio.TimeoutError) as e:
            self.pipe = None
            self.figures.errors[type(e).__name__] += 1
            await asyncio.sleep(1)
            return 0, None
        self.figures.times[method + " " + re.sub(r"\d+", "#", path.split("/move")[0]) + ("/move" if "/move" in path else "")] \
            .append(time.perf_counter() - begun)
        self.figures.bytes += len(top) + len(data)
        status = int(top.split()[1])
        if status not in (200, 409):
            self.figures.errors[status] += 1
        if status == 502:
            raise HostGone
        return status, json.loads(gzip.decompress(data) if "gzip" in top else data)

    @staticmethod
    async def answer(reader):
        top = (await reader.readuntil(b"\r\n\r\n")).decode()
        if "chunked" not in top:
            return top, await reader.readexactly(int(re.search(r"Content-Length: (\d+)", top)[1]))
        data = b""
        while size := int(await reader.readline(), 16):
            data += (await reader.readexactly(size + 2))[:-2]
        await reader.readline()
        return top, data


class Player:
    """A page whose player enters, plays one of the lines, and answers each draw offer with yes."""

    def __init__(self, i, port, figures, think, pace, plies):
        self.name, self.net, self.figures = name_of(i), Net(port, figures), figures
        self.random, self.think, self.pace, self.plies = random.Random(i), think, pace, plies
        self.me = self.game = self.move_at = None
        self.table_at = self.arena_at = 0

    async def live(self, until):
        await asyncio.sleep(self.random.random() * 3)
        while time.time() < until:
            if time.time() - self.arena_at > 20:
                self.arena_at = time.time()
                await self.net.ask("GET", "arena", self.name)
            await asyncio.sleep(await (self.play() if self.game and not self.game["outcome"] else self.look()))

    def take(self, status, body):
        if status == 200:
            self.game = body
        return status == 200

    async def play(self):
        """One beat in a game; the wait until the next."""
        g, now = self.game, time.time()
        side = "white" if g["white"] == self.name else "black"
        if g["turn"] == side:
            if self.move_at is None:
                self.move_at = now + (min(20, self.random.expovariate(1 / self.think)) if g["ply"] > 3 else self.random.random() * 2 * self.pace)
            if now >= self.move_at and await self.act(g):
                return 0 if self.game["outcome"] else 0.6 * self.pace
        elif g["offer"] and g["offer"] != side:
            await self.net.ask("POST", f"game/{g['id']}/draw/accept", self.name)
        self.take(*await self.net.ask("GET", f"game/{g['id']}", self.name))
        if self.game["outcome"]:
            return 0
        rest = (1.5 if self.game["turn"] == side else 0.6) * self.pace
        return min(rest, max(0.01, self.move_at - time.time())) if self.game["turn"] == side and self.move_at else rest

    async def act(self, g):
        line, self.move_at = LINES[g["id"] % len(LINES)], None
        if g["ply"] < min(len(line) - 1, self.plies + 7 * (g["id"] % 9)):
            done = self.take(*await self.net.ask("POST", f"game/{g['id']}/move/{line[1 + g['ply']]}", self.name))
        else:
            done = self.take(*await self.net.ask("POST", f"game/{g['id']}/" + ("draw/offer" if line[0] == "draw" else "resign"), self.name))
        self.figures.moves += done
        return done

    async def look(self):
        """One beat without a game; the wait until the next."""
        status, body = await self.net.ask("GET", "me", self.name)
        if status != 200:
            return 1.5
        if body["seat"] in ("absent", "paused"):
            await self.net.ask("POST", "enter", self.name)
        elif body["game"] is not None:
            self.move_at = None
            if self.take(*await self.net.ask("GET", f"game/{body['game']}", self.name)):
                return 0
        elif time.time() - self.table_at > 6:
            self.table_at = time.time()
            await self.net.ask("GET", f"standing/{(body['rank'] or 0) // 10}")
        return 1.5


async def screen(port, figures, until):
    """A hall screen."""
    net, seen, last, turn = Net(port, figures), 0, 0, 0
    while time.time() < until:
        status, journal = await net.ask("GET", f"journal/{seen}")
        if status == 200:
            acts = {e.split()[4] for e in journal["entries"] if e.split()[2] == "act"}
            seen = journal["from"] + len(journal["entries"])
            for g in sorted(acts)[:6]:
                await net.ask("GET", f"game/{g}")
        if time.time() - last > 5:
            last = time.time()
            await net.ask("GET", "arena")
            await net.ask("GET", "teams")
        turn += 1
        if turn % 2:
            await net.ask("GET", "standing/0")
            await net.ask("GET", f"standing/{turn // 10 % 20 + 1}")
        await asyncio.sleep(1)


async def crowd(port, players, screens, seconds, think, pace=1.0, plies=500):
    """Lets so many pages and screens live for so long; what they have seen. Who comes to so many plies and some more gives up."""
    figures, until = Figures(), time.time() + seconds
    jobs = [Player(i, port, figures, think, pace, plies).live(until) for i in range(players)]
    jobs += [screen(port, figures, until) for _ in range(screens)]
    for end in await asyncio.gather(*jobs, return_exceptions=True):
        if end and not isinstance(end, HostGone):
            raise end
    return figures
