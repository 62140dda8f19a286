#!/usr/bin/python3
"""The pages in a real Chromium, against a host behind the shipped nginx configuration; one browser with a window a player.

browser.py [--shots DIR]   takes one to two minutes; says in a line where Chromium or its driver is missing, and passes."""
import argparse, contextlib, ctypes, os, pathlib, re, signal, subprocess, sys, tempfile, time, urllib.request

sys.dont_write_bytecode = True
try:
    import tab
    from selenium.webdriver.common.keys import Keys
    from tab import Tab, chromium
    MISSING = next((f"{p} is" for p in (tab.CHROMIUM, tab.DRIVER) if not p.exists()), None)
except ImportError:
    MISSING = "python3-selenium is"
from looks import bearer, contrast, files_and_answers, get, looks, rules  # noqa: E402
from stand import Stand, key_of, setup_of  # noqa: E402
from desk import proxy  # noqa: E402
from desk.plain import EVENING  # noqa: E402


def sit_down(st, d):
    """One player by a typed key, one by the slip's link; a wrong key is told so."""
    alice, bob = Tab(d, st.url + "/"), Tab(d, st.url + "/")
    hall = Tab(d, st.url + "/hall.html", size=(1920, 1080))
    alice.until_view(view="signin")
    alice.shot("01-key")
    alice.find("#key").send_keys("wrongwrongwrong1234" + Keys.ENTER)
    alice.until_text("#key-error", "does not know this key")
    alice.find("#key").send_keys(key_of("alice") + Keys.ENTER)
    alice.enter()
    alice.shot("02-waiting")
    bob.link(st.url, "bob")
    bob.until_view(seat="absent")
    assert "#" not in bob.use().current_url, "the key is taken out of the address"
    bob.enter()
    return alice, bob, hall


def sides(*tabs):
    for t in tabs:
        t.until_view(view="game", live="yes")
    return tabs if tabs[0].is_white() else tabs[::-1]


def fools_mate(alice, bob, hall):
    """A fool's mate by clicks; both players and the hall see the result."""
    white, black = sides(alice, bob)
    names = {alice: "alice", bob: "bob"}
    assert white.text("#us .name") == names[white] and white.text("#them .name") == names[black]
    assert black.js("return document.querySelector('.sq').dataset.square") == "h1", "Black sits behind the eighth rank"
    white.our_turn()
    white.square("e2").click()
    assert white.js("return [...document.querySelectorAll('.target')].map((e) => e.dataset.square).sort().join()") == "e3,e4"
    white.square("d5").click()  # no move: the pawn is put down again
    white.until("nothing picked", "return !document.querySelector('.picked')")
    white.move("f2f3")
    black.move("e7e5")
    black.shot("03-black-to-wait")
    black.click("#pause")  # a wave may come the moment a game ends: who wants to look at his result pauses before
    black.until_text("#seat", "paused after this game")
    white.move("g2g4")
    black.move("d8h4")
    for t in (white, black):
        t.until_view(live="no")
    assert white.text("#result h2") == "You lost against " + names[black] and black.text("#result h2") == "You won against " + names[white]
    assert black.text("#result p") == "By checkmate."
    black.until_text("#points", "2")
    black.until_text("#rank", "1st of 2")
    white.until_text("#rank", "2nd of 2")
    white.until_moves("f3 e5 g4 Qh4#")
    assert white.js("return document.querySelector('.sq.check').dataset.square") == "e1"
    assert "You lost" in white.text("#say")
    black.shot("04-won")
    white.shot("05-lost")
    hall.until("the table in the hall", "const r = [...document.querySelectorAll('#top tbody tr')].map((tr) => [...tr.cells].map((c) => c.textContent));"
               " return r.length === 2 && r[0][1] === arguments[0] && r[0][5] === '2' && r[1][1] === arguments[1] && r[1][5] === '0'",
               names[black], names[white])
    hall.until_text("#latest", "0–1")
    black.until_view(seat="paused")
    black.click("#enter")
    for t in (alice, bob):
        t.until_view(view="game", live="yes", game="1")
    assert "Last game: you lost" in white.text("#last"), white.text("#last")
    hall.until("the second game in the hall", "return document.querySelector('figure[data-game=\"1\"] use')")


def opening(white, black):
    """Berserk, a drag, keys alone and a typed move."""
    black.click("#berserk")
    black.until_text("#us .mark", "berserk")
    white.until_text("#them .mark", "berserk")
    white.drag("e2e4")
    black.our_turn()
    black.js("document.querySelector('[data-square=\"e7\"]').focus()")
    black.keys(Keys.ENTER, Keys.ARROW_UP, Keys.ARROW_UP, Keys.ENTER)
    black.until_moved("e7e5")
    white.our_turn()
    white.find("#typed").send_keys("Nf9" + Keys.ENTER)
    white.until_text("#notice", "no legal move")
    white.find("#typed").clear()
    white.find("#typed").send_keys("Nf3" + Keys.ENTER)
    black.our_turn()
    assert "knight f3" in black.text("#say"), black.text("#say")


def second_game(st, alice, bob, hall):
    """All ways to move, a claim and an offer refused, a page opened again, resignation, and a result that is held."""
    white, black = sides(alice, bob)
    opening(white, black)
    black.click("#claim")
    black.until_text("#notice", "No draw can be claimed")
    hall.use().refresh()  # a screen that comes late finds the running game
    hall.until("the running game", "return document.querySelector('figure[data-game=\"1\"] use') && document.querySelector('#top tbody tr')")
    white.click("#draw")
    black.until_text("#offer", "offers a draw")
    black.shot("06-draw-offer")
    black.click("#decline")
    white.until("the offer gone", "return document.querySelector('#draw').textContent === 'Offer draw'")
    white.click("#draw")  # at the same ply: refused in plain words
    white.until_text("#notice", "offered at this move already")
    black.click("#pause")
    black.until_text("#seat", "paused after this game")
    white.use().refresh()  # a page that is opened again finds its game and its moves
    white.until_view(view="game", live="yes")
    white.until_moves("e4 e5 Nf3")
    black.our_turn()
    black.click("#resign")
    black.click("#ask-yes")
    black.until_view(live="no", seat="paused")
    white.until_text("#result h2", "You won")
    black.until_text("#result p", "You resigned")
    black.click("#enter")
    for t in (alice, bob):
        t.until_view(view="game", live="yes", game="2")
    result_held(st, alice, bob)


def result_held(st, alice, bob):
    """Without a pause the next game begins at once. The page holds the result for some seconds and then goes on by itself."""
    one = st.api("GET", "me", "alice")[1]["game"]
    assert st.api("POST", f"game/{one}/resign", "alice")[0] == 200
    bob.until_text("#result h2", "You won against alice")
    for t in (alice, bob):
        t.until_view(view="game", live="yes", game=str(one + 1))
    assert "Last game: you won against alice" in bob.text("#last") and "you lost against bob" in alice.text("#last")


def promotion(st, alice, bob):
    """A promotion by clicks, an accepted draw, and leaving."""
    white, black = sides(alice, bob)
    names = {alice: "alice", bob: "bob"}
    st.play(st.api("GET", "me", "alice")[1]["game"], [names[white], names[black]], "a2a4 b7b5 a4b5 a7a6 b5a6 c8b7 a6b7 b8c6")
    white.until("the position", "return document.querySelector('[data-square=\"c6\"] .man') && document.querySelector('#us.turn')")
    white.our_turn()
    white.until_moves("a4 b5 axb5 a6 bxa6 Bb7 axb7 Nc6")
    white.square("b7").click()
    white.until("targets", "return document.querySelector('[data-square=\"a8\"].target')")
    white.square("a8").click()
    white.until("the choice", "return document.querySelector('.promote')")
    white.shot("07-promotion")
    white.find('.promote [data-promo="n"]').click()
    black.until("the knight", "return document.querySelector('[data-square=\"a8\"]').getAttribute('aria-label') === 'a8, white knight'")
    black.click("#pause")
    black.until_text("#seat", "paused after this game")
    black.click("#draw")
    white.until_text("#offer", "offers a draw")
    white.click("#accept")
    black.until_text("#result h2", "Draw")
    white.until_text("#result p", "agreement")
    white.until_view(live="no")
    black.click("#leave")
    black.click("#ask-yes")
    black.until_view(seat="left")
    black.until_text("#seat", "left this arena")
    assert black.js("return document.querySelector('#enter').hidden")


def host_away(st, alice):
    """The host stands still, then is gone, then is a new one: plain words each time, and the page finds back."""
    st.host.send_signal(signal.SIGSTOP)
    alice.until_text("#link", "No answer")
    alice.shot("08-no-answer")
    st.host.send_signal(signal.SIGCONT)
    alice.until("the banner gone", "return document.querySelector('#link').hidden")
    st.stop_host()
    assert get(st.url + "/api/me", **bearer("bob"))[::2] == (502, b'{"error":"Away"}')
    alice.until_text("#link", "No answer")
    st.start_host()
    alice.until("the banner gone", "return document.querySelector('#link').hidden")
    alice.until_view(seat="absent", view="lobby")


def move_in_the_dark(st, alice, bob):
    """A move made while the host does not answer, or that gets lost, is sent until it stands; an answer that comes too late is
    passed over."""
    alice.enter()
    bob.link(st.url, "bob")
    bob.enter()
    white, black = sides(alice, bob)
    white.our_turn()
    st.host.send_signal(signal.SIGSTOP)
    white.move("d2d4")
    white.until_text("#link", "your move is sent again")
    st.host.send_signal(signal.SIGCONT)
    black.until("d4", "return document.querySelector('[data-square=\"d4\"].last .man') && document.querySelector('#us.turn')")
    white.until("the banner gone", "return document.querySelector('#link').hidden")
    assert white.js("return document.querySelector('#them').classList.contains('turn')")
    late_answer(white, black)
    white.js("""
      const real = window.fetch;
      let lost = 2;
      window.fetch = (url, o) => (o.method === 'POST' && lost-- > 0 ? Promise.reject(new TypeError('lost')) : real(url, o));""")
    white.move("c2c4")
    black.until_moved("c2c4")


def late_answer(white, black):
    """A look at the game is held back, a move is made meanwhile, and then the old answer comes."""
    black.js("""
      const real = window.fetch;
      window.fetch = async (url, o) => {
        const r = await real(url, o);
        if (window.hold || o.method !== 'GET' || !String(url).includes('/game/')) return r;
        const text = await r.text();
        await new Promise((go) => { window.hold = go; });
        return new Response(text, { status: r.status, headers: r.headers });
      };
      window.seen = [];
      new MutationObserver(() => window.seen.push(document.querySelector('[data-square="d5"]').getAttribute('aria-label')))
        .observe(document.querySelector('[data-square="d5"]'), { attributes: true });""")
    black.until("a look held back", "return Boolean(window.hold)")
    black.move("d7d5")
    white.until_moved("d7d5")
    black.use().execute_async_script("window.hold(); setTimeout(arguments[0], 100);")
    labels = black.js("return window.seen")
    assert "d5, empty" not in labels[labels.index("d5, black pawn"):], labels


@contextlib.contextmanager
def evening_of(folder, names):
    """A short evening as an organiser makes it: prepared from a list and started. Gives each player's link and its address."""
    url = f"http://127.0.0.1:{proxy.free_port()}"
    (folder / "players.csv").write_text("name,rating\n" + "".join(f"{n},{2000 - i}\n" for i, n in enumerate(names)))
    subprocess.run([EVENING / "prepare", folder / "players.csv", "--title", "Short Arena", "--start", "0.2", "--length", "0.2",
                    "--address", url, "--into", folder], stdout=subprocess.DEVNULL, check=True)
    links = ["".join(parts) for parts in re.findall(r'class="link">([^<]*)<wbr>(#[^<]*)<', (folder / "slips.html").read_text())]
    start = subprocess.Popen([EVENING / "start", folder / "setup.json"], stdout=subprocess.PIPE, text=True)
    try:
        while "Ctrl-C" not in (said := start.stdout.readline()):
            assert said, "evening/start has ended"
        yield dict(zip(names, links, strict=True)), url
    finally:
        start.terminate()
        start.wait()
        start.stdout.close()


def post(link, path):
    """An act of the player of this link."""
    url, key = link.split("/#key=")
    request = urllib.request.Request(f"{url}/api/{path}", method="POST", headers={"Authorization": "Bearer " + key})
    with urllib.request.urlopen(request, timeout=5) as answer:
        return answer.status


def the_end(folder, alice, hall):
    """A short evening from the list to the last table: a player comes by the slip's link; the host closes when the time is up
    and no game runs; both pages show the final table."""
    with evening_of(folder, ["Alice Ångström", "bob", "carol"]) as (links, url):
        hall.size(1280, 720)
        hall.use().get(url + "/hall.html")
        hall.until_view(state="before")
        hall.until_text("#poster", "to the first games")
        hall.shot("12-hall-before")
        alice.use().get(links["Alice Ångström"])
        alice.until_text("#name", "Alice_Angstrom")
        alice.enter()
        alice.shot("12-alice-before")
        post(links["bob"], "enter")
        alice.until_view(view="game", live="yes")
        post(links["bob"], "pause")
        post(links["bob"], "game/0/resign")
        alice.until_text("#result h2", "You won")
        alice.until_text("#phase", "The arena is over")
        alice.until_text("#link", "final table")
        alice.until_text("#rank", "1st")
        hall.until_view(state="over")
        hall.until_text("#poster", "The arena is over")
        hall.until_text("#poster ol", "Alice_Angstrom")
        played = next(folder.glob("played-*"))
        assert (played / "table.txt").read_text().startswith("1 Alice_Angstrom 2000 2 ")
        alice.shot("13-over")
        hall.shot("14-hall-over")
        return "".join(f.read_text() for f in played.rglob("*.txt")), [link.split("#key=")[1] for link in links.values()]


def adopt():
    """From here on, what Chromium leaves behind comes to this process and not to process 1, which may reap nobody."""
    ctypes.CDLL(None).prctl(36, 1, 0, 0, 0)


def reap():
    end = time.time() + 10
    with contextlib.suppress(ChildProcessError):
        while time.time() < end:
            if os.waitpid(-1, os.WNOHANG) == (0, 0):
                time.sleep(0.05)


def run(st, passed):
    files_and_answers(st)
    passed("files, types, headers, no shared answers")
    d = chromium()
    passed("Chromium is up")
    try:
        rules(Tab(d, st.url + "/", first=True))
        passed("rules of the page")
        alice, bob, hall = sit_down(st, d)
        passed("a wrong key, a typed key, the slip's link")
        fools_mate(alice, bob, hall)
        passed("fool's mate by clicks, result on both pages, table in the hall")
        second_game(st, alice, bob, hall)
        passed("berserk, drag, keys, typing, claim, offer, reload, resign, pause, a result held")
        promotion(st, alice, bob)
        passed("promotion, agreed draw, leave")
        looks(alice)
        contrast(alice)
        passed("names of controls, phone width, dark, contrast")
        host_away(st, alice)
        passed("host silent, gone, started anew")
        move_in_the_dark(st, alice, bob)
        passed("a move sent again after silence, an old answer passed over")
        with tempfile.TemporaryDirectory(prefix="an evening ") as folder:
            logs, keys = the_end(pathlib.Path(folder), alice, hall)
        passed("an evening from the list and a slip's link to the final table")
        wrong = [c for t in (alice, bob, hall) for c in t.complaints()]
        assert wrong == [], wrong
        logs += st.logs()
        assert "/api/me" in logs and not any(key in logs for key in keys + [key_of(n) for n in ("alice", "bob", "zoe")])
        passed("no complaints in the console, no key in the logs")
    finally:
        d.quit()


def main():
    p = argparse.ArgumentParser(description=__doc__)
    p.add_argument("--shots", type=pathlib.Path, help="a folder for pictures of the pages")
    a = p.parse_args()
    if MISSING:
        print(f"browser test skipped: {MISSING} missing (apt-get install chromium chromium-driver python3-selenium)")
        return
    if a.shots:
        a.shots.mkdir(parents=True, exist_ok=True)
        tab.shots = a.shots
    begun = time.time()
    adopt()
    players = [("alice", 2000), ("bob", 1900)]
    with Stand(setup_of(players, wave=2500), workers=2, title="Tuesday Blitz") as st:  # few workers: a held one shows
        run(st, lambda what: print(f"ok {time.time() - begun:6.1f} s  {what}", flush=True))
    reap()
    print(f"all passed in {time.time() - begun:.1f} s")


if __name__ == "__main__":
    main()
