"""What holds of the pages at any time: files and headers, what nginx makes of answers, rules, names, sizes and colours."""
import concurrent.futures, json, time, urllib.error, urllib.request
from stand import key_of

PERFT = [("START", 3, 8902), ("r3k2r/p1ppqpb1/bn2pnp1/3PN3/1p2P3/2N2Q1p/PPPBBPPP/R3K2R w KQkq - 0 1", 2, 2039),
         ("8/2p5/3p4/KP5r/1R3p1k/8/4P1P1/8 w - - 0 1", 4, 43238),
         ("r3k2r/Pppp1ppp/1b3nbN/nP6/BBP1P3/q4N2/Pp1P2PP/R2Q1RK1 w kq - 0 1", 3, 9467),
         ("rnbq1k1r/pp1Pbppp/2p5/8/2B5/8/PPP1NnPP/RNBQK2R w KQ - 1 8", 3, 62379)]


def get(url, **headers):
    try:
        with urllib.request.urlopen(urllib.request.Request(url, headers=headers), timeout=5) as a:
            return a.status, dict(a.headers), a.read()
    except urllib.error.HTTPError as e:
        return e.code, dict(e.headers), e.read()


def bearer(name):
    return {"Authorization": "Bearer " + key_of(name)}


def files_and_answers(st):
    """The files with their types and headers, nothing else, and what nginx makes of answers."""
    for path, kind in [("/", "text/html"), ("/hall.html", "text/html"), ("/js/play.js", "text/javascript"), ("/css/base.css", "text/css"),
                       ("/favicon.svg", "image/svg+xml"), ("/evening.json", "application/json"), ("/table.txt", "text/plain")]:
        status, head, _ = get(st.url + path)
        assert status == 200 and kind in head["Content-Type"], (path, status, head)
        assert "default-src 'none'" in head["Content-Security-Policy"] and head["Cache-Control"] == "no-cache", head
    status, head, _ = get(st.url + "/api/arena")
    assert status == 200 and head["Cache-Control"] == "no-store" and "X-Arena-Seen" in head
    for hidden in ("/setup.json", "/../setup.json", "/journal.txt", "/nginx.conf", "/requests.txt"):
        assert get(st.url + hidden)[0] in (400, 404), hidden
    # A player's own answer is never kept for another: first with a key, then without, then with another's.
    assert get(st.url + "/api/me", **bearer("alice"))[0] == 200
    assert get(st.url + "/api/me")[0] == 401
    assert json.loads(get(st.url + "/api/me", **bearer("bob"))[2])["name"] == "bob"
    with concurrent.futures.ThreadPoolExecutor(6) as pool:
        list(pool.map(lambda _: get(st.url + "/api/me", **bearer("alice")), range(12)))
    time.sleep(0.2)
    assert st.held() == 0, f"{st.held()} connections to the host are kept"
    # One key cannot flood the host, and others are not held up by it.
    answers = [get(st.url + "/api/me", **bearer("zoe")) for _ in range(60)]
    assert (429, b'{"error":"TooFast"}') in [a[::2] for a in answers] and answers[0][0] == 401
    assert get(st.url + "/api/me", **bearer("bob"))[0] == 200


def rules(tab):
    """The page's own moves against known counts."""
    counts = tab.use().execute_async_script("""
      const [cases, done] = arguments;
      import('/js/rules.js').then((R) => {
        const count = (p, n) => { const ms = R.legalMoves(p); return n === 1 ? ms.length : ms.reduce((s, m) => s + count(R.play(p, m), n - 1), 0); };
        done(cases.map(([f, n]) => count(R.readFen(f === 'START' ? R.START : f), n)));
      });""", [case[:2] for case in PERFT])
    assert counts == [case[2] for case in PERFT], counts


def looks(tab):
    """Every control has a name, nothing is wider than a phone, and dark is dark."""
    nameless = tab.js("return [...document.querySelectorAll('button, input, a')].filter((e) => e.getClientRects().length"
                       " && !(e.innerText?.trim() || e.getAttribute('aria-label') || e.labels?.length)).map((e) => e.outerHTML)")
    assert nameless == [], nameless
    tab.size(360, 740, 2, True)
    tab.until("the phone's width", "return innerWidth === 360")
    assert tab.js("return document.documentElement.scrollWidth") <= 360
    tab.shot("09-phone")
    light = tab.js("return getComputedStyle(document.body).backgroundColor")
    tab.dark(True)
    assert tab.js("return getComputedStyle(document.body).backgroundColor") != light
    tab.shot("10-phone-dark")
    tab.size(780, 360, 2, True)
    tab.until("the phone on its side", "return innerWidth === 780")
    side = tab.js("return document.querySelector('#board').getBoundingClientRect()")
    assert side["width"] >= 270 and side["bottom"] <= 360, side
    tab.shot("10-phone-on-its-side")
    tab.size(1280, 860)
    tab.shot("11-dark")
    tab.dark(False)


def contrast(tab):
    """Text and its ground differ by 4.5 or more, light and dark, in every pair of colours that the styles put together."""
    for dark in (False, True):
        tab.dark(dark)
        pairs = [("--ink", "--page"), ("--ink", "--card"), ("--dim", "--page"), ("--dim", "--card"), ("--accent", "--card"),
                 ("--accent-ink", "--accent"), ("--bad", "--card"), ("--warn", "--card"), ("--warn", "--page"), ("--ink", "--accent-soft"), ("--card", "--bad")]
        ratios = tab.js("""
          const style = getComputedStyle(document.documentElement), c = document.createElement('canvas').getContext('2d');
          const light = (name) => { c.fillStyle = style.getPropertyValue(name); c.fillRect(0, 0, 1, 1);
            const l = [...c.getImageData(0, 0, 1, 1).data].slice(0, 3).map((v) => v / 255).map((v) => v <= .04045 ? v / 12.92 : ((v + .055) / 1.055) ** 2.4);
            return .2126 * l[0] + .7152 * l[1] + .0722 * l[2]; };
          return arguments[0].map(([a, b]) => { const [x, y] = [light(a), light(b)]; return (Math.max(x, y) + .05) / (Math.min(x, y) + .05); });""", pairs)
        poor = [(p, round(r, 2)) for p, r in zip(pairs, ratios) if r < 4.5]
        assert not poor, (dark, poor)
    tab.dark(False)
