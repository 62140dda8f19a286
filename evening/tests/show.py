#!/usr/bin/python3
"""show.py DIR [SECONDS]   pictures of a lively hall and of a player in it: 34 quick players in three teams without browsers."""
import asyncio, pathlib, sys, threading, time

sys.dont_write_bytecode = True
import crowd, tab  # noqa: E402
from browser import adopt, reap  # noqa: E402
from stand import Stand, key_of, setup_of  # noqa: E402
from tab import Tab, chromium  # noqa: E402

TEAMS = ["Rooks", "Bishops", "Knights"]


def pictures(st, d, seconds):
    hall = Tab(d, st.url + "/hall.html", first=True, size=(1920, 1080))
    guest = Tab(d, f"{st.url}/#key={key_of('vik')}")
    hall.shot("hall-before")
    guest.until_view(live="yes")
    time.sleep(seconds * 0.6)
    hall.click("#hold")
    while "Places 11" not in hall.text("#page-name"):
        hall.click("#next")
        time.sleep(1.5)
    guest.shot("player")
    guest.size(390, 844, 2, True)
    guest.shot("player-phone")
    hall.shot("hall")
    hall.dark(True)
    hall.shot("hall-dark")
    hall.dark(False)
    hall.size(1280, 720)
    time.sleep(1.5)
    hall.shot("hall-720")
    hall.size(390, 844, 2, True)
    time.sleep(1.5)
    hall.shot("hall-phone")
    hall.size(1920, 1080)
    end = time.time() + 400
    while time.time() < end and hall.js("return document.body.dataset.state") != "over":
        time.sleep(1)
    hall.until_view(state="over")
    hall.until_text("#phase", "Final table")
    hall.shot("hall-over")
    assert hall.complaints() == [], hall.complaints()


def main():
    tab.shots, seconds = pathlib.Path(sys.argv[1]), int(sys.argv[2]) if len(sys.argv) > 2 else 100
    tab.shots.mkdir(parents=True, exist_ok=True)
    adopt()
    names = [crowd.name_of(i) for i in range(34)]
    setup = setup_of([(n, 1000 + i * 37 % 1100, TEAMS[i % 3]) for i, n in enumerate(names)],
                     ends=seconds * 1000, starts=8000, wave=3000, teams=TEAMS, leaders=5)
    with Stand(setup, title="Tuesday Team Blitz", edit=lambda text: text.replace("rate=10r/s", "rate=200r/s")) as st:
        bots = threading.Thread(target=lambda: asyncio.run(crowd.crowd(st.port, len(names), 0, seconds + 400, 0.2, 0.15, 16)))
        bots.start()
        d = chromium()
        try:
            pictures(st, d, seconds)
        finally:
            d.quit()
            bots.join()
    reap()


if __name__ == "__main__":
    main()
