"""One window of a headless Chromium, and what a player or a spectator does in it. Every wait is for a state of the page."""
import pathlib, time
from selenium import webdriver
from selenium.common.exceptions import TimeoutException
from selenium.webdriver.chrome.options import Options
from selenium.webdriver.chrome.service import Service
from selenium.webdriver.common.action_chains import ActionChains
from selenium.webdriver.support.ui import WebDriverWait
from stand import key_of

LIMIT = 25  # seconds for one wait: far more than needed, since a loaded machine must not turn a test red
CHROMIUM, DRIVER = pathlib.Path("/usr/bin/chromium"), pathlib.Path("/usr/bin/chromedriver")
WORDS = ("--headless=new --no-sandbox --disable-gpu --disable-dev-shm-usage --hide-scrollbars --window-size=1280,860 --no-first-run "
         "--disable-background-timer-throttling --disable-renderer-backgrounding --disable-backgrounding-occluded-windows "
         "--disable-extensions --disable-sync --disable-component-update --disable-background-networking "
         "--force-prefers-reduced-motion")
shots = None  # a folder for pictures, or None


def chromium():
    o = Options()
    o.binary_location = str(CHROMIUM)
    for word in WORDS.split():
        o.add_argument(word)
    o.set_capability("goog:loggingPrefs", {"browser": "ALL"})
    return webdriver.Chrome(service=Service(str(DRIVER)), options=o)


class Tab:
    current = None

    def __init__(self, driver, url, first=False, size=(1280, 860)):
        self.d = driver
        if not first:
            driver.switch_to.new_window("window")
        self.handle = Tab.current = driver.current_window_handle
        self.size(*size)
        driver.get(url)

    def use(self):
        if Tab.current != self.handle:
            self.d.switch_to.window(self.handle)
            Tab.current = self.handle
        return self.d

    def size(self, width, height, scale=1, phone=False):
        self.use().execute_cdp_cmd("Emulation.setDeviceMetricsOverride",
                                   {"width": width, "height": height, "deviceScaleFactor": scale, "mobile": phone})

    def dark(self, on):
        self.use().execute_cdp_cmd("Emulation.setEmulatedMedia", {"features": [
            {"name": "prefers-color-scheme", "value": "dark" if on else "light"},
            {"name": "prefers-reduced-motion", "value": "reduce"}]})

    def js(self, text, *words):
        return self.use().execute_script(text, *words)

    def find(self, css):
        return self.use().find_element("css selector", css)

    def until(self, what, script, *words):
        """Waits until the script answers something true, and answers that."""
        d = self.use()
        try:
            return WebDriverWait(d, LIMIT, poll_frequency=0.05).until(lambda _: d.execute_script(script, *words))
        except TimeoutException:
            if shots:
                d.save_screenshot(str(shots / "failed.png"))
            shown = d.execute_script("return document.body.innerText.slice(0, 900)")
            raise AssertionError(f"waited for: {what}; the page shows {shown!r}") from None

    def text(self, css):
        return self.js("return document.querySelector(arguments[0])?.innerText.trim() ?? null", css)

    def until_text(self, css, part):
        """Waits until a part of the page has a text and can be seen: the text of a hidden one can be read as well."""
        return self.until(f"{part!r} in {css}", "const e = document.querySelector(arguments[0]);"
                          " return e && e.getClientRects().length > 0 && e.innerText.includes(arguments[1]) && e.innerText", css, part)

    def until_view(self, **data):
        return self.until(f"a page in the state {data}",
                          "return Object.entries(arguments[0]).every(([k, v]) => document.body.dataset[k] === v)", data)

    def click(self, css):
        self.until(f"{css} to be clickable", "const e = document.querySelector(arguments[0]);"
                   " return e && !e.disabled && e.getClientRects().length > 0", css)
        self.find(css).click()

    def shot(self, name):
        if shots:
            time.sleep(0.4)
            self.use().save_screenshot(str(shots / (name + ".png")))

    def complaints(self):
        """What the console has of the page's own errors; refusals of the host are none."""
        self.use()
        return [e["message"] for e in self.d.get_log("browser")
                if e["level"] == "SEVERE" and "Failed to load resource" not in e["message"]]

    # ---- as a player

    def link(self, url, name):
        self.use().get(f"{url}/#key={key_of(name)}")

    def enter(self):
        self.until_view(seat="absent")
        self.click("#enter")
        self.until("a seat", "return ['idle', 'playing'].includes(document.body.dataset.seat)")

    def is_white(self):
        return self.js("return document.querySelector('#us .seat').classList.contains('white')")

    def square(self, name):
        return self.find(f'[data-square="{name}"]')

    def our_turn(self):
        self.until("our turn", "return document.querySelector('#us.turn') && document.querySelector('.sq.mine')")

    def until_moved(self, word):
        self.until(word + " shown", "return document.querySelector(`[data-square=\"${arguments[0]}\"].last .man`)", word[2:4])

    def move(self, word):
        """Two clicks on the board, and a third for what a pawn becomes."""
        self.our_turn()
        self.square(word[:2]).click()
        self.until("targets", "return document.querySelector(`[data-square=\"${arguments[0]}\"].target`)", word[2:4])
        self.square(word[2:4]).click()
        if word[4:]:
            self.until("the choice", "return document.querySelector('.promote')")
            self.find(f'.promote [data-promo="{word[4]}"]').click()
        self.until_moved(word)

    def drag(self, word):
        self.our_turn()
        ActionChains(self.use(), duration=40).move_to_element(self.square(word[:2])).click_and_hold().move_by_offset(8, -8) \
            .move_to_element(self.square(word[2:])).release().perform()
        self.until_moved(word)

    def keys(self, *words):
        ActionChains(self.use()).send_keys(*words).perform()

    def until_moves(self, texts):
        """Waits until the list has these moves: those that the page did not hear come from the journal."""
        self.until("the moves " + texts, "return [...document.querySelectorAll('#moves span')].map((e) => e.textContent).join(' ').trim() === arguments[0]", texts)
