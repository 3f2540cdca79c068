"""The page of ./explore in a headless browser, for /usr/bin/python3, which has Debian's selenium.

    page = Page(1280, 800)
    page.open("http://127.0.0.1:8080/")
    page.settle()                            # until all views are drawn
    page.state()                             # what it shows, as its elements have it"""
import time

from selenium import webdriver
from selenium.webdriver.chrome.options import Options
from selenium.webdriver.chrome.service import Service
from selenium.webdriver.common.action_chains import ActionChains
from selenium.webdriver.common.by import By
from selenium.webdriver.common.keys import Keys

STATE = """const text = (id) => document.getElementById(id).textContent, bars = {}, pressed = {}
for (const section of document.querySelectorAll('#bars section')) {
  const each = [...section.querySelectorAll('.bar')], name = section.id.slice(5)
  bars[name] = Object.fromEntries(each.map((bar) => [bar.dataset.value, bar.querySelector('em').textContent]))
  pressed[name] = each.filter((bar) => bar.getAttribute('aria-pressed') === 'true').map((bar) => bar.dataset.value)
}
let drawn = 0
for (const canvas of document.querySelectorAll('canvas.leaflet-tile')) {
  const {data} = canvas.getContext('2d').getImageData(0, 0, canvas.width, canvas.height)
  for (let i = 3; i < data.length; i += 4) drawn += data[i] > 0
}
const bounds = explorer.map.getBounds(), {shown} = explorer
return {
  total: text('total'), seen: text('seen'), range: text('range'), state: text('state'),
  chips: document.querySelectorAll('#chips button').length, bars, pressed, drawn, box: shown.box, tiles: shown.tiles,
  time: shown.choice?.time ?? null, values: shown.choice?.values, cells: shown.cells,
  parts: shown.parts?.map(({name, cells}) => [name, cells]), totals: shown.totals, all: shown.all, older: shown.older,
  number: shown.seen, zoom: explorer.map.getZoom(),
  sides: [bounds.getWest(), bounds.getNorth(), bounds.getEast(), bounds.getSouth()]
}"""

# Whether anything moves or is asked for, and where the map and the elements stand.
RESTS = """const {map} = explorer, {lat, lng} = map.getCenter()
return [Boolean(explorer.busy || map._animatingZoom || map._panAnim?._inProgress), map.getZoom(), lat, lng,
  window.scrollY, document.documentElement.scrollHeight, document.getElementById('bars').getBoundingClientRect().top]"""


class Page:
    def __init__(self, width, height, more=()):
        options = Options()
        size = f"--window-size={width},{height + 140}"
        for word in ("--headless=new", "--no-sandbox", size, "--force-device-scale-factor=1", "--lang=en-US", *more):
            options.add_argument(word)
        options.set_capability("goog:loggingPrefs", {"browser": "ALL"})
        self.driver = webdriver.Chrome(service=Service("/usr/bin/chromedriver"), options=options)
        self.size(width, height)

    def size(self, width, height, mobile=False):
        self.tell("Emulation.setDeviceMetricsOverride", width=width, height=height, deviceScaleFactor=1, mobile=mobile)

    def tell(self, command, **words):
        """A command of the browser's own protocol."""
        return self.driver.execute_cdp_cmd(command, words)

    def open(self, url):
        self.driver.get(url)
        self.until("window.explorer && explorer.shown.seen > 0")

    def run(self, text, *words):
        return self.driver.execute_script(text, *words)

    def value(self, text):
        return self.run(f"return {text}")

    def until(self, text, seconds=60):
        end = time.monotonic() + seconds
        while not self.value(text):
            if time.monotonic() > end:
                raise RuntimeError(f"it did not come to be: {text}")
            time.sleep(0.03)

    def settle(self):
        """Until what was changed is drawn, and neither the map nor what lies round it has moved for four looks."""
        self.run("window.marked = false; requestAnimationFrame(() => setTimeout(() => { window.marked = true }, 60))")
        self.until("window.marked")
        before, still, end = None, 0, time.monotonic() + 60
        while still < 4:
            now = self.run(RESTS)
            still = still + 1 if now == before and not now[0] else 0
            if time.monotonic() > end:
                raise RuntimeError(f"it did not come to rest: {now}")
            before = now
            time.sleep(0.03)

    def state(self):
        return self.run(STATE)

    def find(self, selector):
        return self.driver.find_element(By.CSS_SELECTOR, selector)

    def click(self, selector, shift=False):
        actions = ActionChains(self.driver)
        if shift:
            actions.key_down(Keys.SHIFT)
        actions.click(self.find(selector))
        if shift:
            actions.key_up(Keys.SHIFT)
        actions.perform()

    def place(self, selector):
        """Left, top, width and height of an element in the window."""
        return self.run("""const side = document.querySelector(arguments[0]).getBoundingClientRect()
            return [side.left, side.top, side.width, side.height]""", selector)

    def drag(self, selector, begin, end, steps=12, pause=0):
        """The mouse goes down, over and up, between two places of an element, as parts of its sides."""
        points = list(self.points(selector, begin, end, steps))
        self.mouse("mouseMoved", points[0], 0)
        self.mouse("mousePressed", points[0], 1)
        for point in points[1:]:
            self.mouse("mouseMoved", point, 1)
            time.sleep(pause)
        self.mouse("mouseReleased", points[-1], 0)

    def mouse(self, kind, point, buttons):
        more = {"buttons": buttons, "clickCount": int(kind != "mouseMoved"), "button": "left", "pointerType": "mouse"}
        self.tell("Input.dispatchMouseEvent", type=kind, **point, **more)

    def points(self, selector, begin, end, steps):
        """The places of the window from one part of an element to another."""
        left, top, width, height = self.place(selector)
        for step in range(steps + 1):
            x, y = (one + step / steps * (other - one) for one, other in zip(begin, end))
            yield {"x": left + width * x, "y": top + height * y}

    def touch(self, selector, begin, end, steps=10):
        """A finger goes down, over and up."""
        for step, point in enumerate(self.points(selector, begin, end, steps)):
            self.tell("Input.dispatchTouchEvent", type="touchMove" if step else "touchStart", touchPoints=[point])
        self.tell("Input.dispatchTouchEvent", type="touchEnd", touchPoints=[])

    def press(self, key, times=1, shift=False):
        actions = ActionChains(self.driver)
        if shift:
            actions.key_down(Keys.SHIFT)
        for _ in range(times):
            actions.send_keys(key)
        if shift:
            actions.key_up(Keys.SHIFT)
        actions.perform()

    def errors(self):
        return [entry["message"] for entry in self.driver.get_log("browser") if entry["level"] == "SEVERE"]

    def shot(self, path):
        self.driver.save_screenshot(path)

    def close(self):
        self.driver.quit()
