"""A page of `tora-study page` in a headless Chromium, by selenium."""
import os
import time

from selenium import webdriver
from selenium.webdriver.chrome.options import Options
from selenium.webdriver.chrome.service import Service
from selenium.webdriver.common.action_chains import ActionChains
from selenium.webdriver.common.by import By
from selenium.webdriver.common.keys import Keys
from selenium.webdriver.support.ui import Select


class Browser:
    """A browser with one window, and what a reader does in it."""

    def __init__(self, browser, driver):
        """Starts the browser; as root it runs without its sandbox, which root can't have."""
        options = Options()
        options.binary_location = browser
        for word in ("--headless=new", "--hide-scrollbars", "--disable-gpu", *(["--no-sandbox"] if os.geteuid() == 0 else [])):
            options.add_argument(word)
        options.set_capability("goog:loggingPrefs", {"browser": "ALL"})
        self.driver = webdriver.Chrome(options=options, service=Service(driver))
        self.complaints = []
        self.size(1280, 720)

    def __enter__(self):
        return self

    def __exit__(self, *_):
        self.driver.quit()

    def size(self, width, height):
        """Sets the size of the window's inside."""
        self.driver.execute_cdp_cmd("Emulation.setDeviceMetricsOverride", {"width": width, "height": height, "deviceScaleFactor": 1, "mobile": False})

    def open(self, path):
        """Opens a page, and waits until it has drawn."""
        self.driver.get("about:blank")
        file, mark, where = path.partition("#")
        self.driver.get("file://" + os.path.abspath(file) + mark + where)
        for _ in range(200):
            if self.js("return Boolean(window.tora?.readyAt)"):
                break
            self.wait(0.1)
        self.wait(0.2)

    def js(self, text):
        """Runs a script, and keeps what the console says."""
        found = self.driver.execute_script(text)
        self.complaints += [entry["message"] for entry in self.driver.get_log("browser")]
        return found

    def go(self, clock):
        """Goes to the end of a round, and draws it."""
        self.js(f"tora.jump({clock}); tora.draw()")

    def click(self, name):
        """Clicks an element."""
        self.driver.find_element(By.ID, name).click()

    def click_at(self, name, x, y):
        """Clicks at a point of an element, from its upper left corner."""
        element = self.driver.find_element(By.ID, name)
        x, y = x - element.size["width"] / 2, y - element.size["height"] / 2  # selenium counts from the middle
        ActionChains(self.driver).move_to_element_with_offset(element, x, y).click().perform()
        self.js("tora.draw()")

    def key(self, key, shift=False, is_anywhere=False):
        """Presses a key, by its name or as it is, where no element has the focus, or wherever the focus is."""
        if not is_anywhere:
            self.js("document.activeElement.blur()")
        chain = ActionChains(self.driver)
        press = getattr(Keys, key, key)
        (chain.key_down(Keys.SHIFT).send_keys(press).key_up(Keys.SHIFT) if shift else chain.send_keys(press)).perform()

    def choose(self, name, text):
        """Chooses what a list shows."""
        Select(self.driver.find_element(By.ID, name)).select_by_visible_text(text)
        self.js("tora.draw()")

    def text(self, name):
        """The text of an element."""
        return self.js(f"return document.getElementById('{name}').innerText")

    def wait(self, seconds):
        """Waits."""
        time.sleep(seconds)

    def picture(self, path):
        """Keeps a picture of the window."""
        self.driver.save_screenshot(path)


def processor_time(parent):
    """Seconds of processor that the descendants of a process have taken."""
    children, spent = {}, {}
    for name in os.listdir("/proc"):
        if name.isdecimal():
            try:
                with open(f"/proc/{name}/stat", encoding="ascii", errors="replace") as source:
                    fields = source.read().rpartition(")")[2].split()
            except OSError:
                continue
            children.setdefault(int(fields[1]), []).append(int(name))
            spent[int(name)] = (int(fields[11]) + int(fields[12])) / os.sysconf("SC_CLK_TCK")
    queue = [parent]
    for process in queue:
        queue += children.get(process, [])
    return sum(spent.get(process, 0) for process in queue)


def figures(browser, driver, path):
    """Prints how long a page takes to open, and how it plays, by the clock and in processor time of the whole browser."""
    print(f"{path}: {os.path.getsize(path) / 1e6:.2f} MB")
    for _ in range(3):
        with Browser(browser, driver) as page:
            process = page.driver.service.process.pid
            page.driver.get("about:blank")
            page.wait(1)
            before = processor_time(process)
            page.driver.get("file://" + os.path.abspath(path))
            page.js("return new Promise((done) => requestAnimationFrame(() => requestAnimationFrame(done)))")
            print(f"open: {page.js('return tora.readyAt') / 1000:.2f} s, {processor_time(process) - before:.2f} s of processor")
            for speed in ("1", "10", "100", "500"):
                page.choose("speed", speed)
                page.go(page.js("return Math.floor(tora.film.last / 4)"))
                page.wait(0.5)
                before = processor_time(process)
                frames = page.driver.execute_async_script("""const done = arguments[0]; tora.time.play();
                    setTimeout(() => { tora.time.pause(); done(tora.time.frames); }, 4000)""")
                spent = processor_time(process) - before
                print(f"{speed} rounds a second: {frames / 4:.0f} pictures a second, {1000 * spent / frames:.1f} ms of processor each")
