"""A page in headless Chromium."""

import base64
import contextlib
import json
import pathlib
import shutil
import tempfile
import time

from selenium import webdriver
from selenium.webdriver.chrome.options import Options
from selenium.webdriver.chrome.service import Service
from selenium.webdriver.common.action_chains import ActionChains
from selenium.webdriver.common.by import By
from selenium.webdriver.common.keys import Keys

import tally

ARGUMENTS = ("--headless=new", "--no-sandbox", "--disable-gpu", "--window-size=1920,1080", "--disable-dev-shm-usage")
# seconds until a page has to stand where it was sent
PATIENCE = 20

# the keys that tests call by the names that a page gets
NAMED = {"Backspace": Keys.BACK_SPACE, "Escape": Keys.ESCAPE}


class Page:
    """A browser that shows one page at a time, from files in a folder of its own."""

    def __init__(self, driver, folder):
        self.driver, self.folder = driver, pathlib.Path(folder)

    def open(self, name, text, fragment=""):
        """Shows a page with this text under a name. The answer is its file."""
        file = self.folder / f"{name}.html"
        file.write_text(text, encoding="utf-8")
        self.driver.get("about:blank")
        self.forget()
        self.driver.get(f"file://{file}{fragment}")
        return file

    def script(self, text, *arguments):
        return self.driver.execute_script(text, *arguments)

    def protocol(self, command, **parameters):
        return self.driver.execute_cdp_cmd(command, parameters)

    def all(self, selector):
        return self.driver.find_elements(By.CSS_SELECTOR, selector)

    def one(self, selector):
        return self.driver.find_element(By.CSS_SELECTOR, selector)

    def text(self, selector):
        return self.one(selector).text

    def press(self, *keys):
        """Types keys at what has the focus: letters, keys of the driver, and those that have names."""
        self.driver.switch_to.active_element.send_keys(*(NAMED.get(key, key) for key in keys))

    def tab(self, back=False):
        keys = ActionChains(self.driver)
        if back:
            keys.key_down(Keys.SHIFT).send_keys(Keys.TAB).key_up(Keys.SHIFT)
        else:
            keys.send_keys(Keys.TAB)
        keys.perform()

    def click_at(self, element, right, down):
        """Clicks so many pixels from an element's left and upper edges."""
        box = element.rect
        middle_right, middle_down = right - box["width"] / 2, down - box["height"] / 2
        ActionChains(self.driver).move_to_element_with_offset(element, middle_right, middle_down).click().perform()

    def drag(self, element, pixels):
        ActionChains(self.driver).drag_and_drop_by_offset(element, pixels, 0).perform()

    def position(self):
        return int(self.text("#where").split(" / ")[0])

    def go(self, fragment):
        """Goes where a link with this fragment leads, and waits until the page stands there."""
        self.script("location.hash = arguments[0]", fragment)
        wanted = int(fragment.split(".")[0])
        self.wait(lambda: self.position() == wanted)

    def wait(self, holds):
        """Waits until something holds; the answer is whether it did."""
        end = time.monotonic() + PATIENCE
        while not holds():
            if time.monotonic() > end:
                return False
            time.sleep(0.02)
        return True

    def painted(self):
        """Waits until the lanes are drawn anew."""
        self.driver.execute_async_script("requestAnimationFrame(() => requestAnimationFrame(arguments[0]))")

    def size(self, width, height, theme="light"):
        """Makes the window so wide and high, and the reader's theme light or dark."""
        window = {"width": width, "height": height, "deviceScaleFactor": 1, "mobile": False}
        self.protocol("Emulation.setDeviceMetricsOverride", **window)
        self.protocol("Emulation.setEmulatedMedia", features=[{"name": "prefers-color-scheme", "value": theme}])

    def picture(self, file):
        """Saves what the window shows as a PNG."""
        data = self.protocol("Page.captureScreenshot", format="png")["data"]
        pathlib.Path(file).write_bytes(base64.b64decode(data))

    def forget(self):
        self.driver.get_log("browser")
        self.driver.get_log("performance")

    def quiet(self, what):
        """Checks that nothing stands on the console, and that nothing but the page itself was asked for."""
        tally.same(f"{what}: the console", self.driver.get_log("browser"), [])
        tally.same(f"{what}: requests", self.requests(), [])

    def requests(self):
        """The addresses that were asked for, but for files that are pages and what is made in the page."""
        asked = []
        for entry in self.driver.get_log("performance"):
            message = json.loads(entry["message"])["message"]
            if message["method"] == "Network.requestWillBeSent":
                asked.append(message["params"]["request"]["url"])
        ours = (f"file://{self.folder}/", "about:", "blob:")
        return [address for address in asked if not address.startswith(ours)]


def options():
    made = Options()
    for argument in ARGUMENTS:
        made.add_argument(argument)
    made.set_capability("goog:loggingPrefs", {"browser": "ALL", "performance": "ALL"})
    return made


@contextlib.contextmanager
def opened():
    """A browser with a folder, while it lasts."""
    with tempfile.TemporaryDirectory(prefix="mta-pages-") as folder:
        driver = webdriver.Chrome(service=Service(shutil.which("chromedriver")), options=options())
        try:
            page = Page(driver, folder)
            page.size(1920, 1080)
            yield page
        finally:
            driver.quit()
