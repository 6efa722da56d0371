"""Chromium without a window, and pages that are loaded in it."""
import shutil
import sys
import time

TRIES, PAUSE = 400, 0.05


class Browser:
    """Chromium with a window of some size."""

    def __init__(self, width, height):
        from selenium import webdriver
        from selenium.webdriver.chrome.service import Service
        options = webdriver.ChromeOptions()
        options.binary_location = shutil.which("chromium")
        for word in ("--headless=new", "--no-sandbox", "--disable-gpu", "--hide-scrollbars"):
            options.add_argument(word)
        options.set_capability("goog:loggingPrefs", {"browser": "ALL"})
        self.driver = webdriver.Chrome(service=Service(shutil.which("chromedriver")), options=options)
        self.resize(width, height)

    def resize(self, width, height):
        size = {"width": width, "height": height, "deviceScaleFactor": 1, "mobile": False}
        self.driver.execute_cdp_cmd("Emulation.setDeviceMetricsOverride", size)

    def load(self, page):
        """Loads a page, and gives after how many seconds it is drawn."""
        begun = time.monotonic()
        self.driver.get(f"file://{page}")
        self.wait("return document.body.dataset.ready === 'yes'")
        self.drawn()
        return time.monotonic() - begun

    def wait(self, script):
        for _ in range(TRIES):
            if self.driver.execute_script(script):
                return
            time.sleep(PAUSE)
        sys.exit("browser: the page does not come to an end")

    def drawn(self):
        """Waits until the page has drawn what it was asked for."""
        self.driver.execute_async_script("const done = arguments[0]; requestAnimationFrame(() => requestAnimationFrame(done));")

    def value(self, expression):
        """The value of an expression in the page."""
        return self.driver.execute_script(f"return {expression}")

    def click(self, selector):
        """Clicks an element, in the middle of the window, where nothing lies over it."""
        found = self.driver.find_element("css selector", selector)
        self.driver.execute_script("arguments[0].scrollIntoView({ block: 'center' })", found)
        self.drawn()
        found.click()
        self.drawn()

    def press(self, key):
        self.driver.find_element("id", "chart").send_keys(key)
        self.drawn()

    def text(self, name):
        """The text of the element of this name."""
        return self.driver.find_element("id", name).text

    def all(self, selector, attribute):
        return [each.get_attribute(attribute) for each in self.driver.find_elements("css selector", selector)]

    def picture(self, path):
        self.driver.save_screenshot(path)

    def complaints(self):
        """What the pages wrote to the console since this was asked last."""
        return [entry["message"] for entry in self.driver.get_log("browser")]

    def end(self):
        self.driver.quit()
