"""Browsers in which pages are tried: chromium by selenium, and firefox-esr by its own protocol, Marionette, since Debian has no
geckodriver. Each opens an address, runs a script, takes actions and pictures, and gives what it would print."""
import base64
import contextlib
import json
import os
import shutil
import socket
import subprocess
import tempfile
import time

KEYS = {"Shift": "\ue008", "End": "\ue010", "Home": "\ue011", "Left": "\ue012", "Up": "\ue013", "Right": "\ue014",
        "Down": "\ue015", "Enter": "\ue007", "Back": "\ue003", "Tab": "\ue004"}
WIDE = 1200, 900


def strokes_of(words):
    """The strokes of keys, as in "Right Shift+Down 5", each of which is an action."""
    for word in words.split():
        keys = [KEYS.get(key, key) for key in word.split("+")]
        strokes = [("keyDown", key) for key in keys] + [("keyUp", key) for key in reversed(keys)]
        yield [{"type": "key", "id": "keys", "actions": [{"type": kind, "value": key} for kind, key in strokes]}]


def is_there(name, package):
    if shutil.which(name):
        return True
    print(f"checks: {name} is not there (in Debian: {package}); what needs it is not checked")
    return False


class Chromium:
    """Chromium, asked by selenium."""

    def __init__(self):
        from selenium import webdriver
        from selenium.webdriver.chrome.service import Service
        options = webdriver.ChromeOptions()
        options.binary_location = shutil.which("chromium")
        for word in ("--headless=new", "--no-sandbox", "--disable-dev-shm-usage", f"--window-size={WIDE[0]},{WIDE[1]}"):
            options.add_argument(word)
        self.driver = webdriver.Chrome(service=Service(shutil.which("chromedriver")), options=options)

    def open(self, address):
        self.driver.get(address)

    def run(self, script, *arguments):
        return self.driver.execute_script(script, *arguments)

    def act(self, actions):
        self.driver.execute("actions", {"actions": actions})

    def resize(self, width, height):
        """The part of the window that has the page becomes so large."""
        self.driver.execute_cdp_cmd("Emulation.setDeviceMetricsOverride", {
            "width": width, "height": height, "deviceScaleFactor": 1, "mobile": False})

    def set_scheme(self, scheme):
        self.driver.execute_cdp_cmd("Emulation.setEmulatedMedia", {
            "features": [{"name": "prefers-color-scheme", "value": scheme}]})

    def picture(self):
        """What is seen, as PNG."""
        return self.driver.get_screenshot_as_png()

    def printed(self):
        """What is printed, as PDF."""
        return base64.b64decode(self.driver.execute_cdp_cmd("Page.printToPDF", {"printBackground": False})["data"])

    def close(self):
        self.driver.quit()


class Firefox:
    """Firefox, asked by Marionette: each message is its length, a colon, and JSON."""

    def __init__(self):
        self.profile = tempfile.mkdtemp()
        with socket.socket() as free:
            free.bind(("127.0.0.1", 0))
            port = free.getsockname()[1]
        with open(f"{self.profile}/user.js", "w", encoding="utf-8") as file:
            file.write(f'user_pref("marionette.port", {port});\nuser_pref("app.update.enabled", false);\n')
        words = ["firefox-esr", "--headless", "--marionette", "--remote-allow-system-access", "--no-remote", "--profile", self.profile]
        self.process = subprocess.Popen(words, stdout=subprocess.DEVNULL, stderr=subprocess.DEVNULL,
                                        env={**os.environ, "HOME": self.profile})
        for _ in range(150):
            with contextlib.suppress(OSError):
                self.socket = socket.create_connection(("127.0.0.1", port))
                break
            time.sleep(0.2)
        self.answers = self.socket.makefile("rb")
        self.count = 0
        self.answer()
        self.ask("WebDriver:NewSession", {})
        self.ask("WebDriver:SetWindowRect", {"width": WIDE[0], "height": WIDE[1]})

    def answer(self):
        length = b""
        while (byte := self.answers.read(1)) != b":":
            length += byte
        return json.loads(self.answers.read(int(length)))

    def ask(self, name, arguments):
        self.count += 1
        message = json.dumps([0, self.count, name, arguments]).encode()
        self.socket.sendall(b"%d:" % len(message) + message)
        _, _, error, value = self.answer()
        if error:
            raise RuntimeError(error["message"])
        return value

    def open(self, address):
        self.ask("WebDriver:Navigate", {"url": address})

    def run(self, script, *arguments):
        return self.ask("WebDriver:ExecuteScript", {"script": script, "args": arguments})["value"]

    def act(self, actions):
        self.ask("WebDriver:PerformActions", {"actions": actions})

    def resize(self, width, height):
        """The part of the window that has the page becomes so large."""
        more = self.run("return [outerWidth - innerWidth, outerHeight - innerHeight]")
        self.ask("WebDriver:SetWindowRect", {"width": width + more[0], "height": height + more[1]})

    def set_scheme(self, scheme):
        self.ask("Marionette:SetContext", {"value": "chrome"})
        number = 0 if scheme == "dark" else 1
        self.run(f"Services.prefs.setIntPref('layout.css.prefers-color-scheme.content-override', {number})")
        self.ask("Marionette:SetContext", {"value": "content"})

    def picture(self):
        """What is seen, as PNG."""
        return base64.b64decode(self.ask("WebDriver:TakeScreenshot", {"full": False})["value"])

    def printed(self):
        """What is printed, as PDF."""
        return base64.b64decode(self.ask("WebDriver:Print", {})["value"])

    def close(self):
        with contextlib.suppress(RuntimeError, ConnectionError, ValueError):
            self.ask("Marionette:Quit", {"flags": ["eForceQuit"]})
        self.process.wait()
        shutil.rmtree(self.profile, ignore_errors=True)


def browsers():
    if is_there("chromium", "chromium") and is_there("chromedriver", "chromium-driver"):
        try:
            import selenium  # noqa: F401
            yield "chromium", Chromium
        except ImportError:
            print("checks: selenium is not there (in Debian: python3-selenium); chromium is not asked")
    if is_there("firefox-esr", "firefox-esr"):
        yield "firefox", Firefox
