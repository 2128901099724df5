"""Real browsers, driven from Python: Chromium and WebKit by their drivers over HTTP (W3C WebDriver), Firefox by its own
protocol (Marionette). For the checks of the page and of the module; each needs its package of the system.
"""
import base64
import json
import os
import shutil
import socket
import subprocess
import tempfile
import time
import urllib.request

MINI_BROWSER = "/usr/lib/x86_64-linux-gnu/webkit2gtk-4.1/MiniBrowser"
# How long a browser may take to answer, in seconds.
PATIENCE = 120


class Failed(Exception):
    """What a browser did not do, in one line."""


def free_port():
    with socket.socket() as it:
        it.bind(("127.0.0.1", 0))
        return it.getsockname()[1]


def lacking(name):
    """Returns the packages that a browser lacks here."""
    needs = {
        "chromium": {"chromium": "chromium", "chromedriver": "chromium-driver"},
        "firefox": {"firefox-esr": "firefox-esr"},
        "webkit": {"WebKitWebDriver": "webkit2gtk-driver", MINI_BROWSER: "libwebkit2gtk-4.1-0", "Xvfb": "xvfb"},
    }[name]
    return sorted({package for it, package in needs.items() if not (os.path.exists(it) if it.startswith("/") else shutil.which(it))})


class Browser:
    """A browser with one window. `run` gives what a script returns; with `done` it waits until the script calls that."""

    def __init__(self):
        self.room = tempfile.mkdtemp(prefix="rp-browser-")
        self.processes = []

    def start(self, words, **environment):
        env = {**os.environ, "HOME": self.room, "XDG_RUNTIME_DIR": self.room, **environment}
        quiet = {"stdin": subprocess.DEVNULL, "stdout": subprocess.DEVNULL, "stderr": subprocess.DEVNULL}
        self.processes.append(subprocess.Popen(words, env=env, start_new_session=True, **quiet))

    def close(self):
        for it in reversed(self.processes):
            it.terminate()
            try:
                it.wait(10)
            except subprocess.TimeoutExpired:
                it.kill()
                it.wait()
        shutil.rmtree(self.room, ignore_errors=True)

    def __enter__(self):
        return self

    def __exit__(self, *_):
        self.close()


class Driven(Browser):
    """A browser behind a driver that speaks WebDriver over HTTP."""

    def __init__(self, words, capabilities, **environment):
        super().__init__()
        self.port = free_port()
        self.start([*words, f"--port={self.port}"], **environment)
        self.session = None
        for _ in range(100):
            try:
                self.ask("GET", "/status")
                break
            except OSError:
                time.sleep(0.1)
        try:
            answer = self.ask("POST", "/session", {"capabilities": {"alwaysMatch": capabilities}})
        except BaseException:
            self.close()
            raise
        self.session = f"/session/{answer['sessionId']}"
        self.ask("POST", f"{self.session}/timeouts", {"script": 1000 * PATIENCE, "pageLoad": 1000 * PATIENCE})

    def ask(self, method, path, body=None):
        data = None if body is None else json.dumps(body).encode()
        wanted = urllib.request.Request(f"http://127.0.0.1:{self.port}{path}", data, {"Content-Type": "application/json"}, method=method)
        try:
            with urllib.request.urlopen(wanted, timeout=PATIENCE + 10) as it:
                return json.load(it)["value"]
        except urllib.error.HTTPError as error:
            raise Failed(json.loads(error.read())["value"]["message"].splitlines()[0]) from None

    def open(self, address):
        self.ask("POST", f"{self.session}/url", {"url": address})

    def run(self, script, *given):
        return self.ask("POST", f"{self.session}/execute/sync", {"script": script, "args": list(given)})

    def wait(self, script, *given):
        return self.ask("POST", f"{self.session}/execute/async", {"script": script, "args": list(given)})

    def resize(self, width, height):
        self.ask("POST", f"{self.session}/window/rect", {"width": width, "height": height})

    def find(self, selector):
        return next(iter(self.ask("POST", f"{self.session}/element", {"using": "css selector", "value": selector}).values()))

    def type(self, selector, text):
        """Types into an element as a person does; the path of a file into one that takes files."""
        self.ask("POST", f"{self.session}/element/{self.find(selector)}/value", {"text": text})

    def click(self, selector):
        self.ask("POST", f"{self.session}/element/{self.find(selector)}/click", {})

    def picture(self, file):
        with open(file, "wb") as it:
            it.write(base64.b64decode(self.ask("GET", f"{self.session}/screenshot")))

    def close(self):
        try:
            if self.session:
                self.ask("DELETE", self.session)
        except (Failed, OSError):
            pass
        super().close()


def chromium(*flags):
    """Chromium without a window of its own. Further flags as `--force-dark-mode`."""
    words = ["--headless=new", "--no-sandbox", "--disable-gpu", "--disable-dev-shm-usage", "--allow-file-access-from-files=false", *flags]
    options = {"args": words, "binary": shutil.which("chromium")}
    return Driven(["chromedriver"], {"goog:chromeOptions": options, "goog:loggingPrefs": {"performance": "ALL", "browser": "ALL"}})


def webkit():
    """WebKit of GTK, on a display that nobody sees."""
    screen = Browser()
    number = 90 + os.getpid() % 500
    screen.start(["Xvfb", f":{number}", "-screen", "0", "1280x1024x24", "-nolisten", "tcp"])
    time.sleep(1)
    options = {"binary": MINI_BROWSER, "args": ["--automation"]}
    environment = {"DISPLAY": f":{number}", "WEBKIT_DISABLE_SANDBOX_THIS_IS_DANGEROUS": "1", "LIBGL_ALWAYS_SOFTWARE": "1", "NO_AT_BRIDGE": "1"}
    try:
        driven = Driven(["WebKitWebDriver"], {"webkitgtk:browserOptions": options}, **environment)
    except BaseException:
        screen.close()
        raise
    driven.processes.insert(0, screen.processes[0])
    return driven


class Firefox(Browser):
    """Firefox without a window of its own, by Marionette."""

    def __init__(self):
        super().__init__()
        port, profile = free_port(), f"{self.room}/profile"
        os.mkdir(profile)
        with open(f"{profile}/user.js", "w", encoding="utf-8") as it:
            it.write(f'user_pref("marionette.port", {port});\nuser_pref("datareporting.policy.dataSubmissionEnabled", false);\n')
        self.start(["firefox-esr", "--headless", "--marionette", "--remote-allow-system-access", "--no-remote", "--profile", profile])
        self.number, self.stream = 0, None
        for _ in range(300):
            try:
                self.stream = socket.create_connection(("127.0.0.1", port), PATIENCE + 10).makefile("rwb")
                break
            except OSError:
                time.sleep(0.2)
        if not self.stream:
            self.close()
            raise Failed("firefox does not answer")
        self.read()
        self.ask("WebDriver:NewSession", {"capabilities": {}})
        self.ask("WebDriver:SetTimeouts", {"script": 1000 * PATIENCE, "pageLoad": 1000 * PATIENCE})

    def read(self):
        length = b""
        while not length.endswith(b":"):
            length += self.stream.read(1)
        return json.loads(self.stream.read(int(length[:-1])))

    def ask(self, name, given):
        self.number += 1
        data = json.dumps([0, self.number, name, given]).encode()
        self.stream.write(b"%d:%b" % (len(data), data))
        self.stream.flush()
        _, _, error, value = self.read()
        if error:
            raise Failed(str(error.get("message", error)).splitlines()[0])
        return value

    def open(self, address):
        self.ask("WebDriver:Navigate", {"url": address})

    def run(self, script, *given):
        return self.ask("WebDriver:ExecuteScript", {"script": script, "args": list(given)})["value"]

    def wait(self, script, *given):
        return self.ask("WebDriver:ExecuteAsyncScript", {"script": script, "args": list(given)})["value"]

    def resize(self, width, height):
        self.ask("WebDriver:SetWindowRect", {"width": width, "height": height})

    def find(self, selector):
        return next(iter(self.ask("WebDriver:FindElement", {"using": "css selector", "value": selector})["value"].values()))

    def type(self, selector, text):
        """Types into an element as a person does; the path of a file into one that takes files."""
        self.ask("WebDriver:ElementSendKeys", {"id": self.find(selector), "text": text})

    def click(self, selector):
        self.ask("WebDriver:ElementClick", {"id": self.find(selector)})

    def picture(self, file):
        with open(file, "wb") as it:
            it.write(base64.b64decode(self.ask("WebDriver:TakeScreenshot", {"full": False})["value"]))


BROWSERS = {"chromium": chromium, "firefox": Firefox, "webkit": webkit}
