"""Headless Chromium and Firefox, by the commands of WebDriver: Debian's `chromium-driver` takes them over HTTP, and
`firefox-esr` itself, by Marionette, over a socket of loopback. A browser has a profile in a folder, is used by its
keyboard alone, and can be killed and started again with the same profile."""
import base64
import contextlib
import json
import os
import shutil
import signal
import socket
import subprocess
import time
import urllib.error
import urllib.request

# No command of a browser takes longer than this, in seconds.
LONGEST = 60
TAB, ENTER, ESCAPE = "\ue004", "\ue007", "\ue00c"


class BrowserFault(Exception):
    """A browser didn't do what it was told, or has gone."""


class Browser:
    """What both browsers have: a process in a session of its own, which listens on a free port."""

    # The files by which a profile is locked, also by a browser that was killed.
    locks = ()

    def __init__(self, profile):
        for lock in self.locks:
            with contextlib.suppress(FileNotFoundError):
                os.unlink(os.path.join(profile, lock))
        with socket.create_server(("127.0.0.1", 0)) as free:
            self.port = free.getsockname()[1]
        self.process = subprocess.Popen(self.words(profile), stdout=subprocess.DEVNULL, stderr=subprocess.DEVNULL,
                                        start_new_session=True, env=os.environ | {"HOME": profile})
        end = time.monotonic() + LONGEST
        while True:
            try:
                self.begin(profile)
                return
            except OSError as fault:
                if time.monotonic() > end:
                    raise BrowserFault("it doesn't start") from fault
                time.sleep(0.1)

    def kill(self):
        """Kills the browser with all that it started, and nothing else: the session is its own."""
        for pid in filter(str.isdigit, os.listdir("/proc")):
            with contextlib.suppress(OSError):
                if os.getsid(int(pid)) == self.process.pid:
                    os.kill(int(pid), signal.SIGKILL)
        self.process.wait()

    def tell(self, command, **params):
        """What a command of WebDriver answers."""
        try:
            return self.asked(command, params)
        except OSError as fault:
            raise BrowserFault(f"{command}: {fault}") from fault

    def open(self, address):
        self.tell("Navigate", url=address)

    def back(self):
        self.tell("Back")

    def reload(self):
        self.tell("Refresh")

    def run(self, script):
        """The value of an expression, for which a promise is waited for."""
        text = ("const done = arguments[arguments.length - 1];"
                f"Promise.resolve().then(() => ({script})).then(it => done([it]), fault => done(String(fault)))")
        got = self.tell("ExecuteAsyncScript", script=text, args=[])
        # None where the page went away meanwhile.
        if not isinstance(got, list):
            raise BrowserFault(f"{script}: {got}")
        return got[0]

    def keys(self, *words):
        """Presses the keys of texts, and of TAB, ENTER and ESCAPE."""
        actions = [{"type": kind, "value": letter} for letter in "".join(words) for kind in ("keyDown", "keyUp")]
        self.tell("PerformActions", actions=[{"type": "key", "id": "keys", "actions": actions}])

    def size(self, width, height):
        self.tell("SetWindowRect", width=width, height=height)

    def picture(self):
        return base64.b64decode(self.tell("TakeScreenshot"))

    def other_tab(self, address):
        """Opens another tab and goes on there; gives what leads back."""
        back = self.tell("GetWindowHandle")
        self.tell("SwitchToWindow", handle=self.tell("NewWindow", type="tab")["handle"])
        self.open(address)
        return back

    def close_tab(self, before):
        self.tell("CloseWindow")
        self.tell("SwitchToWindow", handle=before)

    def unnamed(self):
        """What a screen reader would meet without a name; only Chromium shows what one is given."""
        return []


class Chromium(Browser):
    name, program = "Chromium", "chromedriver"
    locks = "SingletonLock", "SingletonCookie", "SingletonSocket"
    COMMANDS = {"Navigate": ("POST", "url"), "Back": ("POST", "back"), "Refresh": ("POST", "refresh"),
                "ExecuteAsyncScript": ("POST", "execute/async"), "PerformActions": ("POST", "actions"), "TakeScreenshot": ("GET", "screenshot"), "GetWindowHandle": ("GET", "window"),
                "SwitchToWindow": ("POST", "window"), "NewWindow": ("POST", "window/new"), "CloseWindow": ("DELETE", "window"),
                "DevTools": ("POST", "goog/cdp/execute")}

    def words(self, _):
        return [self.program, f"--port={self.port}"]

    def begin(self, profile):
        self.session = ""
        words = ["--headless=new", "--no-sandbox", "--disable-gpu", "--disable-dev-shm-usage", "--no-first-run",
                 "--disable-background-networking", "--disable-component-update", "--disable-sync", "--disable-extensions",
                 "--password-store=basic", "--host-resolver-rules=MAP * ~NOTFOUND, EXCLUDE localhost, EXCLUDE 127.0.0.1",
                 f"--user-data-dir={profile}"]
        wanted = {"acceptInsecureCerts": True, "goog:chromeOptions": {"args": words},
                  "timeouts": {"script": LONGEST * 1000, "pageLoad": LONGEST * 1000}}
        self.session = "/" + self.http("POST", "", {"capabilities": {"alwaysMatch": wanted}})["sessionId"] + "/"

    def http(self, method, path, params):
        data = json.dumps(params).encode() if method == "POST" else None
        asked = urllib.request.Request(f"http://127.0.0.1:{self.port}/session{self.session}{path}", data, method=method)
        try:
            with urllib.request.urlopen(asked, timeout=2 * LONGEST) as answer:
                return json.load(answer)["value"]
        except urllib.error.HTTPError as fault:
            raise BrowserFault(f"{path}: {json.load(fault)['value']['message']}") from fault

    def asked(self, command, params):
        return self.http(*self.COMMANDS[command], params)

    def devtools(self, command, **params):
        return self.tell("DevTools", cmd=command, params=params)

    def size(self, width, height):
        # A window of Chromium isn't made narrower than 500 pixels, what it shows is.
        self.devtools("Emulation.setDeviceMetricsOverride", width=width, height=height, deviceScaleFactor=1, mobile=False)

    def unnamed(self):
        nodes = self.devtools("Accessibility.getFullAXTree")["nodes"]
        return [node["role"]["value"] for node in nodes if not node.get("ignored")
                and node["role"]["value"] in ("textbox", "button", "table", "dialog", "form")
                and not node.get("name", {}).get("value")]


class Firefox(Browser):
    """Its messages stand behind their length and a colon. It asks nobody outside."""

    name, program = "Firefox", "firefox-esr"
    locks = "lock", ".parentlock"
    SETTINGS = {"app.update.enabled": False, "app.normandy.enabled": False, "browser.shell.checkDefaultBrowser": False,
                "browser.startup.page": 0, "browser.sessionstore.resume_from_crash": False,
                "toolkit.startup.max_resumed_crashes": -1, "browser.safebrowsing.update.enabled": False,
                "extensions.update.enabled": False, "datareporting.policy.dataSubmissionEnabled": False,
                "services.settings.server": "data:,", "network.captive-portal-service.enabled": False,
                "network.connectivity-service.enabled": False, "dom.disable_beforeunload": True}

    def words(self, profile):
        with open(os.path.join(profile, "user.js"), "w", encoding="utf-8") as file:
            for name, value in (self.SETTINGS | {"marionette.port": self.port}).items():
                file.write(f"user_pref({json.dumps(name)}, {json.dumps(value)});\n")
        return ["env", "MOZ_CRASHREPORTER_DISABLE=1", self.program, "--headless", "--no-remote", "--marionette",
                "--profile", profile]

    def begin(self, _):
        self.line = socket.create_connection(("127.0.0.1", self.port), timeout=LONGEST).makefile("rwb")
        self.message()
        self.tell("NewSession", acceptInsecureCerts=True, unhandledPromptBehavior="dismiss")
        self.tell("SetTimeouts", script=LONGEST * 1000, pageLoad=LONGEST * 1000)

    def message(self):
        length = b""
        while not length.endswith(b":"):
            piece = self.line.read(1)
            if not piece:
                raise BrowserFault("the browser has gone")
            length += piece
        return json.loads(self.line.read(int(length[:-1])))

    def asked(self, command, params):
        text = json.dumps([0, 1, "WebDriver:" + command, params]).encode()
        self.line.write(b"%d:%s" % (len(text), text))
        self.line.flush()
        _, _, fault, answer = self.message()
        if fault:
            raise BrowserFault(f"{command}: {fault['message']}")
        return answer.get("value", answer) if isinstance(answer, dict) else answer


def installed():
    return [browser for browser in (Chromium, Firefox) if shutil.which(browser.program)]
