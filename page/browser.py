"""Drives Chromium and Firefox without a window, by Python's standard library alone.

Chromium(..) speaks the DevTools protocol over a WebSocket, and Firefox(..) the Marionette protocol
over TCP. Both have the methods of Browser. Each starts a browser with a profile of its own in a new
folder, and takes both away at its end:

    with Chromium() as browser:
        browser.open("file:///tmp/page.html")
        browser.choose("#board", "/tmp/board")
        browser.run("return document.title")
"""
import base64
import json
import os
import shutil
import socket
import subprocess
import tempfile
import time

# Seconds that are waited for what a page should do, and for any answer of a browser. Whatever is
# waited for ends the wait, so only a trial that fails takes so long, on a busy machine too.
PATIENCE = 600
LONG_PATIENCE = 900


class BrowserError(Exception):
    """What a browser answered in the place of what it was asked."""


def wait_for(wanted, what, patience=PATIENCE):
    """The first value of wanted() that is true."""
    end = time.monotonic() + patience
    while time.monotonic() < end:
        found = wanted()
        if found:
            return found
        time.sleep(0.05)
    raise BrowserError(f"waited {patience} s for {what}")


def read_port(path):
    """The number on the first line of a file in which a browser says where it listens, or 0."""
    try:
        with open(path, encoding="ascii") as file:
            return int(file.readline() or 0)
    except (OSError, ValueError):
        return 0


class Browser:
    """A browser that runs, with one page open. A method answers when the browser has done it."""

    name = ""
    # Whether a file was saved since it began
    has_saved = False

    def __init__(self, command, environment=()):
        self.folder = tempfile.mkdtemp(prefix="browser-")
        self.downloads = os.path.join(self.folder, "downloads")
        os.mkdir(self.downloads)
        surroundings = dict(os.environ, HOME=self.folder, TMPDIR=self.folder, **dict(environment))
        with open(os.path.join(self.folder, "said"), "wb") as said:
            self.process = subprocess.Popen(
                command(self.folder),
                stdin=subprocess.DEVNULL,
                stdout=said,
                stderr=said,
                env=surroundings,
            )

    def __enter__(self):
        return self

    def __exit__(self, *fault):
        self.close()

    def open(self, address):
        """Goes to an address, and waits until it is loaded."""
        raise NotImplementedError

    def run(self, body, *arguments):
        """What the body of a JavaScript function returns in the page; a promise is waited for."""
        raise NotImplementedError

    def choose(self, selector, *paths):
        """Chooses files in a field for files."""
        raise NotImplementedError

    def press(self, *keys):
        """Presses keys one after another: characters, or names such as Tab, Enter or Shift+Tab."""
        raise NotImplementedError

    def may_copy(self):
        """Lets the page see what was copied, with no question to a person."""
        raise NotImplementedError

    def resize(self, width, height):
        """Gives the page so many CSS pixels."""
        raise NotImplementedError

    def paint(self, dark):
        """Says to the page that its reader wants dark colours, or light ones."""
        raise NotImplementedError

    def picture(self, path, whole=False, part=None):
        """Writes what is seen as a PNG file; the whole page, or a part of it by its selector."""
        raise NotImplementedError

    def ask_to_end(self):
        """Says to the browser to end."""
        raise NotImplementedError

    def click(self, selector):
        self.run("document.querySelector(arguments[0]).click()", selector)

    def press_on(self, selector):
        """Presses a button by its key, as a person does."""
        self.run("document.querySelector(arguments[0]).focus()", selector)
        self.press("Enter")

    def write(self, selector, text):
        """Puts a text into a field as one that is typed there does."""
        self.run(
            "const field = document.querySelector(arguments[0]); field.focus();"
            "field.value = arguments[1];"
            "field.dispatchEvent(new Event('input', { bubbles: true }));"
            "field.dispatchEvent(new Event('change', { bubbles: true }));",
            selector,
            text,
        )

    def text(self, selector):
        return self.run(
            "const found = document.querySelector(arguments[0]); return found && found.innerText",
            selector,
        )

    def wait(self, body, *arguments, patience=PATIENCE):
        """Waits until the body of a function returns something true, and answers it."""
        return wait_for(lambda: self.run(body, *arguments), body, patience)

    def downloaded(self, name, patience=PATIENCE):
        """The bytes of a file of that name which the page has handed out. It is removed."""
        self.has_saved = True
        path = os.path.join(self.downloads, name)
        parts = (".part", ".crdownload")
        whole = lambda: os.path.exists(path) and not any(
            name.endswith(parts) for name in os.listdir(self.downloads)
        )
        wait_for(whole, f"the download of {name}", patience)
        with open(path, "rb") as file:
            data = file.read()
        os.remove(path)
        return data

    def close(self):
        """Ends the browser, and removes all that it wrote."""
        try:
            self.ask_to_end()
            self.process.wait(10)
        except (OSError, BrowserError, subprocess.TimeoutExpired):
            self.process.kill()
            self.process.wait()
        for _ in range(20):
            shutil.rmtree(self.folder, ignore_errors=True)
            if not os.path.exists(self.folder):
                break
            time.sleep(0.1)


class WebSocket:
    """A client's end of one WebSocket (RFC 6455) on this machine, for texts."""

    def __init__(self, port, path):
        self.socket = socket.create_connection(("127.0.0.1", port), LONG_PATIENCE)
        key = base64.b64encode(os.urandom(16)).decode()
        self.socket.sendall(
            (
                f"GET {path} HTTP/1.1\r\nHost: 127.0.0.1:{port}\r\n"
                f"Upgrade: websocket\r\nConnection: Upgrade\r\n"
                f"Sec-WebSocket-Key: {key}\r\nSec-WebSocket-Version: 13\r\n\r\n"
            ).encode()
        )
        self.stream = self.socket.makefile("rb")
        if b" 101 " not in self.stream.readline():
            raise BrowserError("no WebSocket")
        while self.stream.readline().strip():
            pass

    def send(self, text, kind=1):
        data = text.encode()
        size = len(data)
        if size < 126:
            head = bytes([0x80 | kind, 0x80 | size])
        elif size < 1 << 16:
            head = bytes([0x80 | kind, 0x80 | 126]) + size.to_bytes(2, "big")
        else:
            head = bytes([0x80 | kind, 0x80 | 127]) + size.to_bytes(8, "big")
        # A mask of zeros is a mask too, and leaves the bytes as they are.
        self.socket.sendall(head + bytes(4) + data)

    def frame(self):
        """The next frame: whether it is a last one, its kind, and its bytes."""
        head = self.stream.read(2)
        if len(head) < 2:
            raise BrowserError("the browser has gone")
        size = head[1] & 0x7F
        if size > 125:
            size = int.from_bytes(self.stream.read(2 if size == 126 else 8), "big")
        return head[0] & 0x80, head[0] & 0x0F, self.stream.read(size)

    def receive(self):
        """The next text."""
        parts = []
        while True:
            last, kind, data = self.frame()
            if kind == 8:
                raise BrowserError("the browser has closed the WebSocket")
            if kind == 9:
                self.send(data.decode(), 10)
            elif kind < 3:
                parts.append(data)
                if last:
                    return b"".join(parts).decode()


# What is asked of the browser, and not of its page
OF_THE_BROWSER = (
    "Target.getTargets",
    "Target.attachToTarget",
    "Browser.setDownloadBehavior",
    "Browser.grantPermissions",
    "Browser.close",
)

# The code of each key that is pressed by name, and the text that it puts in.
NAMED_KEYS = {
    "Tab": (9, None),
    "Enter": (13, "\r"),
    "Escape": (27, None),
    " ": (32, " "),
    "End": (35, None),
    "Home": (36, None),
    "ArrowLeft": (37, None),
    "ArrowUp": (38, None),
    "ArrowRight": (39, None),
    "ArrowDown": (40, None),
}


class Chromium(Browser):
    """Chromium over the DevTools protocol. `flags` are more words of its command line."""

    name = "Chromium"

    def __init__(self, program="chromium", flags=()):
        def command(folder):
            return [
                program,
                "--headless=new",
                "--no-sandbox",
                "--disable-gpu",
                "--no-first-run",
                "--disable-background-networking",
                "--disable-component-update",
                "--remote-debugging-port=0",
                f"--user-data-dir={folder}/profile",
                *flags,
                "about:blank",
            ]

        super().__init__(command)
        self.asked = 0
        self.events = []
        self.session = None
        try:
            self.connect()
        except BaseException:
            self.close()
            raise

    def connect(self):
        says = os.path.join(self.folder, "profile", "DevToolsActivePort")
        port = wait_for(lambda: read_port(says), "Chromium's port")
        with open(says, encoding="ascii") as file:
            path = file.read().split("\n")[1].strip()
        self.socket = WebSocket(port, path)
        pages = wait_for(
            lambda: [
                found
                for found in self.ask("Target.getTargets")["targetInfos"]
                if found["type"] == "page"
            ],
            "a page",
        )
        target = pages[0]["targetId"]
        self.session = self.ask("Target.attachToTarget", targetId=target, flatten=True)["sessionId"]
        for name in ("Page", "Runtime", "DOM", "Log"):
            self.ask(f"{name}.enable")
        self.ask("Browser.setDownloadBehavior", behavior="allow", downloadPath=self.downloads)

    def ask(self, method, **parameters):
        """What the browser answers; events that come before are kept in `events`."""
        self.asked += 1
        question = {"id": self.asked, "method": method, "params": parameters}
        if self.session and method not in OF_THE_BROWSER:
            question["sessionId"] = self.session
        self.socket.send(json.dumps(question))
        number = self.asked
        while True:
            said = json.loads(self.socket.receive())
            if said.get("id") == number:
                if "error" in said:
                    raise BrowserError(f"{method}: {said['error']['message']}")
                return said["result"]
            self.hear(said)

    def hear(self, said):
        """Keeps an event. A question whether the page may be left is answered with yes."""
        if "method" in said:
            self.events.append(said)
        if said.get("method") == "Page.javascriptDialogOpening":
            self.asked += 1
            yes = {
                "id": self.asked,
                "method": "Page.handleJavaScriptDialog",
                "params": {"accept": True},
            }
            self.socket.send(json.dumps(dict(yes, sessionId=said["sessionId"])))

    def event(self, method):
        """The next event of that name."""
        while True:
            for place, said in enumerate(self.events):
                if said["method"] == method:
                    del self.events[: place + 1]
                    return said["params"]
            self.hear(json.loads(self.socket.receive()))

    def open(self, address):
        self.events.clear()
        said = self.ask("Page.navigate", url=address)
        if "errorText" in said:
            raise BrowserError(said["errorText"])
        self.event("Page.loadEventFired")

    def run(self, body, *arguments):
        words = json.dumps(list(arguments))
        said = self.ask(
            "Runtime.evaluate",
            expression=f"(async function () {{ {body}\n }}).apply(null, {words})",
            awaitPromise=True,
            returnByValue=True,
            userGesture=True,
        )
        if "exceptionDetails" in said:
            fault = said["exceptionDetails"]
            raise BrowserError(fault.get("exception", {}).get("description") or fault["text"])
        return said["result"].get("value")

    def choose(self, selector, *paths):
        root = self.ask("DOM.getDocument")["root"]["nodeId"]
        node = self.ask("DOM.querySelector", nodeId=root, selector=selector)["nodeId"]
        self.ask("DOM.setFileInputFiles", nodeId=node, files=list(paths))

    def drop(self, selector, *paths):
        """Drops files and folders of the disk on the middle of an element, as a mouse does."""
        x, y = self.run(
            "const found = document.querySelector(arguments[0]);"
            "found.scrollIntoView({ block: 'center' }); const box = found.getBoundingClientRect();"
            "return [box.x + box.width / 2, box.y + box.height / 2]",
            selector,
        )
        data = {"items": [], "files": list(paths), "dragOperationsMask": 1}
        for kind in ("dragEnter", "dragOver", "drop"):
            self.ask("Input.dispatchDragEvent", type=kind, x=x, y=y, data=data)

    def press(self, *keys):
        for name in keys:
            shifted = name.startswith("Shift+")
            key = name.removeprefix("Shift+")
            code, text = NAMED_KEYS.get(key, (ord(key[0].upper()), key))
            parts = {"key": key, "windowsVirtualKeyCode": code, "modifiers": 8 if shifted else 0}
            down = (
                dict(parts, type="keyDown", text=text) if text else dict(parts, type="rawKeyDown")
            )
            self.ask("Input.dispatchKeyEvent", **down)
            self.ask("Input.dispatchKeyEvent", type="keyUp", **parts)

    def may_copy(self):
        self.ask("Browser.grantPermissions", permissions=["clipboardReadWrite"])

    def downloaded(self, name, patience=PATIENCE):
        data = super().downloaded(name, patience)
        # Of more than ten files in a second Chromium drops some, and says nothing of that.
        time.sleep(0.12)
        return data

    def resize(self, width, height):
        self.ask(
            "Emulation.setDeviceMetricsOverride",
            width=width,
            height=height,
            deviceScaleFactor=1,
            mobile=width < 600,
        )

    def paint(self, dark):
        wanted = {"name": "prefers-color-scheme", "value": "dark" if dark else "light"}
        self.ask("Emulation.setEmulatedMedia", features=[wanted])

    def picture(self, path, whole=False, part=None):
        parameters = {"format": "png"}
        clip = dict(self.ask("Page.getLayoutMetrics")["cssContentSize"], x=0, y=0)
        if part:
            clip = self.run(
                "const box = document.querySelector(arguments[0]).getBoundingClientRect();"
                "const { width, height } = box;"
                "return { x: box.x + scrollX, y: box.y + scrollY, width, height }",
                part,
            )
        if whole or part:
            parameters.update(captureBeyondViewport=True, clip=dict(clip, scale=1))
        said = self.ask("Page.captureScreenshot", **parameters)
        with open(path, "wb") as file:
            file.write(base64.b64decode(said["data"]))

    def ask_to_end(self):
        self.ask("Browser.close")


# Where Marionette has keys by name, as WebDriver numbers them.
MARIONETTE_KEYS = {
    "Tab": "\ue004",
    "Enter": "\ue007",
    "Shift": "\ue008",
    "Escape": "\ue00c",
    "End": "\ue010",
    "Home": "\ue011",
    "ArrowLeft": "\ue012",
    "ArrowUp": "\ue013",
    "ArrowRight": "\ue014",
    "ArrowDown": "\ue015",
}

ELEMENT = "element-6066-11e4-a52e-4f735466cecf"

FIREFOX_SETTINGS = {
    "marionette.port": 0,
    "fission.autostart": False,
    "dom.ipc.processCount": 1,
    "dom.ipc.processPrelaunch.enabled": False,
    "extensions.webextensions.remote": False,
    "browser.newtabpage.enabled": False,
    "browser.safebrowsing.malware.enabled": False,
    "browser.safebrowsing.phishing.enabled": False,
    "browser.region.update.enabled": False,
    "media.rdd-process.enabled": False,
    "media.gmp-manager.updateEnabled": False,
    "network.process.enabled": False,
    "services.settings.server": "data:,",
    "browser.shell.checkDefaultBrowser": False,
    "browser.startup.page": 0,
    "datareporting.policy.dataSubmissionEnabled": False,
    "app.update.disabledForTesting": True,
    "browser.download.folderList": 2,
    "browser.download.useDownloadDir": True,
    "browser.download.alwaysOpenPanel": False,
    "browser.helperApps.neverAsk.saveToDisk": "application/octet-stream",
    "toolkit.cosmeticAnimations.enabled": False,
    "network.captive-portal-service.enabled": False,
    "network.connectivity-service.enabled": False,
}


class Firefox(Browser):
    """Firefox over the Marionette protocol. `settings` are preferences of its profile."""

    name = "Firefox"

    def __init__(self, program="firefox-esr", settings=()):
        def command(folder):
            profile = os.path.join(folder, "profile")
            os.mkdir(profile)
            wanted = dict(
                FIREFOX_SETTINGS,
                **{"browser.download.dir": os.path.join(folder, "downloads")},
                **dict(settings),
            )
            with open(os.path.join(profile, "user.js"), "w", encoding="utf-8") as file:
                for name, value in wanted.items():
                    file.write(f"user_pref({json.dumps(name)}, {json.dumps(value)});\n")
            # System access is what sets a preference, for colours and the size of pixels.
            words = [
                "--headless",
                "--no-remote",
                "--marionette",
                "--remote-allow-system-access",
                "--profile",
                profile,
            ]
            return [program, *words]

        # The windows are wider than a phone, so a phone is one of larger pixels.
        super().__init__(command, {"MOZ_HEADLESS_WIDTH": "1280", "MOZ_HEADLESS_HEIGHT": "1000"})
        self.asked = 0
        try:
            self.connect()
        except BaseException:
            self.close()
            raise

    def connect(self):
        says = os.path.join(self.folder, "profile", "MarionetteActivePort")
        port = wait_for(lambda: read_port(says), "Firefox's port")
        self.socket = socket.create_connection(("127.0.0.1", port), LONG_PATIENCE)
        self.stream = self.socket.makefile("rb")
        self.message()
        self.ask(
            "WebDriver:NewSession",
            capabilities={"alwaysMatch": {"unhandledPromptBehavior": "accept"}},
        )
        self.ask("WebDriver:SetTimeouts", script=PATIENCE * 1000, pageLoad=PATIENCE * 1000)

    def message(self):
        """The next message: its length in digits, a colon, and so many bytes."""
        digits = b""
        while not digits.endswith(b":"):
            digit = self.stream.read(1)
            if not digit:
                raise BrowserError("the browser has gone")
            digits += digit
        return json.loads(self.stream.read(int(digits[:-1])))

    def ask(self, method, **parameters):
        self.asked += 1
        data = json.dumps([0, self.asked, method, parameters]).encode()
        self.socket.sendall(b"%d:%s" % (len(data), data))
        while True:
            kind, number, fault, answer = self.message()
            if (kind, number) == (1, self.asked):
                if fault:
                    raise BrowserError(f"{method}: {fault['error']}: {fault['message']}")
                return (
                    answer.get("value")
                    if isinstance(answer, dict) and "value" in answer
                    else answer
                )

    def open(self, address):
        self.ask("WebDriver:Navigate", url=address)

    def run(self, body, *arguments):
        script = (
            "const words = Array.from(arguments); const done = words.pop();"
            f"(async function () {{ {body}\n }}).apply(null, words)"
            ".then((value) => done({ value }), (fault) => done({ fault: String(fault) }));"
        )
        said = self.ask("WebDriver:ExecuteAsyncScript", script=script, args=list(arguments))
        if "fault" in said:
            raise BrowserError(said["fault"])
        return said.get("value")

    def in_chrome(self, script, *arguments):
        """Runs a script in the browser itself, and not in the page."""
        self.ask("Marionette:SetContext", value="chrome")
        try:
            return self.ask("WebDriver:ExecuteScript", script=script, args=list(arguments))
        finally:
            self.ask("Marionette:SetContext", value="content")

    def element(self, selector):
        return self.ask("WebDriver:FindElement", using="css selector", value=selector)[ELEMENT]

    def choose(self, selector, *paths):
        # Marionette adds to the files of a field that takes several.
        self.run("document.querySelector(arguments[0]).value = ''", selector)
        self.ask("WebDriver:ElementSendKeys", id=self.element(selector), text="\n".join(paths))

    def press(self, *keys):
        actions = []
        for name in keys:
            key = name.removeprefix("Shift+")
            value = MARIONETTE_KEYS.get(key, key)
            pressed = [{"type": "keyDown", "value": value}, {"type": "keyUp", "value": value}]
            if name.startswith("Shift+"):
                shift = MARIONETTE_KEYS["Shift"]
                pressed = [
                    {"type": "keyDown", "value": shift},
                    *pressed,
                    {"type": "keyUp", "value": shift},
                ]
            actions += pressed
        self.ask(
            "WebDriver:PerformActions",
            actions=[{"type": "key", "id": "keyboard", "actions": actions}],
        )

    def may_copy(self):
        self.set("dom.events.testing.asyncClipboard", True)

    def set(self, name, value):
        """Gives a preference another value."""
        kind = {bool: "Bool", int: "Int", str: "String"}[type(value)]
        wide = "Char" if kind == "String" else kind
        self.in_chrome(f"Services.prefs.set{wide}Pref(arguments[0], arguments[1])", name, value)

    def resize(self, width, height):
        # A window has at least 500 pixels, so on a phone all is twice as large, and the window too.
        zoom = 1 if width >= 500 else 2
        self.in_chrome(
            "const { gBrowser } = Services.wm.getMostRecentWindow('navigator:browser');"
            "gBrowser.selectedBrowser.fullZoom = arguments[0]",
            zoom,
        )
        outer = [width * zoom, height * zoom]
        for _ in range(20):
            self.ask("WebDriver:SetWindowRect", width=outer[0], height=outer[1])
            inner = self.run("return [window.innerWidth, window.innerHeight]")
            if inner == [width, height]:
                return
            outer = [
                max(500, outer[0] + (width - inner[0]) * zoom),
                max(400, outer[1] + (height - inner[1]) * zoom),
            ]
        raise BrowserError(f"the page has {inner} pixels, not {[width, height]}")

    def paint(self, dark):
        self.set("layout.css.prefers-color-scheme.content-override", 0 if dark else 1)
        self.wait(
            "return matchMedia('(prefers-color-scheme: dark)').matches === arguments[0]", dark
        )

    def picture(self, path, whole=False, part=None):
        which = {"id": self.element(part)} if part else {"full": whole}
        said = self.ask("WebDriver:TakeScreenshot", **which)
        with open(path, "wb") as file:
            file.write(base64.b64decode(said))

    def ask_to_end(self):
        self.ask("Marionette:Quit", flags=["eForceQuit"])


BROWSERS = {"chromium": Chromium, "firefox": Firefox}
