"""Several tabs of one browser."""
from browser import Chromium


class Tabs:
    """The tabs of a browser. What is asked of the browser goes to the one that it is at."""

    def __init__(self, browser):
        self.browser = browser
        self.first = browser.session if isinstance(browser, Chromium) else self.handle()

    def handle(self):
        return self.browser.ask("WebDriver:GetWindowHandle")

    def new(self):
        """Opens another tab, and goes there: how it is named."""
        if isinstance(self.browser, Chromium):
            self.browser.session = None
            target = self.browser.ask("Target.createTarget", url="about:blank")["targetId"]
            said = self.browser.ask("Target.attachToTarget", targetId=target, flatten=True)
            self.go(said["sessionId"])
            for name in ("Page", "Runtime", "DOM"):
                self.browser.ask(f"{name}.enable")
            return said["sessionId"]
        name = self.browser.ask("WebDriver:NewWindow", type="tab", focus=True)["handle"]
        self.go(name)
        return name

    def go(self, name):
        if isinstance(self.browser, Chromium):
            self.browser.session = name
        else:
            self.browser.ask("WebDriver:SwitchToWindow", handle=name, focus=True)
