"""A headless Chromium that is driven over its pipe, for tools that try a page. It needs Debian's package `chromium` and nothing else."""

import base64
import json
import os
import subprocess


class Browser:
    """Chromium over its pipe: messages are JSON, each ended by a NUL."""

    def __init__(self, width, height):
        to_read, self.to_browser = os.pipe()
        self.from_browser, to_write = os.pipe()

        def wire():
            os.dup2(to_read, 103)
            os.dup2(to_write, 104)
            os.dup2(103, 3)
            os.dup2(104, 4)

        self.process = subprocess.Popen(
            ["chromium", "--headless=new", "--no-sandbox", "--disable-gpu", "--hide-scrollbars", "--remote-debugging-pipe",
             "--window-size=%d,%d" % (width, height), "about:blank"],
            preexec_fn=wire, close_fds=False, stderr=subprocess.DEVNULL)
        self.rest, self.count, self.events, self.session = b"", 0, [], None
        target = [one for one in self.ask("Target.getTargets")["targetInfos"] if one["type"] == "page"][0]["targetId"]
        self.session = self.ask("Target.attachToTarget", targetId=target, flatten=True)["sessionId"]
        for domain in ("Runtime", "Page", "Log", "Network"):
            self.ask(domain + ".enable")
        self.ask("Performance.enable", timeDomain="threadTicks")
        self.size(width, height)

    def hear(self):
        while b"\0" not in self.rest:
            self.rest += os.read(self.from_browser, 1 << 16)
        one, self.rest = self.rest.split(b"\0", 1)
        return json.loads(one)

    def ask(self, method, **params):
        self.count += 1
        message = {"id": self.count, "method": method, "params": params}
        if self.session:
            message["sessionId"] = self.session
        os.write(self.to_browser, json.dumps(message).encode() + b"\0")
        while True:
            got = self.hear()
            if got.get("id") == self.count:
                if "error" in got:
                    raise SystemExit("%s: %s" % (method, got["error"]))
                return got["result"]
            self.events.append(got)

    def open(self, address):
        """Opens an address, by way of an empty page: else one that differs behind its # alone would not be loaded again."""
        for one in ("about:blank", address):
            self.events = [event for event in self.events if event.get("method") != "Page.loadEventFired"]
            self.ask("Page.navigate", url=one)
            while not any(event.get("method") == "Page.loadEventFired" for event in self.events):
                self.events.append(self.hear())

    def value(self, text):
        """What a script comes to; a promise is awaited."""
        result = self.ask("Runtime.evaluate", expression=text, returnByValue=True, awaitPromise=True)
        if "exceptionDetails" in result:
            raise SystemExit("%s: %s" % (text, result["exceptionDetails"]))
        return result["result"].get("value")

    def called(self, function, *arguments):
        """What a function of the page's language gives for these arguments."""
        return self.value("(%s)(%s)" % (function, ", ".join(json.dumps(one) for one in arguments)))

    def text(self, name):
        """The text of the element with this id; empty where there is none."""
        return self.called('id => (document.getElementById(id) || {}).textContent || ""', name)

    def size(self, width, height):
        self.ask("Emulation.setDeviceMetricsOverride", width=width, height=height, deviceScaleFactor=1, mobile=False)

    def key(self, *keys):
        for key in keys:
            self.ask("Input.dispatchKeyEvent", type="keyDown", key=key, **({"text": key} if len(key) == 1 else {}))
            self.ask("Input.dispatchKeyEvent", type="keyUp", key=key)

    def picture(self, path):
        path.write_bytes(base64.b64decode(self.ask("Page.captureScreenshot", format="png")["data"]))

    def printed(self):
        """What is printed, as PDF."""
        return base64.b64decode(self.ask("Page.printToPDF", printBackground=True, preferCSSPageSize=True)["data"])

    def thread_time(self):
        """The processor time of the page's thread so far, in seconds."""
        return [metric["value"] for metric in self.ask("Performance.getMetrics")["metrics"] if metric["name"] == "TaskDuration"][0]

    def heard(self, *methods):
        return [event["params"] for event in self.events if event.get("method") in methods]

    def errors(self):
        return self.heard("Runtime.exceptionThrown", "Log.entryAdded") + [
            params for params in self.heard("Runtime.consoleAPICalled") if params["type"] in ("error", "assert", "warning")]

    def close(self):
        os.close(self.to_browser)
        self.process.wait(10)
