"""Drives a headless Chromium by its DevTools protocol, over a pipe; the standard library alone."""

import base64
import json
import os
import shutil
import subprocess
import tempfile


class Browser:
    """A browser with one page. What it is told goes to its descriptor 3, its answers come from 4."""

    def __init__(self, *flags):
        program = shutil.which("chromium") or shutil.which("chromium-browser")
        if not program:
            raise SystemExit("there is no chromium")
        hears, self.tells = os.pipe()
        self.answers, says = os.pipe()
        self.home = tempfile.TemporaryDirectory(ignore_cleanup_errors=True)
        # High numbers, so that neither pipe is lost while the shell puts them to 3 and 4.
        ends = os.dup2(hears, 113), os.dup2(says, 114)
        words = [
            program, "--headless", "--no-sandbox", "--disable-gpu", "--no-first-run",
            "--remote-debugging-pipe", f"--user-data-dir={self.home.name}", *flags, "about:blank",
        ]
        self.process = subprocess.Popen(
            ["bash", "-c", 'exec "$@" 3<&113 4>&114', "chromium", *words],
            pass_fds=ends, stdout=subprocess.DEVNULL, stderr=subprocess.DEVNULL,
        )
        for end in (hears, says, *ends):
            os.close(end)
        self.number, self.rest, self.events, self.session = 0, b"", [], None
        targets = self.ask("Target.getTargets")["targetInfos"]
        page = next(it["targetId"] for it in targets if it["type"] == "page")
        self.session = self.ask("Target.attachToTarget", targetId=page, flatten=True)["sessionId"]
        for domain in ("Page", "Runtime", "DOM", "Log", "Network"):
            self.ask(f"{domain}.enable")

    def hear(self):
        """The next message of the browser."""
        while b"\0" not in self.rest:
            part = os.read(self.answers, 1 << 20)
            if not part:
                raise RuntimeError("the browser has ended")
            self.rest += part
        message, self.rest = self.rest.split(b"\0", 1)
        return json.loads(message)

    def ask(self, method, **params):
        self.number += 1
        message = {"id": self.number, "method": method, "params": params}
        if self.session:
            message["sessionId"] = self.session
        os.write(self.tells, json.dumps(message).encode() + b"\0")
        while True:
            heard = self.hear()
            if heard.get("id") == self.number:
                if "error" in heard:
                    raise RuntimeError(f"{method}: {heard['error']}")
                return heard["result"]
            self.events.append(heard)

    def open(self, url):
        self.events.clear()
        self.ask("Page.navigate", url=url)
        while not any(it.get("method") == "Page.loadEventFired" for it in self.events):
            self.events.append(self.hear())

    def value(self, code):
        """The value of an expression; a promise is waited for."""
        answer = self.ask("Runtime.evaluate", expression=code, awaitPromise=True, returnByValue=True)
        if "exceptionDetails" in answer:
            fault = answer["exceptionDetails"]
            raise RuntimeError(fault.get("exception", {}).get("description", fault))
        return answer["result"].get("value")

    def choose(self, selector, *paths):
        """Puts files into a field for files, as a user's choice does."""
        root = self.ask("DOM.getDocument")["root"]["nodeId"]
        node = self.ask("DOM.querySelector", nodeId=root, selector=selector)["nodeId"]
        self.ask("DOM.setFileInputFiles", nodeId=node, files=[str(it) for it in paths])

    def drop(self, path, x, y):
        """Drags a file onto a place of the page."""
        data = {"items": [], "files": [str(path)], "dragOperationsMask": 1}
        for kind in ("dragEnter", "dragOver", "drop"):
            self.ask("Input.dispatchDragEvent", type=kind, x=x, y=y, data=data)

    def picture(self, path, **how):
        with open(path, "wb") as file:
            file.write(base64.b64decode(self.ask("Page.captureScreenshot", format="png", **how)["data"]))

    def complaints(self):
        """What the page wrote to its console, what it threw, and what was blocked."""
        kinds = ("Runtime.consoleAPICalled", "Runtime.exceptionThrown", "Log.entryAdded")
        return [it["params"] for it in self.events if it.get("method") in kinds]

    def requests(self):
        """What the page asked for, but for itself and what it made."""
        urls = (it["params"]["request"]["url"] for it in self.events if it.get("method") == "Network.requestWillBeSent")
        return [it for it in urls if not it.startswith(("blob:", "file:", "data:"))]

    def close(self):
        self.session = None
        try:
            self.ask("Browser.close")
        except (RuntimeError, OSError):
            pass
        self.process.wait(120)
        self.home.cleanup()
