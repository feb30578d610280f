"""Drives a headless Firefox by WebDriver BiDi, over a socket; the standard library alone."""

import base64
import json
import os
import re
import shutil
import socket
import struct
import subprocess
import tempfile
import time


class Socket:
    """A web socket to a server on this machine."""

    def __init__(self, port, path):
        self.link, self.rest = socket.create_connection(("127.0.0.1", port), 600), b""
        key = base64.b64encode(os.urandom(16)).decode()
        words = [f"GET {path} HTTP/1.1", f"Host: 127.0.0.1:{port}", "Upgrade: websocket", "Connection: Upgrade",
                 f"Sec-WebSocket-Key: {key}", "Sec-WebSocket-Version: 13", "", ""]
        self.link.sendall("\r\n".join(words).encode())
        while b"\r\n\r\n" not in self.rest:
            self.more()
        head, self.rest = self.rest.split(b"\r\n\r\n", 1)
        if b" 101 " not in head.split(b"\r\n")[0]:
            raise RuntimeError(f"no web socket: {head[:200]!r}")

    def more(self):
        part = self.link.recv(1 << 20)
        if not part:
            raise RuntimeError("the browser has ended")
        self.rest += part

    def taken(self, count):
        while len(self.rest) < count:
            self.more()
        part, self.rest = self.rest[:count], self.rest[count:]
        return part

    def send(self, text, kind=1):
        data, mask = text.encode() if isinstance(text, str) else text, os.urandom(4)
        size = len(data)
        head = bytes([0x80 | kind]) + (bytes([0x80 | size]) if size < 126 else
                                       bytes([0xFE]) + struct.pack(">H", size) if size < 65536 else
                                       bytes([0xFF]) + struct.pack(">Q", size))
        masked = bytes(byte ^ mask[at % 4] for at, byte in enumerate(data))
        self.link.sendall(head + mask + masked)

    def hear(self):
        """The next text."""
        text = b""
        while True:
            first, size = self.taken(2)
            size = struct.unpack(">H", self.taken(2))[0] if size == 126 else struct.unpack(">Q", self.taken(8))[0] if size == 127 else size
            data, kind = self.taken(size), first & 15
            if kind == 9:
                self.send(data, 10)
            elif kind == 8:
                raise RuntimeError("the browser has ended")
            elif kind in (0, 1):
                text += data
                if first & 0x80:
                    return text.decode()


class Firefox:
    """A browser with one page, with the calls that tests/page makes of a Browser."""

    def __init__(self, *flags):
        program = shutil.which("firefox-esr") or shutil.which("firefox")
        if not program:
            raise SystemExit("there is no firefox")
        self.home = tempfile.TemporaryDirectory(ignore_cleanup_errors=True)
        words = [program, "--headless", "--no-remote", "--profile", self.home.name, "--remote-debugging-port", "0", *flags]
        self.process = subprocess.Popen(words, stdout=subprocess.DEVNULL, stderr=subprocess.PIPE, text=True,
                                        env={**os.environ, "HOME": self.home.name})
        for line in self.process.stderr:
            at = re.search(r"WebDriver BiDi listening on ws://[^:]+:(\d+)", line)
            if at:
                break
        else:
            raise RuntimeError("the browser tells no port")
        # (what it writes from now on isn't read: the pipe has room for it)
        self.socket, self.number, self.events = Socket(int(at[1]), "/session"), 0, []
        self.ask("session.new", capabilities={})
        self.context = self.ask("browsingContext.getTree")["contexts"][0]["context"]
        self.ask("session.subscribe", events=["log.entryAdded", "network.beforeRequestSent"])

    def ask(self, method, **params):
        self.number += 1
        self.socket.send(json.dumps({"id": self.number, "method": method, "params": params}))
        while True:
            heard = json.loads(self.socket.hear())
            if heard.get("id") == self.number:
                if heard.get("type") == "error":
                    raise RuntimeError(f"{method}: {heard.get('error')}: {heard.get('message')}")
                return heard["result"]
            self.events.append(heard)

    def open(self, url):
        self.events.clear()
        self.ask("browsingContext.navigate", context=self.context, url=url, wait="complete")

    def evaluated(self, code):
        answer = self.ask("script.evaluate", expression=code, target={"context": self.context}, awaitPromise=True, resultOwnership="none")
        if answer["type"] != "success":
            raise RuntimeError(answer["exceptionDetails"]["text"])
        return answer["result"]

    def value(self, code):
        """The value of an expression; a promise is waited for."""
        return self.evaluated(code).get("value")

    def choose(self, selector, *paths):
        """Puts files into a field for files, as a user's choice does."""
        node = self.evaluated(f"document.querySelector({json.dumps(selector)})")
        element = {"sharedId": node["sharedId"]}
        self.ask("input.setFiles", context=self.context, element=element, files=[str(it) for it in paths])

    def picture(self, path, **how):
        answer = self.ask("browsingContext.captureScreenshot", context=self.context, **how)
        with open(path, "wb") as file:
            file.write(base64.b64decode(answer["data"]))

    def complaints(self):
        """What the page wrote to its console, and what it threw."""
        return [it["params"] for it in self.events if it.get("method") == "log.entryAdded"]

    def requests(self):
        """What the page asked for, but for itself and what it made."""
        urls = (it["params"]["request"]["url"] for it in self.events if it.get("method") == "network.beforeRequestSent")
        return [it for it in urls if not it.startswith(("blob:", "file:", "data:"))]

    def close(self):
        try:
            self.ask("browser.close")
        except (RuntimeError, OSError):
            self.process.kill()
        self.process.wait(120)
        time.sleep(0.1)
        self.home.cleanup()
