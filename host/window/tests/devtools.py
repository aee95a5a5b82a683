"""Drives Chromium by its own protocol, over a socket."""
import base64
import json
import os
import socket
import struct
import subprocess
import tempfile
import time
import urllib.request


class Socket:
    """A client of a web socket."""

    def __init__(self, url):
        host, path = url.removeprefix("ws://").split("/", 1)
        name, port = host.split(":")
        self.plain = socket.create_connection((name, int(port)), timeout=120)
        self.plain.setsockopt(socket.IPPROTO_TCP, socket.TCP_NODELAY, 1)
        key = base64.b64encode(os.urandom(16)).decode()
        asked = f"GET /{path} HTTP/1.1\r\nHost: {host}\r\nUpgrade: websocket\r\nConnection: Upgrade\r\n" \
                f"Sec-WebSocket-Key: {key}\r\nSec-WebSocket-Version: 13\r\n\r\n"
        self.plain.sendall(asked.encode())
        self.read = self.plain.makefile("rb")
        if b" 101 " not in self.read.readline():
            raise RuntimeError("the browser refuses the connection")
        while self.read.readline() != b"\r\n":
            pass

    def send(self, text):
        data, mask = text.encode(), os.urandom(4)
        length = len(data)
        head = bytes([0x81]) + (bytes([0x80 | length]) if length < 126 else bytes([0xFE]) + struct.pack(">H", length)
                                if length < 65536 else bytes([0xFF]) + struct.pack(">Q", length))
        masked = bytes(byte ^ mask[at % 4] for at, byte in enumerate(data))
        self.plain.sendall(head + mask + masked)

    def receive(self):
        whole = b""
        while True:
            first, second = self.read.read(2)
            length = second & 0x7F
            if length == 126:
                length, = struct.unpack(">H", self.read.read(2))
            elif length == 127:
                length, = struct.unpack(">Q", self.read.read(8))
            data = self.read.read(length)
            if first & 0x0F in (0, 1):
                whole += data
                if first & 0x80:
                    return whole.decode()


class Browser:
    """A headless Chromium with one page."""

    def __init__(self, program, width, height):
        self.folder = tempfile.TemporaryDirectory(ignore_cleanup_errors=True)
        words = [program, "--headless=new", "--remote-debugging-port=0", f"--user-data-dir={self.folder.name}", "--no-first-run",
                 "--disable-gpu", "--hide-scrollbars", "--disable-background-networking", "--disable-dev-shm-usage", "--disable-extensions",
                 f"--window-size={width},{height}"]
        if os.geteuid() == 0:
            words.append("--no-sandbox")
        self.process = subprocess.Popen(words + ["about:blank"], stdout=subprocess.DEVNULL, stderr=subprocess.DEVNULL)
        self.socket, self.count, self.events = Socket(self.page()), 0, []
        for part in ("Page", "Runtime", "Log", "Network"):
            self.ask(f"{part}.enable")
        self.size(width, height)

    def page(self):
        active = os.path.join(self.folder.name, "DevToolsActivePort")
        for _ in range(600):
            if os.path.exists(active) and os.path.getsize(active) > 0:
                port = open(active).read().split()[0]
                pages = json.load(urllib.request.urlopen(f"http://127.0.0.1:{port}/json"))
                found = [page["webSocketDebuggerUrl"] for page in pages if page["type"] == "page"]
                if found:
                    return found[0]
            time.sleep(0.1)
        raise RuntimeError("the browser doesn't begin")

    def ask(self, method, **parameters):
        self.count += 1
        self.socket.send(json.dumps({"id": self.count, "method": method, "params": parameters}))
        while True:
            told = json.loads(self.socket.receive())
            if told.get("id") == self.count:
                if "error" in told:
                    raise RuntimeError(f"{method}: {told['error']}")
                return told["result"]
            self.events.append(told)

    def size(self, width, height, dark=False):
        self.ask("Emulation.setDeviceMetricsOverride", width=width, height=height, deviceScaleFactor=1, mobile=False)
        theme = "dark" if dark else "light"
        self.ask("Emulation.setEmulatedMedia", features=[{"name": "prefers-color-scheme", "value": theme}])

    def value(self, text):
        """The value of an expression in the page; a promise is awaited."""
        told = self.ask("Runtime.evaluate", expression=text, returnByValue=True, awaitPromise=True, userGesture=True)
        if "exceptionDetails" in told:
            raise RuntimeError(f"{text}: {told['exceptionDetails']}")
        return told["result"].get("value")

    def wait(self, text, seconds=180):
        """Waits until an expression is true."""
        end = time.monotonic() + seconds
        while not self.is_true(text):
            if time.monotonic() > end:
                raise AssertionError(f"it never came true: {text}")
            time.sleep(0.02)

    def is_true(self, text):
        try:
            return self.value(text)
        except RuntimeError:
            # (a page that is being left has no values)
            return False

    def key(self, key, code=None, number=0, modifiers=0, text=None):
        what = {"key": key, "code": code or key, "windowsVirtualKeyCode": number, "modifiers": modifiers}
        self.ask("Input.dispatchKeyEvent", type="keyDown" if text else "rawKeyDown", **what, **({"text": text} if text else {}))
        self.ask("Input.dispatchKeyEvent", type="keyUp", **what)

    def picture(self, file):
        data = self.ask("Page.captureScreenshot", format="png")["data"]
        with open(file, "wb") as out:
            out.write(base64.b64decode(data))

    def close(self):
        self.process.terminate()
        self.process.wait(timeout=30)
        self.folder.cleanup()
