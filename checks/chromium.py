"""Drives a headless Chromium by its debugging protocol, over a pair of pipes, with the standard library alone."""
import base64
import json
import os
import shutil
import subprocess
import tempfile
import time


class Browser:
    """A browser with one page. `chromium` of Debian or another build of it has to be there."""

    def __init__(self, width=1280, height=900):
        program = next((path for path in map(shutil.which, ("chromium", "chromium-browser", "google-chrome")) if path), None)
        if program is None:
            raise SystemExit("chromium isn't there: apt-get install chromium")
        self.profile = tempfile.mkdtemp()
        (read_here, write_there), (read_there, write_here) = os.pipe(), os.pipe()

        def connect():
            """The browser reads its file 3 and writes its file 4."""
            low, high = os.dup(read_there), os.dup(write_there)
            os.dup2(low, 3)
            os.dup2(high, 4)

        words = [program, "--headless=new", "--no-sandbox", "--disable-gpu", "--hide-scrollbars", "--remote-debugging-pipe",
                 f"--user-data-dir={self.profile}", f"--window-size={width},{height}", "about:blank"]
        self.process = subprocess.Popen(words, preexec_fn=connect, close_fds=False, stdout=subprocess.DEVNULL,
                                        stderr=subprocess.DEVNULL)
        os.close(read_there)
        os.close(write_there)
        self.read_end, self.write_end = read_here, write_here
        self.waiting, self.number, self.session, self.errors = b"", 0, None, []
        target = self.call("Target.createTarget", url="about:blank")["targetId"]
        self.session = self.call("Target.attachToTarget", targetId=target, flatten=True)["sessionId"]
        for domain in ("Page", "Runtime", "DOM"):
            self.call(domain + ".enable")

    def message(self):
        """The next message of the browser."""
        while b"\0" not in self.waiting:
            more = os.read(self.read_end, 1 << 16)
            if not more:
                raise SystemExit("the browser has ended")
            self.waiting += more
        text, _, self.waiting = self.waiting.partition(b"\0")
        return json.loads(text)

    def call(self, method, **words):
        """Calls a method of the protocol, and waits for its result. Errors of the page in between are kept."""
        self.number += 1
        call = {"id": self.number, "method": method, "params": words}
        if self.session:
            call["sessionId"] = self.session
        os.write(self.write_end, json.dumps(call).encode() + b"\0")
        while True:
            answer = self.message()
            if answer.get("method") == "Runtime.exceptionThrown":
                self.errors.append(json.dumps(answer["params"]["exceptionDetails"].get("exception", {}).get("description")))
            if answer.get("id") == self.number:
                if "error" in answer:
                    raise RuntimeError(f"{method}: {answer['error']}")
                return answer["result"]

    def open(self, url):
        self.call("Page.navigate", url=url)
        self.wait_for("document.readyState === 'complete'")

    def value(self, text):
        """The value of an expression in the page."""
        found = self.call("Runtime.evaluate", expression=text, returnByValue=True, awaitPromise=True)
        if "exceptionDetails" in found:
            raise RuntimeError(f"{text}: {found['exceptionDetails']}")
        return found["result"].get("value")

    def wait_for(self, text, seconds=60):
        end = time.time() + seconds
        while not self.value(text):
            if time.time() > end:
                raise SystemExit(f"waited in vain for {text}")
            time.sleep(0.005)

    def choose(self, selector, names):
        """Chooses files in a field, as a user would."""
        root = self.call("DOM.getDocument", depth=0)["root"]["nodeId"]
        node = self.call("DOM.querySelector", nodeId=root, selector=selector)["nodeId"]
        self.call("DOM.setFileInputFiles", files=[os.path.abspath(name) for name in names], nodeId=node)

    def point(self, x, y, kind="mouseMoved", **more):
        self.call("Input.dispatchMouseEvent", type=kind, x=x, y=y, **more)

    def press(self, key, **more):
        text = {"text": key} if len(key) == 1 else {}
        self.call("Input.dispatchKeyEvent", type="keyDown", key=key, **text, **more)
        self.call("Input.dispatchKeyEvent", type="keyUp", key=key, **more)

    def look(self, width, height, scheme="light"):
        """The size of the window and the colours that the user likes."""
        self.call("Emulation.setDeviceMetricsOverride", width=width, height=height, deviceScaleFactor=1, mobile=False)
        self.call("Emulation.setEmulatedMedia", features=[{"name": "prefers-color-scheme", "value": scheme}])

    def picture(self, name):
        """Saves the whole page as a picture."""
        shot = self.call("Page.captureScreenshot", format="png", captureBeyondViewport=True)
        with open(name, "wb") as file:
            file.write(base64.b64decode(shot["data"]))

    def processor_seconds(self):
        """The processor time that the browser and all that it started have taken."""
        times, children = {}, {}
        for pid in filter(str.isdigit, os.listdir("/proc")):
            try:
                with open(f"/proc/{pid}/stat", encoding="utf-8") as file:
                    fields = file.read().rpartition(")")[2].split()
            except OSError:
                continue
            children.setdefault(int(fields[1]), []).append(int(pid))
            times[int(pid)] = int(fields[11]) + int(fields[12])
        found = [self.process.pid]
        for pid in found:
            found += children.get(pid, [])
        return sum(times.get(pid, 0) for pid in found) / os.sysconf("SC_CLK_TCK")

    def close(self):
        try:
            self.call("Browser.close")
        except (SystemExit, RuntimeError, BrokenPipeError):
            pass
        self.process.wait(timeout=20)
        shutil.rmtree(self.profile, ignore_errors=True)
