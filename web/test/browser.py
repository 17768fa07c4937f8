"""A page in Debian's chromium, headless, driven through its debugging pipe: pointer, keys and files go in as a user's do."""
import base64
import fcntl
import json
import os
import select
import shutil
import signal
import subprocess
import tempfile
import time
from pathlib import Path

PATIENCE = 20  # seconds that any answer may take
OPTIONS = (
    "--headless=new --no-sandbox --disable-gpu --disable-dev-shm-usage --disable-background-networking --disable-component-update --disable-sync"
    " --no-first-run --no-default-browser-check --hide-scrollbars --mute-audio --remote-debugging-pipe about:blank".split()
)


class Broken(Exception):
    """The browser or the page did not do what it was told."""


def above(descriptor):
    """The same descriptor out of the way of 3 and 4, which the browser takes its orders from and answers on."""
    high = fcntl.fcntl(descriptor, fcntl.F_DUPFD, 10)
    os.close(descriptor)
    return high


class Browser:
    def __init__(self):
        self.profile = tempfile.mkdtemp(prefix="page-test-")
        (orders, self.orders), (self.answers, answers) = os.pipe(), os.pipe()
        orders, answers = above(orders), above(answers)
        command = ["bash", "-c", 'exec "$@" 3<&%d 4>&%d' % (orders, answers), "bash", "chromium", "--user-data-dir=" + self.profile, *OPTIONS]
        quiet = subprocess.DEVNULL
        self.process = subprocess.Popen(command, pass_fds=(orders, answers), stdin=quiet, stdout=quiet, stderr=quiet, start_new_session=True)
        os.close(orders)
        os.close(answers)
        self.rest, self.count, self.session = b"", 0, None

    def __enter__(self):
        try:
            target = self.order("Target.createTarget", url="about:blank")["targetId"]
            self.session = self.order("Target.attachToTarget", targetId=target, flatten=True)["sessionId"]
            self.order("Page.enable")
        except BaseException:
            self.__exit__()
            raise
        return self

    def __exit__(self, *_):
        """Asks the browser to end, which ends its helpers too; else ends all of them, as they are a group of processes of their own."""
        try:
            self.session = None
            self.order("Browser.close")
            self.process.wait(PATIENCE)
        except (Broken, OSError, subprocess.TimeoutExpired):
            os.killpg(self.process.pid, signal.SIGKILL)
            self.process.wait(PATIENCE)
        os.close(self.orders)
        os.close(self.answers)
        shutil.rmtree(self.profile, ignore_errors=True)

    def message(self, deadline):
        while b"\0" not in self.rest:
            if not select.select([self.answers], [], [], max(0, deadline - time.monotonic()))[0]:
                raise Broken("the browser gives no answer")
            piece = os.read(self.answers, 1 << 20)
            if not piece:
                raise Broken("the browser went away")
            self.rest += piece
        text, self.rest = self.rest.split(b"\0", 1)
        return json.loads(text)

    def order(self, method, **given):
        self.count += 1
        order = {"id": self.count, "method": method, "params": given}
        if self.session:
            order["sessionId"] = self.session
        os.write(self.orders, json.dumps(order).encode() + b"\0")
        deadline = time.monotonic() + PATIENCE
        while (answer := self.message(deadline)).get("id") != self.count:
            pass
        if "error" in answer:
            raise Broken("%s: %s" % (method, answer["error"]["message"]))
        return answer["result"]

    def value(self, script):
        """What a script comes to in the page."""
        answer = self.order("Runtime.evaluate", expression=script, returnByValue=True, awaitPromise=True)
        if "exceptionDetails" in answer:
            raise Broken("%s: %s" % (script, answer["exceptionDetails"]["exception"].get("description")))
        return answer["result"].get("value")

    def wait(self, script):
        deadline = time.monotonic() + PATIENCE
        while not self.value(script):
            if time.monotonic() > deadline:
                raise Broken("it never comes to: " + script)
            time.sleep(0.02)

    def open(self, address):
        """Opens a page anew, whatever is open, and waits until it can be used."""
        self.order("Page.navigate", url="about:blank")
        self.wait("location.href === 'about:blank'")
        self.order("Page.navigate", url=address)
        self.wait("document.readyState === 'complete' && document.getElementById('version')?.textContent !== ''")

    def text(self, selector):
        """What is seen of the element that a selector names: nothing, if it is hidden."""
        return self.value("document.querySelector(%s).innerText" % json.dumps(selector))

    def click(self, selector):
        spot = self.value(
            "(() => { const part = document.querySelector(%s); part.scrollIntoView({ block: 'center' });"
            " const box = part.getBoundingClientRect(); return [box.x + box.width / 2, box.y + box.height / 2]; })()" % json.dumps(selector)
        )
        for kind in ("mousePressed", "mouseReleased"):
            self.order("Input.dispatchMouseEvent", type=kind, x=spot[0], y=spot[1], button="left", clickCount=1)

    def type(self, selector, text):
        """Types in place of what the field has."""
        self.click(selector)
        self.value("document.activeElement.select()")
        self.order("Input.insertText", text=text)

    def press(self, key, code):
        for kind in ("rawKeyDown", "char", "keyUp"):
            self.order("Input.dispatchKeyEvent", type=kind, key=key, windowsVirtualKeyCode=code, text="\r" if kind == "char" else "")

    def give_file(self, selector, path):
        document = self.order("DOM.getDocument")["root"]["nodeId"]
        field = self.order("DOM.querySelector", nodeId=document, selector=selector)["nodeId"]
        self.order("DOM.setFileInputFiles", files=[str(path)], nodeId=field)

    def picture(self, path, width, height, scheme):
        """A picture of the whole page as a window of this width shows it, in a light or a dark scheme."""
        self.order("Emulation.setDeviceMetricsOverride", width=width, height=height, deviceScaleFactor=1, mobile=width < 600)
        self.order("Emulation.setEmulatedMedia", features=[{"name": "prefers-color-scheme", "value": scheme}])
        shot = self.order("Page.captureScreenshot", format="png", captureBeyondViewport=True)
        Path(path).write_bytes(base64.b64decode(shot["data"]))
