"""Browsers without a window, which open a page and run a function on it: Chromium by its pipe, Firefox by Marionette."""
import base64
import json
import os
import pathlib
import shutil
import socket
import subprocess
import time


class Fault(Exception):
    """What a browser says that it can't do."""


class Chromium:
    """Chromium; its messages come and go by two pipes."""
    programs, package = ("chromium", "chromium-browser", "google-chrome"), "chromium"

    def __init__(self, room):
        program = next(filter(None, map(shutil.which, self.programs)))
        to_child, self.out = os.pipe()
        self.come, from_child = os.pipe()
        high = [os.dup2(end, 200 + k) for k, end in enumerate((to_child, from_child))]

        def ends():
            os.dup2(high[0], 3)
            os.dup2(high[1], 4)

        words = [program, "--headless", "--no-sandbox", "--disable-gpu", "--hide-scrollbars", "--no-first-run", f"--user-data-dir={room}/chromium",
                 "--remote-debugging-pipe", "--force-color-profile=srgb", "--font-render-hinting=none", "about:blank"]
        self.child = subprocess.Popen(words, preexec_fn=ends, pass_fds=(3, 4), stdin=subprocess.DEVNULL, stdout=subprocess.DEVNULL, stderr=subprocess.DEVNULL)
        for end in (to_child, from_child, *high):
            os.close(end)
        self.buffer, self.number, self.events = b"", 0, []
        self.session = None
        target = self.call("Target.createTarget", url="about:blank")["targetId"]
        self.session = self.call("Target.attachToTarget", targetId=target, flatten=True)["sessionId"]
        self.call("Page.enable")

    def message(self):
        while b"\0" not in self.buffer:
            more = os.read(self.come, 1 << 20)
            if not more:
                raise Fault("chromium has ended")
            self.buffer += more
        first, self.buffer = self.buffer.split(b"\0", 1)
        return json.loads(first)

    def call(self, method, **parameters):
        self.number += 1
        told = {"id": self.number, "method": method, "params": parameters, **({"sessionId": self.session} if self.session else {})}
        os.write(self.out, json.dumps(told).encode() + b"\0")
        while True:
            came = self.message()
            if came.get("id") == self.number:
                if "error" in came:
                    raise Fault(f"{method}: {came['error']}")
                return came["result"]
            self.events.append(came.get("method"))

    def open(self, path, width, dark, height=900):
        self.call("Emulation.setDeviceMetricsOverride", width=width, height=height, deviceScaleFactor=1, mobile=False)
        self.call("Emulation.setEmulatedMedia", features=[{"name": "prefers-color-scheme", "value": "dark" if dark else "light"}])
        self.events.clear()
        self.call("Page.navigate", url=pathlib.Path(path).as_uri())
        while "Page.loadEventFired" not in self.events:
            self.events.append(self.message().get("method"))

    def run(self, path, width, dark, body):
        """What the function of this body returns on the page."""
        self.open(path, width, dark)
        came = self.call("Runtime.evaluate", expression=f"(function () {{{body}\n}})()", returnByValue=True)
        if "exceptionDetails" in came:
            raise Fault(json.dumps(came["exceptionDetails"])[:600])
        return came["result"]["value"]

    def picture(self, path, width, height, dark=False):
        """A PNG of the page's top."""
        self.open(path, width, dark, height)
        return base64.b64decode(self.call("Page.captureScreenshot", format="png", clip={"x": 0, "y": 0, "width": width, "height": height, "scale": 1})["data"])

    def end(self):
        self.child.terminate()
        self.child.wait()


class Firefox:
    """Firefox. A page is in a frame of the width, since a window may not be so narrow; light or dark is a setting, so there are two of them."""
    programs, package = ("firefox-esr", "firefox"), "firefox-esr"

    def __init__(self, room):
        self.room, self.running = pathlib.Path(room), {}

    def begin(self, dark):
        profile = self.room / f"firefox-{dark}"
        profile.mkdir()
        with socket.socket() as free:
            free.bind(("127.0.0.1", 0))
            port = free.getsockname()[1]
        settings = {"marionette.port": port, "layout.css.prefers-color-scheme.content-override": 0 if dark else 1, "browser.shell.checkDefaultBrowser": False,
                    "datareporting.policy.dataSubmissionEnabled": False, "toolkit.telemetry.enabled": False, "app.update.enabled": False,
                    "browser.startup.homepage_override.mstone": "ignore", "network.captive-portal-service.enabled": False, "network.connectivity-service.enabled": False}
        (profile / "user.js").write_text("".join(f"user_pref({json.dumps(k)}, {json.dumps(v)});\n" for k, v in settings.items()))
        program = next(filter(None, map(shutil.which, self.programs)))
        child = subprocess.Popen([program, "--headless", "--no-remote", "--profile", profile, "--marionette"], stdin=subprocess.DEVNULL, stdout=subprocess.DEVNULL,
                                 stderr=subprocess.DEVNULL, env={**os.environ, "HOME": str(self.room), "MOZ_HEADLESS_WIDTH": "1600", "MOZ_HEADLESS_HEIGHT": "1200"})
        for _ in range(600):
            try:
                wire = socket.create_connection(("127.0.0.1", port))
                break
            except OSError:
                if child.poll() is not None:
                    raise Fault("firefox has ended")
                time.sleep(0.1)
        else:
            raise Fault("firefox doesn't answer")
        self.running[dark] = [child, wire, wire.makefile("rb"), 0]
        self.message(dark)
        self.call(dark, "WebDriver:NewSession", capabilities={"alwaysMatch": {"pageLoadStrategy": "normal"}})
        self.call(dark, "WebDriver:SetWindowRect", width=1600, height=1200)

    def message(self, dark):
        file, digits = self.running[dark][2], b""
        while not digits.endswith(b":"):
            one = file.read(1)
            if not one:
                raise Fault("firefox has ended")
            digits += one
        return json.loads(file.read(int(digits[:-1])))

    def call(self, dark, command, **parameters):
        running = self.running[dark]
        running[3] += 1
        text = json.dumps([0, running[3], command, parameters]).encode()
        running[1].sendall(b"%d:%s" % (len(text), text))
        while True:
            came = self.message(dark)
            if came[0] == 1 and came[1] == running[3]:
                if came[2]:
                    raise Fault(f"{command}: {came[2].get('error')}: {came[2].get('message')}")
                return came[3]

    def run(self, path, width, dark, body):
        if dark not in self.running:
            self.begin(dark)
        frame = self.room / "frame.html"
        frame.write_text(f'<!DOCTYPE html><body style="margin:0"><iframe style="width:{width}px;height:900px;border:0" src="{pathlib.Path(path).as_uri()}"></iframe>')
        self.call(dark, "WebDriver:SwitchToFrame", id=None)
        self.call(dark, "WebDriver:Navigate", url=frame.as_uri())
        found = self.call(dark, "WebDriver:FindElement", using="css selector", value="iframe")["value"]
        self.call(dark, "WebDriver:SwitchToFrame", element=next(iter(found.values())))
        return self.call(dark, "WebDriver:ExecuteScript", script=body, args=[])["value"]

    def end(self):
        for child, wire, _, _ in self.running.values():
            wire.close()
            child.terminate()
            child.wait()


def there(browser):
    """Whether the browser is on this machine."""
    return any(map(shutil.which, browser.programs))
