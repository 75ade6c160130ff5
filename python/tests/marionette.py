"""Firefox driven by Marionette, its own protocol: messages as JSON behind their length, over TCP."""

import json
import os
import shutil
import socket
import subprocess
import tempfile
import time
from pathlib import Path

FIREFOX = next(filter(None, map(shutil.which, ("firefox-esr", "firefox"))), None)
# A profile that asks nobody for anything; a port that is free.
PREFERENCES = {
    "marionette.port": 0,
    "app.normandy.enabled": False,
    "app.update.auto": False,
    "browser.newtabpage.enabled": False,
    "browser.safebrowsing.downloads.remote.enabled": False,
    "browser.search.update": False,
    "browser.startup.page": 0,
    "datareporting.policy.dataSubmissionEnabled": False,
    "extensions.update.enabled": False,
    "network.captive-portal-service.enabled": False,
    "network.connectivity-service.enabled": False,
    "toolkit.telemetry.enabled": False,
}


class Failed(Exception):
    """What Firefox has against a command."""


class Firefox:
    """A headless Firefox with one window."""

    def __init__(self, seconds=60):
        self.profile = tempfile.mkdtemp()
        pairs = [f"{json.dumps(name)}, {json.dumps(value)}" for name, value in PREFERENCES.items()]
        lines = [f"user_pref({pair});" for pair in pairs]
        Path(self.profile, "user.js").write_text("\n".join(lines) + "\n")
        asked = [FIREFOX, "--headless", "--marionette", "--remote-allow-system-access", "--no-remote"]
        self.process = subprocess.Popen(
            [*asked, "--profile", self.profile],
            stdout=subprocess.DEVNULL,
            stderr=subprocess.DEVNULL,
            env={**os.environ, "HOME": self.profile},
        )
        self.number, self.socket = 0, None
        try:
            self.stream = self._connected(time.monotonic() + seconds)
            self._read()  # its greeting
            self.call("WebDriver:NewSession", capabilities={})
        except BaseException:
            self.close()
            raise

    def _connected(self, end):
        port = Path(self.profile, "MarionetteActivePort")
        while time.monotonic() < end and self.process.poll() is None:
            if port.exists() and port.read_text().strip():
                held = socket.create_connection(("127.0.0.1", int(port.read_text())), timeout=60)
                self.socket = held
                return held.makefile("rb")
            time.sleep(0.05)
        raise Failed("Firefox did not start")

    def _read(self):
        length = b""
        while True:
            byte = self.stream.read(1)
            if not byte:
                raise Failed("Firefox has ended")
            if byte == b":":
                return json.loads(self.stream.read(int(length)))
            length += byte

    def call(self, name, **parameters):
        """A command and its answer."""
        self.number += 1
        data = json.dumps([0, self.number, name, parameters]).encode()
        self.socket.sendall(b"%d:%s" % (len(data), data))
        _, _, error, result = self._read()
        if error:
            raise Failed(f"{name}: {error['error']}: {error['message']}")
        return result

    def run(self, script, *arguments):
        """What a script returns in the page."""
        return self.call("WebDriver:ExecuteScript", script=script, args=list(arguments))["value"]

    def messages(self):
        """What the console says."""
        self.call("Marionette:SetContext", value="chrome")
        try:
            return self.run("return Services.console.getMessageArray().map((one) => one.message)")
        finally:
            self.call("Marionette:SetContext", value="content")

    def close(self):
        if self.socket:
            self.stream.close()
            self.socket.close()
        self.process.kill()
        self.process.wait()
        shutil.rmtree(self.profile, ignore_errors=True)
