#!/usr/bin/env python3
"""The desk's page: puts its files into the program, and goes through it in a browser.

page.py carry [--check]                  writes crates/desk_http_reply/src/page_files.rt, whose constants are the files of crates/desk_http_reply/page;
                                         with --check it only looks whether they agree
page.py visit FOLDER [--program FILE]    serves a new desk, goes through it with headless Chromium (DevTools protocol over a pipe), and leaves
                                         pictures in the folder; --program takes another build than that of bin/signoff

It ends with status 1 where something isn't as it should be. Debian has the browser: apt-get install chromium.
"""
import base64
import json
import os
import re
import shutil
import socket
import subprocess
import sys
import tempfile
import time

TOP = os.path.dirname(os.path.dirname(os.path.abspath(__file__)))
CRATE = f"{TOP}/crates/desk_http_reply"
FILES = {"PAGE_HTML": "page.html", "PAGE_CSS": "page.css", "PAGE_JS": "page.js"}
PATIENCE = 120


class Wrong(Exception):
    """Something isn't as it should be."""


# ---- the files in the program

def source_of_files():
    """The source file with a constant for each file of the page."""
    parts = ["// The files of the page, as they stand in `page/`: `bench/page.py carry` writes this file.\n"]
    for name, file in FILES.items():
        with open(f"{CRATE}/page/{file}", encoding="ascii") as it:
            text = it.read().replace("\\", "\\\\").replace('"', '\\"')
        parts.append(f'/// `{file}`\npub const {name}: &[u8] = b"{text}";\n')
    return "\n".join(parts)


def carry(check):
    path, source = f"{CRATE}/src/page_files.rt", source_of_files()
    with open(path, encoding="ascii") as it:
        same = it.read() == source
    if check and not same:
        raise Wrong("page_files.rt isn't what the files in page/ make: run bench/page.py carry")
    if not same:
        with open(path, "w", encoding="ascii") as it:
            it.write(source)


# ---- a browser

class Browser:
    """A page of headless Chromium, spoken to by the DevTools protocol."""

    def __init__(self, folder):
        read, self.output = os.pipe()
        self.input, write = os.pipe()
        words = ["chromium", "--headless", "--no-sandbox", "--disable-gpu", "--hide-scrollbars", "--remote-debugging-pipe",
                 f"--user-data-dir={folder}/profile", "about:blank"]
        self.process = subprocess.Popen(["bash", "-c", f'exec "$@" 3<&{read} 4>&{write}', "bash", *words], pass_fds=(read, write),
                                        stdin=subprocess.DEVNULL, stdout=subprocess.DEVNULL, stderr=subprocess.DEVNULL)
        os.close(read)
        os.close(write)
        self.rest, self.number, self.session = b"", 0, None
        target = self.call("Target.createTarget", url="about:blank")["targetId"]
        self.session = self.call("Target.attachToTarget", targetId=target, flatten=True)["sessionId"]
        self.call("Page.enable")
        self.call("DOM.enable")

    def call(self, method, **parameters):
        """What a method of the protocol answers."""
        self.number += 1
        words = {"id": self.number, "method": method, "params": parameters}
        if self.session:
            words["sessionId"] = self.session
        os.write(self.output, json.dumps(words).encode() + b"\0")
        while True:
            told = self.next_message()
            if told.get("id") == self.number:
                if "error" in told:
                    raise Wrong(f"{method}: {told['error']['message']}")
                return told["result"]

    def next_message(self):
        while b"\0" not in self.rest:
            more = os.read(self.input, 1 << 20)
            if not more:
                raise Wrong("the browser ended")
            self.rest += more
        message, self.rest = self.rest.split(b"\0", 1)
        return json.loads(message)

    def value(self, script):
        """The value of an expression in the page."""
        told = self.call("Runtime.evaluate", expression=script, awaitPromise=True, returnByValue=True)
        if "exceptionDetails" in told:
            raise Wrong(f"{script}: {told['exceptionDetails']['exception'].get('description')}")
        return told["result"].get("value")

    def wait(self, script):
        """Waits until an expression is true."""
        until = time.monotonic() + PATIENCE
        while not self.value(script):
            if time.monotonic() > until:
                raise Wrong(f"not so after {PATIENCE} s: {script}")
            time.sleep(0.05)

    def wants(self, script, what):
        told = self.value(script)
        if told != what:
            raise Wrong(f"{script}: {told!r} in place of {what!r}")

    def click(self, selector):
        self.value(f"document.querySelector({json.dumps(selector)}).click()")

    def key(self, key, code, text=""):
        for kind in ("keyDown", "keyUp"):
            self.call("Input.dispatchKeyEvent", type=kind, key=key, windowsVirtualKeyCode=code, text=text if kind == "keyDown" else "")

    def upload(self, selector, path):
        """Puts a file into a field for one."""
        node = self.call("Runtime.evaluate", expression=f"document.querySelector({json.dumps(selector)})")["result"]["objectId"]
        self.call("DOM.setFileInputFiles", files=[path], objectId=node)

    def look(self, width, height=800, scheme="light"):
        self.call("Emulation.setDeviceMetricsOverride", width=width, height=height, deviceScaleFactor=1, mobile=False)
        self.call("Emulation.setEmulatedMedia", features=[{"name": "prefers-color-scheme", "value": scheme}])

    def picture(self, path):
        """A picture of the whole page."""
        size = self.call("Page.getLayoutMetrics")["cssContentSize"]
        clip = {"x": 0, "y": 0, "width": size["width"], "height": size["height"], "scale": 1}
        told = self.call("Page.captureScreenshot", format="png", captureBeyondViewport=True, clip=clip)
        with open(path, "wb") as it:
            it.write(base64.b64decode(told["data"]))

    def end(self):
        self.process.kill()
        self.process.wait()


# ---- a desk

def free_port():
    with socket.socket() as it:
        it.bind(("127.0.0.1", 0))
        return it.getsockname()[1]


def served_desk(program, folder):
    """A new desk and its port."""
    port = free_port()
    words = [program, "serve", str(port), "1000", f"{folder}/desk.db", "--timeout", "2", "--replied"]
    desk = subprocess.Popen(words, stdin=subprocess.DEVNULL, stdout=subprocess.DEVNULL)
    until = time.monotonic() + PATIENCE
    while True:
        try:
            socket.create_connection(("127.0.0.1", port), 1).close()
            return desk, port
        except OSError:
            if time.monotonic() > until or desk.poll() is not None:
                raise Wrong("the desk isn't served") from None
            time.sleep(0.1)


# ---- the way through the page

STATE = "document.getElementById('block-state').textContent"
IDLE = "!document.getElementById('check').disabled"


def add_block(browser, name):
    """Adds a block by the keyboard alone."""
    browser.value("document.getElementById('add-name').focus()")
    browser.call("Input.insertText", text=name)
    browser.key("Enter", 13, "\r")
    browser.wait(f"document.getElementById('block-title').textContent === {json.dumps(name)}")


def put_file(browser, part, path):
    browser.upload(f"[data-part={part}] input", path)
    browser.wait(f"document.querySelector('[data-part={part}] .note').textContent === 'at the desk'")


def check(browser, state):
    browser.click("#check")
    browser.wait(f"{IDLE} && document.getElementById('working').hidden")
    browser.wants(STATE, state)


def refuted_block(browser, folder):
    """A block with a bug is checked, and the counterexample is shown."""
    add_block(browser, "divider")
    put_file(browser, "module", f"{TOP}/examples/divider_bug.v")
    put_file(browser, "set", f"{TOP}/examples/divider.set")
    browser.picture(f"{folder}/texts.png")
    check(browser, "1 refuted")
    browser.click(".open button")
    browser.wait("!document.getElementById('trace').hidden")
    browser.wants("document.getElementById('trace-title').textContent", "Counterexample to op divide")
    browser.wait("document.getElementById('trace-text').textContent.startsWith('refuted op divide\\nstart ')")
    browser.picture(f"{folder}/counterexample.png")


def rejected_text(browser, folder):
    """A text with a fault: the desk's line stands beside it, and the text as typed is still there."""
    browser.value("document.getElementById('texts').open = true")
    with open(f"{TOP}/examples/divider_bug.v", encoding="utf-8") as it:
        text = it.read().replace("endcase", "endcase endcase")
    browser.value(f"module.value = {json.dumps(text)}; module.dispatchEvent(new Event('input'))")
    browser.click("[data-part=module] .put")
    browser.wait("document.getElementById('module-fault').textContent.startsWith('module: Syntax at ')")
    browser.wants("document.getElementById('module').value", text)
    browser.click("#module-fault button")
    browser.wants("module.value.slice(module.selectionStart, module.selectionEnd)", "endcase")
    browser.picture(f"{folder}/fault.png")


def two_windows(browser, folder):
    """A set that loses what is known of a state: its counterexample has two windows."""
    add_block(browser, "arbiter")
    with open(f"{TOP}/examples/arbiter.set", encoding="utf-8") as it:
        text = it.read()
    at = text.index("operation none")
    with open(f"{folder}/arbiter.set", "w", encoding="utf-8") as it:
        it.write(text[:at] + text[at:].replace("hand last@0; ", "", 1))
    put_file(browser, "module", f"{TOP}/examples/arbiter.v")
    put_file(browser, "set", f"{folder}/arbiter.set")
    os.remove(f"{folder}/arbiter.set")
    browser.click("#check")
    browser.wait(IDLE)
    browser.click(".open button")
    browser.wait("document.querySelectorAll('#trace .window').length === 2")
    browser.wait("document.querySelectorAll('#trace .differs').length > 1")
    browser.picture(f"{folder}/windows.png")
    browser.look(480, scheme="dark")
    browser.picture(f"{folder}/narrow.png")
    browser.look(1280)


def signed_block(browser, folder):
    """The bug is mended: all lines are proved, and the block is signed off."""
    browser.value("[...document.querySelectorAll('#blocks button')].find(it => it.textContent.startsWith('divider')).click()")
    put_file(browser, "module", f"{TOP}/examples/divider.v")
    check(browser, "signed off")
    browser.click("#sign")
    browser.wait("document.getElementById('signs').textContent.includes('No. 1')")
    browser.picture(f"{folder}/signed.png")


def visit(folder, program):
    os.makedirs(folder, exist_ok=True)
    with tempfile.TemporaryDirectory() as room:
        desk, port = served_desk(program, room)
        browser = Browser(room)
        try:
            browser.look(1280)
            browser.call("Page.navigate", url=f"http://127.0.0.1:{port}/")
            browser.wait("document.readyState === 'complete' && !document.getElementById('no-signs').hidden")
            for step in (refuted_block, rejected_text, two_windows, signed_block):
                step(browser, folder)
        finally:
            browser.end()
            desk.kill()
            desk.wait()


def main(words):
    if words[:1] == ["carry"] and words[1:] in ([], ["--check"]):
        return carry(words[1:] == ["--check"])
    if words[:1] == ["visit"] and len(words) in (2, 4) and words[2:3] in ([], ["--program"]):
        if not shutil.which("chromium"):
            raise Wrong("there is no chromium")
        return visit(os.path.abspath(words[1]), os.path.abspath(words[3]) if words[3:] else f"{TOP}/bin/signoff")
    print(__doc__, file=sys.stderr)
    return 2


if __name__ == "__main__":
    try:
        sys.exit(main(sys.argv[1:]))
    except Wrong as wrong:
        sys.exit(f"page.py: {wrong}")
