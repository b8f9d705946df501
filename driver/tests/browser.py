"""A browser without a screen for the tests of the page: Chromium, by its devtools protocol over two
pipes."""
from __future__ import annotations

import fcntl
import functools
import http.server
import json
import os
import shutil
import signal
import subprocess
import tempfile
import threading
import unittest
from typing import Any, Dict, List, NamedTuple, Optional

CHROMIUM = next(
    (path for path in map(shutil.which, ("chromium", "chromium-browser", "google-chrome")) if path),
    "",
)
# what some build servers send with the pages that they keep
POLICY = "default-src 'none'; style-src 'self'; img-src 'self'"
# Finds, in the page: what stands outside of it, texts over each other, and pale ones. What is
# hidden or scrolls in a block of its own is left out.
PROBE = r"""(() => {
  const wide = document.documentElement.clientWidth, wrong = [], texts = [];
  const once = make => { const known = new Map(); return key => { if (!known.has(key)) known.set(key, make(key)); return known.get(key); }; };
  const scrolls = once(e => e !== document.body && (getComputedStyle(e).overflowX === 'auto' || scrolls(e.parentElement)));
  const seen = e => e.checkVisibility() && !e.closest('title, desc, defs, style') && !(wide < 720 && e.closest('thead'));
  const light = once(c => c.match(/[\d.]+/g).slice(0, 3).map(v => v / 255).map(v => v <= 0.03928 ? v / 12.92 : ((v + 0.055) / 1.055) ** 2.4)
    .reduce((sum, v, at) => sum + v * [0.2126, 0.7152, 0.0722][at], 0));
  const behind = once(e => {
    const colour = e ? getComputedStyle(e).backgroundColor : 'rgb(255, 255, 255)';
    return colour !== 'rgba(0, 0, 0, 0)' ? colour : behind(e.parentElement);
  });
  const outside = (box, name, text) => { if (box.width && (box.right > wide + 1 || box.left < -1)) wrong.push('outside: ' + name + ' ' + text.slice(0, 40)); };
  for (const e of document.querySelectorAll('body *:not(svg *)')) if (seen(e) && !scrolls(e)) outside(e.getBoundingClientRect(), e.tagName, e.textContent);
  const walk = document.createTreeWalker(document.body, NodeFilter.SHOW_TEXT);
  for (let node = walk.nextNode(); node; node = walk.nextNode()) {
    const e = node.parentElement;
    if (!node.data.trim() || !seen(e) || e.matches('details:not([open])')) continue;
    const style = getComputedStyle(e), ink = light(e.namespaceURI.endsWith('svg') ? style.fill : style.color), paper = light(behind(e));
    if ((Math.max(ink, paper) + 0.05) / (Math.min(ink, paper) + 0.05) < 4.5) wrong.push('pale: ' + e.tagName + ' ' + node.data.slice(0, 40));
    if (scrolls(e)) continue;
    const range = document.createRange();
    range.selectNodeContents(node);
    for (const box of range.getClientRects()) {
      outside(box, 'text', node.data);
      texts.push([box.top, box.bottom, box.left, box.right, node.data.slice(0, 40)]);
    }
  }
  texts.sort((a, b) => a[0] - b[0]);
  texts.forEach((a, at) => {
    for (let next = at + 1; next < texts.length && texts[next][0] < a[1] - 5; next++)
      if (Math.min(a[3], texts[next][3]) - Math.max(a[2], texts[next][2]) > 2) wrong.push('over each other: ' + a[4] + ' | ' + texts[next][4]);
  });
  const page = document.documentElement;
  if (page.scrollWidth > wide) wrong.push('sideways: ' + page.scrollWidth + ' of ' + wide);
  if (getComputedStyle(document.body).maxWidth === 'none') wrong.push('no style');
  return {wrong: wrong.slice(0, 9), texts: texts.length, folded: document.querySelectorAll('details:not([open])').length};
})()"""


class Seen(NamedTuple):
    """What a page was like: what is wrong with it, how many texts it has, and how many parts of it
    are folded."""

    wrong: List[str]
    texts: int
    folded: int


class Handler(http.server.SimpleHTTPRequestHandler):
    """The files of a folder, under the policy."""

    def end_headers(self) -> None:
        """The head of an answer."""
        if self.path.startswith("/policy/"):
            self.send_header("Content-Security-Policy", POLICY)
        super().end_headers()

    def translate_path(self, path: str) -> str:
        """The first folder says whether there is a policy."""
        return super().translate_path("/" + path.split("/", 2)[-1])

    def log_message(self, *words: Any) -> None:
        """Tells nothing."""


class Browser:
    """Chromium with one page, and a server of the files of a folder."""

    def __init__(self, case: unittest.TestCase, folder: str) -> None:
        self.start(case)
        self.server = http.server.ThreadingHTTPServer(
            ("127.0.0.1", 0), functools.partial(Handler, directory=folder)
        )
        threading.Thread(target=self.server.serve_forever, daemon=True).start()
        case.addCleanup(self.server.server_close)
        case.addCleanup(self.server.shutdown)
        self.left, self.number = b"", 0
        self.events: List[Dict[str, Any]] = []
        self.session: Optional[str] = None
        target = self.call("Target.createTarget", url="about:blank")["targetId"]
        self.session = self.call("Target.attachToTarget", targetId=target, flatten=True)[
            "sessionId"
        ]
        for domain in ("Page", "Log", "Runtime"):
            self.call(domain + ".enable")

    def start(self, case: unittest.TestCase) -> None:
        """Starts it in a folder of its own."""
        room = tempfile.mkdtemp()
        case.addCleanup(
            shutil.rmtree, room, ignore_errors=True
        )  # its last processes may write there still
        pipes = [os.pipe(), os.pipe()]
        given, self.sends, self.reads, gives = (
            fcntl.fcntl(end, fcntl.F_DUPFD_CLOEXEC, 10) for pipe in pipes for end in pipe
        )
        for end in pipes[0] + pipes[1]:
            os.close(end)

        def join() -> None:
            """It reads its third descriptor and writes its fourth."""
            os.dup2(given, 3)
            os.dup2(gives, 4)

        words = [
            CHROMIUM,
            "--headless",
            "--no-sandbox",
            "--disable-gpu",
            "--hide-scrollbars",
            "--remote-debugging-pipe",
            "--user-data-dir=" + room,
        ]
        self.process = subprocess.Popen(
            [*words, "about:blank"],
            preexec_fn=join,
            close_fds=False,
            start_new_session=True,
            stdout=subprocess.DEVNULL,
            stderr=subprocess.DEVNULL,
        )
        case.addCleanup(self.end)
        os.close(given)
        os.close(gives)

    def end(self) -> None:
        """Ends it."""
        os.killpg(self.process.pid, signal.SIGKILL)
        self.process.wait()
        os.close(self.sends)
        os.close(self.reads)

    def message(self) -> Dict[str, Any]:
        """The next message."""
        while b"\0" not in self.left:
            part = os.read(self.reads, 1 << 20)
            if not part:
                raise AssertionError("the browser has ended")
            self.left += part
        one, self.left = self.left.split(b"\0", 1)
        message: Dict[str, Any] = json.loads(one)
        return message

    def call(self, method: str, **given: Any) -> Dict[str, Any]:
        """What a method gives."""
        self.number += 1
        words = {
            "id": self.number,
            "method": method,
            "params": given,
            **({"sessionId": self.session} if self.session else {}),
        }
        os.write(self.sends, json.dumps(words).encode("utf-8") + b"\0")
        while True:
            message = self.message()
            if message.get("id") == self.number:
                if "error" in message:
                    raise AssertionError("%s: %s" % (method, message["error"]))
                result: Dict[str, Any] = message["result"]
                return result
            self.events.append(message)

    def show(self, path: str, width: int, scheme: str) -> None:
        """Loads a page for a screen so wide, in light or dark colours."""
        self.call(
            "Emulation.setDeviceMetricsOverride",
            width=width,
            height=900,
            deviceScaleFactor=1,
            mobile=width < 720,
        )
        self.call(
            "Emulation.setEmulatedMedia",
            features=[{"name": "prefers-color-scheme", "value": scheme}],
        )
        self.events.clear()
        self.call(
            "Page.navigate", url="http://127.0.0.1:%d/%s" % (self.server.server_address[1], path)
        )
        while not any(event.get("method") == "Page.loadEventFired" for event in self.events):
            self.events.append(self.message())

    def probe(self) -> Seen:
        """What the page is like now, with what the browser complained of."""
        found = self.call("Runtime.evaluate", expression=PROBE, returnByValue=True)
        if "exceptionDetails" in found:
            raise AssertionError("the probe: %s" % found)
        told = [
            event["params"]["entry"]
            for event in self.events
            if event.get("method") == "Log.entryAdded"
        ]
        value = found["result"]["value"]
        return Seen(
            value["wrong"]
            + [entry["text"] for entry in told if "favicon" not in entry.get("url", "")],
            value["texts"],
            value["folded"],
        )

    def unfold(self) -> None:
        """Opens all that is folded."""
        self.call(
            "Runtime.evaluate",
            expression='document.querySelectorAll("details").forEach(one => { one.open = true })',
        )
