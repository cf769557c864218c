"""Chromium, headless, over its debugging pipe: a message is JSON and a zero byte, to its descriptor 3 and from its descriptor 4."""
import json
import os
import signal
import subprocess
import sys

import page

origin = f"https://localhost:{os.environ['PORT']}"
command = [
    "chromium", "--headless=new", "--no-sandbox", "--disable-gpu", "--disable-background-networking", "--disable-component-update",
    "--no-first-run", "--remote-debugging-pipe",
    f"--user-data-dir={os.environ['WORK']}/profile", "--host-resolver-rules=MAP localhost 127.0.0.1",
    f"--origin-to-force-quic-on={origin[8:]}", f"--ignore-certificate-errors-spki-list={os.environ['PIN']}",
]  # fmt: skip


class Chromium:
    def __init__(self):
        theirs_in, ours_out = os.pipe()
        ours_in, theirs_out = os.pipe()
        words = ["sh", "-c", f'exec "$@" 3<&{theirs_in} 4>&{theirs_out}', "sh", *command]
        with open(f"{os.environ['WORK']}/said", "w") as said:
            # a session of its own, so that its helpers can be ended with it
            self.process = subprocess.Popen(words, pass_fds=(theirs_in, theirs_out), stdout=said, stderr=said, start_new_session=True)
        os.close(theirs_in)
        os.close(theirs_out)
        self.heard, self.asked = open(ours_in, "rb"), open(ours_out, "wb")
        self.left, self.count, self.events = b"", 0, []

    def hear(self):
        while b"\0" not in self.left:
            more = self.heard.read1(1 << 20)
            if not more:
                sys.exit("chromium ended")
            self.left += more
        message, self.left = self.left.split(b"\0", 1)
        message = json.loads(message)
        self.events.append(message.get("method"))
        return message

    def tell(self, method, session=None, **parameters):
        self.count += 1
        message = {"id": self.count, "method": method, "params": parameters} | ({"sessionId": session} if session else {})
        self.asked.write(json.dumps(message).encode() + b"\0")
        self.asked.flush()

    def ask(self, method, session=None, **parameters):
        self.tell(method, session, **parameters)
        while (answer := self.hear()).get("id") != self.count:
            pass
        if "error" in answer:
            sys.exit(f"{method}: {answer['error']['message']}")
        return answer["result"]

    def end(self):
        try:
            os.killpg(self.process.pid, signal.SIGKILL)
        except ProcessLookupError:
            pass
        self.process.wait()


def evaluate(script):
    got = browser.ask("Runtime.evaluate", session, expression=script, awaitPromise=True, returnByValue=True)
    if "exceptionDetails" in got:
        sys.exit(got["exceptionDetails"]["exception"]["description"])
    return got["result"]["value"]


browser = Chromium()
try:
    target = browser.ask("Target.createTarget", url="about:blank")["targetId"]
    session = browser.ask("Target.attachToTarget", targetId=target, flatten=True)["sessionId"]
    browser.ask("Page.enable", session)
    failed = browser.ask("Page.navigate", session, url=f"{origin}/log").get("errorText")
    if failed:
        sys.exit(f"GET /log: {failed}")
    while "Page.loadEventFired" not in browser.events:
        browser.hear()
    sent = page.upload()
    words = ", ".join(json.dumps(word) for word in (sent, page.MANY, page.OVER))
    said = page.judge(sent, evaluate(f"({page.SCRIPT})({words})"))
    # a streamed body has no Content-Length, and is refused
    streamed = evaluate(
        "fetch('/settings', {method: 'PUT', duplex: 'half', body: new Blob(['half']).stream()}).then(r => String(r.status), String)"
    )
    assert streamed == "TypeError: Failed to fetch", f"a streamed PUT: {streamed}"
    print(f"{said}; a streamed PUT, which has no Content-Length: '{streamed}'")
    browser.tell("Browser.close")  # it may be gone before it answers
    browser.process.wait(20)
finally:
    browser.end()
