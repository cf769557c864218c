"""firefox.py OPENSSL..: Firefox, headless, over Marionette: a message is its length in decimal, a colon and JSON; [0, id, command, parameters] is
answered by [1, id, error, result]. Over HTTP/3 Firefox takes no exception for a certificate (acceptInsecureCerts changes nothing), so the gateway's
own is fetched by OPENSSL, which must know QUIC, and trusted in the profile."""
import json
import os
import re
import signal
import socket
import subprocess
import sys
import time

import page

work, port = os.environ["WORK"], os.environ["PORT"]
preferences = {
    "marionette.port": 0,  # any; it is told in the profile
    "network.http.http3.enable": True,
    "network.http.http3.alt-svc-mapping-for-testing": f"localhost;h3=:{port}",  # no TCP connection is needed to learn of HTTP/3
    "network.http.http3.disable_when_third_party_roots_found": False,
    "network.dns.disableIPv6": True,  # the gateway is on 127.0.0.1
    # it asks nobody else
    "app.normandy.enabled": False,
    "browser.newtabpage.enabled": False,
    "datareporting.policy.dataSubmissionEnabled": False,
    "network.captive-portal-service.enabled": False,
    "network.connectivity-service.enabled": False,
    "services.settings.server": "data:,",
}


def trust():
    ask = [*sys.argv[1:], "s_client", "-quic", "-alpn", "h3", "-connect", f"127.0.0.1:{port}"]
    told = subprocess.run(ask, stdin=subprocess.DEVNULL, capture_output=True, text=True, timeout=30)
    certificate = re.search("-----BEGIN CERTIFICATE-----.*?-----END CERTIFICATE-----\n", told.stdout, re.DOTALL)
    if not certificate:
        sys.exit("openssl told no certificate")
    store = ["-d", f"sql:{work}/profile"]
    subprocess.run(["certutil", "-N", *store, "--empty-password"], check=True)
    subprocess.run(["certutil", "-A", *store, "-n", "gateway", "-t", "C,,", "-a"], input=certificate[0], text=True, check=True)


class Firefox:
    def __init__(self):
        os.mkdir(f"{work}/profile")
        trust()
        with open(f"{work}/profile/user.js", "w") as file:
            for name, value in preferences.items():
                file.write(f"user_pref({json.dumps(name)}, {json.dumps(value)});\n")
        words = ["firefox-esr", "--headless", "--marionette", "--no-remote", "--profile", f"{work}/profile"]
        with open(f"{work}/said", "w") as said:
            # a session of its own, so that its helpers can be ended with it
            self.process = subprocess.Popen(words, stdout=said, stderr=said, start_new_session=True, env=os.environ | {"HOME": work})
        self.count = 0

    def connect(self):
        told = f"{work}/profile/MarionetteActivePort"
        for _ in range(300):
            if os.path.exists(told) and os.path.getsize(told):
                break
            time.sleep(0.1)
        with open(told) as file:
            self.socket = socket.create_connection(("127.0.0.1", int(file.read())), 60)
        self.stream = self.socket.makefile("rb")
        self.hear()

    def hear(self):
        length = b""
        while (c := self.stream.read(1)) != b":":
            if not c:
                sys.exit("firefox ended")
            length += c
        return json.loads(self.stream.read(int(length)))

    def ask(self, command, **parameters):
        self.count += 1
        message = json.dumps([0, self.count, command, parameters]).encode()
        self.socket.sendall(str(len(message)).encode() + b":" + message)
        _, _, error, result = self.hear()
        if error:
            sys.exit(f"{command}: {error['error']}: {error['message']}")
        return result

    def end(self):
        try:
            os.killpg(self.process.pid, signal.SIGKILL)
        except ProcessLookupError:
            pass
        self.process.wait()


browser = Firefox()
try:
    browser.connect()
    browser.ask("WebDriver:NewSession", capabilities={})
    browser.ask("WebDriver:Navigate", url=f"https://localhost:{port}/log")
    sent = page.upload()
    script = f"const [upload, many, over, done] = arguments; ({page.SCRIPT})(upload, many, over).then(done, e => done(String(e)))"
    got = browser.ask("WebDriver:ExecuteAsyncScript", script=script, args=[sent, page.MANY, page.OVER])["value"]
    if isinstance(got, str):
        sys.exit(got)
    print(page.judge(sent, got))
    browser.ask("Marionette:Quit")
    browser.process.wait(20)
finally:
    browser.end()
