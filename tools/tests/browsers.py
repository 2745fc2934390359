"""Browsers without a screen, which a test hands scripts to run in a page: Chromium by a pipe, and Firefox by its port."""
import json
import os
import shutil
import socket
import subprocess
import tempfile
import time

STARTS = 180  # seconds that a browser may take to start, and a script to answer
WIDTH, HEIGHT = 1280, 860
SCHEME = 'layout.css.prefers-color-scheme.content-override'  # 0 is dark, 1 is light


class Fault(Exception):
    """The browser answered with an error, or not at all."""


class Chromium:
    """It is handed messages by a pipe: its own file 3, and it answers by its file 4."""

    name = 'chromium'

    def __init__(self, width=WIDTH, height=HEIGHT):
        self.folder = tempfile.mkdtemp(prefix='xl-chromium-')
        self.number, self.begun = 0, b''
        there, self.into = os.pipe()
        self.out, here = os.pipe()
        # a shell puts the ends where the browser looks for them
        words = ['sh', '-c', 'exec "$0" "$@" 3<&%d 4>&%d' % (there, here), self.name, '--headless', '--no-sandbox', '--disable-gpu']
        words += ['--remote-debugging-pipe', '--user-data-dir=' + self.folder, '--window-size=%d,%d' % (width, height)]
        quiet = dict(stdin=subprocess.DEVNULL, stdout=subprocess.DEVNULL, stderr=subprocess.DEVNULL)
        self.process = subprocess.Popen(words, pass_fds=(there, here), **quiet)
        os.close(there)
        os.close(here)
        target = self.ask('Target.createTarget', url='about:blank')['targetId']
        self.session = self.ask('Target.attachToTarget', targetId=target, flatten=True)['sessionId']

    def ask(self, method, session=None, **what):
        self.number += 1
        message = {'id': self.number, 'method': method, 'params': what, **({'sessionId': session} if session else {})}
        os.write(self.into, json.dumps(message).encode() + b'\0')
        while True:
            told = self.next()
            if told.get('id') == self.number:
                if 'error' in told:
                    raise Fault(told['error'].get('message'))
                return told['result']

    def next(self):
        while b'\0' not in self.begun:
            came = os.read(self.out, 1 << 16)
            if not came:
                raise Fault('the browser ended')
            self.begun += came
        told, _, self.begun = self.begun.partition(b'\0')
        return json.loads(told)

    def open(self, url):
        self.ask('Page.navigate', self.session, url=url)

    def run(self, body):
        """What the body of an asynchronous function returns in the page."""
        said = self.ask('Runtime.evaluate', self.session, expression='(async () => {%s})()' % body, awaitPromise=True, returnByValue=True)
        if 'exceptionDetails' in said:
            raise Fault(json.dumps(said['exceptionDetails'])[:600])
        return said['result'].get('value')

    def resize(self, width, height, is_dark=False):
        self.ask('Emulation.setDeviceMetricsOverride', self.session, width=width, height=height, deviceScaleFactor=1, mobile=False)
        scheme = {'name': 'prefers-color-scheme', 'value': 'dark' if is_dark else 'light'}
        self.ask('Emulation.setEmulatedMedia', self.session, features=[scheme])

    def picture(self):
        """What is seen, as a PNG in base64."""
        return self.ask('Page.captureScreenshot', self.session)['data']

    def printed(self):
        """The page as it is printed, as a PDF in base64."""
        return self.ask('Page.printToPDF', self.session, printBackground=True)['data']

    def close(self):
        self.process.kill()
        self.process.wait()
        os.close(self.into)
        os.close(self.out)
        shutil.rmtree(self.folder, ignore_errors=True)


class Firefox:
    """It is handed messages at a port of this machine: each is its length, a colon, and JSON."""

    name = 'firefox'

    def __init__(self, width=WIDTH, height=HEIGHT):
        self.folder, self.number, self.begun, self.link = tempfile.mkdtemp(prefix='xl-firefox-'), 0, b'', None
        with socket.socket() as free:
            free.bind(('127.0.0.1', 0))
            port = free.getsockname()[1]
        with open(self.folder + '/user.js', 'w', encoding='ascii') as file:
            file.write('user_pref("marionette.port", %d);\nuser_pref("ui.systemUsesDarkTheme", 0);\n' % port)
        words = [self.name, '--headless', '--marionette', '--remote-allow-system-access', '--no-remote', '--profile', self.folder]
        words += ['--width', str(width), '--height', str(height)]
        quiet = dict(stdin=subprocess.DEVNULL, stdout=subprocess.DEVNULL, stderr=subprocess.DEVNULL)
        self.process = subprocess.Popen(words, env={**os.environ, 'HOME': self.folder}, **quiet)
        self.connect(port)
        self.ask('WebDriver:NewSession', capabilities={'alwaysMatch': {}})
        self.ask('WebDriver:SetTimeouts', script=STARTS * 1000)

    def connect(self, port):
        ends = time.monotonic() + STARTS
        while not self.link:
            try:
                self.link = socket.create_connection(('127.0.0.1', port), timeout=STARTS)
            except OSError:
                if time.monotonic() > ends or self.process.poll() is not None:
                    raise Fault('the browser opens no port') from None
                time.sleep(0.2)
        self.next()  # what it says of itself

    def ask(self, method, **what):
        self.number += 1
        message = json.dumps([0, self.number, method, what]).encode()
        self.link.sendall(b'%d:%s' % (len(message), message))
        _, _, error, result = self.next()
        if error:
            raise Fault(error.get('message'))
        return result

    def next(self):
        while b':' not in self.begun:
            self.receive()
        length, _, self.begun = self.begun.partition(b':')
        while len(self.begun) < int(length):
            self.receive()
        told, self.begun = self.begun[: int(length)], self.begun[int(length) :]
        return json.loads(told)

    def receive(self):
        came = self.link.recv(1 << 16)
        if not came:
            raise Fault('the browser ended')
        self.begun += came

    def open(self, url):
        self.ask('WebDriver:Navigate', url=url)

    def run(self, body):
        """What the body of an asynchronous function returns in the page."""
        # the page's own names are those of its own code
        script = (
            'const done = arguments[1];'
            'window.eval("(async () => {" + arguments[0] + "})().then(it => JSON.stringify([it]))").then(done, it => done("!" + it))'
        )
        said = self.ask('WebDriver:ExecuteAsyncScript', script=script, args=[body], sandbox=None)['value']
        if said.startswith('!'):
            raise Fault(said[1:600])
        return json.loads(said)[0]

    def resize(self, width, height, is_dark=False):
        self.ask('WebDriver:SetWindowRect', width=width, height=height)
        # a setting of the browser, which a page can't change
        self.ask('Marionette:SetContext', value='chrome')
        self.ask('WebDriver:ExecuteScript', script='Services.prefs.setIntPref(arguments[0], arguments[1])', args=[SCHEME, 1 - is_dark])
        self.ask('Marionette:SetContext', value='content')

    def picture(self):
        """What is seen, as a PNG in base64."""
        return self.ask('WebDriver:TakeScreenshot', full=False)['value']

    def printed(self):
        """The page as it is printed, as a PDF in base64."""
        return self.ask('WebDriver:Print', background=True)['value']

    def close(self):
        if self.link:
            self.link.close()
        self.process.kill()
        self.process.wait()
        shutil.rmtree(self.folder, ignore_errors=True)


def found():
    """The browsers of this machine."""
    return [it for it in (Chromium, Firefox) if shutil.which(it.name)]
