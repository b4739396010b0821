"""A headless Chromium, driven by its own protocol over a pipe: pages as people have them, with a pointer and keys."""
import base64
import fcntl
import json
import os
import selectors
import shutil
import subprocess
import tempfile
import time

NAMES = ('chromium', 'chromium-browser', 'google-chrome')

# A slow machine with other work takes its time.
PATIENCE = 120

ARGUMENTS = ('--headless', '--remote-debugging-pipe', '--no-first-run', '--no-default-browser-check', '--disable-gpu',
             '--disable-dev-shm-usage', '--disable-background-networking', '--disable-component-update',
             '--disable-sync', '--disable-extensions', '--hide-scrollbars', '--force-color-profile=srgb',
             # There is no network: a page that wants one is seen to want it.
             '--host-resolver-rules=MAP * ~NOTFOUND')


def command():
    """The browser, or None."""
    return next((path for path in map(shutil.which, NAMES) if path), None)


class Browser:
    """A browser of its own, with a folder of its own, which is gone with it."""

    def __init__(self):
        self.folder = tempfile.mkdtemp(prefix='season-page-browser-')
        to_read, self.writing = os.pipe()
        self.reading, to_write = os.pipe()
        arguments = [command(), *ARGUMENTS, f'--user-data-dir={self.folder}']
        if os.geteuid() == 0:
            arguments.append('--no-sandbox')

        def place():
            """The browser reads from 3 and writes to 4. Either may be the other's number now."""
            high = [fcntl.fcntl(handle, fcntl.F_DUPFD, 10) for handle in (to_read, to_write)]
            os.dup2(high[0], 3)
            os.dup2(high[1], 4)

        with open(os.path.join(self.folder, 'log'), 'wb') as log:
            self.process = subprocess.Popen(arguments, preexec_fn=place, pass_fds=(3, 4), stdin=subprocess.DEVNULL,
                                            stdout=log, stderr=log)
        os.close(to_read)
        os.close(to_write)
        self.buffer, self.last, self.events = b'', 0, []
        self.selector = selectors.DefaultSelector()
        self.selector.register(self.reading, selectors.EVENT_READ)

    def __enter__(self):
        return self

    def __exit__(self, *_):
        try:
            self.call('Browser.close')
            self.process.wait(20)
        except (OSError, RuntimeError, TimeoutError, subprocess.TimeoutExpired):
            self.process.kill()
            self.process.wait()
        for handle in (self.reading, self.writing):
            os.close(handle)
        shutil.rmtree(self.folder, ignore_errors=True)

    def message(self, until):
        """The next message of the browser."""
        while b'\0' not in self.buffer:
            if not self.selector.select(max(0, until - time.monotonic())):
                raise TimeoutError('the browser does not answer')
            got = os.read(self.reading, 1 << 20)
            if not got:
                raise RuntimeError('the browser has ended: ' + self.log())
            self.buffer += got
        text, self.buffer = self.buffer.split(b'\0', 1)
        return json.loads(text)

    def log(self):
        with open(os.path.join(self.folder, 'log'), encoding='utf-8', errors='replace') as file:
            return file.read()[-2000:]

    def call(self, method, session=None, **parameters):
        self.last += 1
        asked = {'id': self.last, 'method': method, 'params': parameters}
        if session:
            asked['sessionId'] = session
        data = json.dumps(asked).encode() + b'\0'
        while data:
            data = data[os.write(self.writing, data):]
        until = time.monotonic() + PATIENCE
        while True:
            got = self.message(until)
            if got.get('id') == self.last:
                if 'error' in got:
                    raise RuntimeError(f'{method}: {got["error"]}')
                return got['result']
            if 'method' in got:
                self.events.append(got)


class Page:
    """A page in a tab of its own, of a size in pixels."""

    def __init__(self, browser, width=1440, height=1000, dark=False):
        self.browser = browser
        self.target = browser.call('Target.createTarget', url='about:blank')['targetId']
        self.session = browser.call('Target.attachToTarget', targetId=self.target, flatten=True)['sessionId']
        for domain in ('Page', 'Runtime', 'Log', 'Network'):
            self.call(f'{domain}.enable')
        self.size(width, height)
        self.call('Emulation.setEmulatedMedia', features=[
            {'name': 'prefers-color-scheme', 'value': 'dark' if dark else 'light'}])

    def call(self, method, **parameters):
        return self.browser.call(method, self.session, **parameters)

    def size(self, width, height, scale=1):
        self.call('Emulation.setDeviceMetricsOverride', width=width, height=height, deviceScaleFactor=scale,
                  mobile=False)

    def close(self):
        self.browser.call('Target.closeTarget', targetId=self.target)

    def open(self, path, until="document.documentElement?.dataset.drawn === 'yes'"):
        """Open a file, wait until something holds of it, and give the seconds that it took."""
        began = time.monotonic()
        self.call('Page.navigate', url='file://' + os.path.abspath(path))
        self.wait(until)
        return time.monotonic() - began

    def evaluate(self, expression):
        result = self.call('Runtime.evaluate', expression=expression, returnByValue=True, awaitPromise=True)
        if 'exceptionDetails' in result:
            raise RuntimeError(f'{expression}: {result["exceptionDetails"]}')
        return result['result'].get('value')

    def wait(self, expression):
        until = time.monotonic() + PATIENCE
        while not self.evaluate(expression):
            if time.monotonic() > until:
                raise TimeoutError(f'it never came to: {expression}')
            time.sleep(0.02)

    def frames(self):
        """Wait until the browser has shown what was asked for before."""
        self.evaluate('new Promise(done => requestAnimationFrame(() => requestAnimationFrame(done)))')

    def mouse(self, kind, x, y, **more):
        self.call('Input.dispatchMouseEvent', type=kind, x=x, y=y, **more)

    def drag(self, x, to, y, modifiers=0):
        held = {'button': 'left', 'buttons': 1, 'clickCount': 1, 'modifiers': modifiers}
        self.mouse('mouseMoved', x, y)
        self.mouse('mousePressed', x, y, **held)
        for part in range(1, 5):
            self.mouse('mouseMoved', x + (to - x) * part / 4, y, **held)
        self.mouse('mouseReleased', to, y, **held)
        self.frames()

    def key(self, key, code=None, modifiers=0, text=None):
        more = {'key': key, 'code': code or key, 'modifiers': modifiers, 'windowsVirtualKeyCode': KEYS.get(key, 0)}
        self.call('Input.dispatchKeyEvent', type='keyDown', **more, **({'text': text} if text else {}))
        self.call('Input.dispatchKeyEvent', type='keyUp', **more)
        self.frames()

    def picture(self, whole=False, clip=None):
        """The page as a PNG."""
        options = {'captureBeyondViewport': whole}
        if clip:
            options['clip'] = {**clip, 'scale': 1}
        return base64.b64decode(self.call('Page.captureScreenshot', format='png', **options)['data'])

    def paper(self):
        """The page as a PDF, as it is printed."""
        return base64.b64decode(self.call('Page.printToPDF', preferCSSPageSize=True, printBackground=True)['data'])

    def mine(self, method):
        return [event['params'] for event in self.browser.events
                if event['method'] == method and event.get('sessionId') == self.session]

    def troubles(self):
        """All that the browser says against the page: faults of its programs, lines of its log, and what it fetches."""
        self.frames()
        faults = [str(event['exceptionDetails']) for event in self.mine('Runtime.exceptionThrown')]
        faults += [str(event) for event in self.mine('Runtime.consoleAPICalled')]
        faults += [str(event['entry']) for event in self.mine('Log.entryAdded')]
        fetched = [event['request']['url'] for event in self.mine('Network.requestWillBeSent')]
        return faults + [f'it fetches {url}' for url in fetched[1:]]


KEYS = {'ArrowLeft': 37, 'ArrowUp': 38, 'ArrowRight': 39, 'ArrowDown': 40, 'Home': 36, 'End': 35, 'Tab': 9, 'Enter': 13,
        'Escape': 27, '+': 187, '-': 189, '0': 48}
