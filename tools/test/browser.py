"""A headless Chromium that is spoken to over two pipes. It asks nothing of the network but what a page asks for, and what
that is, is reported."""
import json, os, shutil, subprocess, tempfile, time

NAMES = ('chromium', 'chromium-browser', 'google-chrome')


def found():
    """Where the browser is, if there is one."""
    return next((path for path in map(shutil.which, NAMES) if path), None)


class Failed(Exception):
    """The browser, or a script in it, failed."""


class Browser:
    def __init__(self, path):
        self.room = tempfile.mkdtemp()
        to_read, self.to = os.pipe()
        self.back, to_write = os.pipe()
        os.set_inheritable(to_read, True)
        os.set_inheritable(to_write, True)
        # (the browser reads from 3 and writes to 4)
        words = [path, '--headless', '--disable-gpu', '--no-sandbox', '--no-first-run', '--disable-extensions',
                 '--disable-background-networking', '--disable-component-update', '--disable-sync',
                 '--disable-dev-shm-usage', '--window-size=1400,900', '--remote-debugging-pipe',
                 f'--user-data-dir={self.room}', 'about:blank']
        shell = f'exec 3<&{to_read} 4>&{to_write}; exec "$@"'
        self.process = subprocess.Popen(['bash', '-c', shell, 'browser'] + words, pass_fds=(to_read, to_write),
                                        stdin=subprocess.DEVNULL, stdout=subprocess.DEVNULL, stderr=subprocess.DEVNULL)
        os.close(to_read)
        os.close(to_write)
        self.number = 0
        self.rest = b''
        self.reported = []
        target = self.ask('Target.createTarget', {'url': 'about:blank'})['targetId']
        self.session = self.ask('Target.attachToTarget', {'targetId': target, 'flatten': True})['sessionId']
        for domain in ('Page', 'Runtime', 'Log', 'Network'):
            self.ask(domain + '.enable')

    def message(self, seconds):
        """The next message."""
        import select
        end = time.monotonic() + seconds
        while b'\0' not in self.rest:
            ready, _, _ = select.select([self.back], [], [], max(0, end - time.monotonic()))
            if not ready:
                raise Failed('the browser says nothing')
            read = os.read(self.back, 1 << 16)
            if not read:
                raise Failed('the browser ended')
            self.rest += read
        one, self.rest = self.rest.split(b'\0', 1)
        return json.loads(one)

    def ask(self, method, params=None, seconds=60):
        """What it answers to a request. What it reports meanwhile is kept."""
        self.number += 1
        request = {'id': self.number, 'method': method, 'params': params or {}}
        if getattr(self, 'session', None):
            request['sessionId'] = self.session
        os.write(self.to, json.dumps(request).encode() + b'\0')
        while True:
            message = self.message(seconds)
            if message.get('id') == self.number:
                if 'error' in message:
                    raise Failed(f'{method}: {message["error"]}')
                return message['result']
            self.reported.append(message)

    def open(self, url, seconds=60):
        """Opens a page, and says how long it took until it was loaded."""
        self.reported = []
        start = time.monotonic()
        self.ask('Page.navigate', {'url': url})
        while not any(one.get('method') == 'Page.loadEventFired' for one in self.reported):
            self.reported.append(self.message(seconds))
        self.ask('Runtime.evaluate', {'expression': '0'})
        return time.monotonic() - start

    def run(self, expression):
        """The value of an expression in the page."""
        answer = self.ask('Runtime.evaluate', {'expression': expression, 'returnByValue': True, 'awaitPromise': True})
        if 'exceptionDetails' in answer:
            raise Failed(str(answer['exceptionDetails'])[:500])
        return answer['result'].get('value')

    def faults(self):
        """Errors of the console, and what was thrown."""
        faults = []
        for one in self.reported:
            params = one.get('params', {})
            if one.get('method') == 'Runtime.exceptionThrown':
                faults.append('thrown: ' + str(params['exceptionDetails'].get('exception', {}).get('description'))[:200])
            elif one.get('method') == 'Log.entryAdded' and params['entry']['level'] in ('error', 'warning'):
                faults.append(params['entry']['text'][:200])
            elif one.get('method') == 'Runtime.consoleAPICalled' and params['type'] in ('error', 'warning', 'assert'):
                faults.append('console: ' + str(params['args'])[:200])
        return faults

    def requests(self):
        """What was asked for."""
        return [one['params']['request']['url'] for one in self.reported if one.get('method') == 'Network.requestWillBeSent']

    def picture(self, path):
        """Writes what is seen as a PNG."""
        import base64
        with open(path, 'wb') as file:
            file.write(base64.b64decode(self.ask('Page.captureScreenshot', {'format': 'png'})['data']))

    def close(self):
        try:
            self.session = None
            self.ask('Browser.close', seconds=5)
        except (Failed, OSError):
            pass
        try:
            self.process.wait(5)
        except subprocess.TimeoutExpired:
            self.process.kill()
            self.process.wait()
        os.close(self.to)
        os.close(self.back)
        shutil.rmtree(self.room, ignore_errors=True)
