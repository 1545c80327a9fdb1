"""A headless Chromium that tests steer by its pipe: pages are opened, keys are pressed, and what is there is asked for."""
import base64
import json
import os
import shutil
import subprocess
import tempfile
import time
import unittest

NAME = shutil.which('chromium')
_KEYS = {'Tab': 9, 'Enter': 13, 'Escape': 27, 'PageUp': 33, 'PageDown': 34, 'End': 35, 'Home': 36, 'ArrowUp': 38, 'ArrowDown': 40}
WAITED = 60


class Browser:
    """Ends with the ``with`` block. A browser that does not start skips the test."""

    def __init__(self, width=1280, height=900, dark=False):
        self.folder = tempfile.mkdtemp()
        to_read, to_write = os.pipe()
        from_read, from_write = os.pipe()
        words = [NAME, '--headless=new', '--no-sandbox', '--disable-gpu', '--disable-dev-shm-usage', '--hide-scrollbars',
                 '--user-data-dir=' + self.folder, '--window-size=%d,%d' % (width, height), '--remote-debugging-pipe', 'about:blank']
        # The browser has its ends of the pipes as 3 and 4.
        shell = 'exec 3<&%d 4>&%d; exec "$@"' % (to_read, from_write)
        self.process = subprocess.Popen(['bash', '-c', shell, 'bash', *words], pass_fds=(to_read, from_write), stdin=subprocess.DEVNULL,
                                        stdout=subprocess.DEVNULL, stderr=subprocess.DEVNULL)
        os.close(to_read)
        os.close(from_write)
        self.out, self.back = open(to_write, 'wb', buffering=0), open(from_read, 'rb', buffering=0)
        self.number, self.rest, self.session = 0, b'', None
        try:
            targets = self.ask('Target.getTargets')['targetInfos']
        except (OSError, EOFError):
            self.__exit__()
            raise unittest.SkipTest('chromium does not start here')
        page = next(target for target in targets if target['type'] == 'page')
        self.session = self.ask('Target.attachToTarget', targetId=page['targetId'], flatten=True)['sessionId']
        self.ask('Emulation.setDeviceMetricsOverride', width=width, height=height, deviceScaleFactor=1, mobile=False)
        self.ask('Emulation.setEmulatedMedia', features=[{'name': 'prefers-color-scheme', 'value': 'dark' if dark else 'light'}])

    def __enter__(self):
        return self

    def __exit__(self, *fault):
        self.process.kill()
        self.process.wait()
        self.out.close()
        self.back.close()
        shutil.rmtree(self.folder, ignore_errors=True)

    def ask(self, method, **words):
        self.number += 1
        asked = {'id': self.number, 'method': method, 'params': words}
        if self.session:
            asked['sessionId'] = self.session
        self.out.write(json.dumps(asked).encode() + b'\0')
        while True:
            while b'\0' not in self.rest:
                piece = self.back.read(1 << 20)
                if not piece:
                    raise EOFError('the browser has ended')
                self.rest += piece
            line, _, self.rest = self.rest.partition(b'\0')
            told = json.loads(line)
            if told.get('id') == self.number:
                assert 'error' not in told, told
                return told['result']

    def open(self, address):
        self.ask('Page.navigate', url=address)
        self.until('document.readyState == "complete" && location.href != "about:blank"')

    def value(self, text):
        """What an expression of the page is."""
        found = self.ask('Runtime.evaluate', expression=text, returnByValue=True)
        assert 'exceptionDetails' not in found, (text, found['exceptionDetails'])
        return found['result'].get('value')

    def until(self, text, seconds=WAITED):
        """Waits until an expression is true."""
        end = time.monotonic() + seconds
        while not self.value(text):
            assert time.monotonic() < end, 'not in time: ' + text
            time.sleep(0.05)

    def press(self, name, times=1):
        for _ in range(times):
            for kind in ('rawKeyDown', 'keyUp'):
                self.ask('Input.dispatchKeyEvent', type=kind, key=name, code=name, windowsVirtualKeyCode=_KEYS[name])
            if name == 'Enter':  # of a button
                self.ask('Input.dispatchKeyEvent', type='char', key='Enter', text='\r')

    def write(self, text):
        """Types a text where the focus is, a key at a time."""
        for sign in text:
            self.ask('Input.dispatchKeyEvent', type='char', text=sign)

    def picture(self, path):
        with open(path, 'wb') as file:
            file.write(base64.b64decode(self.ask('Page.captureScreenshot')['data']))
