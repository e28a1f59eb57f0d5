"""A browser without a screen, asked over its pipe of questions for debuggers. Outside of what is proved."""
import base64
import json
import os
import shutil
import signal
import subprocess
import tempfile
from types import TracebackType
from typing import Any

from looking.reports import Fault

NAMES = ('chromium', 'chromium-browser', 'google-chrome', 'chrome')


class Browser:
    """A browser with one page; ends with its block."""

    def __enter__(self) -> 'Browser':
        program = next((found for name in NAMES if (found := shutil.which(name))), None)
        if program is None:
            raise Fault('no Chromium on the path')
        self.folder = tempfile.mkdtemp(prefix='page-')
        to_browser, self.sends = os.pipe()
        self.receives, from_browser = os.pipe()
        words = [
            program,
            '--headless=new',
            '--no-sandbox',
            '--disable-gpu',
            '--remote-debugging-pipe',
            '--no-first-run',
            f'--user-data-dir={self.folder}',
            'about:blank',
        ]
        # A debugger speaks over the files 3 and 4.
        line = f'exec "$@" 3<&{to_browser} 4>&{from_browser}'
        self.process = subprocess.Popen(
            ['bash', '-c', line, 'bash', *words],
            pass_fds=(to_browser, from_browser),
            stdout=subprocess.DEVNULL,
            stderr=subprocess.DEVNULL,
            start_new_session=True,
        )
        os.close(to_browser)
        os.close(from_browser)
        self.events: list[dict[str, Any]] = []
        self.number, self.left, self.session = 0, b'', ''
        target = self.ask('Target.createTarget', url='about:blank')['targetId']
        self.session = self.ask('Target.attachToTarget', targetId=target, flatten=True)['sessionId']
        self.ask('Page.enable')
        self.ask('Log.enable')
        self.ask('Runtime.enable')
        return self

    def __exit__(
        self, kind: type[BaseException] | None, fault: BaseException | None, trace: TracebackType | None
    ) -> None:
        os.close(self.sends)
        os.close(self.receives)
        try:
            self.process.wait(5)
        except subprocess.TimeoutExpired:
            os.killpg(self.process.pid, signal.SIGKILL)
            self.process.wait()
        shutil.rmtree(self.folder, ignore_errors=True)

    def message(self) -> dict[str, Any]:
        """The next message of the browser."""
        while b'\0' not in self.left:
            read = os.read(self.receives, 1 << 20)
            if not read:
                raise Fault('the browser ended')
            self.left += read
        told, _, self.left = self.left.partition(b'\0')
        found: dict[str, Any] = json.loads(told)
        return found

    def ask(self, method: str, **words: Any) -> dict[str, Any]:
        """One question, and its answer."""
        self.number += 1
        session = {'sessionId': self.session} if self.session else {}
        os.write(
            self.sends, json.dumps({'id': self.number, 'method': method, 'params': words, **session}).encode() + b'\0'
        )
        while (message := self.message()).get('id') != self.number:
            self.events.append(message)
        if 'error' in message:
            raise Fault(f'{method}: {message["error"]["message"]}')
        answer: dict[str, Any] = message['result']
        return answer

    def open(self, address: str, width: int, height: int, dark: bool = False, scripts: bool = True) -> None:
        """Opens a page in a window of this size."""
        self.ask(
            'Emulation.setDeviceMetricsOverride', width=width, height=height, deviceScaleFactor=1, mobile=width < 500
        )
        self.ask(
            'Emulation.setEmulatedMedia',
            features=[{'name': 'prefers-color-scheme', 'value': 'dark' if dark else 'light'}],
        )
        self.ask('Emulation.setScriptExecutionDisabled', value=not scripts)
        self.events.clear()
        self.ask('Page.navigate', url=address)
        while not any(event.get('method') == 'Page.loadEventFired' for event in self.events):
            self.events.append(self.message())

    def value(self, expression: str) -> Any:
        """The value of an expression in the page."""
        answer = self.ask('Runtime.evaluate', expression=expression, returnByValue=True)
        if 'exceptionDetails' in answer:
            raise Fault(f'{expression}: {answer["exceptionDetails"]["exception"].get("description", "failed")}')
        return answer['result'].get('value')

    def press(self, key: str, code: int) -> None:
        """A key, pressed and let go."""
        for kind in ('rawKeyDown', 'keyUp'):
            self.ask('Input.dispatchKeyEvent', type=kind, key=key, code=key, windowsVirtualKeyCode=code)

    def faults(self) -> list[str]:
        """What the page complained about since it was opened."""
        told = []
        for event in self.events:
            if event.get('method') == 'Runtime.exceptionThrown':
                told.append(
                    event['params']['exceptionDetails'].get('exception', {}).get('description', 'a script failed')
                )
            elif event.get('method') == 'Log.entryAdded' and event['params']['entry']['level'] == 'error':
                told.append(event['params']['entry']['text'])
        return told

    def picture(self, name: str) -> None:
        """The window as a file."""
        with open(name, 'wb') as file:
            file.write(base64.b64decode(self.ask('Page.captureScreenshot', format='png')['data']))
