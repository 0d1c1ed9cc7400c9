"""Drives a browser by the commands of WebDriver: Chromium through `chromedriver`, and Firefox through Marionette, the
protocol that its own driver speaks. Needs Python's standard library alone.

A `Browser` has one window. `Chromium` and `Firefox` are the two kinds; each starts a browser without a display, with a
profile of its own in a temporary folder, and ends it in `close`.
"""
import base64
import json
import os
import shutil
import socket
import subprocess
import tempfile
import time
import urllib.request

ELEMENT = 'element-6066-11e4-a52e-4f735466cecf'
SECONDS_TO_START = 120
LEAST_WIDTH = 500


class DriverError(Exception):
    """What a driver answers if a command failed."""


class Element:
    """An element of the page."""

    def __init__(self, browser, reference):
        self.browser = browser
        self.reference = reference

    def click(self):
        self.browser.command('click', self)

    def type(self, text):
        self.browser.command('type', self, text=text)

    def label(self):
        """Its name, as the browser tells it to a screen reader."""
        return self.browser.command('label', self)

    def role(self):
        """Its role, as the browser tells it to a screen reader."""
        return self.browser.command('role', self)


class Browser:
    """What both kinds have in common. A kind has `command(name, element, **values)`."""

    def open(self, address):
        self.command('open', url=address)

    def script(self, text, *values):
        """Runs the body of a function in the page, and returns what it returns."""
        arguments = [{ELEMENT: value.reference} if isinstance(value, Element) else value for value in values]
        return self.wrapped(self.command('script', script=text, args=arguments))

    def wrapped(self, value):
        """A value from the page, with an `Element` for each reference to one."""
        if isinstance(value, list):
            return [self.wrapped(entry) for entry in value]
        if isinstance(value, dict) and ELEMENT in value:
            return Element(self, value[ELEMENT])
        return value

    def all(self, selector):
        return self.script('return [...document.querySelectorAll(arguments[0])]', selector)

    def one(self, selector):
        found = self.all(selector)
        if not found:
            raise DriverError('nothing is %s' % selector)
        return found[0]

    def press(self, *keys):
        """Presses these keys one after another, each with those before it in a tuple held down."""
        actions = []
        for key in keys:
            held = key if isinstance(key, tuple) else (key,)
            actions += [{'type': 'keyDown', 'value': one} for one in held]
            actions += [{'type': 'keyUp', 'value': one} for one in reversed(held)]
        self.command('actions', actions=[{'type': 'key', 'id': 'keyboard', 'actions': actions}])

    def until(self, text, *values, seconds=60):
        """Waits until the body of a function returns something true, and returns that."""
        end = time.monotonic() + seconds
        while True:
            found = self.script(text, *values)
            if found:
                return found
            if time.monotonic() > end:
                raise DriverError('not within %d seconds: %s %s' % (seconds, text, values))
            time.sleep(0.02)

    def picture(self):
        """What the window shows, as a PNG."""
        return base64.b64decode(self.command('picture'))

    def stop(self, process):
        process.terminate()
        try:
            process.wait(20)
        except subprocess.TimeoutExpired:
            process.kill()
            process.wait()
        shutil.rmtree(self.folder, ignore_errors=True)


def waited(tell, seconds=SECONDS_TO_START):
    """Waits until the function returns something, without an error of the system, and returns that."""
    end = time.monotonic() + seconds
    while True:
        try:
            found = tell()
        except (OSError, ValueError):
            found = None
        if found:
            return found
        if time.monotonic() > end:
            raise DriverError('the browser did not start within %d seconds' % seconds)
        time.sleep(0.1)


class Chromium(Browser):
    """Chromium, by the commands of `chromedriver` over HTTP."""

    name = 'Chromium'
    PLACES = {
        'open': ('POST', 'url'), 'script': ('POST', 'execute/sync'), 'actions': ('POST', 'actions'),
        'picture': ('GET', 'screenshot'), 'resize': ('POST', 'window/rect'), 'click': ('POST', 'element/%s/click'),
        'type': ('POST', 'element/%s/value'), 'label': ('GET', 'element/%s/computedlabel'),
        'role': ('GET', 'element/%s/computedrole'), 'log': ('POST', 'se/log'), 'devtools': ('POST', 'goog/cdp/execute'),
        'print': ('POST', 'print'),
    }

    @staticmethod
    def missing():
        """The Debian packages that are missing."""
        return [package for program, package in (('chromium', 'chromium'), ('chromedriver', 'chromium-driver'))
                if shutil.which(program) is None]

    def __init__(self, downloads):
        self.folder = tempfile.mkdtemp(prefix='erd-chromium-')
        port = free_port()
        self.process = subprocess.Popen(['chromedriver', '--port=%d' % port], stdout=subprocess.DEVNULL,
                                        stderr=subprocess.DEVNULL, env=dict(os.environ, HOME=self.folder))
        self.base = 'http://127.0.0.1:%d' % port
        waited(lambda: self.http('GET', '/status')['ready'])
        answer = self.http('POST', '/session', {'capabilities': {'alwaysMatch': self.wishes(downloads)}})
        self.base += '/session/' + answer['sessionId']

    def wishes(self, downloads):
        flags = ['--headless=new', '--no-sandbox', '--disable-gpu', '--disable-dev-shm-usage', '--no-first-run',
                 '--disable-background-networking', '--disable-component-update', '--hide-scrollbars',
                 '--user-data-dir=' + os.path.join(self.folder, 'profile')]
        return {
            'browserName': 'chrome',
            'goog:loggingPrefs': {'performance': 'ALL', 'browser': 'ALL'},
            'goog:chromeOptions': {'args': flags, 'binary': shutil.which('chromium'), 'prefs': {
                'download.default_directory': downloads, 'download.prompt_for_download': False}},
        }

    def http(self, method, path, values=None):
        data = None if method == 'GET' else json.dumps(values or {}).encode()
        request = urllib.request.Request(self.base + path, data, {'Content-Type': 'application/json'}, method=method)
        try:
            with urllib.request.urlopen(request, timeout=300) as answer:
                return json.load(answer)['value']
        except urllib.error.HTTPError as error:
            raise DriverError(json.load(error)['value']['message']) from None

    def command(self, name, element=None, **values):
        method, place = self.PLACES[name]
        return self.http(method, '/' + (place % element.reference if element else place), values)

    def resize(self, width, height):
        """Gives the page this size."""
        self.devtools('Emulation.setDeviceMetricsOverride', width=width, height=height, deviceScaleFactor=1, mobile=False)

    def scheme(self, dark):
        """Asks the page for its dark or its light colours."""
        self.devtools('Emulation.setEmulatedMedia',
                      features=[{'name': 'prefers-color-scheme', 'value': 'dark' if dark else 'light'}])

    def medium(self, name):
        """Shows the page as it is for print, or with an empty name as usual."""
        self.devtools('Emulation.setEmulatedMedia', media=name)

    def devtools(self, method, **values):
        return self.command('devtools', cmd=method, params=values)

    def requests(self):
        """The addresses that were asked for since the last call."""
        messages = [json.loads(entry['message'])['message'] for entry in self.command('log', type='performance')]
        return [message['params']['request']['url'] for message in messages
                if message['method'] == 'Network.requestWillBeSent']

    def close(self):
        try:
            self.http('DELETE', '')
        except (OSError, DriverError):
            pass
        self.stop(self.process)


class Firefox(Browser):
    """Firefox, by the commands of Marionette over a socket."""

    name = 'Firefox'
    NAMES = {
        'open': 'WebDriver:Navigate', 'script': 'WebDriver:ExecuteScript', 'actions': 'WebDriver:PerformActions',
        'picture': 'WebDriver:TakeScreenshot', 'resize': 'WebDriver:SetWindowRect', 'click': 'WebDriver:ElementClick',
        'type': 'WebDriver:ElementSendKeys', 'label': 'WebDriver:GetComputedLabel', 'role': 'WebDriver:GetComputedRole',
        'context': 'Marionette:SetContext', 'start': 'WebDriver:NewSession', 'end': 'Marionette:Quit', 'print': 'WebDriver:Print',
    }

    @staticmethod
    def missing():
        """The Debian packages that are missing."""
        return [] if shutil.which('firefox-esr') else ['firefox-esr']

    def __init__(self, downloads):
        self.folder = tempfile.mkdtemp(prefix='erd-firefox-')
        profile = os.path.join(self.folder, 'profile')
        os.mkdir(profile)
        with open(os.path.join(profile, 'user.js'), 'w', encoding='utf-8') as file:
            for name, value in self.preferences(downloads).items():
                file.write('user_pref(%s, %s);\n' % (json.dumps(name), json.dumps(value)))
        self.process = subprocess.Popen(
            ['firefox-esr', '--headless', '--marionette', '--remote-allow-system-access', '--no-remote', '--profile', profile],
            stdout=subprocess.DEVNULL, stderr=subprocess.DEVNULL, env=dict(os.environ, HOME=self.folder))
        self.socket = waited(lambda: connected(os.path.join(profile, 'MarionetteActivePort')))
        self.buffer = b''
        self.number = 0
        self.message()
        self.command('start')
        self.watch_requests()

    @staticmethod
    def preferences(downloads):
        return {
            'marionette.port': 0, 'browser.shell.checkDefaultBrowser': False, 'browser.download.folderList': 2,
            'browser.download.dir': downloads, 'browser.download.alwaysOpenPanel': False,
            'datareporting.policy.dataSubmissionEnabled': False, 'app.update.disabledForTesting': True,
            'browser.aboutwelcome.enabled': False, 'browser.startup.homepage_override.mstone': 'ignore',
            'browser.tabs.remote.autostart': True, 'network.captive-portal-service.enabled': False,
            'network.connectivity-service.enabled': False,
        }

    def message(self):
        while b':' not in self.buffer:
            self.receive()
        length, self.buffer = self.buffer.split(b':', 1)
        while len(self.buffer) < int(length):
            self.receive()
        message, self.buffer = self.buffer[:int(length)], self.buffer[int(length):]
        return json.loads(message)

    def receive(self):
        more = self.socket.recv(1 << 20)
        if not more:
            raise DriverError('Firefox has ended')
        self.buffer += more

    def command(self, name, element=None, **values):
        self.number += 1
        if element:
            values['id'] = element.reference
        if name == 'picture':
            values['full'] = False
        message = json.dumps([0, self.number, self.NAMES[name], values]).encode()
        self.socket.sendall(b'%d:%s' % (len(message), message))
        _, _, error, answer = self.message()
        if error:
            raise DriverError('%s: %s' % (error['error'], error['message']))
        return answer['value'] if isinstance(answer, dict) and 'value' in answer else answer

    def inside(self, text, *values):
        """Runs the body of a function with the rights of the browser itself."""
        self.command('context', value='chrome')
        try:
            return self.command('script', script=text, args=list(values))
        finally:
            self.command('context', value='content')

    def resize(self, width, height):
        """Gives the page this size. The window has a least width, so a page that is narrower is shown larger."""
        zoom = max(1, LEAST_WIDTH / width)
        self.inside('gBrowser.selectedBrowser.fullZoom = arguments[0]', zoom)
        self.command('resize', width=round(width * zoom), height=round(height * zoom))
        inner = self.script('return [innerWidth, innerHeight]')
        self.command('resize', width=round((2 * width - inner[0]) * zoom), height=round((2 * height - inner[1]) * zoom))

    def scheme(self, dark):
        """Asks the page for its dark or its light colours."""
        self.inside("Services.prefs.setIntPref('layout.css.prefers-color-scheme.content-override', arguments[0])",
                    0 if dark else 1)

    def medium(self, name):
        """Shows the page as it is for print, or with an empty name as usual."""
        self.inside('gBrowser.selectedBrowser.browsingContext.mediumOverride = arguments[0]', name)

    def watch_requests(self):
        """Keeps the addresses that pages ask for; those that the browser asks for itself have no window."""
        self.inside("""
            const kept = window.erdRequests = [];
            const keep = (subject) => {
                const channel = subject.QueryInterface(Ci.nsIChannel);
                if (channel.loadInfo.browsingContextID !== 0) {
                    kept.push(channel.URI.spec);
                }
            };
            Services.obs.addObserver({observe: keep}, 'http-on-opening-request');
            window.erdObserver = keep;""")

    def requests(self):
        """The addresses that were asked for since the last call."""
        return self.inside('return window.erdRequests.splice(0)')

    def close(self):
        try:
            self.command('end', flags=['eForceQuit'])
        except (OSError, DriverError):
            pass
        self.socket.close()
        self.stop(self.process)


def connected(path):
    """A connection to the port that the file names."""
    with open(path, encoding='utf-8') as file:
        return socket.create_connection(('127.0.0.1', int(file.read())), timeout=300)


def free_port():
    """A port that nobody listens on."""
    with socket.socket() as listener:
        listener.bind(('127.0.0.1', 0))
        return listener.getsockname()[1]
