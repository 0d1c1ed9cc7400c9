"""Nothing leaves the computer: the page asks for nothing but itself, and is not allowed to."""
import socket
import threading
import time

# What a page can do to reach another computer.
TRIES = """
    const address = arguments[0];
    const done = arguments[1];
    window.blocked = [];
    document.addEventListener('securitypolicyviolation', (event) => window.blocked.push(event.violatedDirective));
    try { fetch(address).catch(() => {}); } catch {}
    try { new WebSocket(address.replace('http', 'ws')); } catch {}
    try { new EventSource(address); } catch {}
    try { navigator.sendBeacon(address); } catch {}
    const add = (tag, values) => document.body.append(Object.assign(document.createElement(tag), values));
    add('img', {src: address});
    add('iframe', {src: address});
    add('script', {src: address});
    add('link', {rel: 'stylesheet', href: address});
    add('object', {data: address});
    add('audio', {src: address});
    const form = Object.assign(document.createElement('form'), {action: address, method: 'post', target: 'x'});
    document.body.append(form);
    try { form.submit(); } catch {}"""


def run(session):
    asked = [address for address in session.browser.requests() if not address.startswith(('blob:', 'data:', 'chrome:', 'about:'))]
    others = [address for address in asked if address not in (session.address, *session.others.values())]
    session.equal('network: nothing but the page was asked for', others, [])
    session.said('network: the page was asked for', '' if session.browser.name == 'Firefox' or asked else 'no request was seen')
    with Listener() as listener:
        session.fresh()
        session.browser.script(TRIES, listener.address, None)
        session.browser.until('return window.blocked.length >= 8')
        time.sleep(1)
        session.equal('network: nothing was sent', listener.received, [])


class Listener:
    """Keeps what it is sent at a port of this computer. Chromium opens a connection for a frame before it asks the policy, and
    sends nothing through it."""

    def __init__(self):
        self.received = []
        self.socket = socket.create_server(('127.0.0.1', 0))
        self.address = 'http://127.0.0.1:%d/' % self.socket.getsockname()[1]

    def __enter__(self):
        threading.Thread(target=self.listen, daemon=True).start()
        return self

    def listen(self):
        while True:
            try:
                connection = self.socket.accept()[0]
            except OSError:
                return
            threading.Thread(target=self.receive, args=(connection,), daemon=True).start()

    def receive(self, connection):
        connection.settimeout(1)
        try:
            self.received += [data for data in [connection.recv(1000)] if data]
        except OSError:
            pass
        connection.close()

    def __exit__(self, *_):
        self.socket.close()
