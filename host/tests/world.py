"""What the tests stand on: certificates, a configuration and users in a folder of their own, the real server started there, browsers that
speak HTTP over TLS, and a panel that takes callbacks and sign-offs. Python's standard library and openssl, nothing else."""

import http.client
import http.server
import os
import re
import signal
import socket
import ssl
import subprocess
import tempfile
import threading
import time
import urllib.parse
from pathlib import Path

PROGRAM = Path(os.environ['PYHTIRSO']).resolve()
PASSWORDS = {'ann': 'barbed wire 4', 'Muñoz': 'portón äöü', 'ben': 'ben+ &=%'}


def free_port():
    with socket.socket() as probe:
        probe.bind(('127.0.0.1', 0))
        return probe.getsockname()[1]


class Certificates:
    """An authority, and certificates for localhost: one by it, one by an authority that nobody knows."""

    def __init__(self, folder):
        self.folder = folder
        self.authority('ca')
        self.authority('unknown')
        self.leaf('good', 'ca')
        self.leaf('bad', 'unknown')

    def openssl(self, *words):
        subprocess.run(['openssl', *words], cwd=self.folder, check=True, capture_output=True)

    def authority(self, name):
        self.openssl('req', '-x509', '-newkey', 'ec', '-pkeyopt', 'ec_paramgen_curve:P-256', '-nodes', '-days', '7', '-subj', f'/CN={name}',
                     '-addext', 'basicConstraints=critical,CA:TRUE', '-keyout', f'{name}.key', '-out', f'{name}.pem')

    def leaf(self, name, by):
        (self.folder / 'san').write_text('subjectAltName=DNS:localhost,IP:127.0.0.1,IP:::1\nbasicConstraints=CA:FALSE\n')
        self.openssl('req', '-new', '-newkey', 'ec', '-pkeyopt', 'ec_paramgen_curve:P-256', '-nodes', '-subj', '/CN=localhost',
                     '-keyout', f'{name}.key', '-out', f'{name}.csr')
        self.openssl('x509', '-req', '-in', f'{name}.csr', '-CA', f'{by}.pem', '-CAkey', f'{by}.key', '-CAcreateserial', '-days', '7',
                     '-extfile', 'san', '-out', f'{name}.pem')

    def client(self):
        return ssl.create_default_context(cafile=self.folder / 'ca.pem')

    def server(self, name):
        context = ssl.SSLContext(ssl.PROTOCOL_TLS_SERVER)
        context.load_cert_chain(self.folder / f'{name}.pem', self.folder / f'{name}.key')
        return context


class Panel:
    """A panel at localhost that takes callbacks (GET) and sign-offs (POST), and keeps what it was sent. `/away` redirects."""

    def __init__(self, certificates, name='good'):
        self.got, self.posted, self.changed = [], [], threading.Condition()
        panel = self

        class Handler(http.server.BaseHTTPRequestHandler):
            def do_GET(self):
                panel.keep(panel.got, self.path)
                if self.path.startswith('/away'):
                    self.send_response(302)
                    self.send_header('Location', self.path.replace('/away', '/callback'))
                else:
                    self.send_response(200)
                self.end_headers()

            def do_POST(self):
                body = self.rfile.read(int(self.headers['Content-Length'])).decode()
                panel.keep(panel.posted, (self.path, self.headers['Content-Type'], body))
                self.send_response(200)
                self.end_headers()

            def log_message(self, *words):
                pass

        class Server(http.server.ThreadingHTTPServer):
            daemon_threads = True

            def handle_error(self, *words):
                pass

        self.server = Server(('127.0.0.1', 0), Handler)
        self.server.socket = certificates.server(name).wrap_socket(self.server.socket, server_side=True)
        self.url = f'https://localhost:{self.server.server_port}'
        threading.Thread(target=self.server.serve_forever, daemon=True).start()

    def keep(self, where, what):
        with self.changed:
            where.append(what)
            self.changed.notify_all()

    def wait_posts(self, count):
        """Waits for so many sign-offs; as long as a very slow machine may take."""
        with self.changed:
            self.changed.wait_for(lambda: len(self.posted) >= count, 60)
        return list(self.posted)

    def close(self):
        self.server.shutdown()
        self.server.server_close()


class Answer:
    def __init__(self, response, body):
        self.status, self.headers, self.body = response.status, response.headers, body.decode()
        self.location = response.headers['Location']

    @property
    def lt(self):
        return re.search(r'name="lt" type="hidden" value="([^"]*)"', self.body).group(1)

    @property
    def ticket(self):
        found = re.search(r'[?&]ticket=(ST-[^&]*)$', self.location or '')
        return found and found.group(1)

    @property
    def user(self):
        found = re.search(r'<cas:user>(.*)</cas:user>', self.body)
        return found and found.group(1)

    @property
    def code(self):
        return re.search(r'code="([A-Z_]*)"', self.body).group(1)


class Browser:
    """A client with a session's cookie and an address of its own, by which the server counts."""

    last_address = 1

    def __init__(self, world, address=None):
        Browser.last_address += 1
        self.world, self.cookie, self.connection = world, None, None
        self.address = address or f'127.0.{Browser.last_address // 250}.{Browser.last_address % 250 + 1}'

    def request(self, method, target, body=None, headers=()):
        headers = dict(headers)
        if self.cookie:
            headers['Cookie'] = f'other=1; TGC={self.cookie}'
        if body is not None:
            headers.setdefault('Content-Type', 'application/x-www-form-urlencoded')
        if self.connection is None:
            self.connection = self.world.connect(self.address)
        try:
            self.connection.request(method, target, body, headers)
            response = self.connection.getresponse()
            answer = Answer(response, response.read())
        except (OSError, http.client.HTTPException):
            self.connection.close()
            self.connection = None
            raise
        if response.will_close:
            self.connection.close()
            self.connection = None
        for value in response.headers.get_all('Set-Cookie', []):
            self.cookie = re.match(r'TGC=([^;]*)', value).group(1) or None
        return answer

    def get(self, path, **query):
        return self.request('GET', f'/cas/{path}?{urllib.parse.urlencode(query)}' if query else f'/cas/{path}')

    def post_login(self, **fields):
        return self.request('POST', '/cas/login', urllib.parse.urlencode(fields))

    def sign_in(self, user='ann', service=None, password=None):
        fields = {'service': service} if service else {}
        form = self.request('GET', '/cas/login?' + urllib.parse.urlencode({**fields, 'renew': 'true'}))
        assert form.status == 200, (form.status, form.body)
        return self.post_login(username=user, password=PASSWORDS[user] if password is None else password, lt=form.lt, **fields)

    def ticket(self, service):
        answer = self.get('login', service=service)
        assert answer.status == 303 and answer.ticket, (answer.status, answer.location, answer.body)
        return answer.ticket

    def close(self):
        if self.connection:
            self.connection.close()
        self.connection = None

    __del__ = close


class World:
    """A server with its folder. `panels` are pairs of service and callback, `environment` is what the server is started with beside its own."""

    def __init__(self, panels, users=PASSWORDS, tls=True, folder=None, more='', host='127.0.0.1', environment=()):
        self.kept = tempfile.TemporaryDirectory(prefix='pyhtirso-')
        self.folder = Path(folder or self.kept.name)
        self.certificates = Certificates(self.folder)
        self.port, self.process, self.tls, self.host = free_port(), None, tls, host
        self.environment = {**os.environ, **dict(environment)}
        self.config = self.folder / 'ranch.toml'
        self.log = self.folder / 'log'
        self.write_config(panels, more)
        (self.folder / 'users').touch()
        for name in users:
            self.add_user(name, users[name])

    def write_config(self, panels, more=''):
        listen = f'[{self.host}]' if ':' in self.host else self.host
        lines = [f'listen = "{listen}:{self.port}"', 'data = "data"', 'users = "users"', more]
        if self.tls:
            lines += ['[tls]', 'cert = "good.pem"', 'key = "good.key"']
        lines += ['[trust]', 'ca = "ca.pem"']
        for service, callback in panels:
            lines += ['[[panel]]', f'service = "{service}"'] + ([f'callback = "{callback}"'] if callback else [])
        self.config.write_text('\n'.join(lines) + '\n')

    def add_user(self, name, password):
        subprocess.run([PROGRAM, 'user', name, '--config', self.config], input=password + '\n', text=True, check=True, capture_output=True)

    def run(self, *words):
        """Runs the program until it ends; gives its status and what it wrote."""
        words = [PROGRAM, *words, '--config', self.config]
        done = subprocess.run(words, capture_output=True, text=True, timeout=120, env=self.environment)
        return done.returncode, done.stdout + done.stderr

    def start(self):
        before = self.log.read_text().count('listening on') if self.log.exists() else 0
        with open(self.log, 'a') as log:
            words = [PROGRAM, 'serve', '--config', self.config]
            self.process = subprocess.Popen(words, stderr=log, stdin=subprocess.DEVNULL, env=self.environment)
        while self.log.read_text().count('listening on') == before:
            assert self.process.poll() is None, self.log.read_text()
            time.sleep(0.02)
        return self

    def core(self):
        """The process of the core: the server's child."""
        for process in Path('/proc').glob('[0-9]*/stat'):
            try:
                parent = process.read_text().rpartition(')')[2].split()[1]
            except OSError:
                continue
            if int(parent) == self.process.pid:
                return int(process.parent.name)
        return None

    def wait_log(self, text, count=1):
        """Waits until the log has this so many times; as long as a very slow machine may take."""
        for _ in range(3_000):
            if self.log.read_text().count(text) >= count:
                return
            time.sleep(0.02)
        raise AssertionError(self.log.read_text()[-2_000:])

    def stop(self, how=signal.SIGTERM):
        self.process.send_signal(how)
        return self.process.wait(60)

    def connect(self, address='127.0.0.1', timeout=120):
        where = {'host': self.host, 'port': self.port, 'timeout': timeout, 'source_address': (address, 0)}
        if self.tls:
            return http.client.HTTPSConnection(**where, context=self.certificates.client())
        return http.client.HTTPConnection(**where)

    def raw(self, timeout=60, address='127.0.0.1'):
        """A connection without HTTP on top."""
        plain = socket.create_connection((self.host, self.port), timeout, (address, 0))
        return self.certificates.client().wrap_socket(plain, server_hostname='localhost') if self.tls else plain

    def close(self):
        if self.process and self.process.poll() is None:
            self.stop()
        self.kept.cleanup()
