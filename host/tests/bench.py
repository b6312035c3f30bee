"""Figures of the server beside those of a peer, by the same load in the same run. Both speak plain HTTP on loopback and keep their tickets in
SQLite. A round: eight users sign in (form and POST), fetch tickets by their sessions, the tickets are validated, and the users sign off; each of
the three phases is timed by itself. Tickets and validations are asked by wrk over eight connections, which costs little beside the servers, and
what it costs is told. An accepted ticket keeps its slot until its user signs off, so the validations of a round all meet a table with the
same number of records; it is measured with few and with nearly all of the 127."""

import http.client
import os
import re
import shutil
import signal
import subprocess
import sys
import tempfile
import threading
import time
import urllib.parse
from pathlib import Path

from world import World, free_port

SERVICE = 'https://gate.lan/'
PASSWORD = 'barbed wire 4'
USERS = 8
TICKETS = (2, 14)
LOAD = Path(__file__).with_name('load.lua')


class User:
    """A browser's sign-in and sign-off, as both servers take it: cookies, and a hidden field or two in the form."""

    def __init__(self, port, number):
        self.connection = http.client.HTTPConnection('127.0.0.1', port, timeout=120, source_address=(f'127.0.1.{number + 1}', 0))
        self.cookies = {}

    def cookie(self):
        return '; '.join(f'{name}={value}' for name, value in self.cookies.items())

    def ask(self, method, target, body=None):
        headers = {'Cookie': self.cookie()} if self.cookies else {}
        if body:
            headers['Content-Type'] = 'application/x-www-form-urlencoded'
        self.connection.request(method, target, body, headers)
        response = self.connection.getresponse()
        text = response.read().decode()
        for value in response.headers.get_all('Set-Cookie', []):
            name, value = value.split(';')[0].split('=', 1)
            self.cookies[name] = value.strip('"')
        return response, text

    def sign_in(self):
        _, form = self.ask('GET', '/cas/login')
        inputs = re.findall(r'<input[^>]*type="hidden"[^>]*>', form)
        fields = {}
        for text in inputs:
            name, value = re.search(r'name="([^"]*)"', text), re.search(r'value="([^"]*)"', text)
            if name and value:
                fields[name.group(1)] = value.group(1)
        fields.update(username='ann', password=PASSWORD)
        response, text = self.ask('POST', '/cas/login', urllib.parse.urlencode(fields))
        assert response.status in (200, 302, 303), (response.status, text)

    def sign_off(self):
        self.ask('GET', '/cas/logout')
        self.cookies.clear()


def burst(port, requests):
    """Asks pairs of target and cookie, each once. Gives the seconds, wrk's own processor time, and status, Location and user of each answer."""
    with tempfile.NamedTemporaryFile('w', suffix='.requests') as file:
        file.writelines(f'{target}\t{cookie}\n' for target, cookie in requests)
        file.flush()
        words = ['wrk', '-t', '1', '-c', str(USERS), '-d', '600s', '-s', LOAD, f'http://127.0.0.1:{port}', '--', file.name]
        lines = subprocess.run(words, check=True, capture_output=True, text=True).stdout.splitlines()
    at = next(number for number, line in enumerate(lines) if re.match(r'[\d.e-]+ [\d.e-]+$', line))
    seconds, own = map(float, lines[at].split())
    return seconds, own, [line.split() for line in lines[at + 1:]]


def processor_seconds(process):
    """What the threads of a process have had of the processors, as the scheduler counts it, in nanoseconds."""
    return sum(int(path.read_text().split()[0]) for path in Path(f'/proc/{process}/task').glob('*/schedstat')) / 1e9


def memory(process, name='VmRSS'):
    return int(re.search(rf'{name}:\s*(\d+)', Path(f'/proc/{process}/status').read_text()).group(1)) / 1024


class Phase:
    """Calls of one kind over all rounds: how many, in how many seconds, and the processor time of each part of the server and of the load."""

    def __init__(self, parts):
        self.parts, self.calls, self.seconds, self.client, self.processor = parts, 0, 0, 0, dict.fromkeys(parts, 0)

    def run(self, calls, work):
        """`work` gives the seconds that the calls took, the load's own processor time, and what was made."""
        before = self.spent()
        seconds, own, made = work()
        for part, spent in self.spent().items():
            self.processor[part] += spent - before[part]
        self.calls, self.seconds, self.client = self.calls + calls, self.seconds + seconds, self.client + own
        return made

    def spent(self):
        return {part: sum(map(processor_seconds, processes)) for part, processes in self.parts.items()}

    def rate(self):
        return self.calls / self.seconds

    def cost(self):
        return sum(self.processor.values()) / self.calls


def all_at_once(works):
    threads = [threading.Thread(target=work) for work in works]
    start, own = time.monotonic(), time.process_time()
    for thread in threads:
        thread.start()
    for thread in threads:
        thread.join()
    return time.monotonic() - start, time.process_time() - own, None


def fetch(port, users, each):
    query = urllib.parse.urlencode({'service': SERVICE})
    seconds, own, answers = burst(port, [(f'/cas/login?{query}', user.cookie()) for _ in range(each) for user in users])
    assert all('ticket=' in location for _, location, _ in answers), answers
    return seconds, own, [location.split('ticket=')[1] for _, location, _ in answers]


def validate(port, tickets):
    queries = [urllib.parse.urlencode({'service': SERVICE, 'ticket': ticket}) for ticket in tickets]
    seconds, own, answers = burst(port, [(f'/cas/serviceValidate?{query}', '') for query in queries])
    assert all(user == 'ann' for _, _, user in answers), answers
    return seconds, own, None


def measure(port, parts, rounds):
    users = [User(port, number) for number in range(USERS)]
    phases = {'sign-ins': Phase(parts)}
    for each in TICKETS:
        records = f'{USERS * (each + 1)} records'
        tickets, validations = phases[f'tickets, up to {records}'], phases[f'validations, at {records}'] = Phase(parts), Phase(parts)
        for _ in range(rounds * max(TICKETS) // each // 2):
            phases['sign-ins'].run(USERS, lambda: all_at_once([user.sign_in for user in users]))
            made = tickets.run(USERS * each, lambda: fetch(port, users, each))
            validations.run(USERS * each, lambda: validate(port, made))
            for user in users:
                user.sign_off()
    return phases


def report(name, phases):
    print(f'{name}:')
    for what, phase in phases.items():
        costs = ', '.join(f'{part} {1_000 * spent / phase.calls:.3f}' for part, spent in phase.processor.items())
        print(f'  {what:27} {phase.calls:5} calls {phase.rate():8.1f} a second; ms of processor time a call: {costs}; '
              f'the load itself {1_000 * phase.client / phase.calls:.3f}', flush=True)


def pyhtirso(rounds):
    world = World([(SERVICE, None)], {'ann': PASSWORD}, tls=False).start()
    try:
        front, core = world.process.pid, world.core()
        phases = measure(world.port, {'front': [front], 'core': [core]}, rounds)
        report('pyhtirso', phases)
        emulated = 'emulated ' if (PROGRAM_FOLDER / 'core' / 'qemu-x86_64').exists() else ''
        print(f'  resident: front {memory(front):.1f} MB (at most {memory(front, "VmHWM"):.1f}, in a password\'s check), '
              f'{emulated}core {memory(core):.1f} MB', flush=True)
        return phases
    finally:
        world.close()


PROGRAM_FOLDER = Path(os.environ['PYHTIRSO']).resolve().parent

SETTINGS = '''
SECRET_KEY = 'for the bench'
ALLOWED_HOSTS = ['127.0.0.1']
INSTALLED_APPS = ['django.contrib.admin', 'django.contrib.auth', 'django.contrib.contenttypes', 'django.contrib.sessions',
                  'django.contrib.messages', 'django.contrib.staticfiles', 'cas_server']
MIDDLEWARE = ['django.contrib.sessions.middleware.SessionMiddleware', 'django.middleware.common.CommonMiddleware',
              'django.middleware.csrf.CsrfViewMiddleware', 'django.contrib.auth.middleware.AuthenticationMiddleware',
              'django.contrib.messages.middleware.MessageMiddleware', 'django.middleware.clickjacking.XFrameOptionsMiddleware',
              'django.middleware.locale.LocaleMiddleware']
TEMPLATES = [{'APP_DIRS': True, 'BACKEND': 'django.template.backends.django.DjangoTemplates', 'OPTIONS': {'context_processors': [
    'django.template.context_processors.request', 'django.contrib.auth.context_processors.auth',
    'django.contrib.messages.context_processors.messages']}}]
ROOT_URLCONF = 'peer_urls'
DATABASES = {'default': {'ENGINE': 'django.db.backends.sqlite3', 'NAME': 'peer.sqlite', 'OPTIONS': {'timeout': 60}}}
DEFAULT_AUTO_FIELD = 'django.db.models.AutoField'
USE_TZ = True
STATIC_URL = '/static/'
CAS_NEW_VERSION_HTML_WARNING = CAS_NEW_VERSION_EMAIL_WARNING = False
CAS_AUTH_CLASS = 'cas_server.auth.DjangoAuthUser'
'''
URLS = '''
from django.urls import include, path
urlpatterns = [path('cas/', include('cas_server.urls', namespace='cas_server'))]
'''
FILL = '''
import django; django.setup()
from django.core.management import call_command
call_command('migrate', verbosity=0)
from django.contrib.auth.models import User
from cas_server.models import ServicePattern
User.objects.create_user('ann', password={password!r})
ServicePattern.objects.create(name='gate', pattern='^https://gate', pos=1)
'''


def peer(rounds):
    """Debian's django-cas-server under gunicorn, with as many processes as there are cores, as its makers advise."""
    python, gunicorn = '/usr/bin/python3', shutil.which('gunicorn')
    there = subprocess.run([python, '-c', 'import cas_server'], capture_output=True, cwd='/').returncode == 0
    if not (there and gunicorn):
        print('the peer is left out: python3-django-cas-server and gunicorn are not installed')
        return None
    with tempfile.TemporaryDirectory(prefix='pyhtirso-peer-') as folder:
        for name, text in ('peer_settings', SETTINGS), ('peer_urls', URLS), ('fill', FILL.format(password=PASSWORD)):
            Path(folder, name + '.py').write_text(text)
        Path(folder, 'peer.py').write_text('from django.core.wsgi import get_wsgi_application\napplication = get_wsgi_application()\n')
        environment = {**os.environ, 'DJANGO_SETTINGS_MODULE': 'peer_settings', 'PYTHONPATH': folder}
        subprocess.run([python, 'fill.py'], cwd=folder, env=environment, check=True)
        port = free_port()
        words = ['--workers', str(os.cpu_count()), '--threads', '4', '--keep-alive', '30', '--bind', f'127.0.0.1:{port}', 'peer']
        with open(Path(folder, 'log'), 'w') as log:
            server = subprocess.Popen([gunicorn, *words], cwd=folder, env=environment, stdout=log, stderr=log)
        try:
            workers = wait_for_workers(server.pid, port)
            phases = measure(port, {'workers': workers}, rounds)
            report('django-cas-server', phases)
            print(f'  resident: {sum(memory(process) for process in [server.pid, *workers]):.1f} MB in {len(workers) + 1} processes')
            return phases
        except Exception:
            print(Path(folder, 'log').read_text()[-2_000:])
            raise
        finally:
            server.send_signal(signal.SIGTERM)
            server.wait(60)


def wait_for_workers(parent, port):
    for _ in range(600):
        try:
            User(port, 0).ask('GET', '/cas/login')
            break
        except OSError:
            time.sleep(0.1)
    stats = [path.read_text().rpartition(')')[2].split()[1] + ' ' + path.parent.name for path in Path('/proc').glob('[0-9]*/stat')]
    return [int(line.split()[1]) for line in stats if int(line.split()[0]) == parent]


if __name__ == '__main__':
    rounds = int(sys.argv[1]) if len(sys.argv) > 1 else 20
    if not shutil.which('wrk'):
        sys.exit('host/bench: wrk is not installed, which makes the load')
    print(f'{USERS} users, {rounds} rounds, {os.cpu_count()} cores, {os.uname().machine}', flush=True)
    own = pyhtirso(rounds)
    other = peer(max(1, rounds // 4))
    if other:
        for what in own:
            times, cheaper = own[what].rate() / other[what].rate(), other[what].cost() / own[what].cost()
            print(f'{what}: {times:.1f} times the rate, {cheaper:.1f} times less processor time a call')
