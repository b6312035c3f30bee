"""Who uses the server in earnest, unchanged: a browser (chromium, by its driver) and two panels (Apache with mod_auth_cas, PHP with phpCAS).
Each is left out where Debian's package is not installed, and said to be."""

import base64
import http.cookiejar
import json
import os
import re
import shutil
import subprocess
import tempfile
import time
import unittest
import urllib.error
import urllib.parse
import urllib.request
from pathlib import Path

from world import PASSWORDS, Browser, Panel, World, free_port

MODULES = Path('/usr/lib/apache2/modules')
PHP = next(MODULES.glob('libphp*.so'), None)
PICTURES = os.environ.get('PICTURES')


class Chromium:
    """A browser without a window, driven over WebDriver's HTTP."""

    def __init__(self, **preferences):
        self.folder = tempfile.TemporaryDirectory(prefix='pyhtirso-chromium-', ignore_cleanup_errors=True)
        port = free_port()
        self.driver = subprocess.Popen(['chromedriver', f'--port={port}'], stdout=subprocess.DEVNULL, stderr=subprocess.DEVNULL)
        self.url = f'http://127.0.0.1:{port}'
        words = ['--headless=new', '--no-sandbox', '--disable-gpu', '--window-size=900,700', f'--user-data-dir={self.folder.name}']
        options = {'args': words, 'prefs': preferences}
        asked = {'capabilities': {'alwaysMatch': {'acceptInsecureCerts': True, 'goog:chromeOptions': options}}}
        self.url += '/session/' + self.call('POST', '/session', asked, tries=200)['sessionId']

    def call(self, method, path, body=None, tries=1):
        data = None if body is None else json.dumps(body).encode()
        request = urllib.request.Request(self.url + path, data, {'Content-Type': 'application/json'}, method=method)
        for attempt in range(tries):
            try:
                with urllib.request.urlopen(request, timeout=120) as answer:
                    return json.load(answer)['value']
            except urllib.error.HTTPError as error:
                raise AssertionError(error.read().decode()) from None
            except OSError:
                if attempt + 1 == tries:
                    raise
                time.sleep(0.1)

    def open(self, url):
        self.call('POST', '/url', {'url': url})

    def element(self, css):
        found = self.call('POST', '/element', {'using': 'css selector', 'value': css})
        return '/element/' + next(iter(found.values()))

    def text(self, css):
        return self.call('GET', self.element(css) + '/text')

    def type(self, css, text):
        self.call('POST', self.element(css) + '/clear', {})
        self.call('POST', self.element(css) + '/value', {'text': text})

    def click(self, css):
        self.call('POST', self.element(css) + '/click', {})

    def script(self, text):
        return self.call('POST', '/execute/sync', {'script': text, 'args': []})

    def at(self):
        return self.call('GET', '/url')

    def picture(self, name):
        if PICTURES:
            Path(PICTURES, name + '.png').write_bytes(base64.b64decode(self.call('GET', '/screenshot')))

    def close(self):
        self.call('DELETE', '')
        self.driver.terminate()
        self.driver.wait()
        self.folder.cleanup()


@unittest.skipUnless(shutil.which('chromedriver') and shutil.which('chromium'), 'chromium and chromium-driver are not installed')
class InABrowser(unittest.TestCase):
    def setUp(self):
        self.world = World([('https://gate.lan/', None)])
        self.addCleanup(self.world.close)
        self.panel = Panel(self.world.certificates)
        self.addCleanup(self.panel.close)
        self.gate = f'{self.panel.url}/gate'
        self.world.write_config([(self.gate, None)])
        self.world.start()
        self.cas = f'https://localhost:{self.world.port}/cas'
        self.login = f'{self.cas}/login?' + urllib.parse.urlencode({'service': self.gate})

    def browser(self, **preferences):
        chromium = Chromium(**preferences)
        self.addCleanup(chromium.close)
        return chromium

    def fill(self, chromium, name, password):
        chromium.type('input[name=username]', name)
        chromium.type('input[name=password]', password)
        chromium.click('button')

    def wait_at(self, chromium, start):
        for _ in range(600):
            if chromium.at().startswith(start):
                return
            time.sleep(0.1)
        self.fail(f'the browser is at {chromium.at()} and not at {start}')

    def wait_words(self, chromium, words):
        """A click does not wait for the page that it leads to: until it is there, its words are absent or the former page's."""
        for _ in range(600):
            try:
                told = chromium.text('#words')
            except AssertionError as changing:
                told = str(changing)
            if words in told:
                return
            time.sleep(0.1)
        self.fail(f'the browser says {told} and not {words}')

    def test_signs_in_sees_the_words_and_signs_out(self):
        chromium = self.browser(**{'intl.accept_languages': 'en'})
        chromium.open(self.login)
        chromium.picture('form')
        self.assertEqual(chromium.text('label[for=username]'), 'User name')
        self.assertEqual(chromium.script('return document.activeElement.name + " " + document.title'), 'username Sign in')
        self.assertEqual(chromium.script('return document.querySelector("input[type=password]").autocomplete'), 'current-password')
        self.assertEqual(chromium.script('return getComputedStyle(document.querySelector("body > p")).display'), 'none')
        self.fill(chromium, 'ann', 'wrong')
        self.wait_words(chromium, 'User name or password is wrong')
        chromium.picture('wrong')
        self.fill(chromium, 'Muñoz', PASSWORDS['Muñoz'])
        self.wait_at(chromium, f'{self.gate}?ticket=ST-')
        ticket = chromium.at().split('ticket=')[1]
        self.assertEqual(Browser(self.world).get('serviceValidate', service=self.gate, ticket=ticket).user, 'Muñoz')
        chromium.open(f'{self.cas}/login')
        self.assertEqual(chromium.text('h1'), 'Signed in')
        chromium.picture('signed-in')
        chromium.open(f'{self.cas}/logout?' + urllib.parse.urlencode({'url': self.gate}))
        self.assertEqual((chromium.text('h1'), chromium.text('a')), ('Signed out', 'Back'))
        chromium.picture('signed-out')
        self.assertEqual(len(self.panel.wait_posts(1)), 1)
        chromium.open(self.login)
        self.assertEqual(chromium.text('h1'), 'Sign in')
        chromium.open(f'{self.cas}/login?service=https://elsewhere.lan/')
        self.assertIn('is not registered', chromium.text('#words'))
        chromium.picture('not-registered')

    def test_spanish_and_without_script(self):
        chromium = self.browser(**{'intl.accept_languages': 'es', 'profile.managed_default_content_settings.javascript': 2})
        chromium.open(self.login)
        chromium.picture('plain-spanish')
        self.assertIn('El primer campo es para su usuario', chromium.text('#words'))
        self.fill(chromium, 'ann', 'wrong')
        self.wait_words(chromium, 'no es correcto')
        self.fill(chromium, 'ann', PASSWORDS['ann'])
        self.wait_at(chromium, f'{self.gate}?ticket=ST-')

    def test_spanish(self):
        chromium = self.browser(**{'intl.accept_languages': 'es-MX,es'})
        chromium.open(self.login)
        chromium.picture('spanish')
        self.assertEqual((chromium.text('label[for=password]'), chromium.text('button')), ('Contraseña', 'Entrar'))


class Stay(urllib.request.HTTPRedirectHandler):
    def redirect_request(self, *words):
        return None


class Visitor:
    """A user's way to a panel: with the panel's cookies, and redirects followed by hand."""

    def __init__(self, certificates):
        cookies = urllib.request.HTTPCookieProcessor(http.cookiejar.CookieJar())
        self.opener = urllib.request.build_opener(cookies, Stay, urllib.request.HTTPSHandler(context=certificates.client()))

    def get(self, url):
        """Status, Location and body."""
        try:
            answer = self.opener.open(url, timeout=120)
        except urllib.error.HTTPError as error:
            answer = error
        with answer:
            return answer.status, answer.headers['Location'], answer.read().decode()


APACHE = '''
ServerName localhost
ServerRoot {folder}
PidFile {folder}/apache.pid
ErrorLog {folder}/apache.log
Listen 127.0.0.1:{port}
{modules}
User www-data
Group www-data
StartServers 4
DocumentRoot {folder}/www
SSLEngine on
SSLCertificateFile {folder}/good.pem
SSLCertificateKeyFile {folder}/good.key
SSLSessionCache none
Mutex file:{folder}
AddHandler application/x-httpd-php .php
php_admin_value session.save_path {folder}/sessions
php_admin_value curl.cainfo {folder}/ca.pem
php_admin_value include_path /usr/share/php
CASVersion 2
CASLoginURL {cas}/login
CASValidateURL {cas}/serviceValidate
CASCertificatePath {folder}/ca.pem
CASCookiePath {folder}/cookies/
CASSSOEnabled On
<Location /gate>
    AuthType CAS
    Require valid-user
</Location>
'''

GATE_PHP = "<?php echo 'user=' . $_SERVER['REMOTE_USER'];\n"
LAMP_PHP = '''<?php
require_once 'CAS.php';
phpCAS::client(CAS_VERSION_3_0, 'localhost', {cas_port}, '/cas', '{base}');
phpCAS::setCasServerCACert('{folder}/ca.pem');
phpCAS::allowProxyChain(new CAS_ProxyChain_Any());
phpCAS::handleLogoutRequests(true, array('localhost', '127.0.0.1', gethostbyaddr('127.0.0.1')));
phpCAS::forceAuthentication();
echo 'user=' . phpCAS::getUser() . ' new=' . phpCAS::getAttribute('isFromNewLogin');
'''
PROXY_PHP = '''<?php
require_once 'CAS.php';
phpCAS::proxy(CAS_VERSION_2_0, 'localhost', {cas_port}, '/cas', '{base}');
phpCAS::setCasServerCACert('{folder}/ca.pem');
phpCAS::setPGTStorageFile('{folder}/grants');
phpCAS::forceAuthentication();
phpCAS::serviceWeb('{base}/php/lamp.php', $error, $output);
echo 'error=' . $error . ' lamp says: ' . $output;
'''


@unittest.skipUnless((MODULES / 'mod_auth_cas.so').exists(), 'libapache2-mod-auth-cas is not installed')
@unittest.skipUnless(PHP and Path('/usr/share/php/CAS.php').exists(), 'libapache2-mod-php and php-cas are not installed')
@unittest.skipUnless(all(next(Path('/usr/lib/php').glob(f'*/{name}.so'), None) for name in ('curl', 'dom')), 'php-curl and php-xml are not installed')
@unittest.skipUnless(os.geteuid() == 0, 'Apache changes its user, which takes root')
class Panels(unittest.TestCase):
    @classmethod
    def setUpClass(cls):
        port = free_port()
        cls.base = f'https://localhost:{port}'
        cls.gate, cls.lamp, cls.proxy = (f'{cls.base}/{path}' for path in ('gate/index.php', 'php/lamp.php', 'php/proxy.php'))
        cls.world = World([(cls.gate, None), (cls.lamp, None), (cls.proxy, cls.proxy)]).start()
        cls.start_apache(port)

    @classmethod
    def start_apache(cls, port):
        folder = cls.world.folder
        folder.chmod(0o755)
        names = 'mpm_prefork authn_core authz_core authz_user auth_cas ssl mime env'.split()
        modules = [f'LoadModule {name}_module {MODULES}/mod_{name}.so' for name in names] + [f'LoadModule php_module {PHP}']
        words = {'folder': folder, 'port': port, 'base': cls.base, 'cas_port': cls.world.port, 'cas': f'https://localhost:{cls.world.port}/cas'}
        for name in 'sessions', 'cookies', 'grants':
            (folder / name).mkdir()
            shutil.chown(folder / name, 'www-data')
        for path, text in ('gate/index.php', GATE_PHP), ('php/lamp.php', LAMP_PHP), ('php/proxy.php', PROXY_PHP):
            (folder / 'www' / path).parent.mkdir(parents=True, exist_ok=True)
            (folder / 'www' / path).write_text(text.format(**words) if 'CAS.php' in text else text)
        (folder / 'mime.types').write_text('text/html html\n')
        config = folder / 'apache.conf'
        config.write_text(APACHE.format(modules='\n'.join(modules), **words) + f'TypesConfig {folder}/mime.types\n')
        # Apache ends its whole process group with itself.
        cls.apache = subprocess.Popen(['apache2', '-DFOREGROUND', '-f', config], cwd=folder, start_new_session=True)
        for _ in range(600):
            try:
                Visitor(cls.world.certificates).get(f'{cls.base}/none')
                return
            except OSError:
                time.sleep(0.1)
        raise AssertionError((folder / 'apache.log').read_text())

    @classmethod
    def tearDownClass(cls):
        cls.apache.terminate()
        cls.apache.wait(60)
        cls.world.close()

    def enter(self, visitor, browser, url):
        """From a panel to the sign-on server and back, as a browser goes; gives the panel's page."""
        status, location, _ = visitor.get(url)
        self.assertIn(status, (302, 303))
        target = location.removeprefix(f'https://localhost:{self.world.port}')
        self.assertTrue(target.startswith('/cas/login?'), location)
        answer = browser.request('GET', target)
        if answer.status == 200:
            answer = browser.post_login(username='Muñoz', password=PASSWORDS['Muñoz'], lt=answer.lt, service=url)
        self.assertEqual(answer.status, 303)
        status, location, body = visitor.get(answer.location)
        while status in (302, 303):
            self.assertTrue(location.startswith(self.base), location)
            status, location, body = visitor.get(location)
        self.assertEqual(status, 200)
        return body

    def assert_closed(self, visitor, url):
        """The panel asks for a sign-in again, soon."""
        for _ in range(600):
            status, location, _ = visitor.get(url)
            if status in (302, 303) and '/cas/login' in location:
                return
            time.sleep(0.1)
        self.fail(f'{url} is still open')

    def both(self, url):
        visitor, browser = Visitor(self.world.certificates), Browser(self.world)
        self.addCleanup(lambda: browser.get('logout'))
        return visitor, browser, self.enter(visitor, browser, url)

    def test_apache_signs_in_and_hears_of_sign_off(self):
        visitor, browser, page = self.both(self.gate)
        self.assertEqual(page, 'user=Muñoz')
        self.assertEqual(visitor.get(self.gate)[::2], (200, 'user=Muñoz'))
        browser.get('logout')
        self.assert_closed(visitor, self.gate)

    def test_php_signs_in_by_single_sign_on_and_hears_of_sign_off(self):
        visitor, browser, page = self.both(self.lamp)
        self.assertEqual(page, 'user=Muñoz new=true')
        self.assertEqual(self.enter(visitor, browser, self.gate), 'user=Muñoz')
        self.assertEqual(visitor.get(self.lamp)[::2], (200, 'user=Muñoz new=true'))
        browser.get('logout')
        self.assert_closed(visitor, self.lamp)
        self.assert_closed(visitor, self.gate)

    def test_php_proxies(self):
        _, _, page = self.both(self.proxy)
        self.assertTrue(re.fullmatch('error=0? lamp says: user=Muñoz new=false', page), page)


if __name__ == '__main__':
    unittest.main(verbosity=2)
