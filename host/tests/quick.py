"""The server as browsers and panels see it: the real program, TLS, SQLite and core. Nothing here depends on how fast the machine is."""

import contextlib
import os
import pty
import re
import signal
import sqlite3
import socket
import struct
import subprocess
import termios
import threading
import time
import unittest
import urllib.parse
from pathlib import Path

from world import PASSWORDS, PROGRAM, Browser, Panel, World

# Open forms that an address gets from which nobody has signed in yet, and all such addresses together.
STRANGER_FORMS, STRANGERS_FORMS = 6, 24
FREE_FAILURES = 5
SIGN_INS_OF_ONE = 8


class Ranch(unittest.TestCase):
    """One server for many tests, with a gate that proxies, a lamp and a siren, and gates whose callbacks fail in four ways."""

    @classmethod
    def setUpClass(cls):
        cls.world = World([('https://gate.lan/', None)])
        certificates = cls.world.certificates
        cls.panel, cls.stranger = Panel(certificates), Panel(certificates, 'bad')
        url = cls.panel.url
        cls.gate, cls.lamp, cls.siren = f'{url}/gate', f'{url}/lamp?i=2', f'{url}/siren'
        cls.callback = f'{url}/callback'
        cls.failing = {
            'wrong certificate': (f'{url}/one', f'{cls.stranger.url}/callback'),
            'redirect': (f'{url}/two', f'{url}/away'),
            'none listening': (f'{url}/three', 'https://localhost:1/callback'),
            'a number where a name should be': (f'{url}/four', url.replace('localhost', '127.0.0.1') + '/callback'),
        }
        cls.world.write_config([(cls.gate, cls.callback), (cls.lamp, f'{url}/lampback?x=1'), (cls.siren, None), *cls.failing.values()])
        cls.world.start()

    @classmethod
    def tearDownClass(cls):
        cls.world.close()
        cls.panel.close()
        cls.stranger.close()

    def setUp(self):
        self.browser = Browser(self.world)
        self.addCleanup(self.sign_off)

    def sign_off(self):
        self.browser.get('logout')
        self.browser.close()

    def validate(self, ticket, service, path='serviceValidate', **more):
        return Browser(self.world).get(path, ticket=ticket, service=service, **more)


class SignOn(Ranch):
    def test_sign_in_and_single_sign_on(self):
        answer = self.browser.sign_in('ann', self.gate)
        self.assertEqual((answer.status, answer.location.split('?')[0]), (303, self.gate))
        self.assertRegex(answer.headers['Set-Cookie'], r'^TGC=TGC-\d+-[0-9a-f]{32}; Path=/cas; Secure; HttpOnly; SameSite=Lax$')
        success = self.validate(answer.ticket, self.gate)
        self.assertEqual((success.status, success.user), (200, 'ann'))
        self.assertIn('<cas:isFromNewLogin>true<', success.body)
        self.assertEqual(self.validate(answer.ticket, self.gate).code, 'INVALID_TICKET')
        again = self.browser.get('login', service=self.lamp)
        self.assertTrue(again.location.startswith(self.lamp + '&ticket=ST-'))
        success = self.validate(again.ticket, self.lamp)
        self.assertEqual(success.user, 'ann')
        self.assertIn('<cas:isFromNewLogin>false<', success.body)

    def test_plain_validate(self):
        ticket = self.browser.sign_in('ann', self.gate).ticket
        answer = self.validate(ticket, self.gate, 'validate')
        self.assertEqual((answer.status, answer.body), (200, 'yes\n'))
        self.assertEqual(answer.headers['Content-Type'], 'text/plain; charset=utf-8')
        answer = self.validate(ticket, self.gate, 'validate')
        self.assertEqual((answer.status, answer.body), (200, 'no\n'))

    def test_failures_of_validators_are_200(self):
        for path in 'serviceValidate', 'proxyValidate', 'p3/serviceValidate', 'p3/proxyValidate':
            answer = Browser(self.world).get(path)
            self.assertEqual((answer.status, answer.code), (200, 'INVALID_REQUEST'))
            self.assertEqual(answer.headers['Content-Type'], 'application/xml; charset=utf-8')
        ticket = self.browser.sign_in('ann', self.gate).ticket
        self.assertEqual(self.validate(ticket, self.lamp).code, 'INVALID_SERVICE')

    def test_renew(self):
        self.browser.sign_in('ann')
        form = self.browser.get('login', service=self.gate, renew='true')
        self.assertEqual(form.status, 200)
        self.assertIn('<form ', form.body)
        old = self.browser.ticket(self.gate)
        self.assertEqual(self.validate(old, self.gate, renew='true').code, 'INVALID_TICKET')
        new = self.browser.post_login(username='ann', password=PASSWORDS['ann'], lt=form.lt, service=self.gate).ticket
        self.assertEqual(self.validate(new, self.gate, renew='true').user, 'ann')

    def test_gateway(self):
        answer = self.browser.get('login', service=self.gate, gateway='true')
        self.assertEqual((answer.status, answer.location), (303, self.gate))
        self.browser.sign_in('ann')
        self.assertIsNotNone(self.browser.get('login', service=self.gate, gateway='true').ticket)

    def test_names_with_accents_and_passwords_with_signs(self):
        for name in 'Muñoz', 'ben':
            browser = Browser(self.world)
            ticket = browser.sign_in(name, self.gate).ticket
            self.assertEqual(self.validate(ticket, self.gate).user, name)
            browser.get('logout')

    def test_wrong_passwords(self):
        for name, password in ('ann', 'barbed wire'), ('ann', PASSWORDS['ben']), ('nobody', 'x'), ('ann', PASSWORDS['ann'] + '\0'):
            browser = Browser(self.world)
            form = browser.get('login', service=self.gate)
            answer = browser.post_login(username=name, password=password, lt=form.lt, service=self.gate)
            self.assertEqual((answer.status, answer.headers['Set-Cookie']), (401, None))
            self.assertIn('User name or password is wrong', answer.body)
            good = browser.post_login(username='ann', password=PASSWORDS['ann'], lt=answer.lt, service=self.gate)
            self.assertEqual(good.status, 303)
            browser.get('logout')

    def test_a_new_password_counts_at_once(self):
        self.world.add_user('newcomer', 'first')
        form = self.browser.get('login')
        self.assertEqual(self.browser.post_login(username='newcomer', password='first', lt=form.lt).status, 200)
        self.world.add_user('newcomer', 'second')
        other = Browser(self.world)
        self.assertEqual(other.post_login(username='newcomer', password='first', lt=other.get('login').lt).status, 401)

    def test_unknown_panels_get_nothing(self):
        self.assertEqual(self.browser.get('login', service='https://elsewhere.lan/').status, 403)

    def test_one_ticket_by_forty_connections_is_accepted_once(self):
        self.browser.sign_in('ann')
        clients = [Browser(self.world) for _ in range(40)]
        self.addCleanup(lambda: [client.close() for client in clients])
        for _ in range(5):
            self.assertEqual(at_once(clients, self.browser.ticket(self.gate), self.gate), 1)


def at_once(clients, ticket, service):
    """How many of these clients, all at once, were told that the ticket is good."""
    target = '/cas/validate?' + urllib.parse.urlencode({'ticket': ticket, 'service': service})
    gate, said = threading.Barrier(len(clients)), []

    def ask(client):
        client.get('static/page.js')
        gate.wait()
        said.append(client.request('GET', target).body)

    threads = [threading.Thread(target=ask, args=(client,)) for client in clients]
    for thread in threads:
        thread.start()
    for thread in threads:
        thread.join()
    assert len(said) == len(clients)
    return said.count('yes\n')


class Proxying(Ranch):
    def grant(self, service, callback):
        before = len(self.panel.got)
        answer = self.validate(self.browser.ticket(service), service, pgtUrl=callback)
        self.assertEqual(answer.user, 'ann')
        iou = re.search('<cas:proxyGrantingTicket>(.*)</cas:proxyGrantingTicket>', answer.body)
        told = [urllib.parse.parse_qs(path.split('?', 1)[1]) for path in self.panel.got[before:]]
        return iou and iou.group(1), {ask['pgtIou'][0]: ask['pgtId'][0] for ask in told if 'pgtIou' in ask}

    def test_a_callback_over_tls_gives_a_grant_that_proxies(self):
        self.browser.sign_in('ann')
        iou, told = self.grant(self.gate, self.callback)
        answer = Browser(self.world).get('proxy', pgt=told[iou], targetService=self.lamp)
        ticket = re.search('<cas:proxyTicket>(.*)</cas:proxyTicket>', answer.body).group(1)
        self.assertEqual(self.validate(ticket, self.lamp, 'proxyValidate').body.count(f'<cas:proxy>{self.callback}</cas:proxy>'), 1)

    def test_a_callback_with_a_question_is_joined_by_and(self):
        self.browser.sign_in('ann')
        iou, told = self.grant(self.lamp, f'{self.panel.url}/lampback?x=1')
        self.assertIn(iou, told)

    def test_callbacks_that_fail_give_success_without_a_grant(self):
        self.browser.sign_in('ann')
        for why, (service, callback) in self.failing.items():
            with self.subTest(why):
                iou, _ = self.grant(service, callback)
                self.assertIsNone(iou)
        self.assertEqual(self.stranger.got, [])
        away = [path.split('?')[1] for path in self.panel.got if path.startswith('/away?')]
        self.assertEqual(len(away), 1)
        self.assertNotIn(f'/callback?{away[0]}', self.panel.got)


class SignOff(Ranch):
    def test_visited_panels_are_told(self):
        self.browser.sign_in('ann')
        tickets = {}
        for service in self.gate, self.lamp:
            tickets[service] = self.browser.ticket(service)
            self.validate(tickets[service], service)
        self.browser.ticket(self.siren)
        before = len(self.panel.posted)
        answer = self.browser.get('logout')
        self.assertEqual(answer.status, 200)
        self.assertEqual(answer.headers['Set-Cookie'], 'TGC=; Max-Age=0; Path=/cas; Secure; HttpOnly; SameSite=Lax')
        posted = self.panel.wait_posts(before + 2)[before:]
        self.assertEqual(len(posted), 2)
        for path, kind, body in posted:
            self.assertEqual(kind, 'application/x-www-form-urlencoded')
            fields = urllib.parse.parse_qs(body, strict_parsing=True)
            self.assertEqual(list(fields), ['logoutRequest'])
            index = re.search('<samlp:SessionIndex>(.*)</samlp:SessionIndex>', fields['logoutRequest'][0]).group(1)
            self.assertEqual(index, tickets[self.panel.url + path])
        self.assertIn('<form ', self.browser.get('login', service=self.gate).body)

    def test_another_user_ends_the_session_and_the_same_does_not(self):
        self.browser.sign_in('ann')
        self.validate(self.browser.ticket(self.gate), self.gate)
        before = len(self.panel.posted)
        self.assertEqual(self.browser.sign_in('ann').status, 200)
        self.assertEqual(self.browser.sign_in('ann', password='wrong').status, 401)
        self.assertEqual(self.browser.request('GET', '/cas/logout?url=%').status, 400)
        self.assertEqual(self.browser.sign_in('ben').status, 200)
        self.assertEqual([path for path, _, _ in self.panel.wait_posts(before + 1)[before:]], ['/gate'])


class Http(Ranch):
    SAFE = {
        'Strict-Transport-Security': 'max-age=31536000',
        'X-Frame-Options': 'DENY',
        'Referrer-Policy': 'no-referrer',
        'X-Content-Type-Options': 'nosniff',
        'Cache-Control': 'no-store',
    }

    def raw(self, text):
        with self.world.raw() as connection:
            connection.sendall(text)
            answer = b''
            while part := connection.recv(65_536):
                answer += part
        return answer

    def test_safe_headers_stand_on_every_answer(self):
        for target in '/cas/login', '/cas/validate', '/cas/serviceValidate', '/nothing', '/cas/logout', '/cas/login?a=' + 'b' * 3_000:
            answer = self.browser.request('GET', target)
            self.assertEqual({name: answer.headers[name] for name in self.SAFE}, self.SAFE, target)

    def test_the_form_s_redirect_to_a_panel_is_let_through(self):
        policy = self.browser.get('login').headers['Content-Security-Policy']
        self.assertIn(f"form-action 'self' {self.panel.url}", policy)
        self.assertIn("default-src 'none'", policy)

    def test_the_core_s_page_goes_out_as_it_is_with_words_after_it(self):
        head = '<!DOCTYPE html>\n<title>403</title>\n<p>403</p>\n'
        for language, word in ('es-MX,es;q=0.9', 'no está registrado'), ('en', 'is not registered'), ('fr', 'is not registered'):
            answer = self.browser.request('GET', '/cas/login?service=x', headers={'Accept-Language': language})
            self.assertTrue(answer.body.startswith(head))
            self.assertIn(word, answer.body)
        for path, kind in ('page.css', 'text/css'), ('page.js', 'text/javascript'):
            answer = self.browser.get(f'static/{path}')
            self.assertEqual((answer.status, answer.headers['Content-Type']), (200, f'{kind}; charset=utf-8'))

    def test_head_is_get_without_a_body(self):
        answer = self.browser.request('HEAD', '/cas/validate')
        self.assertEqual((answer.status, answer.body, answer.headers['Content-Length']), (200, '', '3'))

    def test_http_1_0(self):
        answer = self.raw(b'GET /cas/validate HTTP/1.0\r\n\r\n')
        self.assertTrue(answer.startswith(b'HTTP/1.0 200 OK\r\n') and answer.endswith(b'\r\n\r\nno\n'), answer)

    def test_what_is_too_long_or_of_another_method(self):
        room = 2_048 - len('/cas/validate?x=')
        self.assertEqual(self.browser.request('GET', '/cas/validate?x=' + 'y' * room).status, 200)
        self.assertEqual(self.browser.request('GET', '/cas/validate?x=' + 'y' * (room + 1)).status, 414)
        self.assertEqual(self.browser.request('GET', '/cas/validate?x=' + 'y' * 20_000).status, 414)
        self.assertEqual(self.browser.request('POST', '/cas/login', 'x=' + 'y' * 1_022).status, 401)
        self.assertEqual(self.browser.request('POST', '/cas/login', 'x=' + 'y' * 1_023).status, 413)
        self.assertEqual(self.browser.request('PUT', '/cas/login', 'x').status, 405)
        self.assertEqual(self.browser.request('POST', '/cas/logout', '').status, 405)
        self.assertEqual(self.browser.request('GET', '/cas/nothing').status, 404)

    def test_a_body_in_chunks_is_counted_too(self):
        chunks = b'400\r\n' + b'x' * 1_024 + b'\r\n1\r\nx\r\n0\r\n\r\n'
        answer = self.raw(b'POST /cas/login HTTP/1.1\r\nHost: h\r\nTransfer-Encoding: chunked\r\n\r\n' + chunks)
        self.assertTrue(answer.startswith(b'HTTP/1.1 413 '), answer)

    def test_rubbish_ends_its_own_connection_only(self):
        for rubbish in b'\0' * 100 + b'\r\n\r\n', b'GET / HTTP/9.9\r\n\r\n', b'GET  \r\n\r\n', b'POST /cas/login HTTP/1.1\r\nContent-Length: -1\r\n\r\n':
            self.assertIn(self.raw(rubbish)[:12], (b'HTTP/1.1 400', b''))
        with socket.create_connection(('127.0.0.1', self.world.port)) as plain:
            plain.sendall(b'GET /cas/login HTTP/1.1\r\n\r\n')
        self.assertEqual(self.browser.get('validate').body, 'no\n')

    def test_a_person_is_led_to_the_form(self):
        for path in '/', '/cas', '/cas/':
            answer = self.browser.request('GET', path)
            self.assertEqual((answer.status, answer.location), (303, '/cas/login'))

    def test_a_cookie_that_is_none(self):
        for cookie in 'TGC-1-' + '0' * 32, 'x' * 5_000, '', '"', 'TGC-1':
            self.browser.cookie = cookie
            self.assertIn('<form ', self.browser.get('login').body)
        self.browser.cookie = None


class Limits(Ranch):
    def test_one_address_does_not_take_all_forms(self):
        greedy = Browser(self.world)
        forms = [greedy.get('login') for _ in range(STRANGER_FORMS)]
        self.assertEqual({form.status for form in forms}, {200})
        for cookie in None, 'TGC-1-' + '0' * 32:
            greedy.cookie = cookie
            answer = greedy.get('login')
            self.assertEqual((answer.status, greedy.get('login', service=self.gate, gateway='1').status), (429, 303))
            self.assertTrue(0 < int(answer.headers['Retry-After']) <= 660)
        greedy.cookie = None
        self.assertEqual(Browser(self.world).get('login').status, 200)
        # A form that the core does not spend stays open: malformed, or with the field's name encoded.
        self.assertEqual(greedy.request('POST', '/cas/login', f'lt={forms[0].lt}&username=%').status, 400)
        self.assertEqual(greedy.request('POST', '/cas/login', f'%6ct={forms[0].lt}').status, 429)
        self.assertEqual(greedy.get('login').status, 429)
        wrong = greedy.post_login(username='ann', password='wrong', lt=forms[0].lt)
        self.assertEqual(wrong.status, 401)
        self.assertEqual(greedy.post_login(username='ann', password='wrong', lt=forms[0].lt).status, 429)
        self.assertEqual(greedy.post_login(username='ann', password=PASSWORDS['ann'], lt=wrong.lt).status, 200)
        self.assertEqual(greedy.get('login').status, 200)
        greedy.cookie, cookie = None, greedy.cookie
        self.assertEqual(greedy.get('login').status, 200)
        greedy.cookie = cookie
        greedy.get('logout')

    def test_strangers_of_many_addresses_do_not_take_all_forms(self):
        world = World([('https://gate.lan/', None)], {'ann': PASSWORDS['ann']}, tls=False).start()
        self.addCleanup(world.close)
        desk, new = Browser(world, '127.0.2.1'), Browser(world, '127.0.2.2')
        self.assertEqual(desk.sign_in('ann').status, 200)
        desk.get('logout')

        def taken(addresses):
            """How many forms each of these addresses gets."""
            counts = []
            for number in addresses:
                stranger, count = Browser(world, f'127.0.1.{number}'), 0
                while stranger.get('login').status == 200:
                    count += 1
                counts.append(count)
            return counts

        self.assertEqual(taken(range(1, 5)), [6, 5, 4, 3])
        self.assertEqual(new.sign_in('ann').status, 200)
        new.get('logout')
        self.assertEqual(sum(taken(range(5, 45))) + 18, STRANGERS_FORMS)
        answer = Browser(world, '127.0.1.250').get('login')
        self.assertEqual((answer.status, 0 < int(answer.headers['Retry-After']) <= 660), (503, True))
        world.wait_log('the last forms are kept')
        for browser in desk, new:
            wrong = browser.sign_in('ann', password='wrong')
            self.assertEqual(wrong.status, 401)
            self.assertEqual(browser.post_login(username='ann', password=PASSWORDS['ann'], lt=wrong.lt).status, 200)

    def test_one_address_does_not_take_all_places_of_sign_ins(self):
        """While the core is stopped everything waits, so it is known how much does."""
        world = World([('https://gate.lan/', None)], {'ann': PASSWORDS['ann']}, tls=False).start()
        self.addCleanup(world.close)
        desk = Browser(world, '127.0.2.1')
        form, said = desk.get('login'), []
        flood = [Browser(world, '127.0.1.1') for _ in range(SIGN_INS_OF_ONE + 1)]
        threads = [threading.Thread(target=lambda b=b: said.append(b.post_login(username='x', password='x', lt='x').status)) for b in flood]
        threads.append(threading.Thread(
            target=lambda: said.append(desk.post_login(username='ann', password=PASSWORDS['ann'], lt=form.lt).status)))
        core = world.core()
        os.kill(core, signal.SIGSTOP)
        try:
            for thread in threads[:-1]:
                thread.start()
            world.wait_log('queue full')
            threads[-1].start()
        finally:
            os.kill(core, signal.SIGCONT)
        for thread in threads:
            thread.join()
        self.assertEqual((said.count(503), said.count(200), said.count(401) + said.count(429)), (1, 1, SIGN_INS_OF_ONE))

    def test_wrong_passwords_of_one_address_are_slowed_down(self):
        guesser, form = Browser(self.world), None
        for _ in range(FREE_FAILURES):
            form = guesser.post_login(username='ann', password='guess', lt=(form or guesser.get('login')).lt)
            self.assertEqual(form.status, 401)
        answer = guesser.post_login(username='ann', password=PASSWORDS['ann'], lt=form.lt)
        self.assertEqual(answer.status, 429)
        self.assertTrue(0 < int(answer.headers['Retry-After']) <= 20)
        self.assertEqual(self.browser.sign_in('ann').status, 200)

    def test_slow_senders_and_idle_connections_hold_nobody_up(self):
        held = []
        for number in range(60):
            connection = self.world.raw()
            connection.sendall([b'', b'GET /cas/lo', b'POST /cas/login HTTP/1.1\r\nContent-Length: 100\r\n\r\nusername='][number % 3])
            held.append(connection)
        self.assertEqual(self.browser.sign_in('ann', self.gate).status, 303)
        for connection in held:
            connection.close()


class Log(Ranch):
    def test_lines_name_users_and_never_secrets(self):
        self.browser.sign_in('ann')
        cookie = self.browser.cookie
        ticket = self.browser.ticket(self.gate)
        self.validate(ticket, self.gate, pgtUrl=self.callback)
        form = Browser(self.world).get('login')
        Browser(self.world).get(f'login/{ticket}')
        Browser(self.world).post_login(username='ann', password='a wrong one', lt=form.lt)
        log = self.world.log.read_text()
        for secret in cookie.split('-')[2], ticket.split('-')[2], form.lt.split('-')[2], 'a wrong one', PASSWORDS['ann'], 'PGT':
            self.assertNotIn(secret, log)
        for line in r'POST /cas/login 200 user="ann"', r'GET /cas/login 303 ticket', r'GET /cas/serviceValidate 200 yes user="ann"', r'GET - 404', \
                r'POST /cas/login 401':
            self.assertRegex(log, rf'(?m)^\d{{4}}-\d\d-\d\dT\d\d:\d\d:\d\dZ 127\.0\.\d+\.\d+ {line}$')


class Starting(unittest.TestCase):
    """What is refused at the start, and that what was answered is there after it."""

    def setUp(self):
        self.service = 'https://gate.lan/'
        self.world = World([(self.service, None)], {'ann': PASSWORDS['ann']}, tls=False)
        self.addCleanup(self.world.close)
        self.browser = Browser(self.world)

    @contextlib.contextmanager
    def database(self):
        with contextlib.closing(sqlite3.connect(self.world.folder / 'data' / 'table.sqlite')) as database, database:
            yield database

    def test_sessions_and_spent_tickets_outlive_a_restart(self):
        self.world.start()
        self.browser.sign_in('ann')
        spent, fresh = self.browser.ticket(self.service), self.browser.ticket(self.service)
        self.assertEqual(self.browser.get('validate', ticket=spent, service=self.service).body, 'yes\n')
        for how in 15, 9:
            self.assertEqual(self.world.stop(how), 0 if how == 15 else -9)
            self.browser.close()
            self.world.start()
            self.assertEqual(self.browser.get('validate', ticket=spent, service=self.service).body, 'no\n')
        self.assertEqual(self.browser.get('validate', ticket=fresh, service=self.service).body, 'yes\n')
        self.assertEqual(self.browser.get('login', service=self.service).status, 303)

    def test_the_core_is_alone_and_is_started_anew(self):
        self.world.start()
        self.browser.sign_in('ann')
        ticket = self.browser.ticket(self.service)
        self.assertEqual(self.browser.get('validate', ticket=ticket, service=self.service).body, 'yes\n')
        core = self.world.core()
        files = subprocess.run(['ls', '-l', f'/proc/{core}/fd'], capture_output=True, text=True).stdout
        self.assertEqual(sorted(re.findall(r' (\d+) -> (pipe|/dev/null)', files)), [('0', 'pipe'), ('1', 'pipe'), ('2', '/dev/null')])
        self.assertEqual(files.count('->'), 3)
        self.assertEqual(Path(f'/proc/{core}/environ').read_text(), '')
        subprocess.run(['kill', '-9', str(core)], check=True)
        self.assertEqual(self.browser.get('validate', ticket=ticket, service=self.service).body, 'no\n')
        self.assertEqual(self.browser.get('login', service=self.service).status, 303)
        self.assertNotEqual(self.world.core(), core)

    def test_a_second_server_is_refused(self):
        self.world.start()
        status, said = self.world.run('serve')
        self.assertEqual((status, 'another server has this database open' in said), (78, True), said)

    def test_a_damaged_table_keeps_the_server_from_starting(self):
        self.world.start()
        self.world.stop()
        self.assertEqual(self.world.run('check'), (0, 'all is well\n'))
        with self.database() as database:
            block = bytearray(database.execute('SELECT bytes FROM block WHERE number = 3').fetchone()[0])
            block[100] ^= 1
            database.execute('UPDATE block SET bytes = ? WHERE number = 3', (bytes(block),))
        for command in 'check', 'serve':
            status, said = self.world.run(command)
            self.assertEqual(status, 78)
            self.assertRegex(said, r'table\.sqlite: the table is damaged \(refusal 2\)\. Move .* away and start again')

    def rewrite(self, change):
        """Changes blocks of the stored table, each with its number, and makes their checks anew."""
        with self.database() as database:
            for number, stored in database.execute('SELECT number, bytes FROM block').fetchall():
                block = bytearray(stored)
                change(number, block)
                a, b = 1, 0
                for byte in block[:508]:
                    a = (a + byte) % 65_535
                    b = (b + a) % 65_535
                block[508:] = struct.pack('<I', b * 65_536 + a)
                database.execute('UPDATE block SET bytes = ? WHERE number = ?', (bytes(block), number))

    def set_clock(self, seconds):
        """Sets the clock of an empty table."""
        def change(number, block):
            if number == 0:
                block[8:16] = struct.pack('<Q', seconds)
        self.rewrite(change)

    def put_back(self, seconds):
        """Puts a table back in time, its clock and all its records: expiries, and a session's sign-on."""
        def change(number, block):
            for place in [8] if number == 0 else [16, 272][:(block[0] > 0) + (block[0] == 2)]:
                block[place:place + 8] = struct.pack('<Q', struct.unpack_from('<Q', block, place)[0] - seconds)
        self.rewrite(change)

    def held(self):
        """How many slots of the stored table are not free."""
        with self.database() as database:
            return sum(stored[0] != 0 for (stored,) in database.execute('SELECT bytes FROM block WHERE number > 0'))

    def test_house_is_kept_at_the_start(self):
        self.world.start()
        self.browser.sign_in('ann', self.service)
        self.world.stop()
        self.assertEqual(self.held(), 2)
        self.put_back(9 * 3_600)
        self.assertEqual((self.world.run('check'), self.held()), ((0, 'all is well\n'), 2))
        self.world.start()
        self.world.stop()
        self.assertEqual(self.held(), 0)

    def test_a_clock_that_jumps_is_not_handed_on(self):
        self.world.start()
        self.world.stop()
        self.set_clock(int(time.time()) - 3 * 86_400)
        for command in 'check', 'serve':
            status, said = self.world.run(command)
            self.assertEqual((status, '3 days beyond the table' in said, 'pyhtirso clock-is-right' in said), (78, True, True), said)
        self.assertEqual(self.world.run('clock-is-right'), (0, "the table's clock is this machine's\n"))
        self.world.start()
        self.assertEqual(self.browser.sign_in('ann').status, 200)
        self.world.stop()
        with self.database() as database:
            database.execute('DELETE FROM block')
        self.world.start()
        self.world.stop()
        self.set_clock(int(time.time()) + 366 * 86_400)
        for command in 'check', 'serve', 'clock-is-right':
            status, said = self.world.run(command)
            self.assertEqual((status, "beyond this machine's" in said), (78, True), said)

    def test_wrong_configurations_are_told_with_their_line(self):
        good = self.world.config.read_text()
        cases = [
            (good.replace('127.0.0.1', '0.0.0.0'), 'line 1: without [tls] only a loopback address is taken'),
            (good.replace('users = ', 'user = '), 'line 3: unknown field `user`'),
            (good.replace('"ca.pem"', '"none.pem"'), 'line 6: '),
            (good.replace('https://gate.lan/', 'https://gate.lan/#a'), 'refusal 3'),
            (good + '[[panel]]\nservice = "https://gate.lan/"\n', 'refusal 3'),
            (good + 'callback = "http://gate.lan/"\n', 'line 8: the core refuses this panel (refusal 3)'),
            (good.replace('gate.lan', 'g' * 200), 'line 8: the core refuses this panel (refusal 3)'),
        ]
        for text, reason in cases:
            self.world.config.write_text(text)
            for command in 'check', 'serve':
                status, said = self.world.run(command)
                self.assertEqual((status, reason in said), (78, True), (reason, said))
        self.world.config.write_text(good)
        (self.world.folder / 'users').write_text('ann:plain\n')
        status, said = self.world.run('check')
        self.assertEqual((status, 'users, line 1: ' in said), (78, True), said)

    def test_users_that_cannot_be_read_sign_nobody_in(self):
        self.world.start()
        form = self.browser.get('login')
        users = (self.world.folder / 'users').read_text()
        (self.world.folder / 'users').write_text('rubbish\n')
        self.assertEqual(self.browser.post_login(username='ann', password=PASSWORDS['ann'], lt=form.lt).status, 500)
        (self.world.folder / 'users').write_text(users)
        self.assertEqual(self.browser.post_login(username='ann', password=PASSWORDS['ann'], lt=form.lt).status, 200)

    def test_a_proxy_s_word_is_taken_where_it_is_named(self):
        self.world.write_config([(self.service, None)], 'forwarded_from = ["127.0.0.1"]')
        self.world.start()
        proxy, stranger = Browser(self.world, '127.0.0.1'), Browser(self.world, '127.0.0.9')
        for browser in proxy, stranger:
            browser.request('GET', '/cas/validate', headers={'X-Forwarded-For': '10.9.9.9, 10.1.2.3'})
        log = self.world.log.read_text()
        self.assertRegex(log, r'(?m)Z 10\.1\.2\.3 GET /cas/validate 200 no$')
        self.assertRegex(log, r'(?m)Z 127\.0\.0\.9 GET /cas/validate 200 no$')

    def at_a_terminal(self, *typed):
        """Stores a password for ben as an operator does; gives the exit status and what the terminal showed."""
        child, terminal = pty.fork()
        if child == 0:
            os.execv(PROGRAM, [PROGRAM, 'user', 'ben', '--config', self.world.config])
        shown = b''
        for prompt, line in zip((b'Password for ben: ', b'And again: '), typed):
            while not shown.endswith(prompt):
                shown += os.read(terminal, 1_024)
            # An operator types after the prompt; it stands there a moment before the terminal shows no more.
            for _ in range(6_000):
                if not termios.tcgetattr(terminal)[3] & termios.ECHO:
                    break
                time.sleep(0.01)
            os.write(terminal, line.encode() + b'\n')
        # A terminal whose other side is closed gives an error in place of an end.
        with contextlib.suppress(OSError):
            while part := os.read(terminal, 1_024):
                shown += part
        os.close(terminal)
        return os.waitstatus_to_exitcode(os.waitpid(child, 0)[1]), shown.decode()

    def test_a_password_is_asked_for_twice_at_a_terminal_and_not_shown(self):
        status, shown = self.at_a_terminal('portón 7', 'portón 8')
        self.assertEqual((status, 'the two are not the same' in shown), (78, True), shown)
        status, shown = self.at_a_terminal('portón 7', 'portón 7')
        self.assertEqual((status, 'ben is stored in' in shown, 'port' in shown), (0, True, False), shown)
        self.world.start()
        self.assertEqual(self.browser.sign_in('ben', password='portón 7').status, 200)

    @unittest.skipUnless(Path('/proc/net/if_inet6').exists() and ' lo\n' in Path('/proc/net/if_inet6').read_text(), 'this machine has no ::1')
    def test_ipv6(self):
        world = World([(self.service, None)], {'ann': PASSWORDS['ann']}, host='::1')
        self.addCleanup(world.close)
        world.start()
        browser = Browser(world, '::1')
        ticket = browser.sign_in('ann', self.service).ticket
        self.assertEqual(browser.get('validate', ticket=ticket, service=self.service).body, 'yes\n')
        self.assertRegex(world.log.read_text(), r'(?m)^\S+ ::1 GET /cas/validate 200 yes$')

    def test_a_password_is_stored_as_a_hash_and_other_lines_stay(self):
        users = self.world.folder / 'users'
        users.write_text('# the desk\n' + users.read_text())
        users.chmod(0o640)
        self.world.add_user('ben', 'secret')
        self.world.add_user('ben', 'another')
        self.assertRegex(users.read_text(), r'^# the desk\nann:\$y\$\S+\nben:\$y\$\S+\n$')
        self.assertEqual(users.stat().st_mode & 0o777, 0o640)
        for name in 'a:b', '', 'x' * 65:
            done = subprocess.run([PROGRAM, 'user', name, '--config', self.world.config], input='p\n', text=True, capture_output=True)
            self.assertEqual(done.returncode, 78)


if __name__ == '__main__':
    unittest.main(verbosity=2)
