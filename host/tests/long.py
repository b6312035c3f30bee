"""What takes long, or needs more of the machine: kills at random moments under load, a full disk, many connections, many validations at once, a
full queue, a clock that jumps, and the time that a sign-in takes."""

import contextlib
import http.client
import os
import random
import resource
import signal
import sqlite3
import socket
import statistics
import subprocess
import threading
import time
import unittest
from pathlib import Path

from quick import at_once
from world import PASSWORDS, Browser, World

GATE = 'https://gate.lan/'
KILLS = 100
WORKERS = 5
# Calls that wait, those that are taken together, and some.
MORE_THAN_WAIT = 256 + 64 + 30
FAKETIME = next(Path('/usr/lib').glob('*/faketime/libfaketime.so.1'), None)


class Hand(threading.Thread):
    """A user at work while the server is killed: signs in, fetches tickets, shows each of them several times, signs off. Whatever an answer has
    told him must hold from then on, over every restart; what does not goes to `wrong`. While `armed` is set, the server is killed the moment that
    an answer is here: what it told must be on the disk by then."""

    def __init__(self, world, working, armed):
        super().__init__(daemon=True)
        self.browser, self.working, self.armed = Browser(world), working, armed
        self.wrong, self.accepted, self.sessions, self.cut = [], 0, 0, 0

    def ask(self, method, *words, **fields):
        """The answer, and whether an earlier try may have been heard without one."""
        tried = False
        while self.working.is_set():
            try:
                answer = getattr(self.browser, method)(*words, **fields)
                if self.armed.is_set():
                    self.armed.clear()
                    self.browser.world.process.kill()
                if answer.status not in (429, 503):
                    return answer, tried
            except (OSError, http.client.HTTPException):
                self.cut += 1
                tried = True
            time.sleep(0.05)
        raise TimeoutError

    def run(self):
        with contextlib.suppress(TimeoutError):
            while True:
                self.work()

    def work(self):
        self.browser.cookie = None
        form, _ = self.ask('get', 'login')
        answer, tried = self.ask('post_login', username='ann', password=PASSWORDS['ann'], lt=form.lt)
        if answer.status != 200:
            if not tried:
                self.wrong.append(f'a form that was seen is not known: {answer.status}')
            return
        self.sessions += 1
        for _ in range(10):
            self.show_ticket()
        cookie = self.browser.cookie
        self.ask('get', 'logout')
        self.browser.cookie = cookie
        answer, _ = self.ask('get', 'login', service=GATE, gateway='1')
        if answer.ticket:
            self.wrong.append('a session that was signed off is open')

    def show_ticket(self):
        answer, _ = self.ask('get', 'login', service=GATE, gateway='1')
        if not answer.ticket:
            self.wrong.append('a session that was seen is gone')
            return
        yes = 0
        for number in range(3):
            shown, tried = self.ask('get', 'validate', service=GATE, ticket=answer.ticket)
            if number == 0 and not tried and shown.body != 'yes\n':
                self.wrong.append('a ticket that was seen is not known')
            yes += shown.body == 'yes\n'
        if yes > 1:
            self.wrong.append('a ticket was accepted twice')
        self.accepted += yes


class Kills(unittest.TestCase):
    def test_kills_of_front_and_core_lose_nothing(self):
        world = World([(GATE, None)]).start()
        self.addCleanup(world.close)
        working, armed = threading.Event(), threading.Event()
        working.set()
        hands = [Hand(world, working, armed) for _ in range(WORKERS)]
        for hand in hands:
            hand.start()
        chance = random.Random(int(os.environ.get('SEED', '1')))
        for kill in range(KILLS):
            time.sleep(chance.uniform(0.05, 1))
            if kill % 4 == 1:
                world.stop(signal.SIGKILL)
                world.start()
            elif kill % 4 == 3:
                armed.set()
                world.process.wait(60)
                world.start()
            else:
                core = world.core()
                if core:
                    os.kill(core, signal.SIGKILL)
        time.sleep(2)
        working.clear()
        for hand in hands:
            hand.join(60)
        self.assertEqual([wrong for hand in hands for wrong in hand.wrong], [])
        accepted, sessions, cut = (sum(getattr(hand, name) for hand in hands) for name in ('accepted', 'sessions', 'cut'))
        print(f'{KILLS} kills: {sessions} sessions, {accepted} tickets accepted, {cut} requests cut', flush=True)
        self.assertGreater(accepted, KILLS)
        self.assertGreater(cut, 10)
        self.assertIn('it is started anew', world.log.read_text())


class Crowds(unittest.TestCase):
    def setUp(self):
        self.world = World([(GATE, None)]).start()
        self.addCleanup(self.world.close)
        self.browser = Browser(self.world)

    def test_one_ticket_by_forty_connections_is_accepted_once_two_hundred_times_over(self):
        clients = [Browser(self.world) for _ in range(40)]
        for number in range(200):
            if number % 50 == 0:
                self.browser.sign_in('ann')
            self.assertEqual(at_once(clients, self.browser.ticket(GATE), GATE), 1)
            if number % 50 == 49:
                self.browser.get('logout')

    def test_a_thousand_connections_hold_nobody_up(self):
        _, most = resource.getrlimit(resource.RLIMIT_NOFILE)
        resource.setrlimit(resource.RLIMIT_NOFILE, (min(most, 4_096), most))
        held = []
        for number in range(1_000):
            connection = self.world.raw(address=f'127.0.1.{number % 20 + 1}')
            connection.sendall([b'', b'GET /cas/lo', b'POST /cas/login HTTP/1.1\r\nContent-Length: 100\r\n\r\nusername='][number % 3])
            held.append(connection)
            if number % 100 == 99:
                self.assertEqual(self.browser.sign_in('ann', GATE).status, 303)
                self.assertEqual(self.browser.get('logout').status, 200)
        for connection in held:
            connection.close()

    def test_one_address_does_not_take_all_connections(self):
        """Its share is a quarter; a connection beyond it is closed at once."""
        _, most = resource.getrlimit(resource.RLIMIT_NOFILE)
        resource.setrlimit(resource.RLIMIT_NOFILE, (min(most, 4_096), most))
        held = [self.world.raw(address='127.0.1.1') for _ in range(500)]
        beyond = [socket.create_connection(('127.0.0.1', self.world.port), 60, ('127.0.1.1', 0)) for _ in range(20)]
        closed = 0
        for connection in beyond:
            connection.settimeout(2)
            with contextlib.suppress(TimeoutError):
                closed += connection.recv(1) == b''
        self.assertTrue(0 < closed < 20, closed)
        self.assertEqual(self.browser.sign_in('ann', GATE).status, 303)
        held += beyond
        for connection in held:
            connection.close()

    def test_who_sends_nothing_or_slowly_is_cut(self):
        idle, head, body = held = [self.world.raw(timeout=120) for _ in range(3)]
        head.sendall(b'GET /cas/lo')
        body.sendall(b'POST /cas/login HTTP/1.1\r\nContent-Length: 100\r\n\r\nusername=')
        self.assertEqual((head.recv(100), idle.recv(100)), (b'', b''))
        self.assertTrue(body.recv(100).startswith(b'HTTP/1.1 408 '))
        for connection in held:
            connection.close()


@unittest.skipUnless(os.geteuid() == 0, 'a small disk can be mounted by root only')
class FullDisk(unittest.TestCase):
    def test_a_full_disk_undoes_the_call_and_says_so(self):
        world = World([(GATE, None)])
        self.addCleanup(world.close)
        disk = world.folder / 'data'
        disk.mkdir()
        subprocess.run(['mount', '-t', 'tmpfs', '-o', 'size=2m', 'tmpfs', disk], check=True)
        self.addCleanup(lambda: subprocess.run(['umount', disk], check=True))
        self.addCleanup(lambda: world.process.poll() is None and world.stop())
        world.start()
        browser = Browser(world)
        browser.sign_in('ann')
        tickets = [browser.ticket(GATE) for _ in range(20)]
        with contextlib.suppress(OSError), open(disk / 'filler', 'wb', buffering=0) as filler:
            while True:
                filler.write(b'x' * 1_024)
        said = [browser.get('validate', service=GATE, ticket=ticket) for ticket in tickets]
        self.assertEqual({answer.status for answer in said} - {200}, {503})
        (disk / 'filler').unlink()
        for ticket, answer in zip(tickets, said):
            again = browser.get('validate', service=GATE, ticket=ticket).body
            self.assertEqual(again, 'no\n' if answer.status == 200 else 'yes\n')
        self.assertIn('calls are undone', world.log.read_text())
        self.assertEqual(browser.get('login', service=GATE).status, 303)


class FullQueue(unittest.TestCase):
    def test_who_finds_the_queue_full_is_told_and_the_others_are_answered(self):
        """While the core is stopped everything waits."""
        world = World([(GATE, None)], {'ann': PASSWORDS['ann']}, tls=False).start()
        self.addCleanup(world.close)
        asking = [world.raw(address=f'127.0.1.{number % 20 + 1}') for number in range(MORE_THAN_WAIT)]
        core = world.core()
        os.kill(core, signal.SIGSTOP)
        try:
            for connection in asking:
                connection.sendall(b'GET /cas/validate HTTP/1.1\r\nHost: h\r\nConnection: close\r\n\r\n')
            world.wait_log('queue full')
        finally:
            os.kill(core, signal.SIGCONT)
        said = []
        for connection in asking:
            with connection, connection.makefile('rb') as answer:
                said.append(answer.read().split(b' ')[1])
        print(f'{said.count(b"200")} calls waited and were answered, {said.count(b"503")} found the queue full', flush=True)
        self.assertEqual(set(said), {b'200', b'503'})
        self.assertGreaterEqual(said.count(b'200'), 256)


class Timing(unittest.TestCase):
    def test_a_name_that_is_not_there_takes_as_long_as_one_that_is(self):
        world = World([(GATE, None)], tls=False).start()
        self.addCleanup(world.close)
        took = {'ann': [], 'nobody': []}
        for number in range(15):
            browser = Browser(world, f'127.0.1.{number + 1}')
            form = browser.get('login')
            for name in 'ann', 'nobody', 'ann', 'nobody':
                start = time.monotonic()
                form = browser.post_login(username=name, password='guess', lt=form.lt)
                took[name].append(time.monotonic() - start)
                self.assertEqual(form.status, 401)
            browser.close()
        there, missing = (1_000 * statistics.median(times) for times in took.values())
        print(f'a wrong password takes {there:.2f} ms (median of 30), a name that is not there {missing:.2f} ms', flush=True)
        self.assertLess(max(there, missing), 1.5 * min(there, missing))


@unittest.skipUnless(FAKETIME, 'faketime is not installed')
class Clock(unittest.TestCase):
    """The server under a clock that this test sets."""

    def setUp(self):
        environment = {'LD_PRELOAD': str(FAKETIME), 'FAKETIME_NO_CACHE': '1', 'FAKETIME_DONT_FAKE_MONOTONIC': '1'}
        self.world = World([(GATE, None)], {'ann': PASSWORDS['ann']}, tls=False, environment=environment)
        self.addCleanup(self.world.close)
        self.setting = self.world.folder / 'clock'
        self.world.environment['FAKETIME_TIMESTAMP_FILE'] = str(self.setting)
        self.set('+0')
        self.world.start()
        self.browser = Browser(self.world)

    def set(self, clock):
        """As faketime reads it. It takes the place of the old file, so that no half of it is read."""
        beside = self.setting.with_suffix('.new')
        beside.write_text(clock + '\n')
        beside.rename(self.setting)

    def test_house_is_kept_once_a_minute(self):
        self.browser.sign_in('ann', GATE)
        self.browser.get('login')
        self.set('+9h')
        time.sleep(70)
        self.world.stop()
        with contextlib.closing(sqlite3.connect(self.world.folder / 'data' / 'table.sqlite')) as database:
            held = [number for number, stored in database.execute('SELECT number, bytes FROM block WHERE number > 0') if stored[0]]
        self.assertEqual(held, [])

    def test_a_clock_that_jumps_stops_the_server_until_the_operator_says_it_is_right(self):
        self.browser.sign_in('ann')
        self.set('+20h')
        self.assertEqual(self.browser.get('validate').body, 'no\n')
        self.set('+3d')
        with contextlib.suppress(OSError, http.client.HTTPException):
            self.assertEqual(self.browser.get('validate').status, 503)
        self.assertEqual(self.world.process.wait(60), 1)
        self.assertRegex(self.world.log.read_text(), r"stopped: this machine's clock is 2 days beyond the table's.*pyhtirso clock-is-right")
        status, said = self.world.run('serve')
        self.assertEqual((status, 'beyond the table' in said), (78, True), said)
        self.assertEqual(self.world.run('clock-is-right'), (0, "the table's clock is this machine's\n"))
        self.world.start()
        self.browser.close()
        self.assertEqual(self.browser.sign_in('ann', GATE).status, 303)


if __name__ == '__main__':
    unittest.main(verbosity=2)
