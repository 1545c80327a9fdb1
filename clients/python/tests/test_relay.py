"""rematch-serve: replies are those of the program, and what is no request is told back with its number and a reason."""
import json
import os
import re
import signal
import socket
import subprocess
import sys
import textwrap
import time
import unittest

import rematch
from rematch.to import relay
from support import CLIENTS, PROGRAM, Folder, needs, needs_speed
from test_session import FAKE  # sessions where the program has none

LONGEST = 1_048_576


def talked(lines, program=None, **environment):
    """The replies to lines, the last line of standard error, and the status."""
    given = dict(os.environ, REMATCH=program or FAKE, **environment)
    run = subprocess.run([sys.executable, os.path.join(CLIENTS, 'rematch-serve')], input=b'\n'.join(lines), stdout=subprocess.PIPE, stderr=subprocess.PIPE,
                         env=given, timeout=300)
    return [json.loads(line) for line in run.stdout.split(b'\n')[:-1]], run.stderr.decode().split('\n')[-2:-1], run.returncode


class Told(unittest.TestCase):
    def test_wrong_requests(self):
        """Each has its number where one can be read, and a reason; the sessions stay."""
        wrong = [(b'{}', None, 'op is one of'), (b'', None, 'empty'), (b'{"op":"next","id":1,"n":0}', 1, 'from 1 to 1000, not 0'),
                 (b'{"op":"next","id":7,"n":5000}', 7, 'not 5000'), (b'{"op":"pong","id":3}', 3, "'pong'"), (b'{"op":"close"}', None, 'id is missing'),
                 (b'{"op":"close","id":"a"}', None, "'a'"), (b'{"op":"close","id":-1}', None, '-1'), (b'{"op":"close","id":2,"more":1}', 2, "no 'more'"),
                 (b'{"op":"next","id":4,"n":1.0}', 4, '1.0'), (b'[1]', None, 'list'), (b'{"op":"close","id":5', 5, 'no JSON'),
                 (b'{"op":"open","id":6,"query":"\xff","doc":""}', 6, 'no UTF-8 at 29'), (b'\xef\xbb\xbf{"op":"close","id":8}', 8, 'no JSON'),
                 (b'[' * 100000, None, 'too deep'), (b'{"op":"close","id":4294967296}', None, '4294967296'),
                 (b'{"op":"next","id":true,"n":1}', None, 'True')]
        first = [b'{"op":"open","id":1,"query":"/!x{a}/","doc":"aba"}']
        last = [b'{"op":"next","id":1,"n":9}', b'{"op":"close","id":1}']
        replies, note, status = talked(first + [line for line, _, _ in wrong] + last)
        self.assertEqual((note, status, len(replies)), (['end'], 0, len(wrong) + 3))
        for (line, number, part), reply in zip(wrong, replies[1:]):
            self.assertEqual((reply['error'], reply.get('id')), ('request', number), line[:60])
            self.assertIn(part, reply['reason'], line[:60])
        self.assertEqual(replies[-2:], [{'id': 1, 'more': False, 'rows': [{'x': [0, 1]}, {'x': [2, 3]}]}, {'closed': True, 'id': 1}])

    def test_requests_that_are_too_long(self):
        """They cost one reply, and no session."""
        fits = b'{"op":"open","id":1,"query":"/!x{b}/","doc":"%s"}'
        fits %= b'a' * (LONGEST - len(fits) + 2)
        self.assertEqual(len(fits), LONGEST)
        long = fits.replace(b'aaaa', b'aaaab', 1).replace(b'"id":1', b'"id":2')
        replies, note, status = talked([fits, long, b'x' * (3 * LONGEST), b'{"op":"grow","id":1,"text":"b"}', b'{"op":"next","id":1,"n":1}'])
        self.assertEqual((note, status), (['end'], 0))
        self.assertEqual(replies[0], {'id': 1, 'variables': ['x']})
        self.assertEqual((replies[1]['error'], replies[1]['id']), ('request', 2))
        self.assertIn('this one has %d: open a part' % (LONGEST + 1), replies[1]['reason'])
        self.assertIn('this one has %d' % (3 * LONGEST), replies[2]['reason'])
        self.assertEqual([place for row in replies[4]['rows'] for place in row['x']], [replies[3]['bytes'] - 1, replies[3]['bytes']])

    def test_errors_of_the_program(self):
        replies, _, _ = talked([b'{"op":"open","id":1,"query":"/a**/","doc":""}', b'{"op":"next","id":1,"n":1}', b'{"op":"close","id":9}'])
        self.assertEqual(replies, [{'error': 'query: repeat after repeat at 3', 'id': 1}, {'error': 'not open', 'id': 1}, {'error': 'not open', 'id': 9}])

    def test_a_program_that_ends(self):
        """It is started anew for the next request."""
        replies, note, status = talked([b'{"op":"open","id":1,"query":"/a/","doc":""}'] * 2, FAKE='die')
        self.assertEqual((status, note), (0, ['end']))
        for reply in replies:
            self.assertEqual((reply['error'], reply['id']), ('ended', 1))
            self.assertIn('signal 9; its sessions are lost', reply['reason'])

    def test_words_and_a_program_that_is_not_there(self):
        run = subprocess.run([sys.executable, os.path.join(CLIENTS, 'rematch-serve'), 'x'], stdin=subprocess.DEVNULL, stderr=subprocess.PIPE)
        self.assertEqual((run.returncode, b'unrecognized arguments: x' in run.stderr), (2, True))
        run = subprocess.run([sys.executable, os.path.join(CLIENTS, 'rematch-serve')], stdin=subprocess.DEVNULL, stderr=subprocess.PIPE,
                             env=dict(os.environ, REMATCH='/no/program'))
        self.assertEqual((run.returncode, run.stderr), (1, b'REMATCH names no program: /no/program\n'))
        with self.assertRaises(rematch.ProgramNotFound):
            relay.Relay('/no/program')


    def test_bad_words(self):
        for words, status, part in ((['--seconds', '0'], 2, 'more than 0'), (['--seconds', 'x'], 2, 'invalid float'), (['--version'], 0, 'rematch ')):
            run = subprocess.run([sys.executable, os.path.join(CLIENTS, 'rematch-serve'), *words], stdin=subprocess.DEVNULL, stdout=subprocess.PIPE,
                                 stderr=subprocess.STDOUT, env=dict(os.environ, REMATCH=PROGRAM))
            self.assertEqual((run.returncode, part in run.stdout.decode()), (status, True), run.stdout)


@needs_speed
class Real(Folder):
    def test_replies_are_those_of_the_program(self):
        requests = [b'{"op":"open","id":%d,"query":"/!x{a+}/","doc":"aab"}' % k for k in range(66)]
        requests += [b'{"op":"next","id":%d,"n":2}' % k for k in range(66)] + [b'{"op":"grow","id":3,"text":"\\u00e9a"}', b'{"op":"next","id":3,"n":99}']
        straight = subprocess.run([PROGRAM, '--serve'], input=b'\n'.join(requests) + b'\n', stdout=subprocess.PIPE)
        self.assertEqual(talked(requests, PROGRAM)[0], [json.loads(line) for line in straight.stdout.split(b'\n')[:-1]])

    def test_a_surrogate_alone(self):
        reply = talked([b'{"op":"open","id":3,"query":"/a/","doc":"\\ud800"}'], PROGRAM)[0][0]
        self.assertEqual((reply['error'], reply['id'], reply['reason']), ('request', 3, 'the program does not know this request'))

    def test_a_request_that_takes_too_long(self):
        shown = relay.Relay(PROGRAM, seconds=0.5)
        heavy = json.dumps({'op': 'open', 'id': 4, 'query': '/!x{a*}/ where upper(x)', 'doc': 'a' * 500_000}).encode()
        reply = json.loads(shown.reply(heavy))
        if 'error' not in reply:  # which takes no time here; its rows do
            reply = json.loads(shown.reply(b'{"op":"next","id":4,"n":1000}'))
        self.assertEqual((reply.get('error'), reply.get('id')), ('ended', 4), str(reply)[:200])
        self.assertIn('took more than 0.5 seconds', reply['reason'])
        shown.seconds = 300
        self.assertEqual(shown.reply(b'{"op":"open","id":4,"query":"/a/","doc":""}'), b'{"id":4,"variables":[]}')
        self.assertEqual(shown.close(), 'end')

    def test_killed_from_outside(self):
        shown = relay.Relay(PROGRAM)
        self.assertEqual(shown.reply(b'{"op":"open","id":1,"query":"/a/","doc":""}'), b'{"id":1,"variables":[]}')
        os.kill(shown._process.pid, signal.SIGKILL)
        shown._process.wait()
        self.assertIn(b'signal 9', shown.reply(b'{"op":"next","id":1,"n":1}'))
        self.assertEqual(shown.reply(b'{"op":"next","id":1,"n":1}'), b'{"error":"not open","id":1}')
        self.assertEqual(shown.close(), 'end')


class OnASocket(Folder):
    """The two ways of clients/README.md: a process for each connection, whose sessions are its own."""

    def setUp(self):
        super().setUp()
        with open(os.path.join(CLIENTS, 'README.md'), encoding='utf-8') as file:
            self.page = file.read()
        self.environment = dict(os.environ, REMATCH=FAKE, PATH=os.pathsep.join([CLIENTS, os.environ['PATH']]))

    def asked(self, connection, *requests):
        connection.settimeout(120)
        connection.sendall(b''.join(json.dumps(request).encode() + b'\n' for request in requests))
        with connection.makefile('rb') as replies:
            return [json.loads(replies.readline()) for _ in requests]

    def test_as_systemd_begins_it(self):
        command, *words = re.search('^    ExecStart=(.*)$', self.page, re.M)[1].split()
        for part in ('Accept=yes', 'StandardInput=socket'):
            self.assertIn('    %s\n' % part, self.page)
        ours, theirs = socket.socketpair()
        with ours, subprocess.Popen([os.path.basename(command), *words], stdin=theirs, stdout=theirs, stderr=subprocess.PIPE, env=self.environment) as run:
            theirs.close()
            replies = self.asked(ours, {'op': 'open', 'id': 1, 'query': '/!x{a}/', 'doc': 'a'}, {'op': 'next', 'id': 1, 'n': 0}, {'op': 'next', 'id': 1, 'n': 1})
            self.assertEqual([reply.get('error') for reply in replies], [None, 'request', None])
            ours.shutdown(socket.SHUT_WR)
            self.assertEqual((run.wait(120), run.stderr.read()), (0, b'end\n'))

    @needs('socat')
    def test_socat(self):
        words = re.search('^    (socat .*)$', self.page, re.M)[1].replace('/run/rematch.sock', os.path.join(self.folder, 's')).split()
        with subprocess.Popen(words, env=self.environment, start_new_session=True, stderr=subprocess.DEVNULL) as run:
            try:
                opened = []
                for document in ('a', 'aa'):
                    connection = socket.socket(socket.AF_UNIX)
                    for _ in range(600):
                        try:
                            connection.connect(os.path.join(self.folder, 's'))
                            break
                        except OSError:
                            time.sleep(0.1)
                    opened.append(connection)
                    self.assertEqual(self.asked(connection, {'op': 'open', 'id': 1, 'query': '/!x{a}/', 'doc': document}), [{'id': 1, 'variables': ['x']}])
                found = [len(self.asked(connection, {'op': 'next', 'id': 1, 'n': 9})[0]['rows']) for connection in opened]
                self.assertEqual(found, [1, 2])
                for connection in opened:
                    connection.close()
            finally:
                os.killpg(run.pid, signal.SIGTERM)

    @needs('socat')
    def test_socat_with_clients_that_close_their_side(self):
        """They get their replies, also where the service starts slowly."""
        path = os.path.join(self.folder, 's')
        words = re.search('^    (socat .*)$', self.page, re.M)[1].replace('/run/rematch.sock', path).split()
        self.script('rematch-serve', '#!/bin/sh\nsleep 1.5\nexec %s %s\n' % (sys.executable, os.path.join(CLIENTS, 'rematch-serve')))
        environment = dict(self.environment, PATH=os.pathsep.join([self.folder, self.environment['PATH']]))
        with subprocess.Popen(words, env=environment, start_new_session=True, stderr=subprocess.DEVNULL) as run:
            try:
                ends = time.monotonic() + 60
                while not os.path.exists(path) and time.monotonic() < ends:
                    time.sleep(0.01)
                self.assertEqual(os.stat(path).st_mode & 0o777, 0o660)
                clients = [socket.socket(socket.AF_UNIX) for _ in range(6)]
                for client in clients:
                    client.connect(path)
                    client.sendall(b'{"op":"close","id":1}\n')
                    client.shutdown(socket.SHUT_WR)
                self.assertEqual([client.recv(100) for client in clients], [b'{"error":"not open","id":1}\n'] * 6)
                for client in clients:
                    client.close()
            finally:
                os.killpg(run.pid, signal.SIGTERM)

    @needs('systemctl')
    def test_the_socket_can_be_enabled(self):
        """Systemd takes the two units of the page."""
        units = os.path.join(self.folder, 'etc', 'systemd', 'system')
        os.makedirs(units)
        for name in ('rematch.socket', 'rematch@.service'):
            text = re.search(r'`%s`:\n\n((?:    .*\n|\n)+)' % re.escape(name), self.page)[1]
            self.file(os.path.join(units, name), textwrap.dedent(text))
        done = subprocess.run(['systemctl', '--root=' + self.folder, 'enable', 'rematch.socket'], stdout=subprocess.PIPE, stderr=subprocess.STDOUT)
        wanted = os.path.join(units, 'sockets.target.wants', 'rematch.socket')
        self.assertEqual((done.returncode, os.path.lexists(wanted)), (0, True), done.stdout)


if __name__ == '__main__':
    unittest.main()
