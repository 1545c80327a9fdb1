"""Sessions: queries of many documents in one run, documents that grow, refusals, servers that die."""
import json
import os
import random
import subprocess
import tempfile
import threading
import unittest
from unittest import mock

import rematch
from rematch import session as sessions
from support import HERE, PROGRAM, children
import fake_server

FAKE = os.path.join(HERE, 'fake_server.py')


def serves(program):
    run = subprocess.run([program, '--serve'], stdin=subprocess.DEVNULL, stdout=subprocess.PIPE, stderr=subprocess.PIPE)
    return (run.returncode, run.stdout, run.stderr) == (0, b'', b'end\n')


class Sessions:
    """What holds of each server."""

    program = FAKE

    def setUp(self):
        self.before = children()
        self.server = rematch.Server(self.program)
        self.addCleanup(self.end)

    def end(self):
        self.server.close()
        self.assertEqual(children(), self.before)

    def test_rows_are_those_of_a_query(self):
        pick = random.Random(1)
        for text in ('/!x{a+}!y{b*}/', '/(!x{a})?!y{.}/u', '/!x{[^a]}/u union /!y{é}/', '/ab/'):
            served, query = self.server.query(text), rematch.Query(text)
            self.assertEqual(served.variables, query.variables)
            for _ in range(4):
                document = ''.join(pick.choice('ab\té"\\\x00\U0001f600') for _ in range(pick.randrange(8)))
                for given in (document, document.encode()):
                    found, wanted = served.findall(given), query.findall(given)
                    self.assertEqual([(match.row, match.spandict(), match.groupdict(), match.cursor) for match in found],
                                     [(match.row, match.spandict(), match.groupdict(), match.cursor) for match in wanted], (text, given))
                    self.assertEqual((served.count(given), served.any(given)), (len(wanted), bool(wanted)))

    def test_many_texts(self):
        """`map` gives what `findall` gives of each; what is no text is refused in its place."""
        query, texts = self.server.query('/!x{a+}!y{b*}/'), ['aab', '', 'b', 'é', 'ab' * 9]
        self.assertEqual([[match.row for match in found] for found in query.map(texts)],
                         [[match.row for match in query.findall(text)] for text in texts])
        rest = query.map(['a', 7])
        self.assertEqual(len(next(rest)), 1)
        with self.assertRaisesRegex(TypeError, 'text 1 is a str or bytes, not int'):
            next(rest)

    def test_two_sessions(self):
        with self.server.open('/!x{a}/', 'aa') as first, self.server.open('/!x{a}/', 'ba') as second:
            self.assertEqual([match.span('x') for match in first.next(1)], [(0, 1)])
            self.assertTrue(first.more)
            self.assertEqual([match.span('x') for match in second.next(5)], [(1, 2)])
            self.assertFalse(second.more)
            self.assertEqual([match.span('x') for match in first], [(1, 2)])
            self.assertEqual((first.more, list(first), first.next(3)), (False, [], []))

    def test_growing(self):
        with self.server.open('/!x{ab}/', 'a') as session:
            self.assertEqual(session.next(5), [])
            session.append('bab')
            self.assertEqual(([match.span('x') for match in session.next(5)], session.length), ([(0, 2), (2, 4)], 4))
        with self.server.open('/!x{a}$/', b'a') as session:
            rows = session.next(5)
            session.append(b'a')
            self.assertEqual([match.span('x') for match in rows + session.next(5)], [(0, 1), (1, 2)])

    def test_growing_text_counts_characters(self):
        with self.server.open('/!x{[aé]}/u', 'a') as session:
            found = list(session)
            for part in ('b', 'é', '', '漢a', 'é'):
                session.append(part)
            rows = list(session)
            self.assertEqual([(match.span('x'), match['x']) for match in rows], [((0, 1), 'a'), ((2, 3), 'é'), ((4, 5), 'a'), ((5, 6), 'é')])
            self.assertEqual(found[0].groupdict(), {'x': 'a'})
            whole = rematch.Query('/!x{[aé]}/u').findall('abé漢aé')
            self.assertEqual([match.cursor for match in rows], [match.cursor for match in whole])
            self.assertIn('rm-text', rows[1]._repr_html_())
            with self.assertRaises(TypeError):
                session.append(b'a')

    def test_refused_queries(self):
        for text, kind, offset in (('/a/ join /b**/', 'repeat after repeat', 12), ('/!x{a}!x{a}/', 'variable twice', None)):
            with self.assertRaises(rematch.QueryError) as caught:
                self.server.query(text)
            self.assertEqual((caught.exception.kind, caught.exception.offset), (kind, offset))
            self.assertIn('hint: ', str(caught.exception))
        with self.assertRaisesRegex(rematch.SizeError, '20000 states'):
            self.server.open('/(a{1000}){20}/')
        with self.assertRaises(rematch.QueryError):
            self.server.open(b'/\xff/')
        self.assertEqual(self.server.query('/!x{a}/').count('a'), 1)

    def test_documents_that_are_no_text(self):
        for document in (b'a\xff', 'a\ud800'):
            with self.assertRaisesRegex(rematch.DocumentError, 'UTF-8'):
                self.server.query('/!x{a}/').findall(document)

    def test_closed(self):
        session = self.server.open('/!x{a}/', 'a')
        session.close()
        session.close()
        for ask in (session.next, lambda: session.append('a')):
            with self.assertRaisesRegex(rematch.SessionError, 'not open'):
                ask()
        with self.assertRaises(ValueError):
            session.next(1001)
        self.server.close()
        self.server.close()
        with self.assertRaisesRegex(rematch.SessionError, 'closed'):
            self.server.query('/!x{a}/')

    def test_left_early(self):
        served = self.server.query('/!x{a}/')
        for _ in range(70):
            rows = served.finditer('aaa')
            next(rows)
            rows.close()

    def test_full(self):
        held = [self.server.open('/!x{a}/', 'a') for _ in range(64)]
        with self.assertRaisesRegex(rematch.SessionError, '64 sessions are open'):
            self.server.open('/!x{a}/', 'a')
        held[7].close()
        self.assertEqual(len(self.server.open('/!x{a}/', 'a').next()), 1)

    def test_threads(self):
        served = self.server.query('/!x{a+}/')
        found = []

        def ask(k):
            found.append((k, served.count('a' * k)))
        threads = [threading.Thread(target=ask, args=(k,)) for k in range(2, 8)]
        for thread in threads:
            thread.start()
        for thread in threads:
            thread.join()
        self.assertEqual(sorted(found), [(k, k * (k + 1) // 2) for k in range(2, 8)])

    def test_longer_than_a_request(self):
        """A document is sent in parts where it does not fit one request, also in the middle of what JSON escapes."""
        document = 'a\x00é' * 400 + 'b'
        with mock.patch.object(sessions, 'LONGEST_REQUEST', 600), mock.patch.object(sessions, '_PART', 50):
            with self.server.open('/!x{b}/', document) as session:
                self.assertEqual([(match.span('x'), match['x']) for match in session], [((1200, 1201), 'b')])
            with self.server.open('/!x{b}/', document.encode()) as session:
                self.assertEqual(session.next()[0].span('x'), (1600, 1601))
            with self.assertRaisesRegex(rematch.DocumentError, 'request longer'):
                self.server.open('/[%s]/' % ('a' * 600))

    def test_no_longer_than_a_session_has(self):
        with self.server.open('/!x{b}/', 'b') as session:
            with self.assertRaisesRegex(rematch.DocumentError, 'longer than 16777216 bytes'):
                session.append('é' * 8388608)
            self.assertEqual((session.length, len(session.next())), (1, 1))

    def test_requests_that_are_none(self):
        with self.assertRaisesRegex(rematch.SessionError, 'does not know this request'):
            self.server._ask({'op': 'what', 'id': 1}, b'')
        with self.assertRaisesRegex(rematch.SessionError, 'not open'):
            self.server._ask({'op': 'next', 'id': 77, 'n': 1}, b'')


    def test_requests_told_back(self):
        """What is no request is not sent, and a fault has its request and says why."""
        for request, reason in (({'op': 'what', 'id': 1}, "op is one of open, next, grow, close, not 'what'"), ([1], 'not list'),
                                ({'op': 'next', 'id': 'a', 'n': 1}, "id is a whole number from 0 to 4294967295, not 'a'"),
                                ({'op': 'next', 'id': 1, 'n': 5000}, 'n is a whole number from 1 to 1000, not 5000'),
                                ({'op': 'next', 'id': 1}, 'next has the members op, id, n, and n is missing'),
                                ({'op': 'close', 'id': 1, 'n': 2}, "close has the members op, id, and no 'n'"),
                                ({'op': 'next', 'id': True, 'n': 1}, 'not True'), ({'op': 'grow', 'id': 1, 'text': b'a'}, 'text is a str, not bytes'),
                                ({'op': 'grow', 'id': 1, 'text': '\ud800'}, 'no UTF-8')):
            with self.assertRaisesRegex(rematch.SessionError, '^no request: (.|\n)*in the request ') as caught:
                self.server.ask(request)
            self.assertIn(reason, str(caught.exception))
            self.assertEqual(caught.exception.request, request)
        with self.assertRaisesRegex(rematch.DocumentError, 'request longer than 1048576 bytes'):
            self.server.ask({'op': 'open', 'id': 1, 'query': '/a/', 'doc': 'a' * 1048576})
        with self.assertRaisesRegex(rematch.SessionError, "the session is not open\nin the request {'op': 'close', 'id': 9}") as caught:
            self.server.ask({'op': 'close', 'id': 9})
        self.assertEqual(caught.exception.request['id'], 9)
        with self.assertRaises(rematch.QueryError) as caught:
            self.server.ask({'op': 'open', 'id': 1, 'query': '/a**/', 'doc': ''})
        self.assertEqual((caught.exception.request['id'], caught.exception.column), (1, 4))
        self.server.ask({'op': 'open', 'id': self.server._numbers + 1, 'query': '/!x{a}/', 'doc': 'a'})
        with self.server.open('/!x{a}/', 'aa') as session:  # with another number
            self.assertEqual(len(session.next()), 2)
        with self.assertRaisesRegex(rematch.SessionError, 'a session with this id is open'):
            self.server.ask({'op': 'open', 'id': self.server._numbers - 1, 'query': '/!x{a}/', 'doc': 'a'})
        self.assertEqual(self.server.restarts, 0)

    def test_killed(self):
        """A server that dies is started anew; its sessions say that they are lost, and nothing else is."""
        served, session = self.server.query('/!x{a}/'), self.server.open('/!x{a}/', 'aa')
        self.server.kill()
        with self.assertRaisesRegex(rematch.ProgramError, "signal 9\nin the request {'op': 'next', ") as caught:
            session.next(1)
        self.assertEqual((caught.exception.status, caught.exception.request['id']), (-9, session._number))
        with self.assertRaisesRegex(rematch.SessionError, 'the session is lost with its server, which ended by signal 9: open it anew'):
            session.next(1)
        self.assertEqual((served.count('aa'), self.server.restarts), (2, 1))
        for ask in (session.next, lambda: session.append('a')):
            with self.assertRaisesRegex(rematch.SessionError, 'the session is lost with its server: open it anew'):
                ask()
        session.close()
        first, second = self.server.open('/!x{a}/', 'aa'), self.server.open('/!x{a}/', 'aa')
        self.server.kill()
        first.close()
        with self.assertRaisesRegex(rematch.SessionError, 'lost with its server, which ended by signal 9'):
            second.next()
        self.assertEqual((served.count('aa'), self.server.restarts), (2, 2))
        self.server.kill()
        self.server._process.wait()
        self.assertEqual((served.count('aa'), self.server.restarts), (2, 3))


class Fake(Sessions, unittest.TestCase):
    """Over sessions of the reference."""


@unittest.skipUnless(serves(PROGRAM), 'the program has no sessions')
class Real(Sessions, unittest.TestCase):
    """Over those of the program."""

    program = PROGRAM

    def test_replies_are_those_of_the_reference(self):
        """The fake answers as the program does, so that tests over it say something."""
        pick, lines = random.Random(2), [b'{}', b'x', b'', b'[1]']
        for _ in range(200):
            number = pick.randrange(4)
            text = ''.join(pick.choice('ab\n') for _ in range(pick.randrange(5)))
            lines.append(json.dumps(pick.choice([
                {'op': 'open', 'id': number, 'query': pick.choice(['/!x{a+}/', '/(!x{a})?!y{b}/', '/a', '/a/']), 'doc': text},
                {'op': 'next', 'id': number, 'n': pick.choice([1, 2, 1000, 0, 1001])}, {'op': 'close', 'id': number},
                {'op': 'next', 'id': number, 'n': 3}, {'op': 'grow', 'id': number, 'text': text}, {'op': 'next', 'id': number}])).encode())
        run = subprocess.run([PROGRAM, '--serve'], input=b'\n'.join(lines) + b'\n', stdout=subprocess.PIPE, stderr=subprocess.PIPE)
        server = fake_server.Server()
        self.assertEqual(run.stdout.decode().splitlines(), [json.dumps(server.reply(line), separators=(',', ':')) for line in lines])
        self.assertEqual((run.returncode, run.stderr), (0, b'end\n'))


class Dying(unittest.TestCase):
    """Servers that die or that answer wrongly: a clear error, and no process is left."""

    def server(self, fault):
        with mock.patch.dict(os.environ, FAKE=fault):
            return rematch.Server(FAKE)

    def check(self, fault, kind, note):
        before = children()
        server = self.server(fault)
        with self.assertRaisesRegex(kind, note):
            server.query('/!x{a}/').findall('a')
        server.close()
        self.assertEqual(children(), before)

    def test_each(self):
        self.check('die', rematch.ProgramError, 'signal 9')
        self.check('end', rematch.ProgramError, 'ended before it answered')
        self.check('garbage', rematch.ProgramError, 'no reply')
        self.check('other', rematch.ProgramError, 'another request')
        self.check('memory', rematch.OutOfMemory, 'out of memory')
        self.check('size: table past 1000000', rematch.SizeError, 'max_table')

    def test_closed_by_the_server(self):
        with self.server('memory') as server:
            session = server.open('/!x{a}/', 'a')
            with self.assertRaises(rematch.OutOfMemory):
                session.next()
            with self.assertRaisesRegex(rematch.SessionError, 'not open'):
                session.next()

    def test_no_server(self):
        with self.assertRaises(rematch.ProgramNotFound):
            rematch.Server('/no/such/program')
        server = rematch.Server('/bin/true')
        with self.assertRaisesRegex(rematch.ProgramError, 'does it know --serve'):
            server.query('/a/')
        server = rematch.Server('/bin/false')
        with self.assertRaisesRegex(rematch.ProgramError, 'status 1'):
            server.query('/a/')

    def test_a_program_without_sessions(self):
        with tempfile.TemporaryDirectory() as folder:
            path = os.path.join(folder, 'older')
            with open(path, 'w') as file:
                file.write('#!/bin/sh\necho bad command line >&2\nexit 2\n')
            os.chmod(path, 0o755)
            server = rematch.Server(path)
            with self.assertRaisesRegex(rematch.ProgramError, 'knows no sessions'):
                server.query('/a/')

    def test_dropped(self):
        before = children()
        server = rematch.Server(FAKE)
        session = server.open('/!x{a}/', 'a')
        del server, session
        self.assertEqual(children(), before)


if __name__ == '__main__':
    unittest.main()
