"""The audits of the parts of a deck, joined."""
from __future__ import annotations

import os
import random
from collections import Counter
from typing import Dict, List
from trying import Done, deck, snomon
from test_deck_split import Parts, job, sets


class Joined(Parts):
    def run_parts(self, *words: str) -> None:
        for name in sorted(os.listdir(self.path('parts'))):
            if name.endswith('.deck'):
                done = snomon(self.read('parts/' + name), *words, '--audit', self.path('parts/' + name.replace('.deck', '.audit')))
                self.assertEqual((done.status, done.err), (0, ''), name)
                self.write('parts/' + name.replace('.deck', '.out'), done.out)

    def join(self) -> Done:
        return deck('join', self.path('parts'), '--audit', '-o', self.path('joined'))

    def audit_is_joined(self) -> List[bytes]:
        """The joined audit has the whole one's lines: the same between two $DRAIN cards, and in the same order those of commands,
        those of each job, and those that say that a job enters."""
        self.run_parts()
        done = self.join()
        self.assertEqual((done.status, done.err), (0, ''))
        self.assertEqual(snomon(self.read('whole'), '--audit', self.path('audit')).status, 0)
        joined, whole = (self.read(name).splitlines() for name in ('joined', 'audit'))
        self.assertEqual(Counter(joined), Counter(whole))
        for of in (self.of_commands, self.entering):
            self.assertEqual(of(joined), of(whole))
        self.assertEqual(self.by_job(joined), self.by_job(whole))
        return joined

    @staticmethod
    def of_commands(lines: List[bytes]) -> List[bytes]:
        return [line for line in lines if line.startswith((b'COMMAND', b'RUN'))]

    @staticmethod
    def entering(lines: List[bytes]) -> List[bytes]:
        return [line for line in lines if line.startswith(b'JOB') and line.split(b' ')[3] in (b'LOADED', b'REFUSED')]

    @staticmethod
    def by_job(lines: List[bytes]) -> Dict[bytes, List[bytes]]:
        found: Dict[bytes, List[bytes]] = {}
        for line in lines:
            found.setdefault(line.split(b' ')[1], []).append(line)
        return found

    def test_jobs_have_their_numbers_in_the_whole_deck(self) -> None:
        self.whole(sets(b'A', b'B', b'C'), job(b'B') + job(b'A') + b'$LIST anna C\n$CREATE anna D\n$CATALOG lisa\n$DRAIN\n$LIST lisa A\n'
                   + job(b'B') + job(b'A', b'hugo') + b'$DRAIN\n$DELETE anna C\n$CATALOG lisa\n$CATALOG eve\n')
        self.assertEqual(self.split().out.count(b'\n'), 2)
        joined = self.audit_is_joined()
        self.assertEqual([line for line in joined if b' LOADED' in line], [b'JOB 1 lisa LOADED', b'JOB 2 lisa LOADED', b'JOB 3 lisa LOADED', b'JOB 4 hugo LOADED'])
        self.assertEqual([line for line in joined if b'CATALOG NAMES' in line], [b'COMMAND 0 lisa CATALOG NAMES 3', b'COMMAND 0 lisa CATALOG NAMES 2'])
        self.assertEqual(joined[-1], b'RUN 0 .NONE STOPPED')

    def test_random_decks(self) -> None:
        r, tried = random.Random(8), 0
        for _ in range(12):
            names = [b'S%d' % number for number in range(r.randint(2, 6))]
            stream = b''
            for _ in range(r.randint(3, 12)):
                name = r.choice(names)
                stream += r.choice([job(name), job(name, b'hugo'), job(b'GONE'), b'$LIST anna %b\n' % name, b'$DELETE anna %b\n' % name,
                                    b'$CREATE anna N%b\n' % name, b'$CATALOG lisa\n', b'$DRAIN\n', b'$SHOWACL hugo %b\n' % name,
                                    b'$JOB lisa\n X = \nEND\n$EOJ\n', b'$SETACL anna %b u::rw,g::r,o::-\n' % name])
            self.whole(sets(*names), stream)
            self.assertEqual(self.split().status, 0)
            tried += len(os.listdir(self.path('parts'))) > 2
            self.audit_is_joined()
            for part in os.listdir(self.path('parts')):
                os.remove(self.path('parts/' + part))
        self.assertGreater(tried, 4)
        self.seen = f'12 decks, {tried} of them cut into several'

    def test_an_audit_that_is_not_of_these_decks_is_refused(self) -> None:
        self.whole(sets(b'A', b'B'), job(b'B') + job(b'A') + b'$LIST anna A\n')
        self.split()
        self.run_parts()
        first, second = self.read('parts/1.audit'), self.read('parts/2.audit')
        for text, message in ((first.replace(b'RUN 0 .NONE STOPPED\n', b''), 'the line RUN 0 .NONE STOPPED is due, and the audit ends'),
                              (first.replace(b'STOPPED', b'REFUSED LINE 3 T1 BAD NAME'), 'the line RUN 0 .NONE STOPPED is due, and there is RUN 0 .NONE REFUSED'),
                              (first + first, 'nothing stands behind the end of a run'), (second, ''), (b'', 'job 1 of lisa is to enter here, and the audit ends'),
                              (first.replace(b'JOB 1 lisa LOADED', b'JOB 1 anna LOADED'), 'job 1 of lisa is to enter here, and there is JOB 1 anna LOADED'),
                              (first.replace(b'JOB 1 lisa E', b'JOB 2 lisa E'), ''), (first + b'x\n', 'an audit has no such line: x'),
                              (first[:-4], 'the file ends within this line')):
            self.write('parts/1.audit', text)
            done = self.join()
            self.assertEqual((done.status, done.out, os.path.exists(self.path('joined'))), (1, b'', False), text)
            self.assertIn(message, done.err)
        os.remove(self.path('parts/1.audit'))
        self.is_refused(self.join(), 'parts/1.audit: No such file or directory', 3)
