"""The desk's tests. `bash tests/desk` runs them; expected text is written by hand from docs/RULE.md."""
import os
import shutil
import subprocess
import tempfile
import unittest

ROOT = os.path.dirname(os.path.dirname(os.path.dirname(os.path.realpath(__file__))))


class Case(unittest.TestCase):
    """A test with a folder of its own, in which the desk is run as people run it."""
    maxDiff = None

    def setUp(self):
        self.room = tempfile.mkdtemp()
        self.addCleanup(shutil.rmtree, self.room)
        self.programs = None

    def path(self, name):
        return os.path.join(self.room, name)

    def put(self, name, text):
        with open(self.path(name), 'wb') as file:
            file.write(text if isinstance(text, bytes) else text.encode('utf-8'))
        return name

    def get(self, name):
        with open(self.path(name), encoding='utf-8', newline='') as file:
            return file.read()

    def program(self, name, text):
        """A program in the place of one of ours, from now on."""
        self.programs = self.path('programs')
        os.makedirs(self.programs, exist_ok=True)
        path = os.path.join(self.programs, name)
        with open(path, 'w', encoding='utf-8') as file:
            file.write('#!/bin/bash\n' + text)
        os.chmod(path, 0o755)

    def desk(self, *words, stdout=subprocess.PIPE):
        """What the desk printed on standard output and on standard error, and its status."""
        given = dict(os.environ) if self.programs is None else dict(os.environ, RUSHGIRDLE_PROGRAMS=self.programs)
        ended = subprocess.run([os.path.join(ROOT, 'rushgirdle'), *words], stdout=stdout, stderr=subprocess.PIPE, cwd=self.room, env=given, check=False)
        return (ended.stdout or b'').decode('utf-8'), ended.stderr.decode('utf-8'), ended.returncode

    def refused(self, status, words, *command):
        """The command ends with the status, prints nothing, and says one sentence with the words in it. Answers that sentence."""
        out, said, ended = self.desk(*command)
        self.assertEqual((out, ended), ('', status), said)
        self.assertTrue(said.startswith('rushgirdle: ') and said.count('\n') == 1, said)
        for each in (words,) if isinstance(words, str) else words:
            self.assertIn(each, said)
        return said
