"""What README.md shows of the desk is what it prints."""
import os
import re
import subprocess

from . import Case, ROOT


class Readme(Case):
    def test_what_is_shown(self):
        with open(os.path.join(ROOT, 'README.md'), encoding='utf-8') as file:
            blocks = re.findall(r'^```\n(\$ \./rushgirdle.*?)^```$', file.read(), re.S | re.M)
        commands = [part for block in blocks for part in re.split(r'^\$ ', block, flags=re.M)[1:]]
        self.assertGreaterEqual(len(commands), 5)
        os.makedirs(os.path.join(ROOT, 'target'), exist_ok=True)
        for part in commands:
            command, shown = part.split('\n', 1)
            with self.subTest(command):
                ended = subprocess.run(['bash', '-c', command], cwd=ROOT, stdout=subprocess.PIPE, stderr=subprocess.STDOUT, text=True, check=False)
                self.assertEqual(ended.stdout.replace('\r', ''), shown)
