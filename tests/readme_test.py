"""The README's examples, word for word: each command and program is run, and prints what the README says."""
import doctest
import io
import os
import re
import shlex
import subprocess
import tempfile
import unittest
from contextlib import redirect_stdout

import built

quote = built.program('quote')
with open(os.path.join(built.ROOT, 'README.md'), encoding='utf-8') as readme:
    README = readme.read()
BLOCKS = re.findall(r'^```(\w*)\n(.*?)^```$', README, re.M | re.S)


def block(language):
    """The one block of a language."""
    found, = [text for kind, text in BLOCKS if kind == language]
    return found


def printed(command):
    """What a program of the repository prints, run at its root."""
    return subprocess.run(command, cwd=built.ROOT, stdout=subprocess.PIPE, text=True, check=True).stdout


def file_text(*path):
    with open(os.path.join(built.ROOT, *path), encoding='utf-8') as file:
        return file.read()


@built.needs_library
class Examples(unittest.TestCase):
    def test_quotes(self):
        quotes = [(command, said) for (kind, command), (_, said) in zip(BLOCKS, BLOCKS[1:]) if kind == 'sh' and './quote' in command]
        self.assertEqual(len(quotes), 6)
        for command, said in quotes:
            words = shlex.split(command.partition('./quote ')[2])
            paths = [os.path.join(built.ROOT, word) if word.startswith('examples/') else word for word in words]
            out = built.Printed()
            with self.subTest(command.strip()), redirect_stdout(out):
                self.assertEqual(quote.main(paths), 0)
                self.assertEqual(out.getvalue(), said)

    def test_python(self):
        test = doctest.DocTestParser().get_doctest(block('python'), {}, 'README.md', 'README.md', 0)
        said = io.StringIO()
        failed, tried = doctest.DocTestRunner().run(test, out=said.write)
        self.assertEqual((failed, tried, said.getvalue()), (0, 5, ''))

    def test_c(self):
        self.assertEqual(block('c'), file_text('bindings', 'c', 'quote.c'))
        command, output = re.search(r'`(cc .*?) -o target/quote && target/quote` builds .* prints `(.*?)`', README).groups()
        with tempfile.TemporaryDirectory() as folder:
            program = os.path.join(folder, 'quote')
            printed([*shlex.split(command), '-std=c99', '-Wall', '-Wextra', '-Werror', '-o', program])
            self.assertEqual(printed([program]), output + '\n')

    def test_rust(self):
        self.assertEqual(block('rust'), file_text('bindings', 'rust', 'examples', 'quote.rs'))
        command, output = re.search(r'`(cargo [^`]*)` in its folder builds .* prints `(.*?)`', README).groups()
        words = [*shlex.split(command), '--quiet', '--offline', '--manifest-path', os.path.join('bindings', 'rust', 'Cargo.toml')]
        self.assertEqual(printed(words), output + '\n')

    def test_how_many_crates_are_proved(self):
        said = re.search(r'proves the (\d+) crates of the library', README).group(1)
        uses = dict(re.findall(r'^(\w+)(?: staticlib)?:(.*)$', file_text('crates.txt'), re.M))
        taken, left = set(), ['nosingcatnip']
        while left:
            name = left.pop()
            if name in uses and name not in taken:
                taken.add(name)
                left += uses[name].split()
        self.assertEqual(said, str(len(taken)))


if __name__ == '__main__':
    unittest.main()
