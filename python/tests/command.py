"""The command `cube`, run in a folder of the test's own, and the module on its path."""
import csv
import io
import os
import subprocess
import sys
import tempfile

HERE = os.path.dirname(os.path.abspath(__file__))
ROOT = os.path.join(HERE, '..', '..')
sys.path.insert(0, os.path.join(HERE, '..'))


def command():
    """The command that CUBE names; or else the one that cargo built, or that ./demo put into target/bin."""
    named = os.environ.get('CUBE')
    places = [named] if named else [os.path.join(ROOT, folder, 'cube') for folder in ('rust/target/release', 'target/bin')]
    found = [place for place in places if os.path.exists(place)]
    if not found:
        raise FileNotFoundError("no file %s: run 'cargo build --release' in rust/, or name the command in CUBE" % ' or '.join(places))
    return os.path.abspath(found[0])


class Folder(tempfile.TemporaryDirectory):
    def __enter__(self):
        return self

    def path(self, name):
        return os.path.join(self.name, name)

    def write(self, name, content):
        with open(self.path(name), 'wb') as file:
            file.write(content if isinstance(content, bytes) else content.encode())
        return self.path(name)

    def read(self, name):
        with open(self.path(name), 'rb') as file:
            return file.read()

    def run(self, *words):
        """Exit status, standard output and standard error."""
        ended = subprocess.run([command(), *map(str, words)], cwd=self.name, stdout=subprocess.PIPE, stderr=subprocess.PIPE)
        return ended.returncode, ended.stdout.decode(), ended.stderr.decode()

    def answer(self, *words):
        """The lines that the command prints with --csv behind the header, as fields."""
        status, out, error = self.run(*words, '--csv')
        assert status == 0, error
        return list(csv.reader(io.StringIO(out, newline='')))[1:]
