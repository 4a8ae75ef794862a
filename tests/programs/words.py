"""What the tables of all programs take: samples, texts of the documents, and words that more than one program says."""

import functools
import os
import re
import subprocess

ROOT = os.path.dirname(os.path.dirname(os.path.dirname(os.path.abspath(__file__))))
WRITE_FAILS = b'Error: standard output cannot be written\n\nCaused by:\n    No space left on device (os error 28)\n'


def read_fails(cause):
    return f'Error: the input cannot be read\n\nCaused by:\n    {cause}\n'.encode()


def program(name):
    """The path of a proved program."""
    return os.path.abspath(os.environ.get(f'VCUBE_{name.upper()}') or os.path.join(ROOT, 'target/bin', name))


@functools.cache
def usage(name):
    """What the program prints for --help. The table says what that must look like."""
    return subprocess.run([program(name), '--help'], stdout=subprocess.PIPE, check=False).stdout


@functools.cache
def sample(name):
    with open(os.path.join(ROOT, 'samples', name), 'rb') as file:
        return file.read()


@functools.cache
def document(name):
    with open(os.path.join(ROOT, name), encoding='utf-8') as file:
        return file.read()


def refusal(number):
    """The words of a refusal, as the table of docs/RULES.md has them."""
    row = re.search(rf'^\| {number} \| `\w+` \| (.*?)(?: \([^|]*\))? \| `', document('docs/RULES.md'), re.MULTILINE)
    return row.group(1)
