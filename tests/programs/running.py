"""How the tests run a program that was built for x86-64."""
import platform
import subprocess

from trying import ROOT

# On another processor Debian's emulator runs them, with the shared libraries of its cross compiler.
EMULATOR = [] if platform.machine() == 'x86_64' else ['qemu-x86_64', '-L', '/usr/x86_64-linux-gnu']


def command(name):
    """The words that start a program of Rattle that `rt` has built."""
    return [*EMULATOR, ROOT / 'crates' / name / 'out' / name]


def run(name, *words, **options):
    """What such a program writes with these arguments."""
    return subprocess.run([*command(name), *words], stdout=subprocess.PIPE, check=True, **options).stdout.decode()
