"""A Debian that systemd-nspawn boots, and what is shown of it: for scripts that try services and packages."""
import os
import signal
import subprocess
import sys
import time

PLACES = 'HOME=/root DEBIAN_FRONTEND=noninteractive PATH=/usr/local/sbin:/usr/local/bin:/usr/sbin:/usr/bin:/sbin:/bin'
NSPAWN = ['systemd-nspawn', '--register=no', '--keep-unit', '--settings=no', '--quiet', '--private-network']


class Shown:
    """What is to be shown: whether it is so, and how often."""

    def __init__(self):
        self.shown = self.missed = 0

    def show(self, what, is_so, found=''):
        self.shown, self.missed = self.shown + bool(is_so), self.missed + (not is_so)
        print(f'{what}: {"yes" if is_so else f"NO, {found}"}', flush=True)

    def end(self):
        """Prints how many were shown, and returns the status."""
        print(f'{self.shown} shown, {self.missed} not')
        return 1 if self.missed or not self.shown else 0


class Machine:
    """A root that systemd-nspawn boots, or in which it runs one line without a boot. Lines are those of a shell, in one
    folder of it; it has no network but its own."""

    def __init__(self, root, folder='/root'):
        self.root, self.folder, self.nspawn = root, folder, None

    def boot(self):
        with open(f'{self.root}.console', 'ab') as console:
            self.nspawn = subprocess.Popen([*NSPAWN, '--console=pipe', '--boot', '-D', self.root], stdout=console,
                                           stdin=subprocess.DEVNULL, stderr=console)
        for _ in range(600):
            if self.call('systemctl is-active multi-user.target')[0] == 0:
                return
            time.sleep(0.2)
        raise RuntimeError(f'the machine does not boot; its console is {self.root}.console')

    def leader(self):
        told = subprocess.run(['pgrep', '-P', str(self.nspawn.pid)], stdout=subprocess.PIPE, text=True, check=False)
        return told.stdout.split()[0] if told.stdout else None

    def run(self, words, line, seconds):
        words = [*words, '/bin/sh', '-c', f'export {PLACES}; cd {self.folder} && {line}']
        try:
            ran = subprocess.run(words, stdin=subprocess.DEVNULL, stdout=subprocess.PIPE, stderr=subprocess.STDOUT,
                                 timeout=seconds, env={'PATH': os.environ['PATH']}, check=False)
        except subprocess.TimeoutExpired as over:
            return 1, f'{(over.stdout or b"").decode(errors="replace")}no end in {seconds} seconds'
        return ran.returncode, ran.stdout.decode(errors='replace')

    def call(self, line, seconds=300):
        """The status and the output of a line in the booted machine."""
        leader = self.leader()
        if leader is None:
            return 1, 'no machine'
        return self.run(['nsenter', '-t', leader, '-m', '-u', '-i', '-n', '-p', '--'], line, seconds)

    def call_unbooted(self, line, seconds=600):
        """The same without a boot: no program but those of the line runs."""
        return self.run([*NSPAWN, '--pipe', '--as-pid2', '-D', self.root, '--'], line, seconds)

    def end(self, word='poweroff'):
        self.call(f'systemctl {word}')
        try:
            self.nspawn.wait(60)
        except subprocess.TimeoutExpired:
            self.nspawn.kill()


def missing_tools():
    """What these need and is not there, in words; nothing if all is. Told to end, a script ends its machine too."""
    for one in (signal.SIGTERM, signal.SIGHUP):
        signal.signal(one, lambda *_: sys.exit(1))
    paths = os.environ.get('PATH', '').split(':') + ['/usr/sbin', '/sbin']
    missing = [it for it in ('systemd-nspawn', 'nsenter', 'pgrep')
               if not any(os.access(f'{path}/{it}', os.X_OK) for path in paths)]
    return f'there is no {", ".join(missing)}' if missing else 'call it as root' if os.geteuid() else ''
