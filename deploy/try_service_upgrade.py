"""What try-service shows of `upgrade`: files of the versions 1, 2 and 3, later programs, and each way to fail."""
import hashlib
import os
import re
import shutil
import time

from old_bureau import make_old

FOLDER = '/var/lib/bureaus'
# Bureaus with files of the versions 1, 2 and 3.
OLD = {8104: 1, 8105: 2, 8106: 3}
# Programs of which one call fails, and what `upgrade` says then.
FAILING = {
    'migrate': ('bureau', 'exit 3', 'bureau migrate does not raise a copy of 8101'),
    'check': ('operator', 'echo "ACME 9: line 2 differs"; exit 1', 'operator check finds that in the raised copy of'),
    'serve': ('bureau', 'exit 2', 'has failed; journalctl -u bureau@8101'),
}
WRAPPER = """\
#!/bin/sh
[ "$1" != {call} ] || {{ {what}; }}
exec /usr/local/lib/{name} "$@"
"""


def digest(path):
    with open(path, 'rb') as file:
        return hashlib.sha256(file.read()).hexdigest()


class Upgrade:
    """The trials, over a machine whose bureaus 8101 to 8103 are served, the last one with a job ACME 9 that runs."""

    def __init__(self, machine, show, asked, answered):
        self.machine, self.show, self.asked, self.answered = machine, show, asked, answered
        self.root, self.digests = machine.root, {}

    def told(self, line):
        return self.machine.call(line)[1]

    def told_by(self, path):
        """What a bureau answers, once it listens."""
        got = self.answered(self.machine, path)
        return got if isinstance(got, dict) else {'said': got}

    def digests_of_old(self):
        """The digests of the old files, each with its log if there is one."""
        return {it: digest(f'{self.root}{FOLDER}/{it}') for it in sorted(os.listdir(f'{self.root}{FOLDER}'))
                if re.match('810[456][.]bureau', it)}

    def programs(self):
        return [digest(f'{self.root}/usr/local/bin/{it}') for it in ('bureau', 'operator')]

    def kept(self):
        return self.told(f'ls -d {FOLDER}/upgrade-* 2>/dev/null').split()

    def await_failed(self):
        """Until the services of the old files have failed."""
        for port in OLD:
            for _ in range(100):
                if self.told(f'systemctl is-active bureau@{port}') == 'failed\n':
                    break
                time.sleep(0.1)

    def make(self):
        """Old files with the job of 8103, and folders with later programs and with some that fail."""
        self.told('./backup 8103 /root/whole')
        self.told_by('8103/queue')
        for port, version in OLD.items():
            self.told(f'cd {FOLDER} && runuser -u bureau -- bureau init {port}.bureau')
            make_old(f'{self.root}/root/whole', f'{self.root}/old', version)
            # Written in place, so that it has its owner.
            with open(f'{self.root}/old', 'rb') as given, open(f'{self.root}{FOLDER}/{port}.bureau', 'wb') as taken:
                taken.write(given.read())
            os.remove(f'{self.root}/old')
            self.told(f'systemctl enable --now bureau@{port}')
        self.await_failed()
        found = self.told('systemctl is-active bureau@8104 bureau@8105 bureau@8106')
        self.show('services with files of the versions 1, 2 and 3 fail', found == 'failed\n' * 3, found)
        self.digests, self.first = self.digests_of_old(), self.programs()
        for folder in ('later', *FAILING):
            os.mkdir(f'{self.root}/root/{folder}')
            for name in ('bureau', 'operator'):
                shutil.copy(f'{self.root}/usr/local/bin/{name}', f'{self.root}/root/{folder}/{name}')
                # The same program, and another file.
                with open(f'{self.root}/root/{folder}/{name}', 'ab') as file:
                    file.write(b'later')
                shutil.copy(f'{self.root}/usr/local/bin/{name}', f'{self.root}/usr/local/lib/{name}')
        for call, (name, what, _) in FAILING.items():
            with open(f'{self.root}/root/{call}/{name}', 'w', encoding='ascii') as file:
                file.write(WRAPPER.format(call=call, what=what, name=name))

    def is_as_before(self):
        """Nothing where the files, the programs and the services are as before, else what is not."""
        found = []
        if self.digests_of_old() != self.digests:
            found.append(f'files {self.digests_of_old()} and not {self.digests}')
        if self.programs() != self.first:
            found.append('programs')
        if self.kept():
            found.append(f'{self.kept()}')
        for port in (8101, 8102, 8103):
            got = self.told_by(f'{port}/queue')
            if got.get('reply') != 'queue':
                found.append(f'{port} {got}')
        got = self.told_by('8103/c/ACME/j/9')
        if got.get('granted') != 20 or got.get('standing') != 'running':
            found.append(f'{got}')
        left = self.told('ls /usr/local/bin | grep -E "later|put"')
        return found + [left] if left else found

    def goes_on(self, port):
        """The job of a raised file stands as it stood, and goes on."""
        got = self.told_by(f'{port}/c/ACME/j/9')
        self.show(f'{port} is served, and its job stands as it did', got.get('granted') == 20, got)
        got = self.asked(self.machine, f'{port}/c/ACME/j/9/slice/2000', '-X POST')
        lines = self.asked(self.machine, f'{port}/c/ACME/j/9/lines')
        self.show('it goes on to its halt', isinstance(got, dict) and got.get('standing') == 'halted next 361'
                  and lines == 'HELLO\nWORLD\n', f'{got} {lines}')

    def go_back(self, kept, what):
        status, told = self.machine.call(f'./upgrade --back {kept}')
        self.show(f'`upgrade --back` {what}', status == 0 and 'are as before' in told, told)
        after = self.told(f'ls {kept}/after').split()
        self.told(f'rm -r {kept}')
        found = self.is_as_before()
        self.show('files, programs and services are as before', not found, found)
        return after

    def try_files(self):
        status, told = self.machine.call('./upgrade 8104 8105 8106')
        wanted = ''.join(f'{port}: version {version} to 4; jobs 1, 0 differ\n' for port, version in OLD.items())
        wanted += ''.join(f'{port}: answers\n' for port in OLD)
        self.show('`upgrade` raises files of the versions 1, 2 and 3', status == 0 and wanted in told, told)
        kept = re.search(r'upgrade --back (\S+) goes back', told)
        for port in OLD:
            self.goes_on(port)
        after = self.go_back(kept[1] if kept else '/nowhere', 'goes back to them')
        self.show('and keeps the raised ones', {f'{port}.bureau' for port in OLD} <= set(after), after)

    def try_failures(self):
        for call, (_, _, words) in FAILING.items():
            status, told = self.machine.call(f'WAIT=20 ./upgrade /root/{call}')
            found = self.is_as_before()
            self.show(f'where `{call}` of later programs fails it says so, and all is as before',
                      status == 1 and words in told and 'are as before' in told and not found, f'{found} {told}')
        path = f'{self.root}{FOLDER}/8106.bureau'
        with open(path, 'rb') as file:
            whole = file.read()
        with open(path, 'r+b') as file:
            file.truncate(len(whole) // 2)
        self.digests = self.digests_of_old()
        status, told = self.machine.call('./upgrade /root/later')
        found = self.is_as_before()
        self.show('where a file is cut all is as before, it and the others', status == 1 and not found
                  and 'are as before' in told, f'{found} {told}')
        with open(path, 'r+b') as file:
            file.write(whole)
        self.digests = self.digests_of_old()
        for words in ('', '--back', '8101 x', '/root/later 8101', '--back /root'):
            wanted = (1, 'is of no upgrade') if words == '--back /root' else (2, 'usage: upgrade ')
            status, told = self.machine.call(f'./upgrade {words}')
            self.show(f'`upgrade {words}` is refused', status == wanted[0] and wanted[1] in told, told)

    def try_busy_port(self):
        """A bureau that does not answer, before and after another one has taken a command."""
        # Something else has the port of 8104 until the call is over.
        hold = ('touch /tmp/hold; (python3 -c "import os, socket, time; '
                'door = socket.create_server((\'127.0.0.1\', 8104)); '
                '[time.sleep(0.1) for _ in range(6000) if os.path.exists(\'/tmp/hold\')]" '
                '>/dev/null 2>&1 &) ; sleep 1;')
        over = 'found=$?; rm /tmp/hold; sleep 1;'
        status, told = self.machine.call(f'{hold} WAIT=10 ./upgrade /root/later; {over} exit $found')
        found = self.is_as_before()
        self.show('where a bureau does not answer all is as before', status == 1 and not found
                  and '8104 does not answer within 10 s' in told, f'{found} {told}')
        put = 'curl -s -X PUT --data-binary @deck http://127.0.0.1:8105/c/ACME/j/7/object/4000/A'
        later = f'(for n in $(seq 2000); do {put} && break; sleep 0.1; done >/root/answer 2>&1 &) ;'
        status, told = self.machine.call(f'{hold} {later} WAIT=10 ./upgrade /root/later; {over} '
                                         'cat /root/answer; exit $found')
        self.show('where another one has taken a command by then, nothing is put back', status == 1
                  and '8105 has taken a command' in told and '"taken"' in told, told)
        got = self.told_by('8105/c/ACME/j/7')
        self.show('and what it took is there', got.get('standing') == 'running', got)
        kept = self.kept()
        after = self.go_back(' '.join(kept), 'goes back all the same')
        self.show('and keeps the file that took it', '8105.bureau' in after, after)

    def try_later(self):
        """Later programs for all bureaus, ended at many moments, and once not."""
        ended = []
        for signal in ('TERM', 'KILL'):
            for tenths in (1, 3, 5, 7, 9, 12, 15, 20, 25, 30):
                self.told(f'timeout -s {signal} {tenths / 10} ./upgrade /root/later')
                for kept in self.kept():
                    ended.append(signal)
                    # Where it has no `ports` nothing was done by then.
                    self.told(f'[ ! -e {kept}/ports ] || ./upgrade --back {kept}; rm -r {kept}')
                found = self.is_as_before()
                if found:
                    self.show(f'ended by {signal} after {tenths / 10} s all is as before', False, found)
        self.show('ended by TERM or KILL 20 times, and put back where that was not done, all is as before',
                  'KILL' in ended, ended)
        status, told = self.machine.call('./upgrade /root/later')
        wanted = [f'810{k}: version 4; ' for k in (1, 2, 3)] + [f'{it}: version {OLD[it]} to 4; ' for it in OLD]
        wanted += [f'{port}: answers\n' for port in range(8101, 8107)]
        self.show('`upgrade` gives all bureaus later programs', status == 0 and all(it in told for it in wanted), told)
        running = self.told('for p in 8101 8106; do m=$(systemctl show -p MainPID --value bureau@$p); '
                            'sha256sum </proc/$(cat /proc/$m/task/$m/children | tr -d " ")/exe; done')
        wanted = [digest(f'{self.root}/root/later/{it}') for it in ('bureau', 'operator')]
        self.show('and they run', running.split()[::2] == [wanted[0]] * 2 and self.programs() == wanted, running)
        for port in OLD:
            self.goes_on(port)
        self.go_back(' '.join(self.kept()), 'goes back to the programs too')

    def end(self):
        self.told('systemctl disable --now bureau@8104 bureau@8105 bureau@8106; systemctl reset-failed; '
                  f'rm -rf {FOLDER}/810[456].bureau* {FOLDER}/upgrade-* /root/whole')
