"""What try-service shows of what watches over the bureaus: who may ask, health, backups, failures, and full disks."""
import os
import re
import time

# A mailer that keeps what it gets, in a machine.
MAILER = """\
#!/bin/sh
{ echo "to $*" && cat; } >>/root/mail
"""


def put(machine, path, text):
    with open(f'{machine.root}{path}', 'w', encoding='utf-8') as file:
        file.write(text)
    os.chmod(f'{machine.root}{path}', 0o755)


def mails(machine):
    """What the mailer was given since it was asked last."""
    told = machine.call('sleep 2; cat /root/mail 2>/dev/null; rm -f /root/mail')[1]
    return [f'to {it}' for it in told.split('to root\n')[1:]]


def status_of(machine, path, *more, user='root'):
    """The status of an answer, 000 where there is none."""
    return machine.call(f"runuser -u {user} -- curl -s -m 20 -o /dev/null -w '%{{http_code}}' {' '.join(more)} "
                        f'http://127.0.0.1:{path}')[1]


class Watching:
    """The trials, over a machine whose bureaus 8101 to 8103 are served."""

    def __init__(self, machine, show, answered):
        self.machine, self.show, self.answered = machine, show, answered

    def told(self, line):
        return self.machine.call(line)[1]

    def guests(self):
        return [status_of(self.machine, f'{port}/queue', user='guest') for port in (8101, 8102, 8103)]

    def begin(self, lines):
        self.told("adduser --disabled-password --gecos '' guest; systemctl disable --now haproxy")
        put(self.machine, '/usr/sbin/sendmail', MAILER)
        found = self.guests()
        self.show('any user of the machine is answered', found == ['200'] * 3, found)
        for line in lines:
            status, told = self.machine.call(line)
            self.show(f'`{line}`', status == 0, told)
        self.look_at_timers('')

    def try_ports(self, password):
        found = self.guests()
        self.show('now no other user is', found == ['000'] * 3, found)
        for user in ('root', 'bureau', 'www-data'):
            found = status_of(self.machine, '8103/queue', user=user)
            self.show(f'{user} is', found == '200', found)
        found = status_of(self.machine, '8080/c/ACME/j/9', f'-u ACME:{password}', user='guest')
        self.show('and a customer behind the proxy', found == '200', found)
        self.told('nft flush ruleset')
        found = self.guests()
        self.show('without the ruleset any user is', found == ['200'] * 3, found)
        for line in ('restart bureau-ports', 'restart nftables', 'reload nftables'):
            self.told(f'systemctl start nftables; nft flush ruleset; systemctl {line}')
            # systemctl waits for the named unit alone.
            self.told('for n in $(seq 50); do nft list table inet bureaus && break; sleep 0.1; done')
            found = self.guests()
            self.show(f'after `systemctl {line}` no other is', found == ['000'] * 3, found)

    def look_at_timers(self, when):
        """That they run. Then they are stopped, as what they begin would be in the way of the trials."""
        units = 'bureau-backup.timer bureau-health.timer'
        told = self.told(f'systemctl is-active {units}; systemctl stop {units}')
        self.show(f'the timers run{when}', told == 'active\nactive\n', told)

    def after_boot(self):
        found = self.guests()
        self.show('after a boot no other user is answered', found == ['000'] * 3, found)
        self.look_at_timers(' after it')

    def try_monitor(self):
        password = self.told('./customer MONITOR1 bureau_8101; systemctl reload nginx').split()[1]
        asked = self.told(f'sleep 1; curl -s -u MONITOR1:{password} http://127.0.0.1:8080/c/MONITOR1/jobs')
        self.show('a monitor asks through the proxy', asked == '{"jobs":[],"reply":"jobs"}', asked)
        found = status_of(self.machine, '8080/c/MONITOR1/jobs', '-u MONITOR1:other')
        self.show('with a wrong password it gets 401', found == '401', found)
        self.told('systemctl stop bureau@8101')
        found = status_of(self.machine, '8080/c/MONITOR1/jobs', f'-u MONITOR1:{password}')
        self.told('systemctl start bureau@8101')
        self.show('where the bureau is down it gets 502', found == '502', found)
        self.answered(self.machine, '8101/queue')
        found = status_of(self.machine, '8101/queue', '-I')
        self.show('a HEAD gets 405', found == '405', found)

    def health(self, line, wanted, *words):
        """The status of `bureau-health`, called by a line, and words that it prints."""
        status, told = self.machine.call(line)
        self.show(f'`{line}` has status {wanted}', status == wanted and all(it in told for it in words), told)

    def try_health(self):
        status, told = self.machine.call('bureau-health')
        one = r'810{}: status 200 after 0\.\d+ s; \d+ bytes; copied 0 h ago\n'
        self.show('`bureau-health` has a line for each bureau',
                  status == 0 and re.fullmatch(''.join(one.format(k) for k in (1, 2, 3)), told), told)
        self.told('systemctl stop bureau@8102')
        self.health('bureau-health 8102', 1, 'it does not answer', 'journalctl -u bureau@8102')
        self.told('systemctl start bureau@8102')
        self.answered(self.machine, '8102/queue')
        self.told('systemctl kill -s STOP bureau@8102')
        self.health('WITHIN=2 bureau-health 8102', 1, 'status 000 after 2.', 'it does not answer')
        self.told('systemctl kill -s CONT bureau@8102')
        self.health('AGE=0 bureau-health 8102', 1, 'its newest copy is 0 h old or more')
        self.health('BACKUPS=/tmp bureau-health 8102', 1, 'there is no copy of it in /tmp')
        self.health('bureau-health 8199', 1, 'there is no /var/lib/bureaus/8199.bureau')
        self.health('BUREAUS=/root UNIT=none bureau-health', 3, 'there is no bureau in /root')
        self.health('bureau-health 8102', 0, 'status 200')

    def try_failures(self):
        """What a timer begins is told of once while it fails, and again once it was well."""
        mails(self.machine)
        found = []
        for line in ('systemctl stop bureau@8102', ':', 'systemctl start bureau@8102', 'systemctl stop bureau@8102'):
            self.told(line)
            if 'start' in line:
                self.answered(self.machine, '8102/queue')
            self.told('systemctl start bureau-health')
            found.append(mails(self.machine))
        self.told('systemctl start bureau@8102')
        self.answered(self.machine, '8102/queue')
        self.told('systemctl start bureau-health')
        self.show('a service of a timer that fails is told of, once, and again when it was well',
                  [len(it) for it in found] == [1, 0, 0, 1], found)
        words = 'Subject: bureau-health.service failed on ', '8102: it does not answer; journalctl -u bureau@8102'
        self.show('the mail has the unit, the cause and where to look', all(it in str(found[0]) for it in words), found)
        self.told('rm -f /root/told; echo "TELL=sed 1s/^/told:/ >/root/told" >>/etc/default/puckersilt; '
                  'systemctl start bureau-failed@bureau-sizes.service.service')
        told = self.told('cat /root/told; rm /etc/default/puckersilt; rm -f /run/bureau-failed/*')
        self.show('TELL may name another command', told.startswith('told:Subject: bureau-sizes.service failed'), told)

    def try_backups(self):
        """The copies that the timer's service makes and drops, over those of two years that are made up."""
        folder = '/var/backups/bureaus'
        self.told(f'rm {folder}/8101-*; for y in 2024 2025; do for m in 01 02 03 04 05 06 07 08 09 10 11 12; do '
                  f'for d in 03 04 28; do : >{folder}/8101-$y-$m-${{d}}T031000.bureau; done; done; done; '
                  f': >{folder}/8101-2025-12-28T040000.bureau; : >{folder}/8101-mine.bureau; sleep 1')
        status, told = self.machine.call('systemctl start bureau-backup')
        left = self.told(f'cd {folder} && ls 8101-*').split()
        today = [it for it in left if not re.match('8101-(2024|2025|mine)', it)]
        # Thirteen days beside this one, and eleven months beside this one.
        days = [f'8101-2025-{m:02}-{d:02}T031000.bureau' for m in (9, 10, 11, 12) for d in (3, 4, 28)]
        days = ['8101-2025-08-28T031000.bureau', *days[:-1], '8101-2025-12-28T040000.bureau']
        months = [f'8101-2025-{m:02}-03T031000.bureau' for m in range(2, 13)]
        wanted = sorted({*days, *months, *today, '8101-mine.bureau'})
        self.show('the backup keeps 14 days and 12 months', status == 0 and len(today) == 1 and left == wanted, left)
        status, told = self.machine.call('BUREAUS=/root bureau-backup --all')
        self.show('where no bureau is there the backup fails', status == 1 and 'there is no bureau in /root' in told,
                  told)
        self.told('cd /var/lib/bureaus && echo no bureau >8100.bureau && cp 8100.bureau 8101a.bureau')
        mails(self.machine)
        status, told = self.machine.call('systemctl start bureau-backup; journalctl -u bureau-backup -o cat -n 40; '
                                         f'ls {folder}/8103-* | wc -l')
        self.show('where one can\'t be copied the others are, and the service fails',
                  told.endswith('\n2\n') and 'no good copy of 8100' in told, told)
        told = mails(self.machine)
        self.show('which is told', len(told) == 1 and 'no good copy of 8100' in told[0], told)
        self.told(f'rm /var/lib/bureaus/8100.bureau /var/lib/bureaus/8101a.bureau {folder}/8101-20* '
                  f'{folder}/8101-mine.bureau; systemctl start bureau-backup; systemctl reset-failed')

    def try_full_disk(self):
        """A bureau whose file leads to a small disk that is full."""
        port, folder = 8107, '/var/lib/bureaus/full'
        self.told(f'mkdir {folder} && mount -t tmpfs -o size=400k,mode=700,uid=bureau,gid=bureau small {folder} && '
                  f'cd {folder} && runuser -u bureau -- bureau init {port}.bureau && cd .. && '
                  f'ln -s full/{port}.bureau {port}.bureau && dd if=/dev/zero of={folder}/filler bs=4k 2>/dev/null')
        journal = f'journalctl -u bureau@{port} -o cat --since @{self.told("date +%s").strip()}'
        self.told(f'systemctl start bureau@{port}; for n in $(seq 400); do systemctl -q is-active bureau@{port} && '
                  f'[ $({journal} | grep -c "called again") -lt 3 ] || break; sleep 0.5; done')
        told = self.told(f'systemctl show -p NRestarts --value bureau@{port}; '
                         f'systemctl is-active bureau@{port}; {journal}')
        pauses = re.findall(r'called again after (\d+) s', told)
        self.show('on a full disk a bureau is called again after longer and longer pauses',
                  told.startswith('0\nactive\n') and pauses == ['1', '2', '4', '8'][:len(pauses)] and len(pauses) > 2,
                  told)
        self.show('and its journal has the file, the cause and the way out',
                  f'{port}.bureau: ' in told and 'its disk is full' in told and 'df ' in told, told)
        self.health(f'BUREAUS={folder} WITHIN=2 bureau-health {port}', 1, 'has less room than the file has bytes')
        told = self.told(f'BUREAUS={folder} ./upgrade {port}; ls {folder}')
        self.show('`upgrade` has no room there, and stops nothing',
                  'has no room for the files twice more' in told and 'upgrade-' not in told.split('df -h')[1], told)
        self.told(f'rm {folder}/filler')
        got = self.answered(self.machine, f'{port}/queue')
        self.show('with room it is served', got == {'queue': [], 'reply': 'queue'}, got)
        self.told(f'systemctl stop bureau@{port}; umount {folder}; rm -r {folder} /var/lib/bureaus/{port}.bureau')

    def try_kills(self):
        """A bureau whose process alone is killed, again and again, as where memory is out."""
        before = self.told('systemctl show -p NRestarts --value bureau@8102; date +@%s').split()
        child = 'cat /proc/$(systemctl show -p MainPID --value bureau@8102)/task/*/children'
        for _ in range(3):
            self.answered(self.machine, '8102/queue')
            self.told(f'kill -9 $({child})')
            time.sleep(0.5)
        told = self.told(f'systemctl show -p NRestarts --value bureau@8102; '
                         f'journalctl -u bureau@8102 -o cat --since {before[1]}')
        self.show('a bureau that is killed is called again after longer and longer pauses',
                  told.startswith(before[0]) and re.findall(r'called again after (\d+) s', told) == ['1', '2', '4']
                  and told.count('a signal ended the bureau') == 3, told)
        got = self.answered(self.machine, '8102/queue')
        self.show('and served', got == {'queue': [], 'reply': 'queue'}, got)
        self.told('systemctl restart bureau@8102')
        self.answered(self.machine, '8102/queue')

    def try_haproxy(self, lines, password):
        """HAProxy takes nginx's place, by the lines of README.md, and asks the bureaus itself."""
        self.told('systemctl disable --now nginx')
        for line in lines:
            status, told = self.machine.call(line)
            self.show(f'`{line}`', status == 0, told)
        own, word = f'-u ACME:{password}', self.told('./customer --again MONITOR1; systemctl reload haproxy').split()[1]
        monitor = '8080/c/MONITOR1/jobs', f'-u MONITOR1:{word}'
        time.sleep(7)
        found = status_of(self.machine, '8080/c/ACME/j/9', own)
        self.show('behind HAProxy, which asks the bureaus, a customer is answered', found == '200', found)
        found = status_of(self.machine, *monitor), status_of(self.machine, monitor[0], '-u MONITOR1:other')
        self.show('so is a monitor, and with a wrong password it gets 401', found == ('200', '401'), found)
        found = status_of(self.machine, '8080/queue', own)
        self.show('what HAProxy asks no customer may ask', found == '404', found)
        self.told('systemctl stop bureau@8101; sleep 25')
        begun = time.monotonic()
        found = status_of(self.machine, '8080/c/ACME/j/9', own), status_of(self.machine, *monitor)
        took = time.monotonic() - begun
        self.show('where the bureau was down for 25 seconds both get 503 at once',
                  found == ('503', '503') and took < 4, f'{found} after {took:.1f} s')
        self.told('systemctl start bureau@8101')
        self.answered(self.machine, '8101/queue')
        time.sleep(7)
        found = status_of(self.machine, '8080/c/ACME/j/9', own), status_of(self.machine, *monitor)
        self.show('and an answer when it is back', found == ('200', '200'), found)
        told = self.told('journalctl -u haproxy -o cat')
        self.show('HAProxy\'s journal has both', all(re.search(f'Server bureau_8101/one is {it}', told)
                                                    for it in ('DOWN', 'UP')), told[-2000:])
        found = status_of(self.machine, '8101/queue', user='guest'), status_of(self.machine, '8101/queue',
                                                                              user='www-data')
        self.show('with its user in ports.nft no other is answered', found == ('000', '000'), found)
