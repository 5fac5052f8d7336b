"""What deploy/try shows of a front before two machines, each in a network of its own.

A machine has three bureaus and a proxy, as deploy/try has them on one machine, behind the door for
customers elsewhere that README.md opens; the first has nginx, the second HAProxy. Before them is
front.cfg. The addresses are those of the configurations. A customer moves between the machines by
the list of README.md.
"""
import collections
import contextlib
import ctypes
import json
import os
import re
import shutil
import subprocess
import tempfile
import threading
import time

from trials import HERE, asked, blocks_of_page, example, read, wait_for

NEW_NETWORK = 0x40000000      # CLONE_NEWNET of Linux
FRONT, ADDRESSES = '10.1.0.250', ('10.1.0.1', '10.1.0.2')
NAMES = 'one', 'two'
# Each customer's machine and bureau. ACME moves, from the bureau of ZETA to that of DELTA.
LINES = {'ACME': (0, 8103), 'ZETA': (0, 8103), 'BETA': (0, 8101), 'DELTA': (1, 8101),
         'LOGOS': (1, 8102)}
OLD, NEW = (0, 8103), (1, 8101)
# What a customer is told whose bureau is down, or who has no machine, bureau or password just then.
AWAY = 0, 401, 404, 502, 503, 504

SYSTEMCTL = """\
#!/bin/sh
# `systemctl WORD [--now] UNIT`, for the services of this trial.
word=$1; shift; [ "$1" != --now ] || shift
name={room}/${{1#bureau@}}
stop() {{ touch "$name.stopped"; while [ -e "$name.runs" ]; do sleep 0.02; done; }}
start() {{ rm -f "$name.stopped"; while [ ! -e "$name.runs" ]; do sleep 0.02; done; }}
case $word in disable) stop ;; enable) start ;; restart) stop; start ;; esac
"""
STUBS = {'runuser': 'shift 3; exec "$@"', 'chown': ':', 'scp': 'cp -p {beyond}/ACME/"${{2##*/}}" "$3"'}


class Network:
    """A network of its own, with a line to that of a front, if there is one."""

    def __init__(self):
        with self.left():
            if ctypes.CDLL(None, use_errno=True).unshare(NEW_NETWORK):
                raise OSError(ctypes.get_errno(), 'no network of its own')
            self.it = self.current()
            self.ip('link set lo up')

    @staticmethod
    def ip(words):
        subprocess.run(['ip', *words.split()], check=True)

    @staticmethod
    def current():
        return os.open('/proc/thread-self/ns/net', os.O_RDONLY)

    @staticmethod
    @contextlib.contextmanager
    def left():
        """Comes back to the network in which this thread is."""
        here = Network.current()
        try:
            yield
        finally:
            ctypes.CDLL(None).setns(here, NEW_NETWORK)
            os.close(here)

    @contextlib.contextmanager
    def entered(self):
        """This thread, and what it begins, is in this network meanwhile."""
        with self.left():
            ctypes.CDLL(None).setns(self.it, NEW_NETWORK)
            yield

    def end(self):
        os.close(self.it)


class Hub(Network):
    """The front's network. A process stays in it, by which lines find it."""

    def __init__(self):
        super().__init__()
        with self.entered():
            self.ip('link add hub type bridge')
            self.ip(f'address add {FRONT}/24 dev hub')
            self.ip('link set hub up')
            self.stays = subprocess.Popen(['sleep', '3600'])

    def join(self, network, name, address):
        with network.entered():
            self.ip(f'link add out type veth peer name {name} netns {self.stays.pid}')
            self.ip(f'address add {address}/24 dev out')
            self.ip('link set out up')
        with self.entered():
            self.ip(f'link set {name} master hub up')

    def end(self):
        self.stays.kill()
        self.stays.wait()
        super().end()


class OnMachine:
    """Three bureaus behind one proxy, on a machine with a network of its own."""

    def __init__(self, place, proxy, room, program, network):
        super().__init__(proxy, room, program)
        self.name, self.network = NAMES[place], network
        self.lines = {name: at[1] for name, at in LINES.items() if at[0] == place}
        # HAProxy has a customer of a bureau that is down wait for 20 seconds; here he is told.
        self.altered = [('retries 20', 'retries 0')]

    def make_certificate(self):
        """The authority is there already: a certificate of this machine's name, by README.md."""
        self.sign(f'{self.name}.bureau.lan', 'certificate')
        shutil.copy(f'{self.room}/authority/certificate-and-key.pem', self.room)

    def open_door(self):
        super().open_door()
        name = 'bureaus.conf' if self.proxy == 'nginx' else 'haproxy.cfg'
        text, here = read(f'{self.room}/{name}').decode(), f'127.0.0.1:{self.closed_door} ssl'
        text = text.replace(f'listen {here}', 'listen 443 ssl')
        self.write(name, text.replace(f'bind {here}', 'bind :443 ssl'))

    def begin(self):
        with self.network.entered():
            super().begin()
            wait_for(443)
        self.write('bin/systemctl', SYSTEMCTL.format(room=self.room))

    def told(self, name, path):
        """What a bureau of this machine says itself."""
        with self.network.entered():
            return asked(self.port[name], 'GET', path)


class BeforeMachines:
    """The front, and the two machines behind it."""

    def __init__(self, room, program, service, machine):
        super().__init__('front', room, program)
        self.service, self.machines, self.door = service, [], 8080
        self.hub, self.last, self.map = Hub(), {}, {}
        for place, proxy in enumerate(('nginx', 'haproxy')):
            network = Network()
            self.hub.join(network, NAMES[place], ADDRESSES[place])
            os.mkdir(f'{room}/{NAMES[place]}')
            self.machines.append(machine(place, proxy, f'{room}/{NAMES[place]}', program, network))

    # How it is set up.

    def begin(self):
        self.make_certificate()
        for it in self.machines:
            shutil.copytree(f'{self.room}/authority', f'{it.room}/authority')
            it.begin()
            self.words.update(it.words)
        for it, other in zip(self.machines, reversed(self.machines)):
            for name, text in STUBS.items():
                it.write(f'bin/{name}', '#!/bin/sh\n' + text.format(beyond=other.room) + '\n')
                os.chmod(f'{it.room}/bin/{name}', 0o755)
        shutil.copy(f'{HERE}/counter.html', self.room)
        lines = [f'{name} machine_{at[0] + 1};\n' for name, at in LINES.items()]
        self.write('machines.map', ''.join(lines))
        self.begin_front()

    def begin_front(self, *altered):
        altered = [('/etc/bureaus', self.room), ('/usr/local/share/bureaus', self.room),
                   ('    user haproxy\n', ''), ('    group haproxy\n', ''), *altered]
        self.write('front.cfg', self.put_up('front.cfg', altered))
        words = ['haproxy', '-W', '-f', f'{self.room}/front.cfg']
        self.front = self.service(f'{self.room}/front', words, self.log)
        with self.hub.entered():
            self.front.start()
            wait_for(self.door)

    def end(self):
        for it in [super(), *self.machines]:
            it.end()
        for it in self.machines:
            it.network.end()
        self.hub.end()

    def ask(self, *words, **more):
        with self.hub.entered():
            return super().ask(*words, **more)

    # What is shown.

    def holders(self, customer):
        """The machines and bureaus that have jobs of a customer, asked themselves."""
        return [(place, name) for place, it in enumerate(self.machines) for name in it.port
                if b'number' in it.told(name, f'/c/{customer}/jobs')[1]]

    def show_landing(self):
        found = []
        for customer in LINES:
            job = f'/c/{customer}/j/9'
            taken = self.status(customer, 'PUT', f'{job}/object/4000/A', example('two_lines.deck'))
            self.ask(customer, 'POST', f'{job}/slice/2000')
            found.append((taken, *self.ask(customer, 'GET', f'{job}/lines')))
        wanted = [(200, 200, b'HELLO\nWORLD\n')] * len(LINES)
        self.is_so('each customer has a job done', wanted, found)
        self.is_so('each job is in the bureau that the maps of the front and of its machine name, '
                   'and in no other',
                   {it: [at] for it, at in LINES.items()}, {it: self.holders(it) for it in LINES})

    def show_strangers(self):
        job = '/c/ACME/j/9'
        others = {self.status('LOGOS', 'GET', job), self.status('ACME', 'GET', '/c/LOGOS/j/9')}
        self.is_so("another's job, by a customer of the same machine (403) and of the other "
                   '(401 or 403)',
                   (403, True), (self.status('ZETA', 'GET', job), others <= {401, 403}))
        self.is_so('no password and a wrong one (401)', (401, 401),
                   (self.status(None, 'GET', job), self.status('ACME', 'GET', job, word='guess')))
        self.words['NOBODY'] = 'guess'
        found = self.status('NOBODY', 'GET', '/c/NOBODY/j/9'), self.status('ACME', 'GET', '/queue')
        self.is_so('a customer of no machine is told no more than that (401), and the queue is '
                   'closed (404)', (401, 404), found)
        self.is_so('the page is served at /', (200, example('../deploy/counter.html')),
                   self.ask(None, 'GET', '/'))
        deck = (b' ' * 80 + b'\n') * 2000
        found = [self.ask(it, 'PUT', f'/c/{it}/j/11/object/4000/A', deck)
                 for it in ('BETA', 'LOGOS')]
        self.is_so('a deck of 2,000 cards is taken by both',
                   [(200, b'{"cards":2000,"reply":"taken"}')] * 2, found)

    def show_not_repeated(self, stand):
        """Something that answers nothing is in a bureau's place."""
        for place, customer in ((0, 'BETA'), (1, 'LOGOS')):
            it, name = self.machines[place], LINES[customer][1]
            it.bureaus[name].pause()
            with it.network.entered():
                silent = stand(it.port[name])
            job = f'/c/{customer}/j/9'
            self.becomes(502, customer, 'GET', job)
            before = silent.count
            self.ask(customer, 'POST', f'{job}/slice/1')
            self.is_so(f'a POST that was sent to machine {it.name}, and not answered, is not sent '
                       'again', 1, silent.count - before)
            silent.end()
            with it.network.entered():
                it.bureaus[name].go_on()
            self.becomes(200, customer, 'GET', job)

    def show_line_cut(self):
        found = []

        def wait():
            found.append(self.ask('ACME', 'GET', '/c/ACME/j/9/lines'))

        with self.hub.entered():
            Network.ip('link set one down')
        waiting = threading.Thread(target=wait)
        waiting.start()
        time.sleep(0.5)
        began = time.monotonic()
        others = self.status('LOGOS', 'GET', '/c/LOGOS/j/9'), time.monotonic() - began < 3
        self.is_so('while the line to one machine is cut, customers of the other are answered',
                   (200, True, []), (*others, found))
        # For longer than one try to connect takes.
        time.sleep(6)
        with self.hub.entered():
            Network.ip('link set one up')
        waiting.join()
        self.is_so('and who waited is answered when it is whole again',
                   [(200, b'HELLO\nWORLD\n')], found)

    def show_false_machine(self):
        """The machine at an address is another one than front.cfg names."""
        self.front.end()
        self.begin_front((ADDRESSES[0], ADDRESSES[1]), ('retries 20', 'retries 0'))
        found = [self.status(it, 'GET', f'/c/{it}/j/9') for it in ('ACME', 'LOGOS')]
        self.is_so("a machine with another's certificate is handed no password (503)", [503, 200],
                   found)
        self.front.end()
        self.begin_front()

    def show_log(self):
        time.sleep(0.3)
        form = re.compile(r'20\d\d-\d\d-\d\dT\S+ 127\.0\.0\.1 customer=(\S*) machine=(\S*) '
                          r'("\S+ \S+ HTTP/1\.1" \d+ )\d+ ms=\d+')
        lines = [it for it in map(form.fullmatch, read(self.log).decode().splitlines()) if it]
        missing = self.asked - collections.Counter(it[3] for it in lines)
        served = {(it[1], it[2]) for it in lines if it[3].endswith(' 200 ') and ' /c/' in it[3]}
        mapped = {(name, f'machine_{at[0] + 1}') for name, at in LINES.items()}
        self.is_so(f'each of {sum(self.asked.values())} requests has its line, with customer and '
                   'machine', ({}, mapped), (dict(missing), served))

    # A customer moves.

    def all_of(self, customer):
        """All replies to a customer's queries, or None where he is not answered."""
        jobs = self.ask(customer, 'GET', f'/c/{customer}/jobs')
        if jobs[0] in AWAY:
            return None
        numbers = [it['number'] for it in json.loads(jobs[1])['jobs']]
        return [jobs] + [self.ask(customer, 'GET', f'/c/{customer}/j/{number}{of}')
                         for number in numbers for of in ('', '/lines', '/cards')]

    def wrongs(self, who, are_up):
        """What is wrong with what customers are told; ARE_UP are those who have to be answered."""
        found = []
        for name in who:
            told, holders = self.all_of(name), self.holders(name)
            if told is None and name in are_up:
                found.append(f'{name} is not answered')
            if told is not None and told != self.last[name]:
                found.append(f'{name} is answered otherwise')
            if len(holders) > 1 or told and len(holders) != 1:
                found.append(f'{name} has jobs in {holders}')
        return found

    def give(self, place, line):
        """Gives a line of the list on a machine or the front: its status and what it printed."""
        machine = self.machines[place] if place < 2 else self
        for old, new in (('./customer', f'{HERE}/customer'), ('/var/lib/bureaus', machine.room),
                         ('/etc/bureaus', machine.room), ('nginx', machine.proxy),
                         *((str(it), str(port)) for it, port in machine.port.items() if place < 2)):
            line = line.replace(old, new)
        if line.startswith('systemctl reload'):
            machine.reload()
            time.sleep(0.5)
            return 0, ''
        env = {**os.environ, 'CUSTOMERS': machine.room}
        env['PATH'] = f'{machine.room}/bin:{env["PATH"]}'
        given = subprocess.run(['sh', '-c', line], cwd=machine.room, env=env, check=False,
                               stdin=subprocess.DEVNULL, stdout=subprocess.PIPE, text=True,
                               stderr=subprocess.STDOUT)
        return given.returncode, given.stdout

    def go_through_move(self, customers):
        """Gives the lines of the page. What was wrong after each, which lines failed, and how many there are."""
        found, failed, count = [], [], 0
        for place, block in enumerate(blocks_of_page('Moving a customer to another machine')):
            for line in block.splitlines():
                if line.startswith('cd '):
                    continue
                status, told = self.give(place, line)
                if status:
                    failed.append((line, status, told))
                elif line.startswith('./customer'):
                    self.words['ACME'] = told.split()[-1]
                found += [f'after `{line}`: {it}' for it in self.wrongs(customers, ['LOGOS'])]
                count += 1
        return found, failed, count

    def show_move(self):
        customers = ['ACME', 'ZETA', 'DELTA', 'LOGOS']
        for name in customers:
            self.ask(name, 'PUT', f'/c/{name}/j/10/autocoder/4000/A', example('primes.source'))
            self.ask(name, 'POST', f'/c/{name}/j/10/slice/500')
            self.ask(name, 'PUT', f'/c/{name}/j/12/object/4000/A', example('copy_and_count.deck'))
            self.ask(name, 'POST', f'/c/{name}/j/12/slice/2000')
            self.ask(name, 'POST', f'/c/{name}/j/12/collect')
            self.last[name] = self.all_of(name)
        old = self.words['ACME']
        found, failed, count = self.go_through_move(customers)
        self.is_so(f'a customer moves to the other machine by the {count} lines of README.md',
                   (True, []), (count > 20, failed))
        self.is_so('after each of them who is answered has all that is his, by one bureau', [],
                   found)
        for it, name in zip(self.machines, (OLD[1], NEW[1])):
            with it.network.entered():
                wait_for(it.port[name])
        for name in customers:
            self.becomes(200, name, 'GET', f'/c/{name}/jobs')
        self.is_so('at the end all are answered as before, ACME by the other machine', ([], [NEW]),
                   (self.wrongs(customers, customers), self.holders('ACME')))
        again = self.ask('ACME', 'PUT', '/c/ACME/j/9/object/4000/A', example('two_lines.deck'))
        self.is_so('a submission that is repeated has its reply',
                   (200, b'{"cards":6,"reply":"taken"}'), again)
        while b'"running"' in self.ask('ACME', 'POST', '/c/ACME/j/10/slice/2000')[1]:
            pass
        self.is_so('and the job that was begun on the old machine has its listing on the new one',
                   example('primes.listing'), self.ask('ACME', 'GET', '/c/ACME/j/10/lines')[1])
        with self.machines[0].network.entered():
            found = asked(self.machines[0].door, 'PUT', '/c/ACME/j/77/object/4000/A',
                          example('two_lines.deck'), self.named('ACME', old))[0]
        self.is_so('the old machine takes no deck of his any more (401 or 404)', (True, [NEW]),
                   (found in (401, 404), self.holders('ACME')))


def tried(program, trial, service, stand):
    """How much is shown, and how much not. TRIAL, SERVICE and STAND are those of deploy/try."""
    if os.geteuid() or not shutil.which('ip'):
        print('front: two machines: NO, not tried; call this as root, and have iproute2',
              flush=True)
        return 0, 1
    front = type('Front', (BeforeMachines, trial), {})
    machine = type('Machine', (OnMachine, trial), {})
    with tempfile.TemporaryDirectory(prefix='try-deploy-') as room:
        os.chmod(room, 0o755)
        it = front(room, program, service, machine)
        try:
            it.begin()
            it.show_landing()
            it.show_strangers()
            it.show_not_repeated(stand)
            it.show_line_cut()
            it.show_false_machine()
            it.show_log()
            it.show_move()
        finally:
            it.end()
    return it.shown, it.not_shown
