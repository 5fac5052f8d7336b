"""What deploy/try shows of the certificate, of `customer`, of `operator class`, of `job` and of
`read-log`, and what it asks bureaus and proxies with."""
import collections
import glob
import http.client
import json
import os
import re
import shutil
import signal
import socket
import ssl
import subprocess
import threading
import time

HERE = os.path.dirname(os.path.abspath(__file__))
TOP = os.path.dirname(HERE)

STOP = """\
#!/bin/sh
# One call of `customer`. The one that STOP counts is done, and then all is killed.
name=${{0##*/}} PATH=${{PATH#*:}}
echo "$name $*" >>{room}/calls
[ "$(wc -l <{room}/calls)" -ge "${{STOP:-1000000}}" ] || exec "$name" "$@"
"$name" "$@"
kill -9 0
"""
CALLED = 'awk base32 cat cp cut flock grep head mkdir mv openssl rm sed sort sync touch tr uniq'
FILES = 'customers.map', 'users.nginx', 'users.haproxy'
# Those of a class who run a job: with which switches and orders, and how it then stands.
JOBS = (('STUD1', 'two_lines', 'A', 'slice/2000 collect', 'halted next 361 collected'),
       ('STUD19', 'two_lines', '-', 'slice/2000', 'check READER EMPTY at 342'),
       ('STUD20', 'primes', 'A', 'slice/20', 'running'),
       ('STUD21', 'copy_and_count', 'A', 'slice/2000', 'halted next 378'),
       ('STUD30', 'two_lines', 'A', 'slice/20 hold', 'running held'))


def free_ports(count):
    doors = [socket.socket() for _ in range(count)]
    for door in doors:
        door.bind(('127.0.0.1', 0))
    ports = [door.getsockname()[1] for door in doors]
    for door in doors:
        door.close()
    return ports


def wait_for(port):
    for _ in range(200):
        with socket.socket() as door:
            if not door.connect_ex(('127.0.0.1', port)):
                return
        time.sleep(0.05)
    raise RuntimeError(f'nothing listens at {port}')


def read(path):
    with open(path, 'rb') as file:
        return file.read()


def example(name):
    return read(f'{TOP}/examples/{name}')


def asked(port, method, path, body=None, headers=None, certificate=None):
    """The status and the body of the answer, or (0, b'') where none came."""
    line = http.client.HTTPConnection('127.0.0.1', port, timeout=90)
    if certificate:
        trust = ssl.create_default_context(cafile=certificate)
        line = http.client.HTTPSConnection('127.0.0.1', port, timeout=90, context=trust)
    chunked = 'Transfer-Encoding' in (headers or {})
    try:
        line.request(method, path, body, headers or {}, encode_chunked=chunked)
        answer = line.getresponse()
        return answer.status, answer.read()
    except (OSError, http.client.HTTPException):
        return 0, b''
    finally:
        line.close()


def blocks_of_page(heading):
    """The blocks of commands of a section of README.md."""
    text = read(f'{HERE}/README.md').decode('utf-8')
    part = re.split(r'\n##+ ', text.split(f'# {heading}\n')[1])[0]
    return [re.sub('^    ', '', it, flags=re.M) for it in re.findall(r'(?:^    .*\n)+', part, re.M)]


def cells_of_job(customer, number, told):
    """The cells of the row that `operator class` has of a job, by what its customer was told."""
    flags = [it for it in ('held', 'collected') if told[it]]
    return [customer, *(str(it) for it in (number, told['granted'], told['cards'], told['lines'])),
            ' '.join([told['standing'], *flags])]


def cells_of_class(told):
    """The cells of each row that `operator class` printed, and of its sum."""
    return [re.split(' {2,}', it) for it in told.splitlines()[1:]]


def cells_of_page(page):
    """The same of a page, which has the standing behind the number; without the sum."""
    rows = [re.findall('>([^<]+)</td>', it) for it in page.splitlines() if '<td' in it]
    return [[*it[:2], *it[3:], *it[2:3]] for it in rows]


def on_sheet(path):
    """The customers of a sheet, each with his password; none where there is no sheet."""
    text = read(path).decode('ascii') if os.path.exists(path) else ''
    return dict(re.findall(r'<b>(\w+)</b>.*?<code>(\S+?)</code>', text))


def is_password(word, hashed):
    """Whether the hash in a file is that of a password."""
    salt = '$'.join(hashed.split('$')[2:4])
    made = subprocess.run(['openssl', 'passwd', '-5', '-salt', salt, '-stdin'], check=True,
                          input=f'{word}\n', text=True, stdout=subprocess.PIPE)
    return made.stdout.strip() == hashed


class Lossy:
    """A line to the proxy on which answers get lost: those of the requests in `lost`, each by its
    method and which of this method it is. What `before` has of a request is done before it is
    handed on."""

    def __init__(self, door, lost=(), before=None, port=0):
        self.door, self.lost, self.before = door, lost, before or {}
        self.seen = collections.Counter()
        self.listener = socket.create_server(('127.0.0.1', port))
        self.port = self.listener.getsockname()[1]
        threading.Thread(target=self.work, daemon=True).start()

    def work(self):
        while True:
            try:
                line, _ = self.listener.accept()
                with line:
                    self.hand_on(line)
            except OSError:
                if self.listener.fileno() < 0:
                    return

    def hand_on(self, line):
        had = b''
        while b'\r\n\r\n' not in had:
            had += line.recv(65536)
        head, _, body = had.partition(b'\r\n\r\n')
        length = re.search(rb'content-length: (\d+)', head, re.I)
        while length and len(body) < int(length[1]):
            body += line.recv(65536)
        method = head.split(b' ')[0].decode('ascii')
        which = method, self.seen[method]
        self.seen[method] += 1
        self.before.get(which, lambda: None)()
        with socket.create_connection(('127.0.0.1', self.door)) as on:
            on.sendall(head + b'\r\nConnection: close\r\n\r\n' + body)
            answer = b''.join(iter(lambda: on.recv(65536), b''))
        if which not in self.lost:
            line.sendall(answer)

    def end(self):
        self.listener.shutdown(socket.SHUT_RDWR)
        self.listener.close()


class Certificates:
    """The lines of README.md that make a certificate and open the door."""

    def of_page(self, text):
        """Lines of README.md, for this trial's places."""
        for old, new in (('/root/authority', f'{self.room}/authority'), ('/etc/bureaus', self.room),
                         ('192.168.1.10', '127.0.0.1'), ('/etc/nginx/conf.d', self.room),
                         ('/etc/haproxy', self.room)):
            text = text.replace(old, new)
        return text

    def make_certificate(self):
        lines = self.of_page(blocks_of_page('An own authority')[0])
        subprocess.run(['sh', '-ec', lines], check=True, stdout=subprocess.DEVNULL,
                       stderr=subprocess.DEVNULL)
        shutil.copy(f'{self.room}/authority/authority.pem', self.room)

    def open_door(self):
        """Opens the door for customers elsewhere, as README.md says, and has it at a free port."""
        name = 'bureaus.conf' if self.proxy == 'nginx' else 'haproxy.cfg'
        line, = [it for block in blocks_of_page('The door is opened') for it in block.splitlines()
                 if it.startswith('sed ') and it.endswith(name)]
        subprocess.run(['sh', '-ec', self.of_page(line)], check=True)
        text, here = read(f'{self.room}/{name}').decode(), f'127.0.0.1:{self.closed_door} ssl'
        text = text.replace('listen 443 ssl', f'listen {here}')
        self.write(name, text.replace('bind :443 ssl', f'bind {here}'))

    def curl(self, name, *words):
        """The status that curl is told, or what it says."""
        words = ['-sS', '-m', '20', '--resolve', f'*:{self.closed_door}:127.0.0.1', *words]
        made = subprocess.run(['curl', '-o', f'{self.room}/page', '-w', '%{http_code}', *words,
                               f'https://{name}:{self.closed_door}/c/ACME/jobs'], check=False,
                              stdout=subprocess.PIPE, stderr=subprocess.PIPE, text=True)
        return made.stderr or made.stdout

    def sign(self, name, certificate, key='key'):
        """Another certificate of the authority, in its folder, by the lines of README.md."""
        lines = blocks_of_page('An own authority')[0]
        lines = re.sub(r'(?s)openssl.*?(?=openssl)', '', lines, count=1)
        lines = re.sub(r'(?m)^(install|mkdir).*\n', 'cd /root/authority\n', lines)
        lines = lines.replace('bureau.lan', name).replace('certificate.pem', f'{certificate}.pem')
        lines = self.of_page(lines.replace('key.pem', f'{key}.pem'))
        subprocess.run(['sh', '-ec', lines], check=True, stderr=subprocess.DEVNULL)

    def show_certificate(self):
        trust = '--cacert', f'{self.room}/authority.pem'
        self.is_so('who trusts the authority that README.md makes is asked for a password',
                   {'bureau.lan': '401', '127.0.0.1': '401'},
                   {it: self.curl(it, *trust) for it in ('bureau.lan', '127.0.0.1')})
        found = self.curl('bureau.lan'), self.curl('other.lan', *trust)
        self.is_so('who does not, or asks by another name, is warned', [True, True],
                   [it.startswith('curl: (60) SSL') for it in found])
        self.sign('bank.example', 'bank')
        found = {it: subprocess.run(['openssl', 'verify', '-CAfile', trust[1],
                                     f'{self.room}/authority/{it}.pem'], check=False,
                                    stdout=subprocess.DEVNULL, stderr=subprocess.DEVNULL).returncode
                 for it in ('certificate', 'bank')}
        self.is_so('that authority is good for no other name', {'certificate': 0, 'bank': 2}, found)
        self.show_renewed()

    def show_renewed(self):
        """What certbot calls, with another certificate of the same authority."""
        block, = [it for it in blocks_of_page('By certbot') if 'RENEWED_LINEAGE' in it]
        lines = re.search(r'(?s)cat >.*?\nchmod.*?\n', block)[0]
        lines = self.of_page(lines.replace('/usr/local/bin', self.room))
        self.sign('bureau.lan', 'fullchain', 'privkey')
        env = {**os.environ, 'RENEWED_LINEAGE': f'{self.room}/authority',
               'PATH': f'{self.room}/bin:{os.environ["PATH"]}'}
        for one in (lines, f'{self.room}/bureau-certificate'):
            subprocess.run(['sh', '-ec', one], check=True, env=env)
        wanted = ssl.PEM_cert_to_DER_cert(read(f'{self.room}/authority/fullchain.pem').decode())
        self.reload()
        for _ in range(50):
            found = ssl.get_server_certificate(('127.0.0.1', self.closed_door))
            if ssl.PEM_cert_to_DER_cert(found) == wanted:
                break
            time.sleep(0.1)
        self.is_so('a renewed certificate is shown at the door, by what certbot calls', True,
                   ssl.PEM_cert_to_DER_cert(found) == wanted)


class Passwords:
    """What is shown of `customer`."""

    def put_stops(self):
        """Makes the folder of calls by which a call of `customer` is stopped."""
        os.mkdir(f'{self.room}/stops')
        for name in CALLED.split():
            self.write(f'stops/{name}', STOP.format(room=self.room))
            os.chmod(f'{self.room}/stops/{name}', 0o755)

    def customer(self, *words, folder=None, stop=0, **env):
        """A call of `customer`: its status, what it printed, and what it told. With STOP its call
        of that number is the last."""
        env = {**os.environ, 'CUSTOMERS': folder or self.room, **env}
        if stop:
            self.write('calls', '')
            env.update(PATH=f'{self.room}/stops:{env["PATH"]}', STOP=str(stop))
        made = subprocess.run([f'{HERE}/customer', *words], stdin=subprocess.DEVNULL, text=True,
                              stdout=subprocess.PIPE, stderr=subprocess.PIPE, env=env, check=False,
                              start_new_session=True)
        return made.returncode, made.stdout, made.stderr

    def password(self, *words):
        """The password that a call prints for its customer."""
        status, told, _ = self.customer(*words)
        return told.split()[1] if status == 0 else ''

    def reload(self):
        word = signal.SIGHUP if self.proxy == 'nginx' else signal.SIGUSR2
        os.kill(self.front.process.pid, word)

    def becomes(self, wanted, *words, **more):
        """The status of a request, once it is the wanted one or 10 seconds are over."""
        for _ in range(100):
            found = self.status(*words, **more)
            if found == wanted:
                break
            time.sleep(0.1)
        time.sleep(0.3)
        return found

    def show_passwords(self):
        page, old = ('BETA', 'GET', '/c/BETA/j/9/lines'), self.words['BETA']
        self.words['BETA'] = self.password('--again', 'BETA')
        if self.proxy == 'nginx':
            self.is_so('another password counts at once, and the old one does not', (200, 401),
                       (self.status(*page), self.status(*page, word=old)))
        self.reload()
        found = self.becomes(200, *page), self.status(*page, word=old), self.status(*page, word='')
        self.is_so('another password counts when the proxy is reloaded, and the old one does not',
                   (200, 401, 401), found)
        self.is_so("the others' are as they were", [200, 200, 200],
                   [self.status(it, 'GET', f'/c/{it}/j/9') for it in ('ACME', 'LOGOS', 'ZETA')])
        bureau = f'bureau_{self.port[8101]}'
        told = 'BETA has no password once the proxy reloads; his jobs stay in ' + bureau
        self.is_so('a password is taken away, and where the jobs stay is told', (0, told + '\n'),
                   self.customer('--remove', 'BETA')[:2])
        self.reload()
        found = self.becomes(401, *page), asked(self.port[8101], 'GET', '/c/BETA/j/9')[0]
        self.is_so('then there is none, and the job is still in its bureau', (401, 200), found)
        self.show_no_new_customer(bureau)
        self.words['BETA'] = self.password('--again', 'BETA')
        self.reload()
        self.is_so('he gets another, and has his job', (200, (200, b'HELLO\nWORLD\n')),
                   (self.becomes(200, *page), self.ask(*page)))
        self.show_at_once()

    def show_no_new_customer(self, bureau):
        told = self.customer('BETA', bureau)
        self.is_so('his name is no new customer', (1, True),
                   (told[0], 'BETA is there; customer --again BETA gives another' in told[2]))
        told = self.customer('BETA', f'bureau_{self.port[8103]}')
        self.is_so('and none of another bureau', (1, True),
                   (told[0], f'BETA is in {bureau}; deploy/README.md says how he moves' in told[2]))

    def show_at_once(self):
        names = [f'TWO{it}' for it in 'ABCDEF']
        bureau = f'bureau_{self.port[8102]}'
        calls = {it: subprocess.Popen([f'{HERE}/customer', it, bureau, self.room], text=True,
                                      stdout=subprocess.PIPE, stderr=subprocess.DEVNULL)
                 for it in names}
        for name, call in calls.items():
            self.words[name], self.lines[name] = call.communicate()[0][len(name) + 1:-1], 8102
        self.reload()
        self.is_so('six calls at once give six passwords', [200] * 6,
                   [self.becomes(200, it, 'GET', f'/c/{it}/jobs') for it in names])

    # Where it is stopped.

    def standing_of(self, folder):
        """What the files of a folder hold: the bureaus, the hashes of nginx, and whether HAProxy
        has the same."""
        text = [read(f'{folder}/{it}').decode('ascii') for it in FILES]
        nginx = re.findall(r'^(\w+):(\S+)$', text[1], re.M)
        haproxy = re.findall(r'^    user (\w+) password (\S+)$', text[2], re.M)
        bureaus = dict(re.findall(r'^([A-Z0-9]+) (bureau_\d+);$', text[0], re.M))
        return bureaus, dict(nginx), sorted(nginx) == sorted(haproxy)

    def copied(self):
        """A folder with the files as they are."""
        copy = f'{self.room}/copy'
        shutil.rmtree(copy, ignore_errors=True)
        os.mkdir(copy)
        for one in FILES:
            shutil.copy(f'{self.room}/{one}', copy)
        return copy

    def show_stopped_customer(self):
        """`customer` is killed behind each of its calls, over a copy of the files. The next one
        mends what it left, or tells of it."""
        self.write('list', f'TRIX bureau_{self.port[8101]}\nTROX\n')
        sheet = f'{self.room}/copy/sheet.html'
        for words in (('--again', 'BETA'), ('--remove', 'BETA'),
                      ('--class', f'{self.room}/list', sheet, 'bureau_8102')):
            stop, wrongs, seen = 1, [], set()
            while self.stop_customer(words, stop, wrongs, seen):
                stop += 1
            self.is_so(f'`customer {words[0]}` killed behind each of its {stop - 1} calls: nothing '
                       'is changed, or all is',
                       ([], True, {'old', 'new'}), (wrongs, stop > 20, seen))

    def stop_customer(self, words, stop, wrongs, seen):
        """Adds to WRONGS what is wrong. False if the call was not stopped."""
        copy = self.copied()
        old = self.standing_of(copy)
        status = self.customer(*words, folder=copy, stop=stop)[0]
        told = self.customer('--check', folder=copy)[2]
        new = self.standing_of(copy)
        seen.add('old' if new == old else 'new')
        left = [it for it in os.listdir(copy) if it not in (*FILES, '.customer.lock', 'sheet.html')]
        if left or not new[2] or 'differ' in told:
            wrongs.append((stop, left, told))
        if 'ended now' in told and new == old or 'changed anything' in told and new != old:
            wrongs.append((stop, told))
        if words[0] == '--class':
            self.look_at_sheet(copy, old, new, stop, wrongs)
        if status not in (0, -signal.SIGKILL):
            wrongs.append((stop, status))
        return status == -signal.SIGKILL

    @staticmethod
    def look_at_sheet(copy, old, new, stop, wrongs):
        """Where passwords are new they stand on the sheet, and where none is there is no sheet."""
        sheet = f'{copy}/sheet.html'
        found = on_sheet(sheet)
        if list(found) != ([] if new == old else ['TRIX', 'TROX']):
            wrongs.append((stop, found))
        elif found and not all(it in new[0] and is_password(found[it], new[1][it]) for it in found):
            wrongs.append((stop, found, new))

    def show_stopped_call(self):
        """One that is killed when its files are whole, and not in their places, before a proxy."""
        page, old = ('BETA', 'GET', '/c/BETA/j/9'), self.words['BETA']
        self.customer('--again', 'BETA', folder=self.copied(), stop=1000000)
        calls = read(f'{self.room}/calls').decode('ascii').splitlines()
        stop = [it.startswith('mv') and it.endswith('.whole') for it in calls].index(True) + 1
        self.customer('--again', 'BETA', stop=stop)
        self.reload()
        time.sleep(1)
        self.is_so('`customer` killed behind its renaming: the old password counts', 200,
                   self.becomes(200, *page))
        _, told, said = self.customer('--check')
        self.reload()
        found = ('a call was stopped, and is ended now: BETA has another password' in said,
                 f'BETA bureau_{self.port[8101]} has a password\n' in told)
        self.is_so('the next call ends what was begun, and says so; then it does not',
                   ((True, True), 401), (found, self.becomes(401, *page, word=old)))

    def show_disagreement(self):
        self.words['BETA'] = self.password('--again', 'BETA')
        text = read(f'{self.room}/users.nginx').decode('ascii')
        self.write('users.nginx', re.sub('^BETA:.*\n', '', text, flags=re.M))
        told = self.customer('--check')
        self.is_so('what an editor has made of one file is told', (1, True),
                   (told[0], 'differ in BETA: customer --again BETA, or --remove' in told[2]))
        self.words['BETA'] = self.password('--again', 'BETA')
        self.reload()
        found = self.becomes(200, 'BETA', 'GET', '/c/BETA/j/9')
        self.is_so('and what is told mends it', (200, False),
                   (found, 'differ' in self.customer('--check')[2]))

    # A class.

    def show_class(self):
        pupils = [f'STUD{it}' for it in range(1, 31)]
        self.lines.update({it: 8101 for it in pupils[:20]}, **{it: 8103 for it in pupils[20:]})
        self.write('9b', '# the class 9b\n' + ''.join(f'{it}\n' for it in pupils[:20]) +
                   ''.join(f'{it} bureau_{self.port[8103]}\r\n' for it in pupils[20:]))
        names, sheet, address = f'{self.room}/9b', f'{self.room}/9b.html', 'https://bureau.lan'
        told = self.customer('--class', names, sheet, f'bureau_{self.port[8101]}', ADDRESS=address)
        found = on_sheet(sheet)
        self.is_so('a class of thirty gets passwords, on a sheet that nobody else may read',
                   ((0, f'30 passwords on {sheet}\n'), pupils, 0o600, 30),
                   (told[:2], list(found), os.stat(sheet).st_mode & 0o777,
                    read(sheet).count(address.encode())))
        self.words.update(found)
        self.reload()
        self.becomes(200, 'STUD30', 'GET', '/c/STUD30/jobs')
        self.show_tables(pupils, names)
        self.is_so('each of them hands in, and has his job in the bureau of his line',
                   {it: (200, 200) for it in pupils}, {it: self.handed_in(it) for it in pupils})
        files = [it for it in glob.glob(f'{self.room}/*') + glob.glob(f'{self.room}/.*')
                 if os.path.isfile(it) and it != sheet]
        self.is_so('no other file has a password', [],
                   [it for it in files if any(one.encode('ascii') in read(it)
                                              for one in found.values())])
        self.show_class_again(pupils, names)

    def handed_in(self, name):
        job = f'/c/{name}/j/1'
        return (self.status(name, 'PUT', f'{job}/object/4000/A', example('two_lines.deck')),
                asked(self.port[self.lines[name]], 'GET', job)[0])

    def show_class_again(self, pupils, names):
        more = ['STUD31', 'STUD32']
        self.lines.update({it: 8102 for it in more})
        self.write('9b', '\n'.join(pupils + more))
        told = self.customer('--class', names, f'{names}.more', f'bureau_{self.port[8101]}')
        self.is_so('a list that names another bureau for one who is there is refused whole',
                   (1, [], False), (told[0], glob.glob(f'{names}.more*'),
                                    'STUD31' in self.standing_of(self.room)[0]))
        self.write('9b', ''.join(f'{it} bureau_{self.port[self.lines[it]]}\n'
                                 for it in pupils + more))
        self.customer('--class', names, f'{names}.more')
        found = on_sheet(f'{names}.more')
        self.words.update({it: found.get(it, '') for it in more})
        self.reload()
        self.is_so('two more of the list get passwords, and the thirty keep theirs', (more, {200}),
                   (list(found), {self.becomes(200, it, 'GET', f'/c/{it}/jobs')
                                  for it in ('STUD32', *pupils)}))
        self.customer('--again', '--class', names, f'{names}.again')
        found = on_sheet(f'{names}.again')
        word = found.get('STUD1', '')
        self.reload()
        page = 'STUD1', 'GET', '/c/STUD1/jobs'
        self.is_so('a lost sheet is made anew, with others', (32, 200, 401),
                   (len(found), self.becomes(200, *page, word=word), self.status(*page)))
        self.write('wrong', 'STUD1\nM\u00fcller\nSTUD1\nSTUD33 bureau_x\n')
        told = self.customer('--class', f'{self.room}/wrong', f'{names}.wrong', 'bureau_8101')
        self.is_so('each wrong line of a list is named', (2, ['2', '3', '4']),
                   (told[0], re.findall(r'/wrong line (\d+): ', told[2])))
        self.customer('--remove', '--class', names)
        self.reload()
        self.is_so('in the end all of them are taken away', (401, 200),
                   (self.becomes(401, *page, word=word),
                    self.status('ACME', 'GET', '/c/ACME/jobs')))


class Tables:
    """What is shown of `operator class`."""

    def class_told(self, bureau, *words):
        """A call of it: its status, the cells of what it printed, and what it told."""
        call = [f'{self.room}/bin/operator', 'class', str(self.port[bureau]), *words]
        made = subprocess.run(call, capture_output=True, text=True, check=False)
        return made.returncode, cells_of_class(made.stdout), made.stderr

    def told_of_job(self, name):
        """The cells of a pupil's job, by what he is told of it."""
        status, told = self.ask(name, 'GET', f'/c/{name}/j/2')
        if status != 200:
            return [name, f'status {status}']
        return cells_of_job(name, 2, json.loads(told))

    def run_class(self):
        """Some of the class run a job. Returns its cells for each of them."""
        for name, text, switches, orders, _ in JOBS:
            job = f'/c/{name}/j/2'
            self.ask(name, 'PUT', f'{job}/object/4000/{switches}', example(f'{text}.deck'))
            for order in orders.split():
                self.ask(name, 'POST', f'{job}/{order}')
        told = {name: self.told_of_job(name) for name, *_ in JOBS}
        self.is_so('some of them run a job, and are told how it stands', [it[-1] for it in JOBS],
                   [told[it[0]][-1] for it in JOBS])
        return told

    def show_tables(self, pupils, names):
        told = self.run_class()
        tables = {}
        for bureau in (8101, 8103):
            has = {it: cells for it, cells in told.items() if self.lines[it] == bureau}
            tables[bureau] = [has.get(it, [it, 'no job']) for it in pupils]
            running = sum(cells[-1].startswith('running') for cells in has.values())
            total = [f'customers 30, jobs {len(has)}, {running} running']
            self.is_so(f'`operator class` of {bureau} has each job as its pupil was told',
                       (0, [*tables[bureau], total], ''), self.class_told(bureau, names))
        page = f'{self.room}/class.html'
        found, text = self.class_told(8101, names, page), read(page).decode('ascii')
        self.is_so('and so has its page, which is whole',
                   ((0, [], ''), tables[8101], True, [page]),
                   (found, cells_of_page(text), text.endswith('</html>\n'), glob.glob(f'{page}*')))
        self.ask('STUD20', 'POST', '/c/STUD20/j/2/slice/20')
        has_gone_on = self.told_of_job('STUD20') != told['STUD20']
        found = self.class_told(8101, names, page)
        self.is_so('a page that is there stays as it was, though a job has gone on',
                   ((1, [], f'{page}: it is there; give the page another name\n'), text, True),
                   (found, read(page).decode('ascii'), has_gone_on))


class Clients:
    """What is shown of `job`."""

    def job(self, *words, user='ACME', address=None, word=None, **env):
        """A call of `job` in a folder: its status, what it printed, and what it told."""
        os.makedirs(f'{self.room}/desk', exist_ok=True)
        address = address or f'http://127.0.0.1:{self.door}'
        self.write('desk/.account', f'{address}\n{user}\n{word or self.words[user]}\n')
        os.chmod(f'{self.room}/desk/.account', 0o600)
        env = {**os.environ, 'ACCOUNT': f'{self.room}/desk/.account', **env}
        made = subprocess.run([f'{HERE}/job', *map(str, words)], cwd=f'{self.room}/desk', env=env,
                              stdin=subprocess.DEVNULL, stdout=subprocess.PIPE, check=False,
                              stderr=subprocess.PIPE, text=True)
        return made.returncode, made.stdout, made.stderr

    def fetched(self, name):
        path = f'{self.room}/desk/{name}'
        return read(path) if os.path.exists(path) else None

    def kept(self, number):
        """What the bureau itself says of a job of ACME, and of all of them."""
        return [json.loads(asked(self.port[8103], 'GET', f'/c/ACME/{it}')[1])
                for it in (f'j/{number}', 'jobs')]

    def show_job(self):
        told = self.job('object', f'{TOP}/examples/two_lines.deck', 31)
        self.is_so('`job` hands a deck in, runs it and fetches its listing',
                   (0, 'ACME 31 halted next 361, in ACME-31.lines and ACME-31.cards\n', '',
                    b'HELLO\nWORLD\n'), (*told, self.fetched('ACME-31.lines')))
        told = self.job('object', f'{TOP}/examples/copy_and_count.deck', 32)
        wanted = asked(self.port[8103], 'GET', '/c/ACME/j/32/cards')[1]
        self.is_so('and its punched cards', (0, True, wanted),
                   (told[0], len(wanted) > 240, self.fetched('ACME-32.cards')))
        source, listing = f'{TOP}/examples/primes.source', example('primes.listing')
        told = self.job('autocoder', source, 33, 4000, 'A')
        self.is_so('and so a source', (0, listing), (told[0], self.fetched('ACME-33.lines')))
        before = self.kept(33)
        os.remove(f'{self.room}/desk/ACME-33.lines')
        told = self.job('autocoder', source, 33)
        self.is_so('given again it changes nothing, and fetches again', (0, listing, before),
                   (told[0], self.fetched('ACME-33.lines'), self.kept(33)))
        self.show_no_password()
        self.show_trust(f'{TOP}/examples/two_lines.deck')

    def show_no_password(self):
        """Looks at all processes while `job` and `customer` are at work."""
        over, seen = threading.Event(), set()

        def look():
            while not over.is_set():
                for path in glob.glob('/proc/[0-9]*/cmdline'):
                    try:
                        seen.add(read(path))
                    except OSError:
                        pass

        looking = threading.Thread(target=look)
        looking.start()
        told = self.job('object', f'{TOP}/examples/two_lines.deck', 34, 4000, '-')
        self.job('object', f'{TOP}/examples/primes.deck', 37)
        words = [self.words['ACME'], self.password('--again', 'ACME')]
        over.set()
        looking.join()
        self.is_so('a job that ends at a check has its listing too, and status 1',
                   (1, True, b'HELLO\nWORLD\n'),
                   (told[0], 'check READER EMPTY at 342' in told[1], self.fetched('ACME-34.lines')))
        curls = [it for it in seen if it.startswith(b'curl') and f'{self.door}/c'.encode() in it]
        self.is_so('no list of processes shows a password of `job` or `customer`', (True, []),
                   (bool(curls), [it for it in seen if any(one.encode() in it for one in words)]))
        self.words['ACME'] = words[1]
        self.reload()
        self.becomes(200, 'ACME', 'GET', '/c/ACME/jobs')

    def show_trust(self, deck):
        closed = f'https://127.0.0.1:{self.closed_door}/'
        authority = f'{self.room}/authority.pem'
        told = self.job('object', deck, 35, address=closed, CURL_CA_BUNDLE=authority)
        self.is_so('it asks by https, and trusts the authority that it is told',
                   (0, b'HELLO\nWORLD\n'), (told[0], self.fetched('ACME-35.lines')))
        told = self.job('object', deck, 36, address=closed)
        self.is_so('and no other', (3, True), (told[0], 'CURL_CA_BUNDLE names the' in told[2]))

    def show_job_refused(self):
        deck, free = f'{TOP}/examples/two_lines.deck', self.kept(31)[1]['jobs'][-1]['number'] + 1
        self.write('small.deck', 'hello\n')
        self.write('faulty.source', 'X'.ljust(80) + '\n')
        loop = f'{TOP}/cases/decks/endless_branch.deck'
        for what, words, wanted in (
                ('a changed text', ('object', loop, 31),
                 (1, f'job 31 has another text, size or switches; {free} is free')),
                ('a size that is none', ('object', deck, 90, 500), (1, 'SIZE is 500; it is 1400')),
                ('a number that is none', ('object', deck, 0), (1, 'NUMBER is 0; it is 1 to')),
                ('a text that is no deck', ('object', f'{self.room}/small.deck', 90),
                 (1, 'small.deck: {"card":1,"column":1,"deck":31}; workbench punch')),
                ('a faulty source', ('autocoder', f'{self.room}/faulty.source', 90),
                 (1, 'workbench source shows these faults')),
                ('no text', ('object', 'nothing.deck', 90), (2, "nothing.deck can't be read")),
                ('a job without an end', ('object', loop, 91),
                 (1, 'job 91 runs on after 6000 instructions; the same call goes on'))):
            told = self.job(*words, LIMIT='6000')
            self.is_so(f'`job` says of {what}', (wanted[0], True, 1),
                       (told[0], wanted[1] in told[2], told[2].count('\n')))
        self.is_so('of which it has run no more', 6000, self.kept(91)[0]['granted'])
        self.ask('ACME', 'POST', '/c/ACME/j/91/hold')
        told = self.job('object', loop, 91)
        self.is_so('`job` says of a held job', (1, True),
                   (told[0], 'job 91 is held; release it' in told[2]))
        told = self.job('object', deck, 90, word='guess')
        self.is_so('`job` says of a wrong password', (1, True),
                   (told[0], '/desk/.account is wrong' in told[2]))
        told = self.job('object', deck, 90, address=f'http://bureau.lan:{self.door}')
        self.is_so('`job` sends no password by http', (2, True),
                   (told[0], 'write https://' in told[2]))
        self.is_so('none of these leaves a job or a file', (404, []),
                   (asked(self.port[8103], 'GET', '/c/ACME/j/90')[0],
                    [it for it in os.listdir(f'{self.room}/desk') if '.job' in it or '-9' in it]))

    def show_job_on_bad_lines(self):
        source, listing = f'{TOP}/examples/primes.source', example('primes.listing')

        def fetch(number, line):
            told = self.job('autocoder', source, number, address=f'http://127.0.0.1:{line}')
            return told[0], self.fetched(f'ACME-{number}.lines')

        line = Lossy(self.door, {('PUT', 0), ('GET', 1), ('POST', 0), ('POST', 2), ('GET', 3)})
        found = fetch(41, line.port)
        line.end()
        self.is_so('on a line that loses answers `job` has the same listing', (0, listing), found)
        self.is_so('each slice was given once there, and the submission twice',
                   (2, True, 2000 * line.seen['POST']),
                   (line.seen['PUT'], line.seen['POST'] > 2, self.kept(41)[0]['granted']))
        bureau = self.bureaus[8103]

        def kill():
            os.kill(bureau.process.pid, signal.SIGKILL)

        line = Lossy(self.door, before={('POST', 1): kill, ('GET', 2): kill})
        found = fetch(42, line.port)
        line.end()
        self.is_so('and while its bureau is killed twice', ((0, listing), True),
                   (found, line.seen['POST'] > 1 and line.seen['GET'] > 2))
        door, = free_ports(1)
        lines = []
        threading.Timer(2, lambda: lines.append(Lossy(self.door, port=door))).start()
        found = fetch(43, door)
        self.is_so('and where the counter comes up after two seconds', (0, listing), found)
        for line in lines:
            line.end()


class Logs:
    """What is shown of `read-log`."""

    def read_log(self, *words):
        made = subprocess.run([f'{HERE}/read-log', *words, self.log], check=True, text=True,
                              stdout=subprocess.PIPE)
        return made.stdout.splitlines()

    def show_read_log(self):
        """Two jobs of LOGOS: the second is handed in after a moment, and runs in a slow bureau."""
        deck, bureau = example('primes.deck'), self.bureaus[8102]

        def hand_in(number):
            self.ask('LOGOS', 'PUT', f'/c/LOGOS/j/{number}/object/4000/A', deck)

        def slices(number, *limits):
            for limit in limits:
                self.ask('LOGOS', 'POST', f'/c/LOGOS/j/{number}/slice/{limit}')

        begun = time.strftime('%Y-%m-%dT%H:%M:%S')
        hand_in(51)
        slices(51, 10, 10, 20)
        time.sleep(1.1)
        moment = time.strftime('%Y-%m-%dT%H:%M:%S')
        hand_in(52)
        hand_in(51)
        os.kill(bureau.process.pid, signal.SIGSTOP)
        threading.Timer(2, os.kill, (bureau.process.pid, signal.SIGCONT)).start()
        slices(52, 30, 2001)
        time.sleep(0.3)
        form = re.compile(r'LOGOS (51|52) in (\S+) last (\S+) slices (\d+) instructions (\d+) '
                          r'seconds ([\d.]+)')
        found = {it[1]: it for it in map(form.fullmatch, self.read_log()) if it}
        self.is_so('read-log has a line for each job, with its slices and instructions',
                   {'51': ('3', '40'), '52': ('1', '30')},
                   {it: found[it].group(4, 5) for it in found})
        self.is_so('and when it was handed in first, and ran last', (True, True),
                   (begun <= found['51'][2] < moment <= found['52'][2],
                    found['51'][3] < moment < found['52'][3]))
        before = {tuple(it.split()[:2]) for it in self.read_log('--before', moment)}
        self.is_so('read-log --before has who handed in before', (True, False),
                   (('LOGOS', '51') in before, ('LOGOS', '52') in before))
        longest = [it.split() for it in self.read_log('--longest') if form.fullmatch(it)]
        self.is_so('read-log --longest has the job first that took longer', (['52', '51'], True),
                   ([it[1] for it in longest], float(longest[0][-1]) > 1.5))
        self.show_who_did_not(moment)

    def show_who_did_not(self, moment):
        line, = [it for block in blocks_of_page('The log') for it in block.splitlines()
                 if 'grep -vxFf' in it]
        self.write('names', 'ACME\nLOGOS\nNOBODY\n')
        for old, new in (('./', f'{HERE}/'), ('/var/log/nginx/bureaus.log', self.log),
                         ('2026-11-27', moment), ('9b', f'{self.room}/names')):
            line = line.replace(old, new)
        told = subprocess.run(['sh', '-c', line], stdout=subprocess.PIPE, text=True, check=False)
        self.is_so("README.md's line says who has handed in nothing", 'NOBODY\n', told.stdout)
