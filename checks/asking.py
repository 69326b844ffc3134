"""What the checks share that ask the built programs about cases of checks/cases: packets at the edges of a policy, and how a case
is laid out. It is no check."""

import ipaddress
import os
import re
import shutil
import subprocess
import sys

TOP = os.path.dirname(os.path.dirname(os.path.abspath(__file__)))
CASES = os.path.join(TOP, 'checks', 'cases')
COMMON = ['--policy_file', 'pol/a.pol', '--definitions_directory', 'def', '--output_directory', 'out', '--date', '2026-01-15']
WITH_PORTS = (6, 17, 132)
NO_PROTOCOLS_OF_IPV6 = (0, 43, 44, 51, 59, 60, 135, 139, 140)
WORDS = {'icmp': 1, 'igmp': 2, 'tcp': 6, 'udp': 17, 'gre': 47, 'esp': 50, 'icmpv6': 58, 'sctp': 132}
TYPES = {1: (0, 3, 8, 13), 58: (1, 128, 129, 133, 134, 135, 136)}


def program(name):
    """The path of a program: as `rt ci` builds it, or as the variable of its name says."""
    return os.path.abspath(os.environ.get(name.upper()) or os.path.join(TOP, 'crates', name, 'out', name))


def are_built(check, paths):
    """Whether the programs are there; says which one is not."""
    missing = [path for path in paths if not os.access(path, os.X_OK)]
    for path in missing:
        print('checks/%s: %s is not built' % (check, path))
    return not missing


def text_of(path):
    with open(path, encoding='latin-1') as file:
        return file.read()


def asked(path, work, *words):
    """A run's status and its two streams."""
    done = subprocess.run([path, *words], cwd=work, stdin=subprocess.DEVNULL, capture_output=True, timeout=60)
    return done.returncode, done.stdout.decode('latin-1'), done.stderr.decode('latin-1')


class Edges:
    """What packets are made of: the numbers that stand in the files of a case, and those beside them."""

    def __init__(self, folder):
        files = [os.path.join(at, name) for at, _, names in os.walk(folder) for name in names]
        text = '\n'.join(text_of(path)[:200000] for path in files if not path.startswith(os.path.join(folder, 'out')))
        self.ends = {4: self.addresses(text, 4), 6: self.addresses(text, 6)}
        numbers = {int(number) for number in re.findall(r'\b\d{1,5}\b', text)[:3000]}
        near = sorted({number + step for number in numbers for step in (-1, 0, 1)})
        self.ports = [number for number in near if 0 <= number <= 65535] + [0, 1023, 1024, 65535]
        self.small = [number for number in near if 0 <= number <= 255] + [0, 255]
        self.protocols = [number for word, number in WORDS.items() if re.search(r'\b%s\b' % word, text)] * 4 + [1, 6, 17, 58, 99]

    @staticmethod
    def addresses(text, version):
        """The first and the last address of each prefix in the text, the ones beside them, and one of none."""
        found = {0, (1 << (32 if version == 4 else 128)) - 1}
        for word in re.findall(r'[0-9a-fA-F:.]*[.:][0-9a-fA-F:.]*(?:/\d+)?', text)[:3000]:
            try:
                net = ipaddress.ip_network(word, strict=False)
            except ValueError:
                continue
            if net.version == version:
                first, last = int(net.network_address), int(net.broadcast_address)
                found.update((first - 1, first, last, last + 1))
        top = 1 << (32 if version == 4 else 128)
        made = ipaddress.IPv4Address if version == 4 else ipaddress.IPv6Address
        return [str(made(number)) for number in sorted(found) if 0 <= number < top]

    def packet(self, draw, versions=(4, 4, 6)):
        version = draw.choice(versions)
        source, destination = draw.choice(self.ends[version]), draw.choice(self.ends[version])
        protocol = draw.choice(self.protocols + [draw.choice(self.small)])
        if version == 6 and protocol in NO_PROTOCOLS_OF_IPV6:
            protocol = 6
        ports = [draw.choice(self.ports), draw.choice(self.ports)] if protocol in WITH_PORTS else [0, 0]
        flags = draw.choice((0, 1, 2, 4, 16, 18, 63)) if protocol == 6 else 0
        kinds = [0, 0]
        if protocol == (1 if version == 4 else 58):
            kinds = [draw.choice(self.small + list(TYPES[protocol]) * 4), draw.choice(self.small)]
        state = draw.choice(('new', 'new', 'established', 'related', 'invalid'))
        return ' '.join(map(str, [source, destination, protocol, *ports, flags, *kinds, state]))


class Case:
    """A case of checks/cases, or another folder that is laid out like one."""

    def __init__(self, name, within=CASES):
        self.name, self.folder = name, os.path.join(within, name)
        words = os.path.join(self.folder, 'words')
        self.words = text_of(words).split('\n')[:-1] if os.path.exists(words) else COMMON

    def option(self, name):
        for at, word in enumerate(self.words):
            if word == name and at + 1 < len(self.words):
                return self.words[at + 1]
            if word.startswith(name + '='):
                return word[len(name) + 1:]
        return None

    def has(self, name):
        return os.path.exists(os.path.join(self.folder, name))

    def lay_out(self, room):
        """The folder in which a program runs: the input, and the files that aclgen makes of it."""
        case, work = os.path.join(room, 'case'), os.path.join(room, 'work')
        shutil.copytree(self.folder, case)
        if os.path.exists(os.path.join(case, 'make.py')):
            subprocess.run([sys.executable, 'make.py'], cwd=case, check=True)
        for part in ('in', 'made'):
            if os.path.isdir(os.path.join(case, part)):
                shutil.copytree(os.path.join(case, part), work, dirs_exist_ok=True)
        return work

    def inputs(self):
        """The words that name the policy, the definitions and, where the case does, the day."""
        # Behind a `=` a value may begin with `-`.
        words = ['%s=%s' % (name, self.option(name)) for name in ('--policy_file', '--definitions_directory')]
        return words + (['--date', self.option('--date')] if self.option('--date') else [])


def deciders(case, work, packet):
    """What `aclcheck policy` says of each target that it names, in order: the verdict, and the term that decides."""
    status, told, said = asked(program('aclcheck'), work, 'policy', *case.inputs(), '--packet', packet)
    if status != 0:
        raise ValueError('aclcheck: status %d, %s' % (status, said.strip()))
    parts = (line.partition(': ') for line in told.splitlines())
    return {target: tuple(verdict.rpartition(' by ')[::2]) for target, _, verdict in parts}
