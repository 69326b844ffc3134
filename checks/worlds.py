"""Small policies, and which of their terms decide a packet: looked for among all packets of a small world, as docs/LANGUAGE.md says
in section 3 what a term matches, and in section 8 what a packet is. Nothing here knows of grids, or calls a program. It is no check.

The world of a policy has, of source and destination, each number at which a prefix begins or ends, those just below and just above
it, the least and the greatest; of both ports likewise each end of a port range, and 1024, with those beside; and all protocols,
types, codes, flags and connections that there are. That is enough: between two neighbours of a list no term changes what it says
of a number. So a packet whose addresses and ports are moved to the next ones of the world below them is matched by the same terms,
and stays a packet, since 0 is moved nowhere. Of numbers of which each term says the same, one is looked at.
"""

import ipaddress

from drawing import DAY, TARGETS, Term

NETS = {
    'ANY': ['0.0.0.0/0', '::/0'], 'LOWER': ['0.0.0.0/1', '::/1'], 'UPPER': ['128.0.0.0/1', '8000::/1'], 'PAIR': ['10.0.0.2/31', 'fd00::2/127'],
    'EVEN': ['10.0.0.2', 'fd00::2'], 'ODD': ['10.0.0.3', 'fd00::3'], 'ENDS': ['0.0.0.0', '255.255.255.255', '::'], 'FOUR': ['10.0.0.0/30'],
}
SERVICES = {
    'ALL': [('tcp', 0, 65535), ('udp', 0, 65535)], 'SERVERS': [('tcp', 0, 1023), ('udp', 0, 1023)],
    'CLIENTS': [('tcp', 1024, 65535), ('udp', 1024, 65535)], 'MIXED': [('tcp', 80, 80), ('udp', 53, 53)],
    'SWAPPED': [('tcp', 53, 53), ('udp', 80, 80)], 'FEW': [('tcp', 53, 80), ('udp', 1000, 1024)],
}
NUMBERS = {'icmp': 1, 'tcp': 6, 'udp': 17, 'gre': 47, 'icmpv6': 58}
FOREIGN, ICMP = {4: 'icmpv6', 6: 'icmp'}, {4: 1, 6: 58}
# The families of each name's prefixes, and where they begin and end.
PREFIXES = {name: [(net.version, int(net.network_address), int(net.broadcast_address)) for net in map(ipaddress.ip_network, items)]
            for name, items in NETS.items()}
WITH_PORTS, NO_PROTOCOLS = (6, 17, 132), (0, 43, 44, 51, 59, 60, 135, 139, 140)
TYPES = {'icmp': ('0', '3', '8'), 'icmpv6': ('1', '128')}
SYN, RST, ACK = 2, 4, 16
CONNECTIONS = ('new', 'established', 'related', 'invalid')


def net_text():
    return ''.join('%s = %s\n' % (name, ' '.join(items)) for name, items in NETS.items())


def service_text():
    return ''.join('%s = %s\n' % (name, ' '.join('%d-%d/%s' % (low, high, word) for word, low, high in items)) for name, items in SERVICES.items())


# ---- what a term says of a number


def reaches(name, family, address):
    return any(version == family and low <= address <= high for version, low, high in PREFIXES[name])


def serves(name, port, protocols):
    return any(word in protocols and low <= port <= high for word, low, high in SERVICES[name])


class Says:
    """What each of some terms says of a number by itself, as a sum of bits: 1 of the first term, 2 of the second and so on."""

    def __init__(self, terms, family, target):
        self.terms, self.family, self.stateful = terms, family, target[4]
        self.live = self.sum(lambda words: self.is_live(words, target[2]))
        self.known = {}

    def sum(self, test):
        return sum(1 << place for place, term in enumerate(self.terms) if test(term.words))

    @staticmethod
    def is_live(words, platform):
        return not ('platform' in words and platform not in words['platform'] or platform in words.get('platform-exclude', ())
                    or 'expiration' in words and words['expiration'][0] <= DAY)

    def of(self, key, number):
        if (key, number) not in self.known:
            self.known[key, number] = self.sum(lambda words: self.says(words, key, number))
        return self.known[key, number]

    def says(self, words, key, number):
        if key in ('source', 'destination', 'address'):
            asked, excluded = words.get('address' if key == 'address' else key + '-address'), words.get(key + '-exclude', ())
            return (asked is None or any(reaches(name, self.family, number) for name in asked)) \
                and not any(reaches(name, self.family, number) for name in excluded)
        if key not in words:
            return True
        if key == 'protocol':
            return any(NUMBERS[word] == number for word in words[key] if word != FOREIGN[self.family])
        if key in ('port', 'source-port', 'destination-port'):
            return any(serves(name, number, words['protocol']) for name in words[key])
        return str(number) in words[key]

    def options(self, protocol, port, flags, connection):
        """Of which terms the option holds, where that is the destination port."""
        asked = ('option', protocol in (6, 17) and protocol, port >= 1024, flags & (SYN | RST | ACK), connection in ('established', 'related'))
        if asked not in self.known:
            self.known[asked] = self.sum(lambda words: self.passes(words, protocol, port, flags, connection))
        return self.known[asked]

    def passes(self, words, protocol, port, flags, connection):
        option = words.get('option', ['none'])[0]
        if option == 'tcp-initial':
            return bool(flags & SYN) and not flags & ACK
        if option == 'rst':
            return bool(flags & RST)
        if option == 'none':
            return True
        if self.stateful:
            return connection in ('established', 'related')
        if option == 'established' and protocol == 17:
            return 'destination-port' in words or port >= 1024
        return bool(flags & (RST | ACK))


def first(bits):
    return (bits & -bits).bit_length() - 1 if bits else None


# ---- the world


def beside(ends, top):
    return sorted({number + step for number in ends for step in (-1, 0, 1) if 0 <= number + step <= top} | {0, top})


def addresses(terms, family):
    names = {name for term in terms for key in term.words if key.endswith(('address', '-exclude')) and not key.startswith('platform')
             for name in term.words[key]}
    return beside({end for name in names for version, low, high in PREFIXES[name] if version == family for end in (low, high)},
                  (1 << (32 if family == 4 else 128)) - 1)


def ports(terms):
    names = {name for term in terms for key in term.words if key.endswith('port') for name in term.words[key]}
    return beside({1024} | {end for name in names for _, low, high in SERVICES[name] for end in (low, high)}, 65535)


def unlike(numbers, says):
    """One number of each kind: of the numbers of a kind each term says the same."""
    return list({says(number): number for number in reversed(numbers)}.values())


def decided(terms, target):
    """The places of the terms that decide some packet of the world on the target."""
    found = set()
    for family in target[3]:
        told = Says(terms, family, target)
        world, doors = addresses(terms, family), ports(terms)
        either = lambda number: told.of('address', number)
        sources = unlike(world, lambda number: (told.of('source', number), either(number)))
        destinations = unlike(world, lambda number: (told.of('destination', number), either(number)))
        pairs = {told.live & told.of('source', source) & told.of('destination', destination) & (either(source) | either(destination))
                 for source in sources for destination in destinations}
        for rest in unlike_rests(told, family, doors):
            found.update(first(pair & rest) for pair in pairs)
    return found - {None}


def is_packet(family, protocol, ports, flags, types):
    """Whether the protocol may stand in a packet, and each field is 0 that it has not."""
    return not (family == 6 and protocol in NO_PROTOCOLS or ports != (0, 0) and protocol not in WITH_PORTS or flags and protocol != 6
                or types != (0, 0) and protocol != ICMP[family])


def decider(terms, target, text):
    """The place of the term that decides the packet with that text on the target, or None."""
    words = text.split(' ')
    source, destination = map(ipaddress.ip_address, words[:2])
    protocol, sport, dport, flags, kind, code = map(int, words[2:8])
    if source.version != destination.version or source.version not in target[3] or words[8] not in CONNECTIONS \
            or not is_packet(source.version, protocol, (sport, dport), flags, (kind, code)):
        return None
    told = Says(terms, source.version, target)
    left = told.live & told.of('source', int(source)) & told.of('destination', int(destination))
    left &= told.of('address', int(source)) | told.of('address', int(destination))
    left &= told.of('protocol', protocol) & told.of('icmp-type', kind) & told.of('icmp-code', code)
    left &= told.of('source-port', sport) & told.of('destination-port', dport) & (told.of('port', sport) | told.of('port', dport))
    return first(left & told.options(protocol, dport, flags, words[8]))


def unlike_rests(told, family, doors):
    """What the terms say of all that a packet has besides addresses: each sum of bits once."""
    rests = set()
    either = lambda number: told.of('port', number)
    for protocol in range(256):
        if family == 6 and protocol in NO_PROTOCOLS:
            continue
        has_ports, has_types = protocol in WITH_PORTS, protocol == ICMP[family]
        sports = unlike(doors, lambda port: (told.of('source-port', port), either(port))) if has_ports else [0]
        dports = unlike(doors, lambda port: (told.of('destination-port', port), either(port), port >= 1024)) if has_ports else [0]
        kinds = unlike(range(256), lambda kind: told.of('icmp-type', kind)) if has_types else [0]
        codes = unlike(range(256), lambda code: told.of('icmp-code', code)) if has_types else [0]
        of_types = {told.of('protocol', protocol) & told.of('icmp-type', kind) & told.of('icmp-code', code) for kind in kinds for code in codes}
        if of_types == {0}:
            continue
        for dport in dports:
            of_options = {told.options(protocol, dport, flags, connection)
                          for flags in (range(64) if protocol == 6 else [0]) for connection in CONNECTIONS}
            for sport in sports:
                of_ports = told.of('source-port', sport) & told.of('destination-port', dport) & (either(sport) | either(dport))
                rests |= {a & b & of_ports for a in of_types for b in of_options}
    return rests


# ---- policies


def drawn_term(draw, name):
    words = {}
    some = lambda names: draw.sample(sorted(names), draw.choice((1, 1, 2)))
    chances = {'source-address': 0.6, 'destination-address': 0.3, 'source-exclude': 0.15, 'destination-exclude': 0.1, 'address': 0.2}
    for key, chance in chances.items():
        if draw.random() < chance:
            words[key] = some(NETS)
    kind = draw.choice(('none', 'none', 'protocols', 'ports', 'ports', 'icmp', 'option', 'option'))
    if kind == 'protocols':
        words['protocol'] = draw.sample(sorted(NUMBERS), draw.choice((1, 2, 3, 4)))
    if kind == 'ports':
        words['protocol'] = draw.choice((['tcp'], ['udp'], ['tcp', 'udp']))
        for key in draw.sample(('source-port', 'destination-port', 'port'), draw.choice((1, 1, 2))):
            words[key] = some(SERVICES)
    if kind == 'icmp':
        words['protocol'] = [draw.choice(('icmp', 'icmp', 'icmpv6'))]
        words['icmp-type'] = draw.sample(TYPES[words['protocol'][0]], draw.choice((1, 1, 2)))
        if len(words['icmp-type']) == 1 and draw.random() < 0.4:
            words['icmp-code'] = draw.sample(('0', '1', '255'), draw.choice((1, 2)))
    if kind == 'option':
        words['option'] = [draw.choice(('established', 'established', 'tcp-established', 'tcp-initial', 'rst'))]
        words['protocol'] = draw.choice((['tcp'], ['udp'], ['tcp', 'udp'])) if words['option'] == ['established'] else ['tcp']
        if draw.random() < 0.5:
            words[draw.choice(('destination-port', 'port'))] = some(SERVICES)
    if draw.random() < 0.1:
        words['expiration'] = [draw.choice((DAY, '2026-01-16'))]
    if draw.random() < 0.1:
        words[draw.choice(('platform', 'platform-exclude'))] = [draw.choice(('cisco', 'nftables'))]
    words['action'] = [draw.choice(('accept', 'deny', 'reject'))]
    return Term(name, words)


def drawn(draw):
    """A block of a policy: three targets and some terms."""
    return draw.sample(TARGETS, 3), [drawn_term(draw, 't%d' % at) for at in range(draw.randrange(3, 9))]
