"""Small policies that are drawn by chance, and what docs/LANGUAGE.md says of them: what becomes of a packet, and which packet a
term decides. Nothing here calls a program. It is no check."""

import ipaddress

DAY = '2026-01-15'
TOPS = {4: (1 << 32) - 1, 6: (1 << 128) - 1}
PROTOCOLS = {'icmp': 1, 'igmp': 2, 'tcp': 6, 'udp': 17, 'gre': 47, 'ah': 51, 'icmpv6': 58, 'sctp': 132}
TYPES = {'echo-reply': 0, 'unreachable': 3, 'echo-request': 8, 'packet-too-big': 2, 'neighbor-solicit': 135}
OTHER_ICMP = {4: 58, 6: 1}
NO_PROTOCOLS = {4: (), 6: (0, 43, 44, 51, 59, 60, 135, 139, 140)}
SYN, RST, ACK = 2, 4, 16
# The most packets of a grid that is looked at, and of one that is drawn.
MOST, FEW = 2_000_000, 60_000

NETS = {
    'ALL': ['0.0.0.0/0', '::/0'], 'HALF': ['0.0.0.0/1', '::/1'], 'FOUR': ['0.0.0.0/0'], 'SIX': ['::/0'],
    'LOW': ['10.0.0.0/25', '2001:db8::/65'], 'HIGH': ['10.0.0.128/25', '2001:db8:0:0:8000::/65'], 'NET': ['10.0.0.0/24', '2001:db8::/64'],
    'HOST': ['10.0.0.77', '2001:db8::77'], 'ENDS': ['0.0.0.0', '255.255.255.255'], 'NONE': [],
}
SERVICES = {
    'ZERO': [(0, 0)], 'DNS': [(53, 53)], 'LOWER': [(0, 1023)], 'UPPER': [(1024, 65535)], 'EVERY': [(0, 65535)], 'SOME': [(53, 80), (1020, 1030)],
}
# A target line, its text, its platform, its families, and whether it follows connections.
CISCO = [
    ('cisco four extended', 'cisco four extended', 'cisco', (4,), False), ('cisco more', 'cisco more extended', 'cisco', (4,), False),
    ('cisco six inet6', 'cisco six inet6', 'cisco', (6,), False), ('cisco both mixed', 'cisco both mixed', 'cisco', (4, 6), False),
]
TARGETS = CISCO + [
    ('juniper four', 'juniper four inet', 'juniper', (4,), False),
    ('juniper six inet6', 'juniper six inet6', 'juniper', (6,), False),
    ('iptables INPUT DROP', 'iptables INPUT inet', 'iptables', (4,), True),
    ('iptables OUTPUT nostate', 'iptables OUTPUT inet', 'iptables', (4,), False),
    ('iptables FORWARD inet6', 'iptables FORWARD inet6', 'iptables', (6,), True),
    ('nftables mixed input', 'nftables input mixed', 'nftables', (4, 6), True),
    ('nftables inet forward', 'nftables forward inet', 'nftables', (4,), True),
]


# ---- sets of numbers, as ranges that rise and do not touch


def joined(ranges):
    made = []
    for low, high in sorted(ranges):
        if made and low <= made[-1][1] + 1:
            made[-1] = (made[-1][0], max(high, made[-1][1]))
        else:
            made.append((low, high))
    return made


def met(some, others):
    return joined((max(a, c), min(b, d)) for a, b in some for c, d in others if max(a, c) <= min(b, d))


def less(ranges, taken):
    for low, high in taken:
        ranges = [part for a, b in ranges for part in ((a, min(b, low - 1)), (max(a, high + 1), b)) if part[0] <= part[1]]
    return joined(ranges)


def holds(ranges, number):
    return any(low <= number <= high for low, high in ranges)


def prefixes(names, family):
    nets = [ipaddress.ip_network(item) for name in names for item in NETS[name]]
    return joined((int(net.network_address), int(net.broadcast_address)) for net in nets if net.version == family)


# ---- terms


class Term:
    """A term as it is written: keywords with their words."""

    def __init__(self, name, words):
        self.name, self.words = name, words
        self.option = words['option'][0] if 'option' in words else None

    def text(self):
        return 'term %s {\n%s}\n' % (self.name, ''.join('  %s:: %s\n' % (key, ' '.join(words)) for key, words in self.words.items()))

    def is_live(self, platform):
        only, never, ends = (self.words.get(key) for key in ('platform', 'platform-exclude', 'expiration'))
        return not (only and platform not in only or never and platform in never or ends and ends[0] <= DAY)


class Sets:
    """The numbers that a term asks for in a family, by field; `pair` and `ports` are those of either side."""

    def __init__(self, term, family):
        words, everything = term.words, [(0, TOPS[family])]
        some = lambda key: prefixes(words[key], family) if key in words else everything
        self.src = less(some('source-address'), prefixes(words.get('source-exclude', []), family))
        self.dst = less(some('destination-address'), prefixes(words.get('destination-exclude', []), family))
        self.pair = some('address')
        named = {PROTOCOLS[word] for word in words.get('protocol', [])} - {OTHER_ICMP[family]}
        self.protocol = joined((one, one) for one in named) if 'protocol' in words else [(0, 255)]
        ports = lambda key: joined(one for name in words[key] for one in SERVICES[name]) if key in words else [(0, 65535)]
        self.sport, self.dport, self.ports = ports('source-port'), ports('destination-port'), ports('port')
        small = lambda key: joined((n, n) for n in (TYPES.get(w) if w in TYPES else int(w) for w in words[key])) if key in words else [(0, 255)]
        self.type, self.code = small('icmp-type'), small('icmp-code')

    def is_empty(self):
        sides = met(self.src, self.pair) and self.dst or self.src and met(self.dst, self.pair)
        ports = met(self.sport, self.ports) and self.dport or self.sport and met(self.dport, self.ports)
        return not (sides and ports and self.protocol)


def passes(term, stateful, packet):
    """Whether the option of a term holds."""
    protocol, dport, flags, known = packet[2], packet[4], packet[7], packet[8] in ('established', 'related')
    if term.option is None:
        return True
    if term.option in ('established', 'tcp-established'):
        if stateful:
            return known
        if protocol == 6:
            return flags & (ACK | RST) != 0
        return 'destination-port' in term.words or dport >= 1024
    return flags & (SYN | ACK) == SYN if term.option == 'tcp-initial' else flags & RST != 0


def matches(term, sets, stateful, packet):
    src, dst, protocol, sport, dport, kind, code = packet[:7]
    return holds(sets.src, src) and holds(sets.dst, dst) and (holds(sets.pair, src) or holds(sets.pair, dst)) \
        and holds(sets.protocol, protocol) and holds(sets.sport, sport) and holds(sets.dport, dport) \
        and (holds(sets.ports, sport) or holds(sets.ports, dport)) and holds(sets.type, kind) and holds(sets.code, code) \
        and passes(term, stateful, packet)


# ---- the packets at the edges of a term


def cuts_of(ranges):
    return {low for low, _ in ranges} | {high + 1 for _, high in ranges}


def edges(own, cuts):
    return sorted({low for low, _ in own} | {cut for cut in cuts if holds(own, cut)})


def grid(term, before, family, stateful):
    """The numbers of each field at which something changes for the term: itself, and the live ones before it."""
    own, earlier = Sets(term, family), [Sets(one, family) for one in before]
    of = lambda field, sets: set().union(*(cuts_of(getattr(one, field)) for one in sets))
    named = (1, 6, 17, 58, 132) + NO_PROTOCOLS[family]
    pairs, ports = of('pair', earlier + [own]), of('ports', earlier + [own])
    further = {'src': pairs, 'dst': pairs, 'sport': ports, 'dport': ports | {1024}, 'protocol': {c + step for c in named for step in (0, 1)}}
    fields = [edges(getattr(own, field), of(field, earlier) | further.get(field, set()))
              for field in ('src', 'dst', 'protocol', 'sport', 'dport', 'type', 'code')]
    asks = any(one.option for one in [term] + before)
    return fields + [[a + b + c for a in (0, ACK) for b in (0, RST) for c in (0, SYN)] if asks else [0],
                     ['new', 'established'] if stateful else ['new']]


def size(fields):
    number = 1
    for field in fields:
        number *= len(field)
    return number


def packets(family, fields):
    """The packets of a grid in order: what is no packet is left out."""
    sources, destinations, protocols, sports, dports, types, codes, flags, connections = fields
    only = lambda numbers, asked: numbers if asked else [number for number in numbers if number == 0]
    icmp = 1 if family == 4 else 58
    for src in sources:
        for dst in destinations:
            for protocol in protocols:
                if protocol in NO_PROTOCOLS[family]:
                    continue
                has_ports = protocol in (6, 17, 132)
                for sport in only(sports, has_ports):
                    for dport in only(dports, has_ports):
                        for kind in only(types, protocol == icmp):
                            for code in only(codes, protocol == icmp):
                                for flag in only(flags, protocol == 6):
                                    for connection in connections:
                                        yield (src, dst, protocol, sport, dport, kind, code, flag, connection)


def packet_text(family, packet):
    made = ipaddress.IPv4Address if family == 4 else ipaddress.IPv6Address
    src, dst, protocol, sport, dport, kind, code, flags, connection = packet
    return ' '.join(map(str, (made(src), made(dst), protocol, sport, dport, flags, kind, code, connection)))


def decided(terms, place, target):
    """What `dead` tells of the term at a place of its block on a target."""
    _, _, platform, families, stateful = target
    term = terms[place]
    if not term.is_live(platform):
        return 'dead'
    before = [one for one in terms[:place] if one.is_live(platform)]
    grids = [(family, grid(term, before, family, stateful)) for family in families if not Sets(term, family).is_empty()]
    if any(size(fields) > MOST for _, fields in grids):
        return 'undecided'
    for family, fields in grids:
        own, earlier = Sets(term, family), [(one, Sets(one, family)) for one in before]
        for packet in packets(family, fields):
            if matches(term, own, stateful, packet) and not any(matches(one, sets, stateful, packet) for one, sets in earlier):
                return 'decides ' + packet_text(family, packet)
    return 'dead'


# ---- standard lists


def source_text(net):
    if net.prefixlen == 0:
        return 'any'
    return 'host %s' % net.network_address if net.prefixlen == 32 else '%s %s' % (net.network_address, net.hostmask)


def list_items(terms):
    """The remarks and entries of a list, behind its number. An item for all sources of a range is a prefix as wide as it can be."""
    items = []
    for term in terms:
        sets = Sets(term, 4)
        if not term.is_live('cisco') or sets.is_empty():
            continue
        items.append('remark ' + term.name)
        for low, high in sets.src:
            for net in ipaddress.summarize_address_range(ipaddress.IPv4Address(low), ipaddress.IPv4Address(high)):
                items.append('%s %s%s' % ('permit' if term.words['action'] == ['accept'] else 'deny', source_text(net),
                                          ' log' if 'logging' in term.words else ''))
    return items or ['deny any']


# ---- policies


class Policy:
    """Blocks, each with its targets and its terms."""

    def __init__(self, blocks):
        self.blocks = blocks

    def text(self):
        return ''.join('header {\n%s}\n%s' % (''.join('  target:: %s\n' % target[0] for target in targets), ''.join(map(Term.text, terms)))
                       for targets, terms in self.blocks)

    def told(self, label):
        """All that `dead` prints."""
        line, out = 1, ''
        for targets, terms in self.blocks:
            line += len(targets) + 2
            for place, term in enumerate(terms):
                for target in targets:
                    out += '%s:%d: term %s on %s: %s\n' % (label, line, term.name, target[1], decided(terms, place, target))
                line += len(term.words) + 2
        return out

    def lists(self, label, first):
        """What `standard` prints on the two streams, of a policy whose terms ask for sources alone."""
        line, number, out = 1, first - 1, ''
        for targets, terms in self.blocks:
            for at, (_, text, platform, _, _) in enumerate(targets, line + 1):
                number += platform == 'cisco'
                if not text.startswith('cisco ') or not text.endswith(' extended'):
                    continue
                if number > 99:
                    return '', '%s:%d: F51 NumberRange %s\n' % (label, at, text.split()[1])
                out += '! cisco standard %d\nno access-list %d\n' % (number, number)
                out += ''.join('access-list %d %s\n' % (number, item) for item in list_items(terms))
            line += len(targets) + 2 + sum(len(term.words) + 2 for term in terms)
        return out, ''

    def is_small(self):
        """Whether each of its grids is small enough to be walked here, or too large for the program."""
        return all(size(grid(term, terms[:place], family, target[4])) <= FEW for targets, terms in self.blocks
                   for place, term in enumerate(terms) for target in targets for family in target[3])


def net_text():
    return ''.join('%s = %s\n' % (name, ' '.join(items)) for name, items in NETS.items())


def service_text():
    return ''.join('%s = %s\n' % (name, ' '.join('%s/%s' % ('%d-%d' % one if one[0] < one[1] else one[0], protocol)
                                                for one in items for protocol in ('tcp', 'udp', 'sctp')))
                   for name, items in SERVICES.items())


def drawn_term(draw, name, sources_alone):
    words = {}
    some = lambda names: draw.sample(sorted(names), draw.choice((1, 1, 2)))
    chances = {'source-address': 0.5, 'destination-address': 0.3, 'source-exclude': 0.1, 'destination-exclude': 0.1, 'address': 0.2}
    for key, chance in chances.items():
        if draw.random() < chance and (not sources_alone or key.startswith('source')):
            words[key] = some(NETS)
    kind = 'none' if sources_alone else draw.choice(('none', 'ports', 'ports', 'tcp', 'tcp', 'icmp', 'any'))
    if kind == 'ports':
        words['protocol'] = draw.sample(('tcp', 'udp', 'sctp'), draw.choice((1, 1, 2)))
        for key in draw.sample(('source-port', 'destination-port', 'port'), draw.choice((1, 1, 2))):
            words[key] = some(SERVICES)
    if kind == 'any':
        words['protocol'] = draw.sample(sorted(PROTOCOLS), draw.choice((1, 2, 3)))
    if kind == 'icmp':
        family = draw.choice((4, 4, 6))
        words['protocol'] = ['icmp' if family == 4 else 'icmpv6']
        words['icmp-type'] = [draw.choice(('echo-reply', 'unreachable', '7') if family == 4 else ('packet-too-big', 'neighbor-solicit'))]
        if draw.random() < 0.5:
            words['icmp-code'] = draw.sample(('0', '3', '4', '255'), draw.choice((1, 2)))
    if kind == 'tcp':
        words['protocol'] = draw.choice((['tcp'], ['tcp'], ['tcp', 'udp'], ['udp']))
        options = ('established', 'tcp-established', 'tcp-initial', 'rst') if words['protocol'] == ['tcp'] else ('established',)
        if draw.random() < 0.3:
            words['destination-port'] = some(SERVICES)
        words['option'] = [draw.choice(options)]
    if draw.random() < 0.1:
        words['expiration'] = [draw.choice(('2026-01-15', '2026-01-16'))]
    if draw.random() < 0.1:
        words[draw.choice(('platform', 'platform-exclude'))] = [draw.choice(('cisco', 'nftables'))]
    if draw.random() < 0.3:
        words['logging'] = ['true']
    words['action'] = [draw.choice(('accept', 'deny', 'reject'))]
    return Term(name, words)


def drawn(draw, sources_alone=False):
    """A policy whose grids are small; with `sources_alone` one whose terms ask for sources and nothing else, mostly on Cisco."""
    while True:
        targets = draw.sample(CISCO + TARGETS[-1:] if sources_alone else TARGETS, 4)
        cut = draw.choice((2, 4))
        blocks = [(part, [drawn_term(draw, 't%d' % at, sources_alone) for at in range(draw.randrange(2, 7))])
                  for part in (targets[:cut], targets[cut:]) if part]
        policy = Policy(blocks)
        if policy.is_small():
            return policy
