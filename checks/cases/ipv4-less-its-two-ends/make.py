"""From the first end the prefixes double up to half of all addresses, and to the last end they halve again."""
import ipaddress
import os

BITS = 32
ends = [(2 ** bit, BITS - bit) for bit in range(BITS - 1)] + \
    [(2 ** BITS - 2 ** (bit + 1), BITS - bit) for bit in reversed(range(BITS - 1))]


def source(address, length):
    if length == BITS:
        return 'host %s' % ipaddress.IPv4Address(address)
    return '%s %s' % (ipaddress.IPv4Address(address), ipaddress.IPv4Address(2 ** (BITS - length) - 1))


os.makedirs('made/out')
with open('made/out/a.acl', 'w') as file:
    file.write('! cisco edge extended\nno ip access-list extended edge\nip access-list extended edge\n remark a\n')
    file.writelines(' permit ip %s any\n' % source(*end) for end in ends)
    file.write('exit\n')
