"""From the first end the prefixes double up to half of all addresses, and to the last end they halve again."""
import ipaddress
import os

BITS = 128
ends = [(2 ** bit, BITS - bit) for bit in range(BITS - 1)] + \
    [(2 ** BITS - 2 ** (bit + 1), BITS - bit) for bit in reversed(range(BITS - 1))]


def source(address, length):
    text = ipaddress.IPv6Address(address)
    return 'host %s' % text if length == BITS else '%s/%d' % (text, length)


os.makedirs('made/out')
with open('made/out/a.acl', 'w') as file:
    file.write('! cisco edge inet6\nno ipv6 access-list edge\nipv6 access-list edge\n remark a\n')
    file.writelines(' permit ipv6 %s any\n' % source(*end) for end in ends)
    file.write('exit\n')
