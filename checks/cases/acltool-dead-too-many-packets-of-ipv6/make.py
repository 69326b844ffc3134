"""In IPv6 40 sources, 40 destinations, 25 ports and 51 ports are 2,040,000 packets; in IPv4 there are 1,275."""
import os

os.makedirs('in/def', exist_ok=True)
with open('in/def/n.net', 'w') as file:
    file.write('S = 192.0.2.1 %s\n' % ' '.join('2001:db8:0:%x::1' % i for i in range(40)))
    file.write('D = 192.0.2.2 %s\n' % ' '.join('2001:db8:1:%x::1' % i for i in range(40)))
with open('in/def/s.svc', 'w') as file:
    file.write('FROM = %s\n' % ' '.join('%d/tcp' % (1 + 2 * i) for i in range(25)))
    file.write('TO = %s\n' % ' '.join('%d/tcp' % (101 + 2 * i) for i in range(51)))
