"""A thousand hosts, none of which has its neighbour, and fifty ports."""
import os

hosts = ['10.0.%d.%d' % (i // 100, i % 100 * 2 + 1) for i in range(1000)]
ports = range(1, 101, 2)
os.makedirs('in/def', exist_ok=True)
with open('in/def/n.net', 'w') as file:
    file.write('L = %s\n' % ' '.join(hosts))
with open('in/def/s.svc', 'w') as file:
    file.write('P = %s\n' % ' '.join('%d/udp' % port for port in ports))
