"""40 sources, 40 destinations, 25 ports and 50 ports are 2,000,000 packets."""
import os

os.makedirs('in/def', exist_ok=True)
with open('in/def/n.net', 'w') as file:
    file.write('S = %s\n' % ' '.join('10.0.%d.1' % i for i in range(40)))
    file.write('D = %s\n' % ' '.join('10.1.%d.1' % i for i in range(40)))
with open('in/def/s.svc', 'w') as file:
    file.write('FROM = %s\n' % ' '.join('%d/tcp' % (1 + 2 * i) for i in range(25)))
    file.write('TO = %s\n' % ' '.join('%d/tcp' % (101 + 2 * i) for i in range(50)))
