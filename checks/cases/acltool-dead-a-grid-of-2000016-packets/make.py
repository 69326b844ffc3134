"""43 sources, 38 destinations, 34 ports and 36 ports are 2,000,016 packets."""
import os

os.makedirs('in/def', exist_ok=True)
with open('in/def/n.net', 'w') as file:
    file.write('S = %s\n' % ' '.join('10.0.%d.1' % i for i in range(43)))
    file.write('D = %s\n' % ' '.join('10.1.%d.1' % i for i in range(38)))
with open('in/def/s.svc', 'w') as file:
    file.write('FROM = %s\n' % ' '.join('%d/tcp' % (1 + 2 * i) for i in range(34)))
    file.write('TO = %s\n' % ' '.join('%d/tcp' % (101 + 2 * i) for i in range(36)))
