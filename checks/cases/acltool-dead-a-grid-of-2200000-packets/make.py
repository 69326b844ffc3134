"""S has 250 hosts and D 400, none of which has its neighbour."""
import os

os.makedirs('in/def', exist_ok=True)
sources = ['10.0.%d.1' % i for i in range(250)]
destinations = ['10.%d.%d.1' % (1 + i // 200, i % 200) for i in range(400)]
with open('in/def/n.net', 'w') as file:
    file.write('S = %s\nD = %s\n' % (' '.join(sources), ' '.join(destinations)))
