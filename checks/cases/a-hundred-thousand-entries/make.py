"""S has 250 hosts and D 400, none of which has its neighbour."""
import os

sources = ['10.0.%d.1' % i for i in range(250)]
destinations = ['10.%d.%d.1' % (1 + i // 200, i % 200) for i in range(400)]
os.makedirs('in/def', exist_ok=True)
with open('in/def/n.net', 'w') as file:
    file.write('S = %s\nD = %s\n' % (' '.join(sources), ' '.join(destinations)))
os.makedirs('made/out')
with open('made/out/a.acl', 'w') as file:
    file.write('! cisco edge extended\nno ip access-list extended edge\nip access-list extended edge\n remark a\n')
    file.writelines(' permit ip host %s host %s\n' % (s, d) for s in sources for d in destinations)
    file.write('exit\n')
