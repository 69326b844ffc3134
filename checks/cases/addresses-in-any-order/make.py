"""Hosts and ports in five orders: none of which has its neighbour, and what is written is the one list in order."""
import os
import random

hosts = ['10.%d.%d.1' % (i // 256, i % 256) for i in range(1200)]
rising, falling = list(hosts), hosts[::-1]
runs = [host for start in range(7) for host in hosts[start::7]]
pipe = hosts[::2] + hosts[1::2][::-1]
mixed = list(hosts)
random.Random(1).shuffle(mixed)
ports = list(range(1, 200, 2))
random.Random(2).shuffle(ports)
os.makedirs('in/def', exist_ok=True)
os.makedirs('in/pol', exist_ok=True)
os.makedirs('made/out')
orders = [('R', rising), ('F', falling), ('S', runs), ('P', pipe), ('M', mixed), ('T', mixed + pipe)]
with open('in/def/n.net', 'w') as file:
    file.writelines('%s = %s\n' % (name, ' '.join(order)) for name, order in orders)
with open('in/def/s.svc', 'w') as file:
    file.write('P = %s\n' % ' '.join('%d/tcp' % port for port in ports))
with open('in/pol/a.pol', 'w') as file:
    file.write('header {\n  target:: nftables inet input\n}\n')
    for number, (name, _) in enumerate(orders):
        file.write('term %s {\n  source-address:: %s\n  protocol:: %d\n  action:: accept\n}\n' % (name, name, number + 101))
    file.write('term ports {\n  destination-port:: P\n  protocol:: tcp\n  action:: accept\n}\n')
with open('stdout', 'w') as file:
    file.write('out/a.nft: nftables input inet: entries 7307\n')
with open('made/out/a.nft', 'w') as file:
    file.write('## nftables input inet\nadd table ip aclgen_1\ndelete table ip aclgen_1\ntable ip aclgen_1 {\n'
               '    chain input {\n        type filter hook input priority 0; policy drop;\n')
    for number, (name, _) in enumerate(orders):
        file.write('        # %s\n        meta l4proto %d ip saddr { %s } accept\n' % (
            name, number + 101, ', '.join(host + '/32' for host in hosts)))
    file.write('        # ports\n        meta l4proto 6 tcp dport { %s } accept\n    }\n}\n' % (
        ', '.join(str(port) for port in sorted(ports))))
