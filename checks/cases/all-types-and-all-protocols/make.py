import os

numbers = ' '.join(map(str, range(1, 256)))
types = list(range(255))
os.makedirs('in/pol', exist_ok=True)
os.makedirs('made/out')
with open('in/pol/a.pol', 'w') as file:
    file.write('header {\n  target:: cisco edge\n  target:: nftables inet input\n}\n')
    file.write('term t {\n  protocol:: icmp\n  icmp-type:: %s\n  action:: accept\n}\n' % ' '.join(map(str, types)))
    file.write('term p {\n  protocol:: %s\n  action:: deny\n}\n' % numbers)
with open('stdout', 'w') as file:
    file.write('out/a.acl: cisco edge extended: entries 509\nout/a.nft: nftables input inet: entries 510\n')
protocols = [number for number in range(1, 256) if number != 58]
with open('made/out/a.acl', 'w') as file:
    file.write('! cisco edge extended\nno ip access-list extended edge\nip access-list extended edge\n remark t\n')
    file.writelines(' permit icmp any any %d\n' % number for number in types)
    file.write(' remark p\n')
    file.writelines(' deny %s any any\n' % {1: 'icmp', 6: 'tcp', 17: 'udp'}.get(number, number) for number in protocols)
    file.write('exit\n')
with open('made/out/a.nft', 'w') as file:
    file.write('## nftables input inet\nadd table ip aclgen_1\ndelete table ip aclgen_1\ntable ip aclgen_1 {\n'
               '    chain input {\n        type filter hook input priority 0; policy drop;\n        # t\n')
    file.write('        meta l4proto 1 icmp type { %s } accept\n        # p\n' % ', '.join(map(str, types)))
    file.writelines('        meta l4proto %d drop\n' % number for number in protocols)
    file.write('    }\n}\n')
