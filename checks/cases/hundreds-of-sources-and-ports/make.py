"""300 hosts and 100 ports, none of which has its neighbour."""
import os

hosts = ['10.%d.%d.1' % (i // 256, i % 256) for i in range(300)]
ports = list(range(1, 200, 2))
os.makedirs('in/def', exist_ok=True)
os.makedirs('in/pol', exist_ok=True)
os.makedirs('made/out')
with open('in/def/n.net', 'w') as file:
    file.writelines('H%d = %s\n' % (i, host) for i, host in enumerate(hosts))
    file.write('ALL = %s\n' % '\n '.join('H%d' % i for i in range(300)))
with open('in/def/s.svc', 'w') as file:
    file.writelines('P%d = %d/tcp\n' % (port, port) for port in ports)
    file.write('ALL = %s\n' % '\n '.join('P%d' % port for port in ports))
with open('in/pol/a.pol', 'w') as file:
    file.write('''header {
  target:: cisco edge
  target:: juniper edge
  target:: iptables INPUT
  target:: nftables inet input
}
term t {
  source-address:: ALL
  destination-port:: ALL
  protocol:: tcp
  action:: accept
}
''')
with open('stdout', 'w') as file:
    file.write('out/a.acl: cisco edge extended: entries 30000\nout/a.jcl: juniper edge inet: entries 402\n'
               'out/a.ipt: iptables INPUT inet: entries 2101\nout/a.nft: nftables input inet: entries 401\n')
with open('made/out/a.acl', 'w') as file:
    file.write('! cisco edge extended\nno ip access-list extended edge\nip access-list extended edge\n remark t\n')
    file.writelines(' permit tcp host %s any eq %d\n' % (host, port) for host in hosts for port in ports)
    file.write('exit\n')
with open('made/out/a.jcl', 'w') as file:
    file.write('/* juniper edge inet */\nfirewall {\n    family inet {\n        replace: filter edge {\n'
               '            term t {\n                from {\n                    source-address {\n')
    file.writelines(24 * ' ' + host + '/32;\n' for host in hosts)
    file.write(20 * ' ' + '}\n' + 20 * ' ' + 'protocol [ 6 ];\n')
    file.write(20 * ' ' + 'destination-port [ %s ];\n' % ' '.join(map(str, ports)))
    file.write('                }\n                then {\n                    accept;\n                }\n'
               '            }\n        }\n    }\n}\n')
with open('made/out/a.ipt', 'w') as file:
    file.write('## iptables INPUT inet\n# t\n-N I_t\n')
    groups = [','.join(map(str, ports[at:at + 15])) for at in range(0, 100, 15)]
    file.writelines('-A I_t -p tcp -s %s/32 -m multiport --dports %s -j ACCEPT\n' % (host, group)
                    for host in hosts for group in groups)
    file.write('-A INPUT -j I_t\n')
with open('made/out/a.nft', 'w') as file:
    file.write('## nftables input inet\nadd table ip aclgen_1\ndelete table ip aclgen_1\ntable ip aclgen_1 {\n'
               '    chain input {\n        type filter hook input priority 0; policy drop;\n        # t\n')
    file.write('        meta l4proto 6 ip saddr { %s } tcp dport { %s } accept\n' % (
        ', '.join(host + '/32' for host in hosts), ', '.join(map(str, ports))))
    file.write('    }\n}\n')
