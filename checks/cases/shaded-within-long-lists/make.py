import os

hosts = ['10.%d.%d.1' % (i // 256, i % 256) for i in range(1000)]
os.makedirs('in/def', exist_ok=True)
os.makedirs('in/pol', exist_ok=True)
os.makedirs('made/out')
lists = [('all', hosts), ('far', [hosts[0], hosts[700], hosts[999]]), ('but-one', hosts[:500] + ['10.1.245.1'] + hosts[501:]),
         ('half', hosts[::2]), ('beyond', hosts[900:] + ['10.3.232.1'])]
with open('in/def/n.net', 'w') as file:
    file.writelines('%s = %s\n' % (name, ' '.join(items)) for name, items in lists)
    # 500 is 10.1.244.1, and 10.1.245.1 is 501, so `but-one` lacks 500 and adds nothing; 1000 would be 10.3.232.1
with open('in/pol/a.pol', 'w') as file:
    file.write('header {\n  target:: nftables inet input noverbose\n}\n')
    for name, _ in lists:
        file.write('term %s {\n  source-address:: %s\n  action:: accept\n}\n' % (name, name))
with open('stdout', 'w') as file:
    file.write('pol/a.pol:8: term far shaded by all\npol/a.pol:12: term but-one shaded by all\n'
               'pol/a.pol:16: term half shaded by all\n')
    file.write('out/a.nft: nftables input inet: entries 2608\n')
with open('made/out/a.nft', 'w') as file:
    file.write('## nftables input inet\nadd table ip aclgen_1\ndelete table ip aclgen_1\ntable ip aclgen_1 {\n'
               '    chain input {\n        type filter hook input priority 0; policy drop;\n')
    for name, items in lists:
        listed = [host for host in hosts + ['10.3.232.1'] if host in items]
        file.write('        ip saddr { %s } accept\n' % ', '.join(host + '/32' for host in listed))
    file.write('    }\n}\n')
