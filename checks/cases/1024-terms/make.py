import os

os.makedirs('in/pol', exist_ok=True)
with open('in/pol/a.pol', 'w') as file:
    file.write('header {\n  target:: cisco edge\n}\n')
    file.writelines('term t%d {\n  protocol:: udp\n  action:: accept\n}\n' % i for i in range(1024))
os.makedirs('made/out')
with open('made/out/a.acl', 'w') as file:
    file.write('! cisco edge extended\nno ip access-list extended edge\nip access-list extended edge\n')
    file.writelines(' remark t%d\n permit udp any any\n' % i for i in range(1024))
    file.write('exit\n')
with open('stdout', 'w') as file:
    file.writelines('pol/a.pol:%d: term t%d shaded by t0\n' % (4 + 4 * i, i) for i in range(1, 1024))
    file.write('out/a.acl: cisco edge extended: entries 1024\n')
