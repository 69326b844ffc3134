import os

os.makedirs('in/def', exist_ok=True)
os.makedirs('in/pol', exist_ok=True)
with open('in/def/n.net', 'w') as file:
    file.write('A = %s\n' % ' '.join('10.%d.%d.1' % (i // 256, i % 256) for i in range(1000)))
with open('in/pol/a.pol', 'w') as file:
    file.write('header {\n  target:: juniper edge\n}\n')
    file.writelines('term t%d {\n  source-address:: A\n  action:: accept\n}\n' % i for i in range(100))
