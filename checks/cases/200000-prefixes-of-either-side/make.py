import os

os.makedirs('in/def', exist_ok=True)
os.makedirs('in/pol', exist_ok=True)
with open('in/def/n.net', 'w') as file:
    file.write('L = %s\n' % ' '.join('10.%d.%d.1' % (i // 200, i % 200) for i in range(9999)))
with open('in/pol/a.pol', 'w') as file:
    file.write('header {\n  target:: cisco edge extended\n}\n')
    file.writelines('term t%d {\n  address:: L\n  action:: accept\n}\n' % i for i in range(10))
