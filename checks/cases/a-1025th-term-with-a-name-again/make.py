import os

os.makedirs('in/pol', exist_ok=True)
with open('in/pol/a.pol', 'w') as file:
    file.write('header {\n  target:: cisco edge\n}\n')
    file.writelines('term t%d {\n  protocol:: udp\n  action:: accept\n}\n' % i for i in range(1024))
with open('in/pol/a.pol', 'a') as file:
    file.write('term t0 {\n')
