import os

os.makedirs('in/pol', exist_ok=True)
with open('in/pol/a.pol', 'w') as file:
    file.write('header {\n  target:: cisco edge\n}\n')
    file.writelines('term t%d {\n  protocol:: %d\n  action:: accept\n}\n' % (i, 1 + i % 255) for i in range(900))
    file.write('term last {\n  protocol:: tcp\n  source-address:: WEB NOPE\n  action:: accept\n}\n')
