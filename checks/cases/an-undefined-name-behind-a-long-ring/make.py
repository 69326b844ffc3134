import os

os.makedirs('in/def', exist_ok=True)
with open('in/def/n.net', 'w') as file:
    file.write('N0 = N8000\n')
    file.writelines('N%d = N%d N%d\n' % (i, i - 1, i - 1) for i in range(1, 8001))
    file.write('Z = Z0\n')
