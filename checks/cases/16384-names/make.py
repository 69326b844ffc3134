import os

os.makedirs('in/def', exist_ok=True)
with open('in/def/n.net', 'w') as file:
    file.writelines('N%d = 192.0.2.1\n' % i for i in range(16384))
