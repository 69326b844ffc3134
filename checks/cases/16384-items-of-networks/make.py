import os

os.makedirs('in/def', exist_ok=True)
with open('in/def/n.net', 'w') as file:
    file.write('A =\n')
    file.writelines('192.0.2.1\n' for i in range(16384))
