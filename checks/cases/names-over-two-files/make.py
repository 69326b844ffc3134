import os

os.makedirs('in/def', exist_ok=True)
with open('in/def/a.net', 'w') as file:
    file.writelines('N%d =\n' % i for i in range(16383))
