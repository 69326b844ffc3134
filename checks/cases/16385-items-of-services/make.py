import os

os.makedirs('in/def', exist_ok=True)
with open('in/def/n.svc', 'w') as file:
    file.write('A =\n')
    file.writelines('80/tcp\n' for i in range(16385))
