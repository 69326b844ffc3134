import os

os.makedirs('in/def', exist_ok=True)
for i in range(4097):
    with open('in/def/n%d.%s' % (i, 'svc' if i % 2 else 'net'), 'w') as file:
        file.write('# empty\n')
with open('in/def/n.txt', 'w') as file:
    file.write('no naming file\n')
