import os

os.makedirs('in/def', exist_ok=True)
with open('in/def/n.net', 'w') as file:
    for name, odd in (('EVEN', 0), ('ODD', 1)):
        file.write('%s = %s\n' % (name, ' '.join('0.0.%d.%d' % (i // 128, i % 128 * 2 + odd) for i in range(8192))))
