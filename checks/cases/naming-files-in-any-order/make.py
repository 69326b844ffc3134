import os
import random

# in byte order: n0, n1, n10, n100, ... ; n0 and n1 define other names, n10 the first name again
numbers = list(range(300))
random.Random(3).shuffle(numbers)
os.makedirs('in/def', exist_ok=True)
for number in numbers:
    with open('in/def/n%d.net' % number, 'w') as file:
        file.write('%s = 192.0.2.1\n' % {0: 'A', 1: 'B'}.get(number, 'A'))
