import os

with open('in/pol/a.pol') as file:
    begun = len(file.read())
for name, size in (('a', 4194304), ('b', 4194304), ('c', 4194304), ('d', 4194304 - begun + 1)):
    with open('in/pol/%s.inc' % name, 'w') as file:
        file.write('#' * (size - 1) + '\n')
