NAME = 'A_z ~!@$%^&*()[]{}<>|;:,"#=+`\\?9.inc'

with open('in/pol/' + NAME, 'w') as file:
    file.write('term t {\n  action:: accept\n}\n')
