import os

os.makedirs('in/def', exist_ok=True)
with open('in/def/n.net', 'w') as file:
    file.write('#' * 4194304)
