import os

TEXT = 'header {\n  target:: cisco edge extended\n}\nterm t {\n  action:: accept\n}\n'
os.makedirs('in/pol', exist_ok=True)
with open('in/pol/a.pol', 'w') as file:
    file.write(TEXT + '#' * (4194305 - len(TEXT)))
