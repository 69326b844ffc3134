import os

os.makedirs('in/def', exist_ok=True)
