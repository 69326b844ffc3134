import pathlib

pathlib.Path('in/out').mkdir(parents=True)
pathlib.Path('in/out/a.acl').write_bytes(b'!' * 16777217)
