"""A second replay of schedules, written from the definitions, and schedules from seeds.

It keeps an opening tree and the records, and nothing else. For each request it walks the records: who is open, which of them
stand, and what the tree is that their commands give in the order of the records.

  tree.py       the tree, what is derived from it, and its interface files
  commands.py   the ten commands: what each checks and changes, and under which marks
  history.py    the records, what they say, and the answer to the next request
  texts.py      world texts and the lines of schedules
  worlds.py     world texts of which nothing is taken for right
  replay.py     what a whole schedule is answered
  schedules.py  worlds and schedules from seeds
  cases.toml    worked cases, written by hand"""
