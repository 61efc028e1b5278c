"""What 'tools/test-session-text' runs. 'done' counts what the tests went through, for its last line."""
import collections
import pathlib

ROOT = pathlib.Path(__file__).resolve().parents[3]

done = collections.Counter()
