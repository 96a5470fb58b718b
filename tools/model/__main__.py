"""What `frame_run` prints for these words, by a second implementation of the language.

`python3 tools/model [--workers N] [--depth] SCRIPT [TABLE]`. It is written from docs/LANGUAGE.md and not from the
program, shares no code with it, and runs each job whole where it is scheduled. So where both print the same, a mistake
would have to be in both. It is slow, and doesn't run out of memory.
"""
import os
import sys

from command import frame_run


def main():
    status, text = frame_run([os.fsencode(word) for word in sys.argv[1:]])
    sys.stdout.buffer.write(text)
    return status


if __name__ == "__main__":
    sys.exit(main())
