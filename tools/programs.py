"""Which program a tool runs. No tool builds one: where it isn't there, a sentence says where it is made."""
import os
import sys

ROOT = os.path.dirname(os.path.dirname(os.path.abspath(__file__)))


def place_of_frame_run(given=None):
    """Where the program is that was given, or that FRAME_RUN names, or that bin/frame_run has made."""
    return os.path.abspath(given or os.environ.get("FRAME_RUN") or f"{ROOT}/out/frame_run")


def frame_run(given=None):
    """The same. Ends where no program is there."""
    program = place_of_frame_run(given)
    if not os.path.isfile(program) or not os.access(program, os.X_OK):
        sys.exit(f"no program at {program}: bin/frame_run proves and builds it, as out/frame_run")
    return program
