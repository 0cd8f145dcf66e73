"""Runs a command into a pipe that nobody reads any more, as one is behind `head`, and ends with its status."""
import os
import subprocess
import sys

reader, writer = os.pipe()
os.close(reader)
sys.exit(subprocess.run(sys.argv[1:], stdout=writer).returncode)
