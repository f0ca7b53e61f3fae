"""Where the command is, and the tools of this checkout; for the tests beside this file."""
import os
import sys

HERE = os.path.dirname(os.path.abspath(__file__))
PYTHON = os.path.dirname(HERE)
ROOT = os.path.dirname(PYTHON)
TOOLS = os.path.join(ROOT, 'tools')
OAUTH2 = os.path.join(TOOLS, 'oauth2')  # starts the command
sys.dont_write_bytecode = True
sys.path[:0] = [PYTHON, TOOLS]
