"""The front of this build.

It turns numbers as people write them into the words that the proved programs read, runs the programs
and shows what they write. What an answer is, is decided by the programs alone. Each command is a
module with a function `run`, which takes the words behind the command and gives the status.
"""

import os

# The folder of the repository.
TOP = os.path.dirname(os.path.dirname(os.path.realpath(__file__)))
