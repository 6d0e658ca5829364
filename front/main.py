"""Where ./tailfiddle begins: the folder's modules are found, and the command is run."""

import os
import sys

if sys.version_info < (3, 9):
    found = (sys.executable,) + sys.version_info[:2]
    sys.stderr.write("tailfiddle: Python 3.9 or later is needed, and %s is %d.%d\n" % found)
    sys.exit(2)

sys.path.insert(0, os.path.dirname(os.path.dirname(os.path.realpath(__file__))))

from front import commands  # noqa: E402

# Nothing is left to be written or tidied up.
os._exit(commands.main(sys.argv[1:]))
