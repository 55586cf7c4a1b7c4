"""`python -m tyngyrlak`: where the library is and what it was made of."""
import sys
import warnings

from ._library import NotProved, made, path

warnings.simplefilter("ignore", NotProved)
try:
    print("%s: %s" % (path(), made()))
except (ImportError, OSError) as e:
    sys.exit(str(e))
