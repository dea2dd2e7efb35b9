"""`python3 -m mvt_tools.audit` is the command `mvt-audit`."""

import sys

# The workers' processes read this file too.
if __name__ == "__main__":
    from .main import main

    sys.exit(main())
