"""`python3 -m mvt_tools.page` is the command `mvt-page`."""

import sys

from .main import main

if __name__ == "__main__":
    sys.exit(main())
