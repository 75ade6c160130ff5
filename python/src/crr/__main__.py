"""python -m crr"""

import sys

from .cli import main

sys.exit(main())
