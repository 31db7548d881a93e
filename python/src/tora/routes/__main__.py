"""``python3 -m tora.routes``."""
import sys

from tora.routes.cli import main

sys.exit(main())
