"""``python -m tora`` is the command `tora-study`."""
import sys

from tora.cli import main

sys.exit(main())
