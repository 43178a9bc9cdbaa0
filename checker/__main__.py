"""`python3 -m checker COMMAND WORD..`"""
import sys

from .commands import main

sys.exit(main())
