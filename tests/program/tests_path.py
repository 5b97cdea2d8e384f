"""Lets the tests of this folder import what those of tests/tools/ share, also if one of them is run by itself."""

import os
import sys

sys.path.append(os.path.join(os.path.dirname(os.path.dirname(os.path.abspath(__file__))), "tools"))
