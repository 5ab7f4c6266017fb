"""The scripts of this folder are run longer by hand, and a little by its tests."""
import os
import sys

sys.path.append(os.path.dirname(os.path.abspath(__file__)))
