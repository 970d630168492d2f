"""Tests of the scripts, and of whole runs of the program $NOFS: tests/run."""
import os
import sys

sys.path.insert(0, os.path.join(os.path.dirname(os.path.dirname(os.path.abspath(__file__))), "tools"))      # where the package nofs is
