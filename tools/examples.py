#!/usr/bin/env python3
"""Judges the examples and the suites among them: tools/suite.py on the folder examples.

Usage: tools/examples.py
"""

import sys

import program
import suite

if __name__ == "__main__":
    sys.exit(suite.main([str(program.TOP / "examples")]))
