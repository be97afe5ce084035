#!/usr/bin/env python3
"""Compares the audit of random networks, sites, breakout cables and changes with slow judges, as the gate does.

    python3 audit/tools/try-random.py [--sites 10000] [--networks 10000] [--breakouts 3000] [--changes 1000] [--seed 1]
"""
import argparse
import os
import pathlib
import sys
import unittest

TOP = pathlib.Path(__file__).resolve().parents[2]
sys.path += [str(TOP / folder) for folder in ("python", "python/tests", "audit", "audit/tests")]


def main():
    parser = argparse.ArgumentParser(description=__doc__.splitlines()[0])
    for name, count in (("sites", 10_000), ("networks", 10_000), ("breakouts", 3000), ("changes", 1000), ("seed", 1)):
        parser.add_argument(f"--{name}", type=int, default=count, help=f"default: {count}")
    for name, value in vars(parser.parse_args()).items():
        os.environ[f"LLDPA_{name.upper()}"] = str(value)
    names = ["test_random_sites", "test_random_changes", "test_random_breakouts", "test_random_networks"]
    ran = unittest.TextTestRunner().run(unittest.defaultTestLoader.loadTestsFromNames(names))
    return 0 if ran.wasSuccessful() else 1


if __name__ == "__main__":
    sys.exit(main())
