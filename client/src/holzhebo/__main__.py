"""`python3 -m holzhebo`, and what the one file runs."""
import sys

from holzhebo.cli.main import main

if __name__ == "__main__":
    sys.exit(main())
