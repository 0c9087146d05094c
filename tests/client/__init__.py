"""The tests of the client, of which the modules are those of its sources."""
import os, sys

sys.path.insert(
    0, os.path.join(os.path.dirname(os.path.dirname(os.path.dirname(os.path.abspath(__file__)))), "client", "src")
)
