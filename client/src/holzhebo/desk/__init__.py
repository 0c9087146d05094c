"""The page on this machine, which desk/ of the repository has: its files, and a small server for it."""
