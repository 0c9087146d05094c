"""What is read and written where the proxy is."""
