"""What the tools share, of whatever family."""
