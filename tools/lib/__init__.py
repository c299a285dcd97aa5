"""What the tools have in common. It stands beside each tool, wherever that is copied."""
