"""What checks want, counted once more by plain searches, and what they make to try: random scripts, changed PDUs, captures."""
