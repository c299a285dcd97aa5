"""Why nothing is packed."""


class Unfit(Exception):
    """What is told."""
