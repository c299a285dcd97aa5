"""Cases that are written out, for the checks that play them."""
