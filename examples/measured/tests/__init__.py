"""The tests of the checker of measured boots: `./test measured` runs them."""
