"""The rules of bootcore a second time, from docs/ and the public texts; README.md says what for."""
