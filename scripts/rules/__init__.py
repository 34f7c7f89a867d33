"""The rules of the house. Each tries what it says of all files: check(tally)."""
