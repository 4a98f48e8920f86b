"""What makes calls fail and lines bad, and the tests of what the programs do then."""
