"""The checks that tests/run makes of the built program."""
