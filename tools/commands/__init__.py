"""A module for each command of `./x`, named as it is. Its first line is what `./x help` says of it, its text `./x help NAME`."""
