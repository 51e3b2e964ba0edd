"""Reads sources for want of memory that is made up: `./x wants` says what that is."""
