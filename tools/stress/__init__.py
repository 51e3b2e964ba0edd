"""What `./x stress` uses the programs on: texts of the tests, pages, selectors, names; and how the time of a run grows."""
