"""What `./x` does: `commands` has a module for each command, the others are what they share. Importing one runs nothing."""
