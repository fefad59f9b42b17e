"""A plain program of its own kind for scripts of `syncrepl cascade`: it keeps each state of each
directory whole and reads what a search sends off these states."""
