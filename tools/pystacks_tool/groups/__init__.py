"""Several cores handed to one run of the program, and what is shown of their groups."""
