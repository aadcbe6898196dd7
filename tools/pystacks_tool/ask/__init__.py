"""Running the programs over a core, and reading what they write into the model."""
