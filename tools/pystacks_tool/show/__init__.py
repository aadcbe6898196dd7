"""What is shown of the model: as text, as a page, as a flame graph, and as collapsed stacks."""
