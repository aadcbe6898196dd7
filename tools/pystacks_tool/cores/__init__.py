"""Cores as they come: finding the files that were mapped, preparing what can't be read as it is, and unpacking."""
