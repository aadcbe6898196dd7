"""The version of the project: one for the tool, the layouts and `pysalvage`, whose own constant tools/check/versions.py compares."""

VERSION = "1.0.0"
