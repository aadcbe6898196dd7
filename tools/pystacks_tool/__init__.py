"""The tool: where a Python process stood when it died, by its core.

`cli` reads the words into `options`, and `command` does what they ask for: `cores` finds files, prepares and unpacks; `ask` runs
the programs, and reads what they write into the `model`; `show` makes texts and pages of that alone; `groups` hands several cores
over together. What is said on the standard error stands in `faults`, where things are in `places`.
"""
