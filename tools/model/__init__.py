"""The formats of docs/FORMATS.md and the errors of docs/ERRORS.md, once more and in Python.

It is written from these two pages alone, to be read beside them, and says for an input what each reader answers.
`answer.py` has the two calls that others use.
"""
