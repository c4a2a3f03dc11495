"""Fresh inputs of every type and format, drawn at random: good ones in many spellings, damaged ones, cut
ones, soup of tokens, and bytes. tools/fuzz.py compares what is done with them. `cases.py` draws a case."""
