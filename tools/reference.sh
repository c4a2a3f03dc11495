#!/bin/sh
# Writes the reference, a site of static pages, into a folder. Begin with its index.html.
# Usage, at the top of the repository: sh tools/reference.sh OUT
exec python3 tools/reference/build.py "$@"
