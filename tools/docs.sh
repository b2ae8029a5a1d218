#!/bin/sh
# Checks the documents. Words: --library DIR, --built, --only KINDS; --help says more.
exec /usr/bin/python3 -X utf8 -B "$(dirname "$0")/docs/check.py" "$@"
