#!/bin/sh
# The edit loop, which dev.py explains: ./dev.sh NAME [--edit=FILE] [WORDS...]
exec python3 "$(dirname "$0")/dev.py" "$@"
