#!/usr/bin/env bash
# Proves and builds the program `tool` where it isn't built from the sources as they are, and runs it with the words given.
set -u
top=$(cd "$(dirname "$(readlink -f "$0")")" && pwd)
exec "$top/scripts/run-program" tool_cli "$@"
