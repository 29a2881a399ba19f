#!/bin/sh
# The command binlogfeed, of the archive and of the package for Debian. It needs no Python for what the program does: that takes the
# place of this shell. All other words go to the package in Python, where there is one.
here=$(dirname -- "$(readlink -f -- "$0")")
program=$here/@PROGRAM@
# Hints below an error's line, unless the caller wants none.
export BINLOGFEED_HINTS="${BINLOGFEED_HINTS-1}"
case ${1-} in
"" | read | history | transactions) exec "$program" "$@" ;;
esac
if command -v @PYTHON@ >/dev/null; then
    exec @PYTHON@ "$here/@COMMAND@" "$program" "$here/@REPLICA@" "$@"
fi
case $1 in
--version) echo "binlogfeed @VERSION@" ;;
-* | help) exec "$program" "$@" ;;
*)
    echo "binlogfeed: $1 is none of read, history and transactions, and all else needs @PYTHON@, which isn't there" >&2
    exit 70
    ;;
esac
