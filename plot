#!/usr/bin/env bash
# Runs the command plot: bash plot ARGUMENTS.. (bash plot --help tells more)
# The static library and the command are built where they are not there or older than a source. Help, the version and bad usage
# are answered before that.
set -euo pipefail
here=$(cd "$(dirname "$0")" && pwd)
if ! "$here/scripts/build" --is-done; then
    status=0
    "$here/scripts/answer" "$@" || status=$?
    [ "$status" -eq 3 ] || exit "$status"
    "$here/scripts/build"
fi
exec "$here/rust/target/release/plot" "$@"
