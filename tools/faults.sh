#!/bin/sh
# Tries the built program against faults of the system round it: memory refused, full disks, closed pipes, files that change. See faults.py.
#
#     tools/faults.sh [PROGRAM [KIND..]]
#
# PROGRAM is crates/dp_app/out/dp_app where none is named, as `rt ci` builds it. Python 3.8 and a C compiler (cc, or $CC) are wanted.
here=$(cd "$(dirname "$0")" && pwd) || exit 2
program=${1:-$here/../crates/dp_app/out/dp_app}
[ $# -gt 0 ] && shift
exec python3 "$here/faults.py" "$program" "$@"
