#!/usr/bin/env bash
# Installs the header, the archive, the pkg-config file, the line program and their manual pages: ./install.sh PREFIX
# DESTDIR, if set, stands before the prefix in every place that is written, and in no file.
#
# STEAMACORN_LIB names the directory of another archive, to be taken in place of the one that rt writes.
set -euo pipefail
if [ $# != 1 ] || [[ $1 != /* ]]; then
    echo "usage: $0 PREFIX (an absolute path)" >&2
    exit 2
fi
prefix=${1%/}
cd "$(dirname "$0")"
to=${DESTDIR:-}$prefix

if [ -z "${STEAMACORN_LIB:-}" ]; then
    (cd crates/steamacorn && rt lib)
    STEAMACORN_LIB=crates/steamacorn/out
fi
install -D -m 644 include/steamacorn.h "$to/include/steamacorn.h"
install -D -m 644 "$STEAMACORN_LIB/libsteamacorn.a" "$to/lib/libsteamacorn.a"
install -D -m 644 man/steamacorn.3 "$to/share/man/man3/steamacorn.3"
install -d "$to/lib/pkgconfig"
cat >"$to/lib/pkgconfig/steamacorn.pc" <<PC
prefix=$prefix
includedir=\${prefix}/include
libdir=\${prefix}/lib

Name: steamacorn
Description: The table of a load balancer (AnchorHash), verified
Version: $(cat VERSION)
Cflags: -I\${includedir}
Libs: -L\${libdir} -lsteamacorn
PC
if grep -q '^seats:' crates.txt; then
    (cd crates/seats && rt run </dev/null >/dev/null)
    install -D -m 755 crates/seats/out/seats "$to/bin/seats"
    install -D -m 644 man/seats.1 "$to/share/man/man1/seats.1"
fi
