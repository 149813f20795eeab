#!/usr/bin/env bash
# Installs what the page of a server needs beside Python, for Debian's own python3: aiohttp. Does nothing where it is there.
set -eu
if /usr/bin/python3 -c 'import aiohttp' 2> /dev/null; then
    exit 0
fi
if [ "$(id -u)" -ne 0 ]; then
    echo "setup: as root, apt-get install python3-aiohttp" >&2
    exit 2
fi
apt-get update -q
apt-get install -q -y --no-install-recommends python3-aiohttp
