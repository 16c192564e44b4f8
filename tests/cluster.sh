#!/bin/bash
# Tests crawls that 1, 2, 4 and 8 parts share over Redis, while parts and Redis are killed and entries arrive twice or late.
# It runs tests/cluster_runs.py with Debian's redis-server and python3-redis, and installs them if they are missing. Redis
# listens only on the loopback, uses a folder of its own, and is ended afterwards.
#
# Usage: tests/cluster.sh [OPTION..]
# `tests/cluster_runs.py --help` lists the options.
set -euo pipefail
cd "$(dirname "$0")/.."
if ! command -v redis-server > /dev/null || ! /usr/bin/python3 -c 'import redis' 2> /dev/null; then
    apt-get install -y -qq redis-server python3-redis > /dev/null
fi
exec /usr/bin/python3 tests/cluster_runs.py "$@"
