#!/bin/bash
# Measures replays of scripts of 100,000 and 1,000,000 lines by the built program, with 8 senders and one subqueue, and with
# 1,000 senders and 64 subqueues.
#
# Usage: bench/replay.sh
#
# It prints the elapsed time and the peak memory of each, and the ratio of the two times. The exit status is 1 if a ratio is
# 13 or more.
set -euo pipefail
cd "$(dirname "$0")/.."
made=bench/out
program=crates/mercator_cli/out/mercator_cli
limit=13
mkdir -p "$made"

# `rt run` proves and builds the program, and leaves it in out/.
(cd crates/mercator_cli && rt run -- replay - < stdin > /dev/null)

status=0
for shape in "8 1" "1000 64"; do
    read -r senders workers <<< "$shape"
    for lines in 100000 1000000; do
        script=$made/$lines.lines.$senders.senders.$workers.workers
        python3 bench/make_script.py "$lines" "$senders" "$workers" > "$script"
        python3 bench/run.py "$made/$lines.seconds" "$script" "$program" replay -
    done
    python3 - "$made/100000.seconds" "$made/1000000.seconds" "$limit" "$shape" <<'PY' || status=1
import sys

few, many = (float(open(path, encoding="ascii").read()) for path in sys.argv[1:3])
ratio = many / few
senders, workers = sys.argv[4].split()
print(f"ratio at {senders} senders and {workers} workers: {ratio:.2f} (limit {sys.argv[3]})")
sys.exit(ratio >= float(sys.argv[3]))
PY
done
exit $status
