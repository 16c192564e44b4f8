# shellcheck shell=bash
# Adds up what the parts of a test count. tests/run.sh and tests/quick.sh source this file.

lines=()
all_passed=0
all_failed=0

# counts FILE: `PASSED FAILED` by the last line of counts in FILE, or by that of `rt try --test` or of Python's unittest. Without
# such a line it prints nothing.
counts() {
    local line ran failed number
    line=$(grep -E '^[0-9]+ passed, [0-9]+ failed$' "$1" | tail -n 1)
    if [ -n "$line" ]; then
        sed -E 's/ passed, ([0-9]+) failed/ \1/' <<< "$line"
    elif line=$(grep -E '^test result: \w+\. [0-9]+ passed; [0-9]+ failed;' "$1" | tail -n 1) && [ -n "$line" ]; then
        sed -E 's/.*: \w+\. ([0-9]+) passed; ([0-9]+) failed;.*/\1 \2/' <<< "$line"
    elif ran=$(grep -oE '^Ran [0-9]+ test' "$1" | tail -n 1); then
        ran=${ran//[!0-9]/}
        failed=0
        for number in $(grep -E '^FAILED \(' "$1" | grep -oE '(failures|errors)=[0-9]+' | cut -d = -f 2); do
            failed=$((failed + number))
        done
        echo "$((ran - failed)) $failed"
    fi
}

# judged STATUS FILE: `PASSED FAILED` of a part that ended with STATUS and printed FILE. A part that ends with another status than 0,
# or that counts nothing, has at least one failure.
judged() {
    local passed='' failed=''
    read -r passed failed < <(counts "$2")
    if [ -z "$passed" ] || [ "$((passed + failed))" -eq 0 ] || { [ "$1" -ne 0 ] && [ "$failed" -eq 0 ]; }; then
        passed=${passed:-0}
        failed=1
    fi
    echo "$passed $failed"
}

# add NAME PASSED FAILED: adds the counts of a part.
add() {
    lines+=("$1: $2 passed, $3 failed")
    all_passed=$((all_passed + $2))
    all_failed=$((all_failed + $3))
}

# total: prints a line for each part, and on the last line `N passed, M failed`. Its status is 1 if anything failed.
total() {
    printf '%s\n' "${lines[@]}"
    echo "$all_passed passed, $all_failed failed"
    [ "$all_failed" -eq 0 ]
}
