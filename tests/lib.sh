# shellcheck shell=bash
# What every test counts with; sourced from the root, after the test has gone there.

passed=0
failed=0

# ok TEXT COMMAND..: counts the command; TEXT says what is wrong where it fails
ok() {
    if "${@:2}"; then
        passed=$((passed + 1))
    else
        failed=$((failed + 1))
        echo "tests/${0##*/}: $1"
    fi
}

# finish: the last line of a test, and whether all has passed
finish() {
    echo "$passed passed, $failed failed"
    [[ $failed -eq 0 ]]
}
