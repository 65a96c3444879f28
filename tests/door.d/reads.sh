# shellcheck shell=bash disable=SC2154
# A job that is not read to its end, and a listing that is not written to its end, pass for no whole one.

# half_read PROGRAM..: run with a job on standard input whose second read fails
half_read() { python3 tests/door.d/half_read.py "$@" >"$work/out" 2>"$work/err"; }

# says_only LINES: nothing on standard output, and so many lines on standard error
says_only() { [[ ! -s $work/out && $(wc -l <"$work/err") -eq $1 ]]; }

# The programs end with 0 whatever fails, so that only what they wrote tells; and with 141, in silence, where nobody reads it any more.
unread() {
    target/bin/"$1" <tests >"$work/out" 2>"$work/err" && says_only 1
}
cut_off() {
    half_read target/bin/"$1" && says_only 1 && grep -q "^$1: cannot read the job: " "$work/err"
}
unwritten() {
    target/bin/"$1" <examples/sole.job >/dev/full 2>"$work/err" &&
        grep -q "^$1: cannot write the .*: No space left on device$" "$work/err"
}
panel_unwritten() {
    target/bin/panelcheck <examples/sole.job >/dev/full 2>"$work/err" &&
        grep -qx 'panelcheck: cannot write the listing' "$work/err"
}
for name in jobcheck jobticks; do
    ok "$name reads a folder" unread "$name"
    ok "$name takes a failed read for the end" cut_off "$name"
    ok "$name does not say that it cannot write" unwritten "$name"
done
# The panel's program lists while it reads: what it wrote of a job that is cut off has no last row. It has no room for errno's text.
breaks_off() {
    [[ $(wc -l <"$work/err") -eq 1 ]] && grep -qx 'panelcheck: cannot read the job' "$work/err" &&
        ! grep -qE '^(total|line) ' "$work/out"
}
panel_unread() {
    target/bin/panelcheck <tests >"$work/out" 2>"$work/err" && breaks_off
}
panel_cut_off() {
    half_read target/bin/panelcheck && breaks_off
}
ok "panelcheck reads a folder" panel_unread
ok "panelcheck takes a failed read for the end" panel_cut_off
ok "panelcheck does not say that it cannot write" panel_unwritten

# nobody_reads PROGRAM JOB: into a pipe that nobody reads
nobody_reads() {
    python3 tests/door.d/unread_pipe.py target/bin/"$1" <"$2" 2>"$work/err"
    [[ $? -eq 141 && ! -s $work/err ]]
}
for name in jobcheck jobticks panelcheck; do
    ok "$name, nobody reads: it says so, or its exit status is not 141" nobody_reads "$name" examples/sole.job
done

# door_cut_off COMMAND..: the same through the front door
door_cut_off() {
    half_read "$door" "$@"
    [[ $? -eq 2 && ! -s $work/out ]]
}
ok "check lists a job that is cut off" door_cut_off check
ok "panel lists a job that is cut off" door_cut_off panel
ok "ticks of a job that is cut off" door_cut_off ticks - "$work/cut.ticks"
ok "a picture of a job that is cut off" door_cut_off plot - "$work/cut.svg"
folder_read() { status 2 "$1" <tests && [[ ! -s $work/out ]]; }
for command in check panel; do ok "$command lists a folder on standard input" folder_read $command; done

# A job of 300 bytes whose listing has more than 1,024, at a limit of 1,024 bytes to a file: what the listing is written to gives out.
for n in {1..50}; do printf 'X%s\nX0\n' "$n"; done | sed '1s/^/G1F9/' >"$work/short.job"
limited() (
    ulimit -f 1
    status 2 "$1" "$work/short.job"
) 2>/dev/null
ignoring() (
    trap '' XFSZ
    limited "$1"
)
# cut_listing COMMAND LISTING: where the program writes this
cut_listing() {
    local name
    for name in jobcheck panelcheck; do
        program "$work/cut/target/bin/$name" <<<"#!/usr/bin/env bash
printf '$2'"
    done
    "$work/cut/verdaizka" "$1" examples/sole.job >"$work/out" 2>"$work/err"
    [[ $? -eq 2 && ! -s $work/out ]]
}
fake "$work/cut"
for command in check panel; do
    ok "$command: a listing that is cut short passes for a whole one" limited $command
    ok "$command: a listing that is cut short passes for a whole one, where no signal says so" ignoring $command
    for listing in '' 'block line kind cycles x y bits\n' 'block line kind cycles x y bits\n1 1 L 50 50 0 6\n' 'total 1 2' 'total 1 2 3' \
        'line 2 refused 15' 'total 1 2 3\nline\n'; do
        ok "$command: '$listing' passes for a listing" cut_listing $command "$listing"
    done
done
