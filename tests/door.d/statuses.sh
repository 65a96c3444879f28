# shellcheck shell=bash disable=SC2154
# The exit status of every command: 0 done; 1 a line of the job is refused; 2 bad usage, or a file that cannot be read or written. When it is
# 3 stands in builds.sh. Last the program behind the pictures, which has 0 and 2.
mkdir "$work/status"
file=$work/status/file

# ends N WORDS..: counts the command by its exit status
ends() { ok "${*:2}: the exit status is not $1" status "$@"; }

for command in check panel; do
    ends 0 $command "$good"
    ends 0 $command - <"$good"
    ends 1 $command "$bad"
    ends 1 $command <"$bad"
done
ends 0 ticks "$good" "$file"
ends 1 ticks "$bad" "$file"
ends 0 plot "$good" "$file"
ends 1 plot "$bad" "$file"
ends 0 calls examples/calls/worked.calls
ends 0 explain 15
ends 0 help
ends 0 --help
ends 0 plot --help

ends 2
ends 2 ""
ends 2 cut
# A function of the script is no command.
ends 2 clean
for words in "check a b" "panel a b" ticks "ticks $good" "ticks a b c" plot "plot $good" "plot a b c" "calls a b" explain \
    "explain 15 16" "explain x" "explain 99" "bench x"; do
    # shellcheck disable=SC2086
    ends 2 $words
done
for command in check panel calls; do
    ends 2 $command "$work/none"
    ends 2 $command tests
    ends 2 $command ""
    ok "$command, standard input closed: the exit status is not 2" status 2 $command <&-
done
explained() { status 0 explain 15 && grep -q '^15 (load, arc): is the end a point of the circle?$' "$work/out"; }
ok "explain 15 does not say what it means" explained
empty_name() { status 2 "$1" "" && grep -q "cannot read ''" "$work/err"; }
for command in check panel; do ok "$command '' does not say what it cannot read" empty_name $command; done

# closed WORDS.., full WORDS..: with a standard output that takes nothing
closed() {
    "$door" "$@" >&- 2>"$work/err"
    [[ $? -eq 2 ]]
}
full() {
    "$door" "$@" >/dev/full 2>"$work/err"
    [[ $? -eq 2 ]]
}
for words in "check $good" "check $bad" "panel $good" "panel $bad" "explain 15" --help; do
    # shellcheck disable=SC2086
    ok "$words, standard output closed: the exit status is not 2" closed $words
    # shellcheck disable=SC2086
    ok "$words, to a full device: the exit status is not 2" full $words
done
ok "calls, standard output closed: the exit status is not 2" closed calls examples/calls/worked.calls
gone() {
    "$door" "$1" "$good" | true
    [[ ${PIPESTATUS[0]} -eq 2 ]]
} 2>/dev/null
for command in check panel; do ok "$command, nobody reads: the exit status is not 2" gone $command; done
alone() { "$door" ticks "$good" "$file" <&- >&- 2>&-; }
ok "ticks need an open descriptor" alone
no_input() { "$door" "$1" "$good" <&- | cmp -s - examples/sole.listing; }
for command in check panel; do ok "$command of a file needs standard input" no_input $command; done
rm "$file"

no_tmp() (
    export TMPDIR=$work/none
    status 2 "$@"
)
for command in check panel; do ok "$command, no folder for temporary files: the exit status is not 2" no_tmp $command "$good"; done
# A tick byte file and a picture have more than 1,024 bytes, this job and its listing less.
limited_to_file() (
    ulimit -f 1
    status 2 "$1" "$good" "$file"
) 2>/dev/null
for command in ticks plot; do
    ends 2 $command "$work/none" "$file"
    ends 2 $command tests "$file"
    ends 2 $command "" "$file"
    ends 2 $command "$good" "$work/none/file"
    ends 2 $command "$good" "$work"
    ends 2 $command "$good" "$work/status/"
    ends 2 $command "$good" ""
    ends 2 $command "$good" /dev/full
    ok "$command -, standard input closed: the exit status is not 2" status 2 $command - "$file" <&-
    ok "$command, no folder for temporary files: the exit status is not 2" no_tmp $command "$good" "$file"
    ok "$command, a limit on files: the exit status is not 2" limited_to_file $command
done
ok "something is left of an output that failed" holds "$work/status"

# 8,000 lines, all but the first of 40 m, at a millimetre a minute: 9.6 × 10^13 ticks
{ echo 'G1 F1' && for _ in {1..4000}; do printf 'X20000\nX-20000\n'; done; } >"$work/slow.job"
{ cat "$work/slow.job" && echo G9; } >"$work/slow-refused.job"
# and at a thousandth of that: 9.6 × 10^16
sed 's/^G1 F1$/G1 F0.001/' "$work/slow.job" >"$work/slowest.job"
ends 2 ticks "$work/slow.job" "$file"
ends 2 ticks "$work/slowest.job" "$file"
ends 2 plot "$work/slow.job" "$file"
ends 2 plot "$work/slowest.job" "$file"
ends 2 plot "$work/slow-refused.job" "$file"

# told N WORDS..: the status of the program that tells a picture the blocks; where it is 2, one line of standard error says why
told() {
    "$blocks" "${@:2}" >"$work/out" 2>"$work/err"
    [[ $? -eq $1 && $(wc -l <"$work/err") -eq $(($1 / 2)) ]]
}
blocks=target/rust/release/blocks
ok "blocks: the exit status is not 0" told 0 <"$good"
ok "blocks of a refused job: the exit status is not 0" told 0 <"$bad"
ok "blocks of an empty job: the exit status is not 0" told 0 </dev/null
ok "blocks, an unknown argument: the exit status is not 2" told 2 --records <"$good"
ok "blocks, an empty argument: the exit status is not 2" told 2 "" <"$good"
ok "blocks of a folder: the exit status is not 2" told 2 <tests
ok "blocks, standard input closed: the exit status is not 2" told 2 <&-
to_full() {
    "$blocks" <"$good" >/dev/full 2>"$work/err"
    [[ $? -eq 2 && -s $work/err ]]
}
all_full() {
    "$blocks" <"$good" >/dev/full 2>/dev/full
    [[ $? -eq 2 ]]
}
no_output() {
    "$blocks" </dev/null >&- 2>"$work/err"
    [[ $? -eq 2 && -s $work/err ]]
}
ok "blocks, to a full device: the exit status is not 2" to_full
ok "blocks, nobody hears why: the exit status is not 2" all_full
ok "blocks, standard output closed: the exit status is not 2" no_output
