# shellcheck shell=bash disable=SC2154
# The panel's listing through the front door: that of check with the same words beside it, and of a text of more than 65,536 bytes the rows
# of the whole lines before byte 65,537, and 30.
mkdir "$work/panel"

# as_check N JOB: check and panel end with this status and write the same
as_check() {
    status "$1" check "$2" && mv "$work"/{out,err} "$work/panel" && status "$1" panel "$2" && cmp -s "$work/panel/out" "$work/out" &&
        cmp -s "$work/panel/err" "$work/err"
}
for name in examples/*.job tests/jobs.d/65536-bytes.job; do ok "panel $name is not as check" as_check 0 "$name"; done
for name in examples/refused/*.job; do
    [[ $name == */30-* ]] || ok "panel $name is not as check" as_check 1 "$name"
done

# A line with a block and 1,023 blank ones, each of 64 bytes with its LF: 65,536 in all.
{ printf '%-63s\n' 'G1 X1 F600' && for _ in {1..1023}; do printf '%63s\n' ''; done; } >"$work/panel/most.job"

# refused_there LINE SHOWN TEXT: with this text, written as printf takes it, behind all of these but the last LF, 30 is told of this line,
# after the block, and the line is shown so
refused_there() {
    local job=$work/panel/long.job
    # shellcheck disable=SC2059
    { head -c 65535 "$work/panel/most.job" && printf "$3"; } >"$job"
    status 1 panel "$job" && [[ $(sed 1d "$work/out") == $'1 1 L 50 50 0 6\n'"line $1 refused 30" ]] &&
        [[ $(head -n 1 "$work/err") == "$job:$1: 30: "* && $(sed 1d "$work/err") == "    $2" ]] || return
    status 1 check "$job" && [[ $(sed 1d "$work/out") == 'line 1 refused 30' ]]
}
# there WHICH LINE SHOWN TEXT: counts it
there() { ok "30 is not told of a line $1, or it is not shown" refused_there "${@:2}"; }
eighty=$(printf '%080d' 0)
there "that begins with byte 65,537" 1025 'X2 Y1' '\nX2 Y1\nX3\n'
there "that is the last byte of the text" 1025 'X' '\nX'
there "that is this byte, an LF" 1025 '' '\n\nX3\n'
there "that ends with this byte" 1024 "$(printf '%63s' '')X" 'X\n'
there "of 80 bytes" 1025 "$eighty" "\\n$eighty\\nX3"
there "of 81 bytes" 1025 "$eighty .." "\\n${eighty}1"
there "that goes on" 1024 "$(printf '%63s' '')X${eighty:0:16} .." "X$eighty$eighty"
there "with other faults" 1025 'G9 X^M' '\nG9 X\r\n'
# refused_before: a line before that byte is refused, and nothing is said of it
refused_before() {
    { printf 'G9\n' && cat "$work/panel/most.job"; } >"$work/panel/long.job"
    status 1 panel "$work/panel/long.job" && [[ $(sed 1d "$work/out") == 'line 1 refused 34' && $(sed 1d "$work/err") == '    G9' ]]
}
ok "a refused line before that byte is not told alone" refused_before
