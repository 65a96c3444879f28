# shellcheck shell=bash disable=SC2154
# Where a job stands after so many ticks: the block, its text line, the point and what is in work; and what is told where nothing can be.
mkdir "$work/where"
job=$work/where/job

# stands TICKS LINES..: the job stands so after so many ticks; nothing stands on standard error
stands() { silent status 0 where "$job" "$1" && [[ $(<"$work/out") == "$(printf '%s\n' "${@:2}")" ]]; }
# at TICKS LINES..: counts it
at() { ok "not so at tick $1 of '$(head -n 1 "$job") ..'" stands "$@"; }

# 01's own example: a cycle each 60 ticks, 2,237 of them and 2,500.
printf 'N20 G01 X20 Y40 F100\nN30 X50 Y80\n' >"$job"
first='block 1, text line 1: line from X 0.00 Y 0.00 to X 20.00 Y 40.00 mm, feed 100 mm/min'
second='block 2, text line 2: line from X 20.00 Y 40.00 to X 50.00 Y 80.00 mm, feed 100 mm/min'
at 0 'tick 0 of 284220' "$first" 'tick 0 of the block, 0 of 2237 cycles done' 'X 0 Y 0 pulses, X 0.00 Y 0.00 mm'
at 59 'tick 59 of 284220' "$first" 'tick 59 of the block, 0 of 2237 cycles done' 'X 0 Y 0 pulses, X 0.00 Y 0.00 mm'
at 60 'tick 60 of 284220' "$first" 'tick 60 of the block, 1 of 2237 cycles done' 'X 0 Y 1 pulses, X 0.00 Y 0.02 mm'
at 0060 'tick 60 of 284220' "$first" 'tick 60 of the block, 1 of 2237 cycles done' 'X 0 Y 1 pulses, X 0.00 Y 0.02 mm'
at 720 'tick 720 of 284220' "$first" 'tick 720 of the block, 12 of 2237 cycles done' 'X 5 Y 11 pulses, X 0.10 Y 0.22 mm'
at 134219 'tick 134219 of 284220' "$first" 'tick 134219 of the block, 2236 of 2237 cycles done' \
    'X 1000 Y 1999 pulses, X 20.00 Y 39.98 mm'
at 134220 'tick 134220 of 284220' "$second" 'tick 0 of the block, 0 of 2500 cycles done' 'X 1000 Y 2000 pulses, X 20.00 Y 40.00 mm'
at 284219 'tick 284219 of 284220' "$second" 'tick 149999 of the block, 2499 of 2500 cycles done' \
    'X 2499 Y 3999 pulses, X 49.98 Y 79.98 mm'
end='X 2500 Y 4000 pulses, X 50.00 Y 80.00 mm'
at 284220 'tick 284220 of 284220' 'job over: blocks 2, text lines 2, ticks past its end 0' "$end"
at 284221 'tick 284221 of 284220' 'job over: blocks 2, text lines 2, ticks past its end 1' "$end"
at 9223372036854775807 'tick 9223372036854775807 of 284220' \
    'job over: blocks 2, text lines 2, ticks past its end 9223372036854491587' "$end"

# A cycle each tick, past lines without a block; numbers below 0, and between 0 and -1.
printf '\nG1 F6000\n\nX-0.02\n\nY-0.1\n' >"$job"
at 0 'tick 0 of 6' 'block 1, text line 4: line from X 0.00 Y 0.00 to X -0.02 Y 0.00 mm, feed 6000 mm/min' \
    'tick 0 of the block, 0 of 1 cycles done' 'X 0 Y 0 pulses, X 0.00 Y 0.00 mm'
at 5 'tick 5 of 6' 'block 2, text line 6: line from X -0.02 Y 0.00 to X -0.02 Y -0.10 mm, feed 6000 mm/min' \
    'tick 4 of the block, 4 of 5 cycles done' 'X -1 Y -4 pulses, X -0.02 Y -0.08 mm'
at 6 'tick 6 of 6' 'job over: blocks 2, text lines 6, ticks past its end 0' 'X -1 Y -5 pulses, X -0.02 Y -0.10 mm'

# f 149,950,000 of 300,000,000: the first cycle is done on tick 3, and with the remainder kept the second on tick 5.
printf 'G1 X0.02 F2999\nX0.04\n' >"$job"
slow='line from X 0.02 Y 0.00 to X 0.04 Y 0.00 mm, feed 2999 mm/min'
at 3 'tick 3 of 5' "block 2, text line 2: $slow" 'tick 0 of the block, 0 of 1 cycles done' 'X 1 Y 0 pulses, X 0.02 Y 0.00 mm'
at 4 'tick 4 of 5' "block 2, text line 2: $slow" 'tick 1 of the block, 0 of 1 cycles done' 'X 1 Y 0 pulses, X 0.02 Y 0.00 mm'
at 5 'tick 5 of 5' 'job over: blocks 2, text lines 2, ticks past its end 0' 'X 2 Y 0 pulses, X 0.04 Y 0.00 mm'

# Feeds with decimals: 0.75 mm a minute is a pulse in 8,000 ticks, 0.001 one in 6,000,000; and a little below a cycle each tick.
printf 'G1 X0.1 F0.75\nX0.12 F0.001\nG3 X0.12 Y0.2 J0.1 F5999.990\n' >"$job"
slow='line from X 0.10 Y 0.00 to X 0.12 Y 0.00 mm, feed 0.001 mm/min'
at 8000 'tick 8000 of 6040017' 'block 1, text line 1: line from X 0.00 Y 0.00 to X 0.10 Y 0.00 mm, feed 0.75 mm/min' \
    'tick 8000 of the block, 1 of 5 cycles done' 'X 1 Y 0 pulses, X 0.02 Y 0.00 mm'
at 40000 'tick 40000 of 6040017' "block 2, text line 2: $slow" 'tick 0 of the block, 0 of 1 cycles done' 'X 5 Y 0 pulses, X 0.10 Y 0.00 mm'
at 6039999 'tick 6039999 of 6040017' "block 2, text line 2: $slow" 'tick 5999999 of the block, 0 of 1 cycles done' \
    'X 5 Y 0 pulses, X 0.10 Y 0.00 mm'
at 6040002 'tick 6040002 of 6040017' \
    'block 3, text line 3: arc counterclockwise about X 0.12 Y 0.10 to X 0.12 Y 0.20 mm, feed 5999.99 mm/min' \
    'tick 2 of the block, 1 of 14 cycles done' 'X 7 Y 0 pulses, X 0.14 Y 0.00 mm'

# 01's arc of 14 cycles, N 25, and back: (1, 0), (2, 0), (3, 1), .. The third cycle is diagonal and charged 1,414, so that it waits for tick
# 4. The 14 are charged 16,484: the first arc ends on tick 17 and leaves 516, of which the second has its third cycle on its tick 3.
printf 'G3 X0 Y0.2 J0.1 F6000\nG2 X0 Y0 J-0.1\n' >"$job"
at 3 'tick 3 of 33' 'block 1, text line 1: arc counterclockwise about X 0.00 Y 0.10 to X 0.00 Y 0.20 mm, feed 6000 mm/min' \
    'tick 3 of the block, 2 of 14 cycles done' 'X 2 Y 0 pulses, X 0.04 Y 0.00 mm'
at 4 'tick 4 of 33' 'block 1, text line 1: arc counterclockwise about X 0.00 Y 0.10 to X 0.00 Y 0.20 mm, feed 6000 mm/min' \
    'tick 4 of the block, 3 of 14 cycles done' 'X 3 Y 1 pulses, X 0.06 Y 0.02 mm'
at 20 'tick 20 of 33' 'block 2, text line 2: arc clockwise about X 0.00 Y 0.10 to X 0.00 Y 0.00 mm, feed 6000 mm/min' \
    'tick 3 of the block, 3 of 14 cycles done' 'X 3 Y 9 pulses, X 0.06 Y 0.18 mm'
at 32 'tick 32 of 33' 'block 2, text line 2: arc clockwise about X 0.00 Y 0.10 to X 0.00 Y 0.00 mm, feed 6000 mm/min' \
    'tick 15 of the block, 13 of 14 cycles done' 'X 1 Y 0 pulses, X 0.02 Y 0.00 mm'

: >"$job"
at 7 'tick 7 of 0' 'job over: blocks 0, text lines 0, ticks past its end 7' 'X 0 Y 0 pulses, X 0.00 Y 0.00 mm'

# 8,000 lines of 40 m, the first half as long, at 6,000 ticks a cycle; with blanks up to the 65,536 bytes that a text may have.
head -c 65536 <(cat "$work/slow.job" && yes '' | head -n 65536) >"$job"
at 1000000000000 'tick 1000000000000 of 95994000000000' \
    'block 84, text line 85: line from X 20000.00 Y 0.00 to X -20000.00 Y 0.00 mm, feed 1 mm/min' \
    'tick 10000000000 of the block, 1666666 of 2000000 cycles done' 'X -666666 Y 0 pulses, X -13333.32 Y 0.00 mm'
at_once() { timeout 2 "$door" where "$job" "$1" >"$work/out" && grep -q '^block 8000, text line 8001: ' "$work/out"; }
ok "a tick of 10^13 is not found at once" at_once 95993999999999

# The same at a thousandth of the feed.
cp "$work/slowest.job" "$job"
at 1000000000000000 'tick 1000000000000000 of 95994000000000000' \
    'block 84, text line 85: line from X 20000.00 Y 0.00 to X -20000.00 Y 0.00 mm, feed 0.001 mm/min' \
    'tick 10000000000000 of the block, 1666666 of 2000000 cycles done' 'X -666666 Y 0 pulses, X -13333.32 Y 0.00 mm'
at 9223372036854775807 'tick 9223372036854775807 of 95994000000000000' \
    'job over: blocks 8000, text lines 8001, ticks past its end 9127378036854775807' 'X -1000000 Y 0 pulses, X -20000.00 Y 0.00 mm'
ok "a tick of 10^16 is not found at once" at_once 95993999999999999

# sums FILE: at the ends of the first blocks of a job with these tick bytes, and at ticks spread over it, how many ticks, which block is in
# work then, by the ends marked before, and the point that the bytes before add up to
sums() {
    python3 - "$1" <<'END'
import sys
tape = open(sys.argv[1], "rb").read()
ends = [i + 1 for i, byte in enumerate(tape) if byte & 32]
ticks = {end + more for end in ends[:5] for more in (-1, 0, 1)} | {len(tape) * part // 9 for part in range(10)}
way = (0, 1, -1)
x = y = block = 0
for tick, byte in enumerate(tape + b"\0"):
    if tick in ticks:
        print(tick, f"block {block + 1}," if block < len(ends) else f"job over: blocks {block},", f"X {x} Y {y}", sep="\t")
    x, y, block = x + way[byte & 3], y + way[byte >> 2 & 3], block + (byte >> 5 & 1)
END
}

# agrees JOB: it stands where its tick bytes lead
agrees() {
    local tick block point count=0
    status 0 ticks "$1" "$work/where/ticks" || return
    while IFS=$'\t' read -r tick block point; do
        status 0 where "$1" "$tick" && grep -q "^$block " "$work/out" && grep -q "^$point pulses, " "$work/out" || return
        count=$((count + 1))
    done < <(sums "$work/where/ticks")
    ((count >= 10))
}
for name in examples/*.job; do ok "$name does not stand where its tick bytes lead" agrees "$name"; done

# By the standard input, by a name after --, and by a name that is -.
printf 'G1 X0.02 F6000\n' >"$job"
said='job over: blocks 1, text lines 1, ticks past its end 1'
from_input() { status 0 where - 2 <"$job" && grep -qx "$said" "$work/out"; }
after_dashes() { status 0 where -- "$job" 2 && grep -qx "$said" "$work/out"; }
dash_name() (
    cp "$job" "$work/where/-"
    cd "$work/where" && status 0 where -- - 2 </dev/null && grep -qx "$said" "$work/out"
)
without_input() { status 0 where "$job" 2 <&- && grep -qx "$said" "$work/out"; }
ok "where - does not read standard input" from_input
ok "where -- JOB N does not read the job" after_dashes
ok "where -- - N does not read the file -" dash_name
ok "where of a file needs standard input" without_input

# A refused job: nothing is told, though the tick lies before the line.
refused_job() {
    status 1 where "$bad" 0 && [[ ! -s $work/out ]] && grep -q '^examples/refused/15-.*: 15: ' "$work/err" &&
        grep -qx 'verdaizka: where it stands is not told' "$work/err"
}
ok "where a refused job stands is told" refused_job
long_text() {
    head -c 65537 <(cat "$work/slow.job" && yes '' | head -n 65536) >"$work/where/long"
    status 1 where "$work/where/long" 0 && [[ ! -s $work/out ]] && grep -q ':1: 30: ' "$work/err"
}
ok "where a text of 65,537 bytes stands is told" long_text

# silent_end N WORDS..: it ends so, with nothing on standard output
silent_end() { status "$@" && [[ ! -s $work/out ]]; }
for tick in '' x 1x -1 +1 1.5 1e3 0x10 ' 1' '1 ' 9223372036854775808 9999999999999999999 10000000000000000000; do
    ok "where takes '$tick' for a number of ticks" silent_end 2 where "$job" "$tick"
done
for words in where "where $job" "where $job 1 2" "where 1 $job"; do
    # shellcheck disable=SC2086
    ok "$words: the exit status is not 2" silent_end 2 $words
done
for name in "$work/none" tests ''; do ok "where '$name' 1: the exit status is not 2" silent_end 2 where "$name" 1; done
ok "where -, standard input closed: the exit status is not 2" silent_end 2 where - 1 <&-
ok "where stands what is cut off" door_cut_off where - 1
ok "where, standard output closed: the exit status is not 2" closed where "$job" 1
ok "where, to a full device: the exit status is not 2" full where "$job" 1
ok "where, no folder for temporary files: the exit status is not 2" no_tmp where "$job" 1
nobody_reads() {
    "$door" where "$job" 1 | true
    [[ ${PIPESTATUS[0]} -eq 0 || ${PIPESTATUS[0]} -eq 2 ]]
} 2>/dev/null
ok "where, nobody reads: the exit status is neither 0 nor 2" nobody_reads

# The program's row: what is found, block, line, ticks, cycles left, x, y, remainder; then kind and numbers of what is in work.
# row TICKS JOB ROW: it answers so
row() { [[ $(printf '%s\n%b' "$1" "$2" | target/bin/jobwhere) == "$3" ]]; }
# rows TICKS JOB ROW: counts it
rows() { ok "jobwhere does not say '$3' after $1 ticks of '$2'" row "$@"; }
# f 149,950,000 of 300,000,000: after 2 ticks 299,900,000 thousands are left over, and 149,850,000 once a cycle is done.
slow='G1 X0.02 F2999\nX0.04\n'
rows 0 "$slow" '1 1 1 0 1 0 0 0 1 0 0 1 0 149950000 1 0'
rows 2 "$slow" '1 1 1 2 1 0 0 299900000000 1 0 0 1 0 149950000 1 0'
rows 3 "$slow" '1 2 2 0 1 1 0 149850000000 1 1 0 2 0 149950000 1 0'
rows 5 "$slow" '0 2 2 0 0 2 0 149750000000 0 0 0 0 0 0 0 0'
rows 0000000000000000005 "$slow" '0 2 2 0 0 2 0 149750000000 0 0 0 0 0 0 0 0'
rows 9223372036854775807 "$slow" '0 2 2 9223372036854775802 0 2 0 149750000000 0 0 0 0 0 0 0 0'
# f 37,500 and 50.
rows 7999 'G1 X0.02 F0.75\n' '1 1 1 7999 1 0 0 299962500000 1 0 0 1 0 37500 1 0'
rows 1 'G1 X0.02 F0.001\n' '1 1 1 1 1 0 0 50000 1 0 0 1 0 50 1 0'
# An arc: its kind, centre, N, end and f.
arcs='G3 X0 Y0.2 J0.1 F6000\nG2 X-0.06 Y0.02 J-0.1\n'
rows 3 "$arcs" '1 1 1 3 12 2 0 300000000000 3 0 5 25 0 10 300000000 0'
rows 4 "$arcs" '1 1 1 4 11 3 1 175800000000 3 0 5 25 0 10 300000000 0'
rows 19 "$arcs" '1 2 2 2 15 2 10 154800000000 2 0 5 25 -3 1 300000000 0'
# A refused line: minus its number, the blocks before it, its own line and the ticks that are left.
rows 7 'G1 X0.02 F6000\n\nG3 X1 Y0.5 I1\n' '-15 1 3 6 0 1 0 0 0 0 0 0 0 0 0 0'
rows 0 'X1\n' '-36 0 1 0 0 0 0 0 0 0 0 0 0 0 0 0'
rows 5 '' '0 0 0 5 0 0 0 0 0 0 0 0 0 0 0 0'

# The program: a first line that is no number of ticks, a read that fails, a row that cannot be written.
# unasked INPUT: nothing on standard output, and why on standard error
unasked() {
    printf '%b' "$1" | target/bin/jobwhere >"$work/out" 2>"$work/err" && says_only 1 &&
        grep -q '^jobwhere: the first line is no number of ticks' "$work/err"
}
for input in '' '\n' 5 'x\n' '-5\n' ' 5\n' '5 \n' '5x\n' '5\r\n' '9223372036854775808\n' '9999999999999999999\n' \
    '00000000000000000000\n'; do
    ok "jobwhere takes '$input' for a number of ticks" unasked "$input"
done
ok "jobwhere reads a folder" unread jobwhere
ok "jobwhere takes a failed read for the end" cut_off jobwhere
unwritten_row() {
    printf '0\nG1\n' | target/bin/jobwhere >/dev/full 2>"$work/err" &&
        grep -q '^jobwhere: cannot write where the job stands: No space left on device$' "$work/err"
}
ok "jobwhere does not say that it cannot write" unwritten_row
printf '0\nG1\n' >"$work/asked"
ok "jobwhere, nobody reads: it says so, or its exit status is not 141" nobody_reads jobwhere "$work/asked"

# A row that is not whole passes for none; a program that is not there is built, or the exit status is 3.
fake "$work/where/door"
cp target/bin/jobcheck "$work/where/door/target/bin"
no_program() {
    PATH=$work/path "$work/where/door/verdaizka" where "$job" 1 >"$work/out" 2>"$work/err" </dev/null
    [[ $? -eq 3 && ! -s $work/out ]]
}
rm -f "$work/path/rt"
ok "where without a toolchain: the exit status is not 3" no_program
broken_row() {
    program "$work/where/door/target/bin/jobwhere" <<<"#!/usr/bin/env bash
printf '$1'"
    "$work/where/door/verdaizka" where "$job" 1 >"$work/out" 2>"$work/err"
    [[ $? -eq 2 && ! -s $work/out ]]
}
over='0 1 1 0 0 1 0 0 0 0 0 0 0 0 0 0' in_work='1 1 1 0 1 0 0 0 1 0 0 1 0 300000000 1 0'
whole_row() {
    program "$work/where/door/target/bin/jobwhere" <<<"#!/usr/bin/env bash
printf '$1\\n'"
    "$work/where/door/verdaizka" where "$job" 1 >"$work/out" 2>"$work/err"
    [[ $? -eq 0 && -s $work/out ]]
}
for row in "$over" "$in_work"; do ok "'$row' passes for no row" whole_row "$row"; done
for row in '' '\n' "$over" "${over% 0}\\n" "$over 0\\n" "0$in_work\\n" "0${in_work#1}\\n" "1${over#0}\\n" "-15${over#0}\\n" \
    "2${in_work#1}\\n" "${in_work/300000000/x}\\n" "${in_work/1 1 1 0/1 1 -1 0}\\n" "${in_work/ 0 0 0 1 / 0 0 0 4 }\\n"; do
    ok "'$row' passes for a row" broken_row "$row"
done
