# shellcheck shell=bash disable=SC2154
# Pictures: a path for each block, arcs exact, the refused line, and XML whatever the bytes of the job.

# well_drawn SVG BLOCKS WORDS: the picture is XML with a titled path for each block, and says these words
well_drawn() { xmllint --noout "$1" 2>/dev/null && [[ $(grep -c '</title></path>$' "$1") -eq $2 ]] && grep -q -F ">$3" "$1"; }

drawn() { status 0 plot "$1" "$work/svg" && well_drawn "$work/svg" "$2" "$3"; }
refused_drawn() { status 1 plot "$1" "$work/svg" && well_drawn "$work/svg" "$2" "$3"; }
ok "sole not drawn" drawn examples/sole.job 12 "12 blocks, 29,072 cycles"
ok "gasket not drawn" drawn examples/gasket.job 20 "20 blocks"
ok "an empty job not drawn" drawn tests/jobs.d/empty.job 0 "0 blocks"
ok "a refused line not drawn" refused_drawn "$bad" 1 "line 2 refused 15: N20 G2"
ok "a long text not drawn" refused_drawn examples/refused/30-long-text.job 0 "line 1 refused 30"

# harmless BYTES: a job whose refused line and whose name have these bytes, written as printf takes them, is drawn as XML
harmless() {
    local name
    # shellcheck disable=SC2059
    printf "G1 X5 F600\n$1\n" >"$work/bytes"
    # A name has neither a NUL nor a slash.
    name=$(tail -n 1 "$work/bytes" | tr -d '\0/')
    mv "$work/bytes" "$work/odd $name.job"
    refused_drawn "$work/odd $name.job" 1 "line 2 refused 32"
}
for bytes in '<script>' 'a & b' ']]>' '<!--' '&#0;' 'G1\000X1' '\377\376' '\355\240\200' '\357\277\276' '\302\205' '\033[31m' \
    '\342\200\256'; do
    ok "the bytes $bytes break a picture" harmless "$bytes"
done
# As many as are shown of a line: all bytes but LF in five lines.
every_byte() {
    local from
    for from in 0 52 104 156 208; do
        # shellcheck disable=SC2046,SC2059
        printf "G1 X5 F600\n$(printf '\\x%02x' $(seq "$from" $((from + 51)) | grep -v '^10$' | grep -v '^25[6-9]$'))" >"$work/odd.job"
        refused_drawn "$work/odd.job" 1 "line 2 refused 32" || return 1
    done
}
ok "a byte breaks a picture" every_byte

# Arcs of all lengths and sizes: each is drawn about its own centre, with its own radius, as far as it goes.
arcs_drawn() {
    python3 tests/door.d/arcs.py make "$1" >"$work/arcs.job" && status 0 plot "$work/arcs.job" "$work/svg" && xmllint --noout "$work/svg" &&
        python3 tests/door.d/arcs.py check "$work/arcs.job" "$work/svg"
}
for kind in short long half whole; do
    ok "$kind arcs are not drawn exactly" arcs_drawn $kind
done

# Rows of blocks that are not those of the listing, of the tick bytes or of the job's own arcs are not drawn.
"$door" check tests/jobs.d/turns.job >"$work/listing" && target/rust/release/blocks <tests/jobs.d/turns.job >"$work/rows"
target/bin/jobticks <tests/jobs.d/turns.job >"$work/ticks"
disagrees() {
    sed "$1" "$work/rows" >"$work/other" && ! cmp -s "$work/rows" "$work/other" || return 1
    ! python3 tools/plot turns tests/jobs.d/turns.job "$work/listing" "$work/other" <"$work/ticks" >"$work/svg" 2>"$work/err" &&
        [[ $(wc -l <"$work/err") -eq 1 && $(<"$work/err") == plot:* ]]
}
for edit in 1d 5d '1s/^/1/' 's/^\([0-9]* [0-9]*\) 3/\1 2/' 's/^\([0-9]* [0-9]*\) 2/\1 3/' 's/[0-9]*$/77/' 's/$/ 0/'; do
    ok "rows changed by $edit are drawn" disagrees "$edit"
done
