# shellcheck shell=bash disable=SC2154
# What is built on first use: one line says what, then a line for each crate as it is proved; standard output has nothing of it. Where it
# cannot be built, the exit status is 3.

# A PATH with what the front door itself calls, and no rt, cargo or python3.
mkdir "$work/path"
for tool in bash env awk cat chmod df find head mktemp mv readlink rm sed setsid stat tail touch tr; do
    ln -s "$(command -v $tool)" "$work/path/$tool"
done

# built N WORDS..: the status of the front door of $work/bare, with that PATH
built() {
    PATH=$work/path "$work/bare/verdaizka" "${@:2}" >"$work/out" 2>"$work/err" </dev/null
    [[ $? -eq $1 ]]
}

fake "$work/bare"
for words in "check $good" "panel $good" "ticks $good $work/file" "plot $good $work/file" calls bench; do
    # shellcheck disable=SC2086
    ok "${words%% *} without a toolchain: the exit status is not 3" built 3 $words
done
cp target/bin/{jobcheck,jobticks} "$work/bare/target/bin"
ok "plot without python3: the exit status is not 3" built 3 plot "$good" "$work/file"
ln -s "$(command -v python3)" "$work/path/python3"
ok "plot without cargo: the exit status is not 3" built 3 plot "$good" "$work/file"
rm "$work/bare/target/bin"/*

# An rt is there, and a tools/program that proves two crates, the second when it is told to, and then has a program.
program "$work/path/rt" <<<'#!/usr/bin/env bash'
program "$work/bare/tools/program" <<'END_OF_PROGRAM'
#!/usr/bin/env bash
echo "rt: letters proved (unchanged since it was last proved)"
echo "rt: chose --jobs 2 for plane" >&2
echo "fn whole::least_root: proved"
echo "rt: whole proved (1 s)"
for _ in {1..200}; do [[ ! -e go ]] || break; sleep 0.05; done
echo "rt: $1 proved (1 s)" >&2
echo "rt: running out/$1; to give it other input, run that file yourself" >&2
[[ ! -e broken ]] && cp "$PROGRAMS/$1" "target/bin/$1"
END_OF_PROGRAM
ln -s "$(command -v sleep)" "$(command -v cp)" "$work/path"
export PROGRAMS=$PWD/target/bin

# says_as_it_comes: the line of the first crate is there while the second is being proved
says_as_it_comes() {
    local tries pid status
    PATH=$work/path "$work/bare/verdaizka" check "$good" >"$work/out" 2>"$work/err" &
    pid=$!
    for tries in {1..200}; do
        ! grep -q '^rt: whole proved' "$work/err" || break
        sleep 0.05
    done
    touch "$work/bare/go"
    wait $pid
    status=$?
    [[ $tries -lt 200 && $status -eq 0 ]]
}
announced() { [[ $(cut -d ' ' -f -3 "$work/err") == $'verdaizka: building jobcheck;\nrt: proving plane\nrt: whole proved\nrt: jobcheck proved' ]]; }
ok "the lines of a build are held back" says_as_it_comes
ok "a build is not announced in one line, and one for each crate" announced
ok "a build writes to standard output" cmp -s "$work/out" examples/sole.listing
ok "a program that is there is built again" silent built 0 check "$good"
rm "$work/bare/target/bin"/*
touch "$work/bare/broken"
ok "check, not proved: the exit status is not 3" built 3 check "$good"
ok "a check that was not built lists something" test ! -s "$work/out"

# cargo and tools/archive as stand-ins: what they say goes to standard error, and the runner's status is that of calls.
program "$work/bare/tools/archive" <<<'#!/usr/bin/env bash
echo chatter; echo "rt: cmachine proved (1 s)"'
program "$work/path/cargo" <<'END_OF_CARGO'
#!/usr/bin/env bash
echo chatter
printf '#!/usr/bin/env bash\necho answered; exit 7\n' >"$CARGO_TARGET_DIR/release/calls"
chmod +x "$CARGO_TARGET_DIR/release/calls"
END_OF_CARGO
calls_announced() {
    built 7 calls && [[ $(grep -c '^verdaizka: building calls' "$work/err") -eq 1 && $(<"$work/out") == answered ]] &&
        grep -q '^rt: cmachine proved' "$work/err"
}
ok "calls: what is built is not announced, or another status than the runner's" calls_announced
ok "calls: what is there is built again" silent built 7 calls
program "$work/path/cargo" <<<'#!/usr/bin/env bash
exit 1'
rm "$work/bare/target/rust/release"/*
ok "calls, not compiled: the exit status is not 3" built 3 calls
program "$work/bare/tools/archive" <<<'#!/usr/bin/env bash
exit 1'
ok "calls, not proved: the exit status is not 3" built 3 calls
program "$work/bare/bench/run" <<<'#!/usr/bin/env bash
exit 1'
ok "bench, not built: the exit status is not 3" built 3 bench
