# shellcheck shell=bash disable=SC2154
# A signal ends the front door at once, as it ends any program, with what it started; nothing is left behind.
mkdir "$work/signals"
fake "$work/signals/door"
cp target/bin/jobcheck "$work/signals/door/target/bin"
# Tick bytes that never end: the number of the process is left for the test.
program "$work/signals/door/target/bin/jobticks" <<'END_OF_TICKS'
#!/usr/bin/env bash
echo $$ >"$PID_FILE"
echo ticks
exec sleep 60
END_OF_TICKS

# ended SIGNAL COMMAND..: given the signal when its temporary files are there and its program runs, it ends by it at once, with that program
ended() {
    rm -rf "$work/signals"/{out,tmp,pid}
    mkdir "$work/signals"/{out,tmp}
    TMPDIR=$work/signals/tmp PID_FILE=$work/signals/pid python3 tests/door.d/signalled.py "$1" "$work/signals/pid" "${@:2}" 2>/dev/null &&
        holds "$work/signals/tmp" && holds "$work/signals/out"
}
program "$work/signals/reader" <<'END_OF_READER'
#!/usr/bin/env bash
echo $BASHPID >"$PID_FILE"
exec "$DOOR" check
END_OF_READER
for signal in INT TERM HUP; do
    ok "ticks, $signal: something is left" ended $signal "$work/signals/door/verdaizka" ticks "$good" "$work/signals/out/ticks"
    DOOR=$door ok "check of standard input, $signal: something is left" ended $signal "$work/signals/reader"
done
