# shellcheck shell=bash disable=SC2154
# A file that is written takes its place when it is whole. Until then, and where anything fails, what stood there stays; nothing is left
# beside it. The job itself is never written over.
mkdir "$work/outputs"
here=$work/outputs/one
there=$work/outputs/two

# as_many FILE [JOB]: as many tick bytes as the listing of this job says, or that of $good
as_many() {
    local job=${2:-$good}
    [[ $(stat -c %s "$1") -eq $(tail -n 1 "${job%.job}.listing" | cut -d ' ' -f 4) ]]
}
is_picture() { xmllint --noout "$1" 2>/dev/null; }
ticks_told() { status 0 ticks "$1" "$work/ticks" && as_many "$work/ticks" "$1"; }
for job in examples/*.job; do ok "$job: not as many ticks as its listing says" ticks_told "$job"; done

# fresh_folders: $here has the job, as a file and by another name, a link and a link to the link
fresh_folders() {
    rm -rf "$here" "$there"
    mkdir "$here" "$there"
    cp "$good" "$here/a.job"
    ln "$here/a.job" "$here/hard.job"
    ln -s a.job "$here/soft.job"
    ln -s "$here/soft.job" "$there/far.job"
}

# over_the_job COMMAND JOB OUT: refused, and the job stays
over_the_job() {
    fresh_folders
    status 2 "$1" "$2" "$3" <"$here/a.job" && cmp -s "$here/a.job" "$good" && [[ -L $here/soft.job && -L $there/far.job ]] &&
        holds "$here" a.job hard.job soft.job
}
for command in ticks plot; do
    for out in "$here"/{a,hard,soft}.job "$there/far.job" "$here/../one/a.job"; do
        ok "$command a.job ${out#"$work/outputs/"} writes over the job" over_the_job $command "$here/a.job" "$out"
    done
    ok "$command far.job a.job writes over the job" over_the_job $command "$there/far.job" "$here/a.job"
    ok "$command - a.job <a.job writes over the job" over_the_job $command - "$here/a.job"
done

# through_link COMMAND TEST: a link as the target stays one, and what it points to is written, be it there or not yet
through_link() {
    fresh_folders
    echo old >"$there/real"
    ln -s ../two/real "$here/link"
    ln -s "$there/new" "$here/dangling"
    status 0 "$1" "$good" "$here/link" && status 0 "$1" "$good" "$here/dangling" && [[ -L $here/link && -L $here/dangling ]] &&
        "$2" "$there/real" && "$2" "$there/new" && holds "$there" far.job new real && holds "$here" a.job dangling hard.job link soft.job
}
ok "ticks through a link" through_link ticks as_many
ok "a picture through a link" through_link plot is_picture

# has_mode UMASK MODE: so a new file has it, and one that takes the place of another
has_mode() (
    fresh_folders
    umask "$1"
    touch "$there/old"
    chmod 600 "$there/old"
    status 0 ticks "$good" "$there/new" && status 0 ticks "$good" "$there/old" &&
        [[ $(stat -c %a "$there/new") == "$2" && $(stat -c %a "$there/old") == "$2" ]]
)
ok "the mode of a new file, umask 022" has_mode 022 644
ok "the mode of a new file, umask 077" has_mode 077 600
ok "the mode of a new file, umask 0" has_mode 0 666

# stays STATUS COMMAND JOB: the file that stood there stays, and is the only one
stays() {
    fresh_folders
    rm "$there"/*
    echo old >"$there/file"
    status "$1" "$2" "$3" "$there/file" && [[ $(<"$there/file") == old ]] && holds "$there" file
}
limited_stays() (
    ulimit -f 1
    stays "$@"
) 2>/dev/null
ok "the ticks of a refused job are written" stays 1 ticks "$bad"
ok "a job that is not there empties the file for its ticks" stays 2 ticks "$work/none"
ok "a job that is not there empties the file for its picture" stays 2 plot "$work/none"
ok "ticks that cannot be written change the file" limited_stays 2 ticks "$good"
ok "a picture that cannot be written changes the file" limited_stays 2 plot "$good"
device() { status 2 ticks "$good" /dev/full && [[ -c /dev/full ]]; }
ok "a device is taken for a file" device
# A plotter that fails after its first line.
fake "$work/outputs/door"
cp target/bin/{jobcheck,jobticks} "$work/outputs/door/target/bin"
cp target/rust/release/blocks "$work/outputs/door/target/rust/release"
echo 'import sys; print("<svg>"); sys.exit(1)' >"$work/outputs/door/tools/plot"
failed_plot() {
    # shellcheck disable=SC2034
    local door=$work/outputs/door/verdaizka
    stays 2 plot "$good"
}
ok "a picture that failed is put in place" failed_plot
