# shellcheck shell=bash disable=SC2154
# Files of any name, the front door by any name, any locale.
mkdir "$work/names"

# named NAME: a job of this name is listed, its tick bytes and its picture go to files of such names, and no other file is left
named() (
    listing=$PWD/examples/sole.listing sole=$PWD/$good refused=$PWD/$bad
    cd "$work/names" && rm -rf -- ./* ./.[!.]* && cp "$sole" "./$1" || exit 1
    status 0 check -- "$1" && cmp -s "$work/out" "$listing" && status 0 check "$PWD/$1" || exit 1
    status 0 ticks -- "$1" "$1.ticks" && [[ -s ./$1.ticks ]] && cp "$refused" "./$1" || exit 1
    status 1 plot -- "$1" "$1.svg" && xmllint --noout "./$1.svg" || exit 1
    status 2 ticks -- "$1" "$1" && cmp -s "./$1" "$refused" && [[ $(find . -mindepth 1 -printf x) == xxx ]]
)
for name in 'with blank.job' ' ' -dash.job --help - -- '*' "quote'\"\`\$x" 'back\slash' $'line\nfeed.job' $'last\n' $'\xff\xfe bytes.job' \
    'naïve-π.job' '<a & b>]]>.job' $'bell\a\e[31m.job' '%s%n'; do
    ok "the name $(printf %q "$name")" named "$name" </dev/null
done
long=$(printf 'x%.0s' {1..240})
ok "a name of 240 bytes" named "$long"

# dash COMMAND FILE OTHER TEXT: after -- the word - is the file of this name, before it standard input; TEXT is in what is written of OTHER
# and not of FILE
dash() (
    file=$PWD/$2 other=$PWD/$3
    cd "$work/names" && cp "$file" ./- || exit 1
    "$door" "$1" -- - <"$other" >"$work/out" 2>"$work/err" && [[ -s $work/out ]] && ! grep -q "$4" "$work/out" || exit 1
    "$door" "$1" - <"$other" >"$work/out" 2>"$work/err" && grep -q "$4" "$work/out"
)
ok "check -- - reads standard input" dash check "$good" examples/gasket.job '^total 20 '
ok "panel -- - reads standard input" dash panel "$good" examples/gasket.job '^total 20 '
ok "calls -- - reads standard input" dash calls examples/calls/{worked,text}.calls '^> text '

# A message shows a name so that no byte of it does harm.
harmless() {
    cp "$bad" "$work/names/"$'red\e[31m\n.job'
    status 1 check "$work/names/"$'red\e[31m\n.job' && [[ $(head -n 1 "$work/err") == "$work/names/red?[31m?.job:2: 15: "* ]]
}
ok "a name is shown as it is" harmless

# as_called PATH: the front door does its work when it is called so, from another folder
as_called() (
    local listing=$PWD/examples/sole.listing job=$PWD/$good
    cd "$work/names" || exit 1
    "$1" check "$job" | cmp -s - "$listing"
)
mkdir -p "$work/links/bin" "$work/links/a b"
ln -s "$door" "$work/links/absolute"
ln -s absolute "$work/links/relative"
ln -s ../relative "$work/links/bin/verdaizka-by-path"
ln -s ../bin/verdaizka-by-path "$work/links/a b/called otherwise"
for link in absolute relative bin/verdaizka-by-path 'a b/called otherwise'; do
    ok "called by the link $link" as_called "$work/links/$link"
done
by_path() {
    local PATH=$work/links/bin:$PATH
    as_called verdaizka-by-path
}
ok "called by its name on the PATH" by_path
odd=$work/$'an odd\nfolder\xff'
fake "$odd"
cp target/bin/jobcheck "$odd/target/bin"
ok "in a folder of an odd name" as_called "$odd/verdaizka"
cdpath() (
    export CDPATH=$work
    as_called "$door"
)
ok "with a CDPATH" cdpath

# in_locale NAME: the same listing, picture, refusal and meaning, to the byte, in this locale; unset where it is empty
"$door" explain 3 >"$work/meaning"
"$door" plot "$bad" "$work/refused.svg" 2>"$work/refusal"
in_locale() (
    unset LC_ALL LANG LC_CTYPE
    [[ -z $1 ]] || export LC_ALL=$1 LANG=$1
    "$door" check "$good" 2>/dev/null | cmp -s - examples/sole.listing || exit 1
    "$door" explain 3 2>/dev/null | cmp -s - "$work/meaning" || exit 1
    "$door" plot "$bad" "$work/locale.svg" 2>"$work/err"
    [[ $? -eq 1 ]] && cmp -s "$work/locale.svg" "$work/refused.svg" && grep -v ': setlocale: ' "$work/err" | cmp -s - "$work/refusal"
) 2>/dev/null
for locale in '' C POSIX C.UTF-8 tr_TR.UTF-8 tr_TR de_DE.ISO-8859-1 no_SUCH; do
    ok "the locale '$locale'" in_locale "$locale"
done
