#!/usr/bin/env bash
# Proves, builds and installs the program and what belongs to it: the manual, completions for bash,
# zsh and fish, and the ready styles; then runs the program on a folder with two files, if DESTDIR
# isn't set. Crates that don't stand on each other are proved side by side. It can be interrupted
# and run again: what was proved is kept.
# usage: ./install.sh [PREFIX]                  PREFIX is $HOME/.local by default
#        ./install.sh --program FILE [PREFIX]   proves nothing, and installs this program
#        ./install.sh --uninstall [PREFIX]      removes what it installed, and folders that it made
# If the variable DESTDIR is set, DESTDIR/PREFIX stands for PREFIX.
set -euo pipefail
shopt -s inherit_errexit
top=$(cd "$(dirname "$0")" && pwd)
usage() {
    sed -n '6,8s/^# //p' "$0" >&2
    exit 2
}
uninstall='' program=''
case ${1:-} in
    --uninstall) uninstall=yes; shift ;;
    --program) [ $# -ge 2 ] || usage; program=$(realpath -e "$2"); shift 2 ;;
esac
case ${1:-} in -*) usage ;; esac
[ $# -le 1 ] || usage
[ "${1:-${HOME:-}}" ] || { echo "There is no HOME: name a PREFIX." >&2; usage; }
prefix=$(realpath -ms "${DESTDIR:+$DESTDIR/}${1:-$HOME/.local}")
# The folders that it made, each by its path from the prefix
record=$prefix/share/reuse-undo/folders

# What is installed: the file, where it goes, and its bits
files() {
    echo "program bin/reuse-undo 755"
    echo "share/man/man1/reuse-undo.1 share/man/man1/reuse-undo.1 644"
    echo "share/completions/reuse-undo.bash share/bash-completion/completions/reuse-undo 644"
    echo "share/completions/_reuse-undo share/zsh/site-functions/_reuse-undo 644"
    echo "share/completions/reuse-undo.fish share/fish/vendor_completions.d/reuse-undo.fish 644"
    echo "share/styles.toml share/reuse-undo/styles.toml 644"
    echo "share/comments.toml share/reuse-undo/comments.toml 644"
}
# Makes a folder and those above it, and prints the path from the prefix of each that wasn't there.
make_folder() {
    [ ! -d "$1" ] || return 0
    make_folder "$(dirname "$1")"
    mkdir -m 755 "$1"
    realpath -ms --relative-to="$prefix" "$1"
}
# The record of an earlier installation. A version that kept none made its own folder at least.
kept_record() {
    if [ -e "$record" ]; then
        cat "$record"
    elif [ -e "$(dirname "$record")/styles.toml" ]; then
        realpath -ms --relative-to="$prefix" "$(dirname "$record")"
    fi
}
install_files() {
    local from to bits made
    umask 022
    made=$(kept_record
        files | while read -r _ to _; do make_folder "$(dirname "$prefix/$to")"; done)
    sort -u <<< "$made" > "$record"
    files | while read -r from to bits; do
        [ "$from" = program ] && from=$program || from=$top/$from
        install -m "$bits" "$from" "$prefix/$to"
        say "installed $prefix/$to"
    done
}
uninstall_files() {
    local to it made
    made=$(kept_record)
    rm -f "$record"
    files | while read -r _ to _; do
        [ ! -e "$prefix/$to" ] || { rm "$prefix/$to"; echo "removed $prefix/$to"; }
    done
    # (those below a folder go first)
    while IFS= read -r it; do
        [ ! "$it" ] || realpath -ms "$prefix/$it"
    done <<< "$made" | LC_ALL=C sort -ru | while IFS= read -r it; do
        [ ! -d "$it" ] || rmdir --ignore-fail-on-non-empty "$it"
    done
}
start=$SECONDS
say() {
    printf '%3d:%02d  %s\n' $(((SECONDS - start) / 60)) $(((SECONDS - start) % 60)) "$*"
}

# Says so if the shell won't find the program.
say_path() {
    case :$PATH: in
        *":$prefix/bin:"*) ;;
        *) echo "$prefix/bin is not in PATH" ;;
    esac
}

[ ! "$uninstall" ] || { uninstall_files; exit; }
if [ ! "$program" ] && ! command -v rt > /dev/null; then
    cat >&2 << 'WITHOUT'
The Rattle kit isn't there: no command rt. It proves and builds the program from these sources.
Without the kit, take a release: a Debian package or a tarball of the proved program. README.md
says how that is installed. A program that was built elsewhere, FILE, is installed by
    ./install.sh --program FILE
WITHOUT
    exit 1
fi
# (so that a prefix that can't be written is reported now, and not after the proofs)
above=$prefix/bin
while [ ! -e "$above" ]; do above=$(dirname "$above"); done
if [ ! -d "$above" ] || [ ! -w "$above" ]; then
    echo "$above can't be written: name another folder, ./install.sh PREFIX" >&2
    exit 1
fi
if [ "$program" ]; then
    install_files
    [ "${DESTDIR:-}" ] || say_path
    exit
fi
logs=$(mktemp -d)
declare -A running=() lanes=() proved=() begun=()
# (each check has a process group of its own, so that all of it ends with this script)
set -m
end_all() {
    local it
    for it in "${!running[@]}"; do kill -- "-${running[$it]}" || true; done
    wait
    take_back
}
trap 'end_all 2> /dev/null; rm -rf "$logs"' EXIT
trap 'echo "interrupted; run it again to go on" >&2; exit 130' INT TERM

# The sources as they are now, for the copies: crates/ changes while the others are proved.
mkdir "$logs/sources"
tar -C "$top" --exclude=out -cf - HANDLES crates.txt crates | tar -C "$logs/sources" -xf -

# Proves a crate by so many jobs, and builds it, in one go: a check first would have all that was
# proved be read twice. A crate beside others is proved in a copy of the repository, since one check
# at a time works over a library; what it leaves goes back into the repository.
prove() {
    local crate=$1 jobs=$2 at=$top
    if [ "$3" ]; then
        at=$logs/copies/$crate
        copy_for "$crate" "$at"
    fi
    cd "$at/crates/$crate"
    if [ -e src/main.rt ]; then rt run --jobs "$jobs" -- --version; else rt lib --jobs "$jobs"; fi
    [ "$at" = "$top" ] || take_back_one "$crate"
}
# A copy of the repository with what is kept of a crate and of those that it stands on
copy_for() {
    local it
    mkdir -p "$2"
    cp -a "$logs/sources/." "$2"
    for it in "$1" ${below[$1]}; do
        [ ! -d "$top/crates/$it/out" ] || cp -a "$top/crates/$it/out" "$2/crates/$it/"
    done
}
take_back_one() {
    [ -d "$logs/copies/$1/crates/$1/out" ] || return 0
    rm -rf "$top/crates/$1/out"
    mv "$logs/copies/$1/crates/$1/out" "$top/crates/$1/"
}
take_back() {
    local it
    for it in "$logs"/copies/*; do take_back_one "$(basename "$it")"; done
}
is_ready() {
    local it
    [ ! "${proved[$1]:-}" ] && [ ! "${running[$1]:-}" ] || return 1
    for it in ${below[$1]}; do [ "${proved[$it]:-}" ] || return 1; done
}
# How many jobs a check may take: all processors if it is alone, else half of them, if so many are
# idle; and 2 GB of free memory for each
jobs_of() {
    local idle=$1 alone=$2 most room
    most=$((alone ? processors : processors > 1 ? processors / 2 : 1))
    room=$(awk '/^MemAvailable:/ { print int($2 / 2000000) }' /proc/meminfo)
    most=$((most < idle ? most : idle))
    most=$((most < room ? most : room))
    echo $((most > 1 ? most : 1))
}
# Finds how much is to prove of a crate, and of the longest chain of crates on it, in bytes of code:
# a proof takes about as long as the code is.
weigh() {
    local it most=0
    [ ! "${weights[$1]:-}" ] || return 0
    for it in "${names[@]}"; do
        case " ${below[$it]} " in
            *" $1 "*) weigh "$it"; most=$((weights[$it] > most ? weights[$it] : most)) ;;
        esac
    done
    sizes[$1]=$(du -sb "$top/crates/$1/src" | cut -f 1)
    weights[$1]=$((most + sizes[$1]))
}
# Says how far all of it is. (What a check tells of its functions stays at 0 while it goes through
# them one by one.)
say_how_far() {
    local it count done=0 whole=0 at_work=
    local so_far='s/^so far: ([1-9][0-9]* of [0-9]+) functions checked.*$/, \1 functions/p'
    for it in "${names[@]}"; do
        whole=$((whole + sizes[$it]))
        [ ! "${proved[$it]:-}" ] || done=$((done + sizes[$it]))
        [ "${running[$it]:-}" ] || continue
        count=$(sed -nE "$so_far" "$logs/$it" | tail -n 1)
        at_work+=", $it ($(((SECONDS - begun[$it]) / 60)) minutes$count)"
    done
    say "$((100 * done / whole))% of the code is proved; at work:${at_work#,}"
}
# The program that was proved, with that said in its version. As it is compiled it says nothing
# about a proof, since it can be compiled without one. The line of a proof has the same length, and
# takes the place of that line.
stamp() {
    local line nothing='this build says nothing about a proof' places
    program=$logs/reuse-undo
    cp "$top/crates/reuse_undo/out/reuse_undo" "$program"
    line="proved by rattle-kit $(rt version | sed -nE 's/^.* logic ([0-9a-f]+)$/\1/p')"
    mapfile -t places < <(LC_ALL=C grep -aboF "$nothing" "$program" | cut -d : -f 1)
    if [ ${#places[@]} = 1 ] && [ ${#line} = ${#nothing} ]; then
        printf %s "$line" | dd of="$program" bs=1 seek="${places[0]}" conv=notrunc status=none
    else
        say "--version will say nothing about a proof: it has no place for '$line'"
    fi
}

# The crates, and those of the repository that each stands on. Of the crates that can begin
# together, that with the longest chain on it goes first.
names=()
declare -A below=() weights=() sizes=()
while IFS=: read -r crate words; do
    names+=("$crate")
    below[$crate]=
    for it in $words; do [ ! -d "$top/crates/$it" ] || below[$crate]+=" $it"; done
done < <(grep -E '^[a-z0-9_]+:' "$top/crates.txt")
for it in "${names[@]}"; do weigh "$it"; done
mapfile -t crates < <(for it in "${names[@]}"; do echo "${weights[$it]} $it"; done |
    sort -rn | cut -d ' ' -f 2)
processors=$(nproc)
say "proving ${#crates[@]} crates on $processors processors;" \
    "the first time that takes some 75 minutes on four"
# (half as many jobs again as there are processors, since a check of several ends with a job alone)
lanes_at_most=$((processors + processors / 2))
told=$SECONDS
while [ ${#proved[@]} -lt ${#crates[@]} ]; do
    idle=$lanes_at_most
    for it in "${!running[@]}"; do idle=$((idle - lanes[$it])); done
    ready=()
    for it in "${crates[@]}"; do ! is_ready "$it" || ready+=("$it"); done
    for at in "${!ready[@]}"; do
        it=${ready[$at]}
        [ $idle -gt 0 ] || break
        alone=$((${#ready[@]} + ${#running[@]} == 1))
        lanes[$it]=$(jobs_of $idle $alone)
        idle=$((idle - lanes[$it]))
        beside=
        [ $alone = 1 ] || beside=yes
        prove "$it" "${lanes[$it]}" "$beside" < /dev/null > "$logs/$it" 2>&1 &
        running[$it]=$!
        begun[$it]=$SECONDS
    done
    sleep 0.2
    for it in "${!running[@]}"; do
        ! kill -0 "${running[$it]}" 2> /dev/null || continue
        failed=
        wait "${running[$it]}" || failed=yes
        unset "running[$it]"
        [ ! "$failed" ] || { tail -n 30 "$logs/$it"; say "$it: NOT proved"; exit 1; }
        proved[$it]=yes
        say "$it: proved and built, ${#proved[@]} of ${#crates[@]} crates"
    done
    if [ $((SECONDS - told)) -ge 30 ]; then
        told=$SECONDS
        say_how_far
    fi
done

stamp
install_files
[ ! "${DESTDIR:-}" ] || exit 0
say_path
echo
"$top/example.sh"
