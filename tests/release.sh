#!/usr/bin/env bash
# Makes a release of the program, twice, in folders and under settings of their own, and compares:
# each file is the same. The documents are there to which their links lead. Lintian finds no error in
# the package. Both are then tried where no kit is:
# in the oldest Debian whose C library has all that the program asks for, made by debootstrap and
# without a network, the package is installed, used and purged, and the tarball is unpacked into a
# home folder. That wants root, and is passed over if debootstrap can't run; then the tarball is
# tried here. The variable MIRROR names another mirror of Debian. Ends with status 1 at the first
# fault.
# usage: tests/release.sh PROGRAM
# The tags below are data: REUSE-IgnoreStart
set -euo pipefail
PATH=$PATH:/usr/sbin:/sbin
. "$(dirname "$0")/common.sh"
wants dpkg-deb dpkg
wants readelf binutils
wants lintian lintian
wants debootstrap debootstrap
top=$(realpath "$(dirname "$0")/..")
mirror=${MIRROR:-http://deb.debian.org/debian}
system=
trap 'rm -rf "$room" $system' EXIT
fail() {
  trap - EXIT
  # shellcheck disable=SC2086
  rm -rf $system
  echo "fault: $1; kept in $room" >&2
  exit 1
}

# Makes a release in a copy of what it is made of, under the settings that are given.
release_in() {
  local at=$1
  shift
  mkdir -p "$at"
  tar -C "$top" -cf - CHANGELOG.md CONTRIBUTING.md LICENSES README.md REUSE.toml SECURITY.md \
    crates.txt docs install.sh release.sh share | tar -C "$at" -xmf -
  (cd / && env "$@" "$at/release.sh" "$program" > "$room/log" 2>&1) || fail "$(cat "$room/log")"
}

twice() {
  release_in "$room/one" LC_ALL=C
  umask 077
  release_in "$room/other/two" LC_ALL=C.UTF-8 TZ=Asia/Tokyo HOME="$room"
  umask 022
  diff -r "$room/one/dist" "$room/other/two/dist" || fail 'the same release has other bytes'
  release_in "$room/three" SOURCE_DATE_EPOCH=1700000000
  tar -tvf "$room/three/dist"/*.tar.gz --utc > "$room/list"
  ! grep -v ' 0/0 .* 2023-11-14 22:13 ' "$room/list" || fail 'SOURCE_DATE_EPOCH is not heeded'
  deb=$(ls "$room/one/dist"/*.deb)
  tarball=$(ls "$room/one/dist"/*.tar.gz)
  [[ $(ls "$room/one/dist" | wc -l) == 3 ]] || fail "dist/ has $(ls "$room/one/dist")"
  (cd "$room/one/dist" && sha256sum --quiet -c SHA256SUMS) || fail 'SHA256SUMS is wrong'
  echo 'a release has the same bytes twice'
}

# What both have beside the program, and that each link of a document leads to a file that is there
documents() {
  local at doc it document link links=0
  mkdir "$room/unpacked"
  tar -xzf "$tarball" --strip-components=1 -C "$room/unpacked"
  dpkg-deb -x "$deb" "$room/package"
  for at in "$room/unpacked" "$room/package/usr"; do
    doc=$at/share/doc/reuse-undo
    for it in bin/reuse-undo share/reuse-undo/styles.toml share/doc/reuse-undo/copyright; do
      [[ -s $at/$it ]] || fail "${at##*/} has no $it"
    done
    for document in README.md docs/TUTORIAL.md docs/HOWTO.md docs/REFERENCE.md docs/FROM_REUSE.md; do
      cmp "$top/$document" "$doc/$document" || fail "${at##*/} has not the same $document"
    done
    while IFS=$'\t' read -r document link; do
      links=$((links + 1))
      [[ -e $(dirname "$document")/$link ]] || fail "$document: no file for the link $link"
    done < <(grep -oE '\]\([^)# ]+' "$doc"/*.md "$doc"/docs/*.md | grep -v '](https\?:' |
      sed -E 's/:\]\(/\t/')
  done
  ((links >= 100)) || fail "only $links links"
  echo "both have the documents, and $links links lead to files"
}

# What the package says of itself, and what lintian says of it
package() {
  local asked
  asked=$(readelf -V "$program" | grep -oE 'GLIBC_[0-9.]+' | sed 's/.*_//' | sort -V | tail -n 1)
  [[ $(dpkg-deb -f "$deb" Depends) == "libc6 (>= $asked)" ]] || fail "$(dpkg-deb -f "$deb")"
  [[ ! $(dpkg-deb -f "$deb" Recommends Suggests Pre-Depends) ]] || fail "$(dpkg-deb -f "$deb")"
  [[ $(basename "$deb") == "reuse-undo_$(dpkg-deb -f "$deb" Version)_amd64.deb" ]] || fail "$deb"
  dpkg-deb --fsys-tarfile "$deb" | tar -tvf - > "$room/list"
  ! grep -v ' root/root ' "$room/list" || fail 'files of the package have another owner'
  dpkg-deb --fsys-tarfile "$deb" | tar -xOf - ./usr/share/doc/reuse-undo/copyright > "$room/owners"
  grep -q '^Of clap ' "$room/owners" || fail 'the licence of a library is not told'
  grep -q 'crates of the Rattle kit' "$room/owners" || fail 'the kit is not told'
  ! grep -w 'reuse_[a-z]*' "$room/owners" || fail 'a crate of ours is told as a library of the kit'
  lintian --fail-on error "$deb" > "$room/lint" 2> "$room/error" || fail "$(cat "$room/lint")"
  cat "$room/lint"
  echo "lintian finds no error in $(basename "$deb"), which wants the C library $asked"
}

# What follows is run in another system too: functions are handed to a shell there.
stop() { echo "fault: $1" >&2; exit 1; }

# The main job: files are annotated, and that is taken back and made again.
main_job() {
  local tree words
  tree=$(mktemp -d)
  mkdir "$tree/tree"
  cd "$tree/tree"
  echo 'print(1)' | tee a.py > ../before.py
  words=(annotate -c 'Jane Doe' -l MIT -y 2024 -r .)
  [[ $(reuse-undo "${words[@]}" --dry-run) == 'would change a.py' ]] || stop 'a dry run'
  [[ $(reuse-undo "${words[@]}") == 'changed a.py' ]] || stop annotate
  [[ $(head -n 1 a.py) == '# SPDX-FileCopyrightText: 2024 Jane Doe' ]] || stop "$(cat a.py)"
  [[ $(reuse-undo log) == *' annotate 1 done' ]] || stop log
  [[ $(reuse-undo undo) == 'undone a.py' ]] || stop undo
  cmp a.py ../before.py
  [[ $(reuse-undo redo) == 'redone a.py' ]] || stop redo
  cd /
  rm -r "$tree"
}

# The manual page, and each shell's completion, are found by the name of the program.
found() {
  MANWIDTH=80 man reuse-undo > "$HOME/page" || stop 'no manual page'
  grep -q '^REUSE-UNDO(1)' "$HOME/page" || stop 'the manual page'
  bash -c '. /usr/share/bash-completion/bash_completion
    _completion_loader reuse-undo
    COMP_WORDS=(reuse-undo und) COMP_CWORD=1
    _reuse_undo
    [[ ${COMPREPLY[*]} == undo ]]' || stop "bash doesn't complete"
  [[ $(fish -c 'complete -C "reuse-undo und"' | cut -f 1) == undo ]] || stop "fish doesn't complete"
  zsh -fc "$1"' autoload -U compinit && compinit -uD; [[ $_comps[reuse-undo] == _reuse-undo ]]' ||
    stop "zsh doesn't complete"
  rm "$HOME/page"
}

# The tarball in a home folder, of one who may write nothing else
unpack() {
  mkdir -p ~/.local
  tar -xzf "$1" --strip-components=1 --no-overwrite-dir -C ~/.local
  PATH=$HOME/.local/bin:/usr/bin:/bin
  [[ $(command -v reuse-undo) == "$HOME/.local/bin/reuse-undo" ]] || stop 'another program'
  reuse-undo --version
}
as_jane() {
  su jane -s /bin/bash -c "set -euo pipefail; $(declare -f stop main_job found unpack); $1"
}
at_home() {
  useradd -m jane
  as_jane "unpack $1; main_job; found 'fpath=(~/.local/share/zsh/site-functions \$fpath);'"
}

# All names outside of what is other programs' own records
names() {
  find / -xdev -regextype egrep \
    -regex '/(proc|sys|dev|tmp|root|home|var/(log|cache|lib/(apt|dpkg)))' -prune -o -print | sort
}
records() { find /var/log /var/cache /var/lib/dpkg -path '*reuse-undo*'; }

# The package is installed, used by an ordinary user, and purged.
as_package() {
  [[ ! -e /opt/rattle && ! $(command -v rt) ]] || stop 'the kit is there'
  names > /tmp/before
  apt-get install -y "$1" > /tmp/log 2>&1 || stop "apt: $(cat /tmp/log)"
  names > /tmp/after
  [[ $(comm -13 /tmp/before /tmp/after | wc -l) -ge 7 ]] || stop 'nothing is installed'
  reuse-undo --version
  [[ -s /usr/share/doc/reuse-undo/copyright ]] || stop 'no copyright file'
  as_jane "main_job; found ''"
}
purge() {
  apt-get purge -y reuse-undo > /tmp/log 2>&1 || stop "apt: $(cat /tmp/log)"
  names | diff /tmp/before - || stop 'a purge leaves something, or takes more'
  [[ ! $(records) ]] || stop "a purge leaves $(records)"
  ! command -v reuse-undo || stop 'the program is there'
}

# The oldest Debian whose C library has all that the program asks for
oldest() {
  local suite version asked
  asked=$(dpkg-deb -f "$deb" Depends | sed -E 's/.*>= (.*)\)/\1/')
  while read -r suite version; do
    if dpkg --compare-versions "$version" ge "$asked"; then
      echo "$suite"
      return
    fi
  done <<< $'bullseye 2.31\nbookworm 2.36\ntrixie 2.41'
  fail "no Debian has a C library of version $asked"
}
# Why debootstrap can't run here, if it can't
hindrance() {
  if ((EUID != 0)); then
    echo 'debootstrap wants root'
  elif ! unshare --mount --net true 2> /dev/null || ! mknod "$room/null" c 1 3 2> /dev/null; then
    echo 'no namespace or no device can be made'
  elif ! wget -q --spider "$mirror/dists/$1/Release"; then
    echo "$mirror can't be reached"
  fi
}

# Runs a script in the system, without a network, and with no mount that outlasts it.
inside() {
  local functions
  functions=$(declare -f stop main_job found unpack as_jane at_home names records as_package purge)
  unshare --mount --net --pid --fork --kill-child bash -c 'mount -t proc proc "$1/proc" &&
    exec chroot "$1" env -i PATH=/usr/sbin:/usr/bin:/sbin:/bin HOME=/root LC_ALL=C.UTF-8 \
      bash -c "$2"' inside "$system" "set -euo pipefail; $functions; $1" < /dev/null ||
    fail "in $suite: $1"
}
elsewhere() {
  local packages=man-db,bash-completion,zsh,fish,git,pre-commit,make
  system=$(mktemp -d /var/tmp/release.XXXXXX)
  chmod 755 "$system"
  unshare --mount debootstrap --variant=minbase --include=$packages "$suite" "$system" "$mirror" \
    > "$room/log" 2>&1 || fail "debootstrap: $(tail -n 5 "$room/log")"
  mkdir -p "$system/dev/shm" "$system/tmp/tree"
  cp "$deb" "$tarball" "$system/tmp"
  tar -C "$top" -cf - .pre-commit-hooks.yaml docs tests | tar -C "$system/tmp/tree" -xf -
  inside "at_home /tmp/${tarball##*/}"
  echo "in $suite an ordinary user has the program of the tarball in the home folder"
  inside "as_package /tmp/${deb##*/}"
  inside "/tmp/tree/tests/worked_lines.sh /usr/bin/reuse-undo"
  inside "/tmp/tree/tests/pre_commit.sh /usr/bin/reuse-undo"
  inside purge
  echo "in $suite the package is installed, used, and purged without a trace"
}

twice
documents
package
suite=$(oldest)
why=$(hindrance "$suite")
if [[ $why ]]; then
  (export HOME=$room/home; mkdir "$HOME"; unpack "$tarball"; main_job)
  echo "the release was tried here alone, since $why"
else
  elsewhere
  echo "the release was made twice alike, and tried in $suite"
fi
