#!/usr/bin/env bash
# Makes the files of a release in dist/: a tarball that is unpacked into a prefix, a Debian package,
# and their checksums. Both have the documents. The same program and the same repository give the
# same bytes again.
# usage: ./release.sh             of the program, which ./install.sh proves and builds first
#        ./release.sh PROGRAM     of a program that was built before, to try the packages
set -euo pipefail
shopt -s inherit_errexit
top=$(cd "$(dirname "$0")" && pwd)
case ${1:-} in -*) sed -n '5,6s/^# //p' "$0" >&2; exit 2 ;; esac
umask 022
export LC_ALL=C TZ=UTC
# (the author of the commits)
maintainer='Vilgrynos maintainers <maintainers@users.noreply.vilgrynos.example>'
room=$(mktemp -d)
trap 'rm -rf "$room"' EXIT

die() {
    echo "$1" >&2
    exit 1
}
for it in rt strip readelf dpkg-deb; do
    command -v $it > /dev/null || die "no command $it (rt: the kit; strip, readelf: binutils)"
done

# Installs the program and what belongs to it, and finds what is to be known of it.
install_all() {
    DESTDIR=$room/tree "$top/install.sh" ${1:+--program "$1"} /usr
    rm "$room/tree/usr/share/reuse-undo/folders"
    program=$room/tree/usr/bin/reuse-undo
    strip "$program"
    version=$("$program" --version | sed -nE '1s/^reuse-undo ([0-9.]+)$/\1/p')
    proof=$("$program" --version | sed -n '$s/^proved by //p')
    date=$(sed -nE "s/^## \[${version:-none}\] - ([0-9-]+)\$/\1/p" "$top/CHANGELOG.md")
    [ "$date" ] || die "CHANGELOG.md has no version '$version'"
    [ "$proof" ] || [ "${1:-}" ] || die "the program's --version doesn't say that it is proved"
    epoch=${SOURCE_DATE_EPOCH:-$(date -d "$date" +%s)}
}

# The least version of the C library that the program asks for, which is all that it asks for
least_libc() {
    readelf -h "$program" | grep -q 'Machine:.*X86-64' || die 'the program is of another machine'
    [ "$(readelf -d "$program" | sed -nE 's/.*\(NEEDED\).*\[(.*)\]/\1/p')" = libc.so.6 ] ||
        die 'the program wants other libraries than that of C'
    readelf -V "$program" | grep -oE 'GLIBC_[A-Z0-9._]+' > "$room/asked"
    ! grep -v '^GLIBC_[0-9.]*$' "$room/asked" >&2 || die 'the C library is asked for that'
    sed 's/^GLIBC_//' "$room/asked" | sort -V | tail -n 1
}

# The libraries of the kit that are linked into the program
libraries() {
    local at=0 word names=(std) uses ours
    ours=$(sed -nE 's/^([a-z0-9_]+):.*/\1/p' "$top/crates.txt")
    for word in $(sed 's/#.*//; s/^[^:]*://' "$top/crates.txt"); do
        grep -qx "$word" <<< "$ours" || names+=("$word")
    done
    while [ $at -lt ${#names[@]} ]; do
        uses=$(sed -n 's/^dep //p' "$1/rlibs/${names[at]}.rlib/format")
        for word in $uses; do
            case " ${names[*]} " in *" $word "*) ;; *) names+=("$word") ;; esac
        done
        at=$((at + 1))
    done
    printf '%s\n' "${names[@]}" | sort -u
}

# What the sources of a library say of a licence, in the comments at their heads. $1: the folder of
# the libraries, $2: the library
said_in_sources() {
    local file
    while IFS= read -r file; do
        printf '\nAt the head of %s:\n\n' "${file#"$1"/}"
        sed -E '/^\/\//!Q; s|^//[/!]* ?||' "$file"
    done < <(grep -rliE 'licen[cs]e' --include='*.rt' "$1/$2/src" | sort)
}

# Whose the program is: ours, and the licences of the libraries in it, each text once. If a library
# has the MIT licence and that of Apache, it is the first. $1: where the Apache licence is.
copyright() {
    local kit names name text sum none=
    local -A users=() texts=()
    kit=$(dirname "$(rt doc)")
    names=$(libraries "$kit")
    for name in $names; do
        [ -e "$(echo "$kit/rattle/$name"/LICENSE* | cut -d ' ' -f 1)" ] || none+=" $name"
        for text in "$kit/rattle/$name"/LICENSE*; do
            [ -e "$text" ] && [[ $text != *-APACHE || ! -e ${text%APACHE}MIT ]] || continue
            sum=$(sha256sum < "$text")
            texts[$sum]=$text
            users[$sum]+=" $name"
        done
    done
    echo "reuse-undo"
    sed -nE 's/^SPDX-FileCopyrightText = "(.*)"/Copyright \1/p' "$top/REUSE.toml"
    echo "Licensed under the Apache License, version 2.0: $1"
    fold -s -w 80 << LINKED | sed 's/ *$//'

The program is linked with the standard library and crates of the Rattle kit ($(rt version)). No \
file of the kit states a licence of the kit itself. Many of its crates are ports of other works, \
follow them or hold their data, and have those works' licences: these stand below. No file of a \
licence is there for these libraries:

${none# }
LINKED
    for name in $none; do said_in_sources "$kit/rattle" "$name"; done
    for sum in "${!users[@]}"; do echo "${users[$sum]}|$sum"; done | sort |
        while IFS='|' read -r name sum; do
            printf '\n----\n\nOf%s:\n\n' "$(fold -s -w 76 <<< "$name" | sed 's/ *$//')"
            if grep -q www.apache.org/licenses/$ "${texts[$sum]}"; then
                echo "The Apache License, version 2.0: $1"
            else
                cat "${texts[$sum]}"
            fi
        done
}

# The changes of each version, in Debian's form
changelog() {
    local version date line
    while read -r version date; do
        printf 'reuse-undo (%s) unstable; urgency=medium\n' "$version"
        awk -v head="## [$version]" 'index($0, "## ") == 1 { on = index($0, head) == 1; next } on' \
            "$top/CHANGELOG.md" | sed -e ':a' -e 'N; $!ba' -e 's/\n  / /g' |
            while IFS= read -r line; do
                case $line in
                    '### '*) printf '\n  [ %s ]\n' "${line#* }" ;;
                    '- '*) fold -s -w 74 <<< "${line#- }" | sed '1s/^/  * /; 1!s/^/    /' ;;
                esac
            done | sed 's/ *$//'
        printf '\n -- %s  %s\n\n' "$maintainer" "$(date -R -d "$date")"
    done < <(sed -nE 's/^## \[([0-9.]+)\] - ([0-9-]+)$/\1 \2/p' "$top/CHANGELOG.md") | sed '$d'
}

# The documents, in the folders in which their links look for each other. $1: the folder of README
documents() {
    mkdir -p "$1/docs"
    install -m 644 "$top"/{README,CHANGELOG,CONTRIBUTING,SECURITY}.md "$1"
    install -m 644 "$top"/docs/*.md "$top/docs/picture.svg" "$1/docs"
}

# The tarball's files are as in a prefix.
tarball() {
    local name=reuse-undo-$version-x86_64-linux doc
    doc=$room/$name/share/doc/reuse-undo
    cp -a "$room/tree/usr" "$room/$name"
    documents "$doc"
    install -m 644 "$top/LICENSES/Apache-2.0.txt" "$doc/LICENSE"
    copyright 'the file LICENSE beside this one' > "$doc/copyright"
    tar -C "$room" --sort=name --mtime="@$epoch" --owner=0 --group=0 --numeric-owner \
        --format=ustar -cf - "$name" | gzip -9n > "$room/dist/$name.tar.gz"
}

control() {
    local size
    size=$(find . -path ./DEBIAN -prune -o -printf '%y %s\n' |
        awk '{ n += $1 == "f" ? int(($2 + 1023) / 1024) : 1 } END { print n }')
    cat << CONTROL
Package: reuse-undo
Version: $version
Section: devel
Priority: optional
Architecture: amd64
Depends: libc6 (>= $(least_libc))
Installed-Size: $size
Maintainer: $maintainer
Description: add licensing information to source files, and take it back
 reuse-undo writes copyright and licence headers into the files of a source
 tree, as the REUSE Specification asks for them. Each call that changes files
 is a step: undo takes the last one back byte for byte, redo makes it again,
 and revert takes back an earlier one. A dry run prints what would change.
CONTROL
}

debian_package() {
    local at=$room/package doc
    doc=$at/usr/share/doc/reuse-undo
    cp -a "$room/tree" "$at"
    documents "$doc"
    mkdir -p "$at/DEBIAN" "$at/usr/share/zsh/vendor-completions"
    # (where Debian's zsh looks for what packages bring)
    mv "$at/usr/share/zsh/site-functions"/* "$at/usr/share/zsh/vendor-completions"
    rmdir "$at/usr/share/zsh/site-functions"
    copyright /usr/share/common-licenses/Apache-2.0 > "$doc/copyright"
    changelog > "$doc/changelog"
    # (the other documents stay as they are, since their links name each other)
    gzip -9n "$doc/changelog" "$at/usr/share/man/man1/reuse-undo.1"
    cd "$at"
    control > DEBIAN/control
    find usr -type f | sort | xargs md5sum > DEBIAN/md5sums
    find . -exec touch -hd "@$epoch" {} +
    cd "$top"
    SOURCE_DATE_EPOCH=$epoch dpkg-deb --root-owner-group -Zxz --build "$at" \
        "$room/dist/reuse-undo_${version}_amd64.deb" > /dev/null
}

mkdir "$room/tree" "$room/dist"
install_all ${1:+"$(realpath -e "$1")"}
tarball
debian_package
(cd "$room/dist" && sha256sum -- * > SHA256SUMS)
mkdir -p "$top/dist"
cp "$room/dist"/* "$top/dist"
cat "$room/dist/SHA256SUMS"
[ "$proof" ] || echo "not to be given away: the program's --version says nothing about a proof"
