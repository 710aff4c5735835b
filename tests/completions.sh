#!/usr/bin/env bash
# Asks bash, zsh and fish, each by its own completion, what completes some lines, and compares with
# what is wanted: the subcommands, options, styles and prefixes that help tells, licence ids, and
# paths below the root. Prints how many lines were compared; ends with status 1 at the first fault.
# usage: tests/completions.sh PROGRAM
set -euo pipefail
. "$(dirname "$0")/common.sh"
wants zsh zsh
wants fish fish
completions=$(realpath "$(dirname "$0")/../share/completions")
mkdir -p "$room/here/source/deep" "$room/there/src/deep" "$room/texts"
touch "$room/here/setup.py" "$room/here/source/a.py" "$room/there/src/b c.py" \
  "$room/there/src/d.py" "$room/there/sign.png"
touch "$room/texts/"{MIT,MIT-0,ISC}.txt "$room/texts/README"
mkdir "$room/bin"
ln -s "$program" "$room/bin/reuse-undo"
PATH=$room/bin:$PATH
cd "$room/here"

# What bash has in COMPREPLY for the words
ask_bash() {
  bash --norc -c '
    . "$1"
    [[ $(complete -p reuse-undo) == "complete -F _reuse_undo reuse-undo" ]] || exit 1
    shift
    COMP_WORDS=(reuse-undo "$@") COMP_CWORD=$#
    _reuse_undo
    printf "%s\n" "${COMPREPLY[@]}"' bash "$completions/reuse-undo.bash" "$@"
}

# What an interactive zsh hands to compadd at a tab behind the line
ask_zsh() {
  zsh -f -c '
    zmodload zsh/zpty
    zpty shell zsh -f -i
    zpty -w shell "source $1"
    zpty -r -m shell shown "*READY*" || exit 1
    shift
    zpty -n -w shell "reuse-undo ${(j: :)@}"$'"'\t'"'
    zpty -r -m shell shown "*END OF MATCHES*" || exit 1
    print -r -- "$shown"' zsh "$room/zshrc" "$@" | tr -d '\r' | sed -n 's/^match: //p'
}
cat > "$room/zshrc" <<ZSH
PROMPT=
unsetopt zle_bracketed_paste 2> /dev/null
fpath=("$completions" \$fpath)
autoload -U compinit && compinit -u -d "$room/zcompdump"
zstyle ':completion:*' completer _complete
zstyle ':completion:*' matcher-list ''
bindkey '^I' complete-word
compadd() {
  if [[ \${@[1,(i)(-|--)]} == *-(O|A|D)\ * ]]; then
    builtin compadd "\$@"
    return
  fi
  local -a hits
  local -A before hidden
  builtin compadd -A hits "\$@"
  zparseopts -E P:=before p:=hidden
  local hit
  for hit in \$hits; do print -r -- "match: \$IPREFIX\${before[-P]}\${hidden[-p]}\$hit"; done
  builtin compadd "\$@"
}
# The line itself is echoed, so the first match begins a new one.
begin_matches() { print; }
end_of_matches() { print "END OF MATCHES"; }
compprefuncs=(begin_matches)
comppostfuncs=(end_of_matches)
print READY
ZSH

# What fish completes the line with
ask_fish() {
  fish --no-config -c 'source $argv[1]; complete -C "reuse-undo $argv[2..]"' \
    "$completions/reuse-undo.fish" "$@" | cut -f1
}

compared=0
# Each shell completes the words that come first with those behind `gives`, in any order. Some add a
# slash to a folder, and some don't.
completes() {
  local shell words=() found
  while [[ $1 != gives ]]; do
    words+=("$1")
    shift
  done
  shift
  for shell in bash zsh fish; do
    found=$("ask_$shell" "${words[@]}" | sed -e 's#\\##g' -e 's#/$##' | sort -u)
    [[ $found == "$(printf '%s\n' "$@" | sort)" ]] ||
      fail "$shell, ${words[*]}: it completes"$'\n'"$found"
  done
  compared=$((compared + 1))
}

# All words that help tells
longs() { help_options "$@" | grep -E '^--'; }
completes '' gives $(help_subcommands)
completes -- gives $(longs)
for subcommand in $(help_subcommands); do
  [[ $subcommand == help ]] || completes "$subcommand" -- gives $(longs "$subcommand" | sort -u)
done
completes annotate --style '' gives $(help_values style)
completes amend -s '' gives $(help_values style)
completes annotate --copyright-prefix '' gives $(help_values copyright-prefix)

completes an gives annotate
completes am gives amend
completes st gives styles
completes styles --a gives --add --all --allow-owner-change
completes styles --add s gives setup.py source
completes --ro gives --root
completes --root ../there und gives undo
completes help re gives recover redo revert
completes help log -- gives
completes annotate --co gives --contributor --copyright --copyright-prefix --copyright-style
completes annotate --s gives --single-line --skip-existing --skip-unrecognised --style
completes fo gives forget
completes amend --r gives --recursive --remove-contributor --remove-header --remove-holder \
  --remove-license --remove-text --replace-contributor --replace-holder --replace-license --root
completes amend --remove-text s gives setup.py source
completes annotate --text s gives setup.py source
completes amend --copyright-prefix spdx-c gives spdx-c
completes amend --replace-license MIT ISC s gives setup.py source
completes amend --until 2026 source/ gives source/a.py source/deep
completes annotate --f gives --fallback-dot-license --files-from --force-dot-license
completes annotate --files-from s gives setup.py source
completes annotate -s h gives html haskell
completes annotate --copyright-style spdx-string- gives spdx-string-c spdx-string-symbol
completes annotate -l MIT s gives setup.py source
completes annotate -l MIT source/ gives source/a.py source/deep
completes --root ../there annotate -l MIT s gives src sign.png
completes --root ../there annotate -l MIT src/ gives 'src/b c.py' src/d.py src/deep
completes --root '' gives source
completes annotate -l MIT --root ../there s gives src sign.png
completes annotate --root=../there src/d gives src/d.py src/deep
completes download --te gives --texts
completes download --texts ../texts M gives MIT MIT-0
completes undo --h gives --help
# The numbers of the steps
for holder in A B; do
  "$program" --root ../there annotate -c $holder --force-dot-license sign.png > "$room/out"
done
"$program" --root ../there undo > "$room/out"
completes --root ../there show '' gives 1 2
completes --root ../there revert '' gives 1
completes --root ../there revert --s gives --skip-moved
completes show '' gives
echo "$compared lines are completed as stated by bash, zsh and fish"
