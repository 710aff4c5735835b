# Completes the words of reuse-undo in bash: source this file, or install it as
# /usr/share/bash-completion/completions/reuse-undo.

# Sets `words` to the words before the one that is completed, without the equals signs that bash
# takes for words, and `word` to that one, without quotes.
_reuse_undo_words() {
  local index
  words=()
  for ((index = 1; index < COMP_CWORD; index++)); do
    [[ ${COMP_WORDS[index]} == = ]] || words+=("${COMP_WORDS[index]}")
  done
  word=${COMP_WORDS[COMP_CWORD]}
  [[ $word != = ]] || word=
  word=${word#[\"\']}
  word=${word//\\/}
}

# Sets `root`, `texts` and `subcommand` to what the words before say, and `only_paths` where `--` is one of them.
_reuse_undo_read() {
  local index
  for ((index = 0; index < ${#words[@]}; index++)); do
    case ${words[index]} in
      --root) root=${words[++index]-.} ;;
      --root=*) root=${words[index]#*=} ;;
      --texts=*) texts=${words[index]#*=} ;;
      --texts) texts=${words[++index]-.} ;;
      --copyright | -c | --license | -l | --contributor | --year | -y | --style | -s | --copyright-prefix | \
        --copyright-style | --files-from | --text | --remove-text | --exclude | --remove-license | --remove-holder | --remove-contributor | \
        --until | --holder) index=$((index + 1)) ;;
      --replace-license | --replace-holder | --replace-contributor) index=$((index + 2)) ;;
      --) only_paths=yes ;;
      -*) ;;
      *) subcommand=${subcommand:-${words[index]}} ;;
    esac
  done
  root=${root/#\~\//$HOME/}
  texts=${texts/#\~\//$HOME/}
}

# Files beneath a folder by their paths from there, a folder with a slash at its end
_reuse_undo_paths() {
  local path
  compopt -o filenames 2> /dev/null
  while IFS= read -r path; do
    if [[ -d $1/$path ]]; then
      COMPREPLY+=("$path/")
      compopt -o nospace 2> /dev/null
    elif [[ ${2-} != folders ]]; then
      COMPREPLY+=("$path")
    fi
  done < <(cd -- "$1" 2> /dev/null && compgen -f -- "$word")
}

# The numbers of the steps below the root, or of those done alone
_reuse_undo_steps() {
  _reuse_undo_of "$(reuse-undo --root "$root" log 2> /dev/null | sed -nE "s/^([0-9]+) .*${1:+ }${1-}\$/\1/p")"
}

_reuse_undo_of() { mapfile -t COMPREPLY < <(compgen -W "$1" -- "$word"); }

_reuse_undo() {
  local words word root=. texts=. subcommand= only_paths= id
  COMPREPLY=()
  _reuse_undo_words
  _reuse_undo_read
  if [[ -z $only_paths ]]; then
    case ${words[*]: -1} in
      --style | -s)
        _reuse_undo_of 'python c css html haskell tex lisp semicolon ml vim'
        return
        ;;
      --copyright-prefix | --copyright-style)
        _reuse_undo_of 'spdx spdx-c spdx-symbol spdx-string spdx-string-c spdx-string-symbol string string-c
          string-symbol symbol'
        return
        ;;
      --root | --texts)
        word=${word/#\~\//$HOME/}
        _reuse_undo_paths . folders
        return
        ;;
      --files-from | --text | --remove-text)
        _reuse_undo_paths .
        return
        ;;
      --copyright | -c | --license | -l | --contributor | --year | -y | --exclude) return ;;
      --remove-license | --remove-holder | --remove-contributor | --until | --holder) return ;;
      --replace-license | --replace-holder | --replace-contributor) return ;;
    esac
    case ${words[*]: -2:1} in --replace-license | --replace-holder | --replace-contributor) return ;; esac
  fi
  if [[ $word == -* && -z $only_paths ]]; then
    local every='--root --up --verbose --no-sync --allow-owner-change --trust-journal'
    case $subcommand in
      '') _reuse_undo_of "$every --help --version" ;;
      annotate)
        _reuse_undo_of "--copyright --license --contributor --text --year --exclude-year --style --copyright-prefix
          --copyright-style --merge-copyrights --single-line --multi-line --no-replace --recursive --files-from
          --exclude --force-dot-license --fallback-dot-license
          --skip-unrecognised --skip-existing --exit-non-zero-on-change --dry-run --check --diff --json $every --help"
        ;;
      amend)
        _reuse_undo_of "--replace-license --remove-license --replace-holder --remove-holder --replace-contributor
          --remove-contributor --remove-text --remove-header --until --copyright-prefix --holder --everywhere
          --style --recursive
          --files-from --exclude --exit-non-zero-on-change --dry-run --check --diff --json $every --help"
        ;;
      styles)
        _reuse_undo_of "--add --all --comments --files-from --exclude --exit-non-zero-on-change --dry-run --check
          --diff --json $every --help"
        ;;
      download) _reuse_undo_of "--texts --dry-run --check --diff --json $every --help" ;;
      convert-dep5) _reuse_undo_of "--exit-non-zero-on-change --dry-run --check --diff --json $every --help" ;;
      undo | redo) _reuse_undo_of "--dry-run --check --diff --json $every --help" ;;
      revert) _reuse_undo_of "--dry-run --check --diff --json --skip-moved $every --help" ;;
      recover) _reuse_undo_of "--skip-moved $every --help" ;;
      forget) _reuse_undo_of "--all $every --help" ;;
      log) _reuse_undo_of "--json $every --help" ;;
      show) _reuse_undo_of "--diff --json $every --help" ;;
      *) ;;
    esac
    return
  fi
  case $subcommand in
    '') _reuse_undo_of 'annotate amend styles convert-dep5 download undo redo revert recover forget log show help' ;;
    help) _reuse_undo_of 'annotate amend styles convert-dep5 download undo redo revert recover forget log show' ;;
    revert) _reuse_undo_steps done ;;
    show | forget) _reuse_undo_steps ;;
    annotate | amend | styles) _reuse_undo_paths "$root" ;;
    download)
      while IFS= read -r id; do
        COMPREPLY+=("${id%.txt}")
      done < <(cd -- "$texts" 2> /dev/null && compgen -f -X '!*.txt' -- "$word")
      ;;
  esac
}

complete -F _reuse_undo reuse-undo
