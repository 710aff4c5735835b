#!/usr/bin/env bash
# Six kinds of projects, some of their files from Debian's packages: a Rust crate, a Go module, a
# node package, a Python project, one with autotools, and mixed files. Of each:
# - three commands (styles --add, annotate, download) make it compliant for reuse lint;
# - each file that its language's own tool took before is taken with its header, and is the same to
#   that tool, as far as the tool says what it made of the file;
# - three undos leave the tree as it was, but for an empty folder LICENSES.
# Prints how many files are refused and how many get a neighbour, before the ready styles and with
# them. At the end, the files that a header breaks, by the three commands and by all ready styles.
# Tools that aren't there are left out, and named with Debian's packages. Ends with status 1 at the
# first fault.
# usage: tests/own_tools.sh PROGRAM
# The tags below are data: REUSE-IgnoreStart
set -euo pipefail
. "$(dirname "$0")/common.sh"
wants reuse reuse
here=$(realpath "$(dirname "$0")")
. "$here/own_tools/trees.sh"
plain=$room/plain
tree=$room/tree
export XDG_CACHE_HOME=$room LC_ALL=C.UTF-8 PYTHONDONTWRITEBYTECODE=1 NODE_PATH=/usr/share/nodejs
mkdir "$room/texts"
echo 'MIT License' > "$room/texts/MIT.txt"
annotate=(annotate -c 'Jane Doe <jane@example.org>' -y 2024 -l MIT)
declare -A left_out=()
total=0 taken=0
# The file that a header breaks even so: for rustfmt, a comment between inner attributes
known=' lib.rs '

# Debian's Python, which has the libraries of its packages
python=/usr/bin/python3
[[ -x $python ]] || python=python3
reader() { "$python" "$here/own_tools/readers.py" "$@"; }

# Runs a tool on the file: this package has it.
with() {
  local package=$1
  shift
  if ! command -v "$1" > /dev/null; then
    left_out[$1]=$package
    return 77
  fi
  "$@" 2> /dev/null
}

# The same of a library of Python or of node
library() {
  local package=$1 status=0
  shift
  "$@" 2> /dev/null || status=$?
  ((status != 77)) || left_out[$package]=$package
  return $status
}

node_library() {
  local package=$1 code=$2 file=$3
  command -v node > /dev/null || { left_out[node]=nodejs; return 77; }
  library "$package" node -e "try { l = require('${package#node-}') } catch { process.exit(77) }
    const text = require('fs').readFileSync('$file', 'utf8'); $code"
}

# What a file is to its language's own tool, which knows it by its name: here by a library of Python
# or of node, or where the tool prints what it makes of a file
read_as() {
  local file=$1
  case ${file##*/} in
    page.html | site.scss | *.md | *.markdown | *.Rmd | *.qmd | *.mdx) reads front-matter ;;
    seed.yaml | *.css | Dockerfile | Containerfile | *.dockerfile | *.el) reads first ;;
    *.bat | *.cabal | dune-project) reads first ;;
    de.ts | *.xml | *.xsd | *.rng | *.xaml) reads xml ;;
    *.ts | *.tsx | *.jsx) node_library node-typescript "
      const options = { removeComments: true, jsx: 2 }
      const made = l.transpileModule(text, { fileName: '$file', reportDiagnostics: true,
        compilerOptions: options })
      console.log(made.outputText); process.exit(made.diagnostics.length ? 1 : 0)" "$file" ;;
    *.hbs | *.mustache)
      node_library node-handlebars "console.log(l.compile(text)({ x: 1 }).trim())" "$file" ;;
    *.json | .eslintrc | .prettierrc | .babelrc) reads json ;;
    *.py | *.wsgi | *.pyi | *.gyp) reads ast ;;
    *.mako) reads mako python3-mako ;;
    *.j2 | *.jinja | *.jinja2 | *.njk) reads jinja python3-jinja2 ;;
    *.rst) reads rst python3-docutils ;;
    *.toml | Cargo.lock) reads toml ;;
    *.cfg | *.ini | .coveragerc | .pylintrc | .npmrc) reads ini ;;
    *.service | *.timer | *.path | *.network | *.desktop) reads ini ;;
    *.yml | *.yaml) reads yaml python3-yaml ;;
    requirements*.txt | MANIFEST.in | POTFILES.in | .gitignore | .npmignore | .htaccess)
      reads lines ;;
    go.mod) with golang-go go mod edit -json "$file" ;;
    *.scss) with sassc sassc "$file" ;;
    *.m4) with m4 m4 "$file" | sed '/./,$!d' ;;
    *.[1-9]) with mandoc mandoc -T ascii "$file" | cat -s &&
      { mandoc -T lint -W error "$file" || :; } | wc -l ;;
    *.texi) with texinfo makeinfo --plaintext --force "$file" ;;
    *.sed) printf 'ab\n' | with sed sed -f "$file" ;;
    *.awk) with gawk awk -f "$file" < /dev/null ;;
    *.po) with gettext msgfmt -o - "$file" ;;
    *.proto) with protobuf-compiler protoc -I . --descriptor_set_out=/dev/stdout "$file" ;;
    *.php) with php-cli php "$file" ;;
    *.pod) with perl pod2text "$file" ;;
    *.haml) with ruby-haml haml render "$file" ;;
    *) taken_as "$file" ;;
  esac
}
reads() { library "${2:-python3}" reader "$1" "$file"; }

# The same by a tool that only takes the file, or doesn't. Ends with 0 if it does, and with 77 if
# there is no tool for the file here.
taken_as() {
  local file=$1
  case ${file##*/} in
    *.rs) with rustfmt rustfmt --edition 2021 --check "$file" ;;
    *.go) with golang-go gofmt -e "$file" > /dev/null ;;
    *.js | *.mjs | *.cjs) with nodejs node --check "$file" ;;
    *.html) with libxml2-utils xmllint --html --noout "$file" ;;
    configure.ac) with automake automake --version > /dev/null && remade "$(dirname "$file")" ;;
    *.pc) with pkg-config pkg-config --validate "$file" ;;
    *.c) with gcc gcc -fsyntax-only "$file" ;;
    Makefile) with make make -n -f "$file" ;;
    *.sh) with bash bash -n "$file" ;;
    *.bats) with bats bats -c "$file" ;;
    *.csh) with tcsh tcsh -n "$file" ;;
    *.f90 | *.f) with gfortran gfortran -fsyntax-only "$file" ;;
    *.rb | *.gemspec | Rakefile) with ruby ruby -c "$file" ;;
    *.pl | *.pm | *.psgi) with perl perl -c "$file" ;;
    *.lua | *.rockspec) with lua5.4 lua5.4 -e "assert(loadfile('$file'))" ;;
    *.tcl) with tcl tclsh "$file" ;;
    *.tf) with terraform terraform fmt -no-color - < "$file" > /dev/null ;;
    *.cmake) with cmake cmake -P "$file" ;;
    *.sql) with sqlite3 sqlite3 :memory: < "$file" ;;
    *) return 77 ;;
  esac
}

# Makes a copy of a tree's configure and its Makefile.in anew.
remade() {
  rm -rf "$room/remade"
  cp -r "$1" "$room/remade"
  (cd "$room/remade" && autoreconf -fi > /dev/null 2>&1 && ls Makefile.in)
}

# The checksum of what each file of a tree is to its tool, of those that are taken
results() {
  local file status
  cd "$1"
  while IFS= read -r file; do
    status=0
    (read_as "./$file") > "$room/result" < /dev/null || status=$?
    ((status != 0)) || echo "$file $(cksum < "$room/result")"
  done < "$room/names"
}

# How many files of a tree a call without an option for them refuses, and gives a neighbour
figures() {
  local refused neighbours
  "$program" --root "$1" "${annotate[@]}" -r --dry-run . > "$room/out" 2> "$room/error" || :
  refused=$(grep -c ': unrecognised$' "$room/error" || :)
  neighbours=$("$program" --root "$1" "${annotate[@]}" -r --dry-run --skip-unrecognised . |
    grep -c '^would change .*\.license$' || :)
  echo "$refused refused, $neighbours neighbours"
}

# Three commands that give a tree all that reuse lint asks for
three_commands() {
  local before after
  before=$(figures "$tree")
  "$program" --root "$tree" styles --add > "$room/out" || fail "$1: styles --add"
  after=$(figures "$tree")
  "$program" --root "$tree" "${annotate[@]}" -r --fallback-dot-license . > "$room/out" ||
    fail "$1: annotate"
  "$program" --root "$tree" download --texts "$room/texts" MIT > "$room/out" || fail "$1: download"
  (cd "$tree" && reuse lint) > "$room/out" 2>&1 || fail "$1: reuse lint: $(cat "$room/out")"
  echo "$1: $(wc -l < "$room/names") files: $before; with ready styles $after;" \
    "$(find "$tree" -name '*.license' | wc -l) neighbours at the end"
}

# A kind of project: what its tools made of its files before, and make of them with headers
project() {
  rm -rf "$plain" "$tree"
  mkdir "$plain"
  "$1" "$plain"
  (cd "$plain" && find . -type f -printf '%P\n' | sort) > "$room/names"
  cp -r "$plain" "$tree"
  results "$plain" > "$room/before"
  rm -rf "$plain"
  cp -r "$tree" "$plain"
  three_commands "$1"
  cp -r "$tree" "$room/annotated"
  results "$room/annotated" > "$room/after"
  rm -rf "$room/annotated"
  cmp -s "$room/before" "$room/after" ||
    fail "$1: a tool tells files apart: $(diff "$room/before" "$room/after")"
  for _ in 1 2 3; do
    "$program" --root "$tree" undo > "$room/out" || fail "$1: undo"
  done
  rmdir "$tree/LICENSES" 2> /dev/null || :
  rm -r "$tree/.reuse/undo"
  rmdir "$tree/.reuse" 2> /dev/null || :
  diff -r "$plain" "$tree" > "$room/diff" || fail "$1: undo: $(head -n 3 "$room/diff")"
  total=$((total + $(wc -l < "$room/names")))
  taken=$((taken + $(wc -l < "$room/before")))
}

# The files whose first line, or whose text to its reader, a header changes: with the ready styles
# that styles --add adds, and with all of them
broken() {
  local file
  rm -rf "$tree"
  mkdir "$tree"
  first_lines "$tree"
  (cd "$tree" && find . -type f -printf '%P\n' | sort) > "$room/names"
  results "$tree" > "$room/before"
  if [[ $1 == all ]]; then
    mkdir "$tree/.reuse"
    "$program" styles --all > "$tree/.reuse/styles.toml"
    "$program" styles --all --comments > "$tree/.reuse/comments.toml"
  else
    "$program" --root "$tree" styles --add > "$room/out"
  fi
  "$program" --root "$tree" "${annotate[@]}" -r --fallback-dot-license . > "$room/out"
  results "$tree" > "$room/after"
  { diff "$room/before" "$room/after" || :; } | sed -n 's/^< \([^ ]*\).*/\1/p' | paste -sd ' '
}

for kind in rust go node python autotools mixed; do
  project "$kind"
done
with_added=$(broken added)
with_all=$(broken all)
echo "a header breaks, under names that the program knows: $with_added"
echo "and with all ready styles: $with_all"
for tool in "${!left_out[@]}"; do
  echo "left out, since $tool isn't there: apt-get install ${left_out[$tool]}"
done
for file in $with_all; do
  [[ $known == *" $file "* ]] || fail "with all ready styles a header breaks $file"
done
echo "$total files of six projects are compliant by three commands; the $taken that their tools take" \
  "are the same to them; three undos take all back"
