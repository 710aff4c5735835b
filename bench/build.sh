# Builds a measuring program in a temporary folder, over crates of this repository and of the kit.
# usage, in a script of this folder:  . build.sh NAME CRATE..
# It sets `program`, and removes the folder at the end. Where `build` is set, it is built in that
# folder, which stays.
name=$1
shift
top=$(cd "$(dirname "${BASH_SOURCE[0]}")/.." && pwd)
if [[ -z ${build:-} ]]; then
  build=$(mktemp -d)
  trap 'rm -rf "$build"' EXIT
fi
mkdir -p "$build/crates/$name/src"
cp "$top/HANDLES" "$build/"
for crate in "$@"; do
  [[ -d $top/crates/$crate ]] || continue
  cp -r "$top/crates/$crate" "$build/crates/"
  grep "^$crate:" "$top/crates.txt" >> "$build/crates.txt"
done
echo "$name: $* anyhow" >> "$build/crates.txt"
cp "$top/bench/$name/program.txt" "$build/crates/$name/src/main.rt"
(cd "$build/crates/$name" && rt run) > "$build/log" 2>&1 || { tail -n 20 "$build/log"; exit 1; }
program=$build/crates/$name/out/$name
