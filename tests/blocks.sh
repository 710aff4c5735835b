# What the scripts share that run the commands of a document. It wants `program`, `room` and `fail`.

# Runs the commands of a document's blocks ```console in one shell, which begins in an empty folder,
# and compares what each prints with the lines below it in the document. A line `$ ..` is a command,
# and lines `> ..` below it go on with it. A date and a moment may be another one. Sets `compared`,
# the number of commands.
run_blocks() {
  local document=$1 blocks=$room/blocks number at
  rm -rf "$blocks"
  mkdir -p "$blocks/bin" "$blocks/home"
  ln -s "$program" "$blocks/bin/reuse-undo"
  awk -v to="$blocks/" '
    /^```/ { inside = $0 == "```console"; next }
    !inside { next }
    /^\$ / {
      at = to (++number)
      is_command = 1
      print substr($0, 3) > (at ".command")
      printf "" > (at ".wanted")
      next
    }
    is_command && /^> / { print substr($0, 3) > (at ".command"); next }
    { is_command = 0; print > (at ".wanted") }
    END { print number + 0 > (to "count") }' "$document"
  compared=$(< "$blocks/count")
  ((compared)) || fail "$document has no commands"
  cat > "$blocks/all" << 'ALL'
for number in $(seq "$(cat "$1/count")"); do
  . "$1/$number.command" > "$1/$number.printed" 2>&1 < /dev/null
done
ALL
  (cd "$blocks/home" && HOME=$PWD PATH=$blocks/bin:$PATH LC_ALL=C.UTF-8 bash ../all "$blocks") || :
  for number in $(seq "$compared"); do
    at=$blocks/$number
    [[ -e $at.printed ]] || fail "$document: $(< "$at.command") isn't reached"
    diff <(dateless "$at.wanted") <(dateless "$at.printed") > "$blocks/differ" ||
      fail "$document: $(< "$at.command") prints something else: $(< "$blocks/differ")"
  done
}
dateless() {
  sed -E 's/[0-9]{4}-[0-9]{2}-[0-9]{2}/DATE/g; s/"when":[0-9]+/"when":MOMENT/g' "$1"
}
