# make_tree FOLDER FILES [LINES]: makes a tree of Python files, 100 a folder, of 1 to 16 times so
# many lines (16 by default: 0.4 to 7 kB).
make_tree() {
  local size line text= k folder texts=()
  for size in {1..16}; do
    for ((line = 1; line <= ${3:-16}; line++)); do text+="line = $size  # number $line"$'\n'; done
    texts[size]=$text
  done
  for ((k = 0; k < $2; k++)); do
    folder=$1/package$((k / 1000))/module$((k / 100 % 10))
    ((k % 100)) || mkdir -p "$folder"
    printf %s "${texts[k % 16 + 1]}" > "$folder/file$((k % 100)).py"
  done
}
