# Reads a list of the repository's files and folders, crates.txt, and then documents. Says which links and paths lead
# nowhere, which line of an example in Rattle stands no longer in the file of src/ that was named last before it, and
# which arrow of a graph leads from a crate to one that it doesn't stand on.
FILENAME == list_file { sub(/^\.\//, ""); there[$0]; path[++paths] = $0; next }
FILENAME == "crates.txt" {
  if (/^#/ || NF == 0) next
  sub(/:/, " : "); crates[$1]; for (i = 2; i <= NF; i++) stands_on[$1, $i]
  next
}

# Words such as NAME stand for any name.
function is_path(text) {
  return text ~ /^[.A-Za-z_][A-Za-z0-9_.-]*(\/[A-Za-z0-9_.\/-]*|\.(rt|antt|edit|tape|txt|md))$/ && text !~ /NAME|FUNCTION/
}
function check_arrow(line,   ends, names, n, i) {
  split(line, ends, / *--> */); gsub(/[ \t]/, "", ends[1]); if (!(ends[1] in crates)) return
  n = split(ends[2], names, / *& */)
  for (i = 1; i <= n; i++)
    if (!((ends[1], names[i]) in stands_on)) complain(ends[1] " doesn't stand on " names[i] " by crates.txt")
}
function complain(text) { print FILENAME ":" FNR ": " text > "/dev/stderr"; faults++ }
function trimmed(text) { gsub(/^[ \t]+|[ \t]+$/, "", text); return text }
# A path as it is from the top, and without the steps up.
function resolved(from, to) {
  if (from !~ /\//) from = ""; else sub(/\/[^\/]*$/, "/", from)
  to = from to; while (sub(/[^\/]+\/\.\.\//, "", to)) { }
  sub(/\/$/, "", to); return to
}
function stands(place,   i) {
  sub(/\/$/, "", place); if (place in there) return 1
  for (i = 1; i <= paths; i++) if (path[i] ~ /\// && (ends(path[i], "/" place) || ends(path[i], "/" place ".rt"))) return 1
  return 0
}
function ends(text, tail) { return length(text) >= length(tail) && substr(text, length(text) - length(tail) + 1) == tail }
function slug(text) { text = tolower(text); gsub(/[^a-z0-9 _-]/, "", text); gsub(/ /, "-", text); return text }
function has_heading(file, anchor,   line, found) {
  while ((getline line < file) > 0) if (line ~ /^#+ / && slug(substr(line, index(line, " ") + 1)) == anchor) found = 1
  close(file); return found
}
function check_link(to,   file, anchor) {
  if (to ~ /^[a-z]+:/) return
  anchor = ""; file = to; if (match(to, /#/)) { anchor = substr(to, RSTART + 1); file = substr(to, 1, RSTART - 1) }
  file = file == "" ? FILENAME : resolved(FILENAME, file)
  if (!(file in there)) complain("the link to " to " leads nowhere")
  else if (anchor != "" && !has_heading(file, anchor)) complain("no heading of " file " makes #" anchor)
}

FNR == 1 { is_code = 0; source = "" }
/^```/ { is_code = !is_code; is_rust = is_code && /rust/; is_graph = is_code && /mermaid/; next }
is_code {
  if (is_graph && / --> /) check_arrow($0)
  if (!is_rust || trimmed($0) == "") next
  if (source == "") { complain("no file of src/ was named before this example"); next }
  if (!(source in read)) { read[source]; while ((getline line < source) > 0) lines[source, trimmed(line)]; close(source) }
  if (!((source, trimmed($0)) in lines)) complain("no line of " source " is: " trimmed($0))
  next
}
{
  rest = $0
  while (match(rest, /\]\([^)]*\)/)) {
    to = substr(rest, RSTART + 2, RLENGTH - 3); rest = substr(rest, RSTART + RLENGTH)
    check_link(to)
  }
  if (match($0, /^\[`.*`\]: /)) { check_link(substr($0, RLENGTH + 1)); next }
  n = split($0, piece, "`")
  for (i = 2; i <= n; i += 2) {
    if (piece[i] ~ /^crates\/[a-z_0-9]+\/src\/.*\.rt$/) source = piece[i]
    if (is_path(piece[i]) && !stands(piece[i])) complain("`" piece[i] "` is no file or folder")
  }
}
END { exit faults > 0 }
