# Reads words that name nothing in crates/, crates.txt, the index that index.awk prints, and then a document, and says
# which names of the document stand nowhere in the tree. With links=1 it prints the document again, each function in its
# tables a link to the file that it stands in.
#
# A name is what stands between two backticks: a crate; a path `crate::module::{name, ..}`, whose module may be a type;
# or a word of letters, digits and _. Behind "clause" a word is a clause of the contract that was named last.
FILENAME == words_file { if (!/^#/) other_words[$1]; next }
FILENAME == "crates.txt" { if (!/^#/ && sub(/^[^:]*:/, "")) for (i = 1; i <= NF; i++) kit[$i]; next }
FILENAME == index_file {
  row[++rows] = $0; split($0, f, "\t"); rows_of[f[5]] = rows_of[f[5]] " " rows; crates[f[1]]; next
}

function complain(text) { print FILENAME ":" FNR ": " text > "/dev/stderr"; faults++ }

# The first thing of this name, of a kind that matches, in the crate or, where none is given, in any, and at the place:
# a module, a folder or an owner. Its crate, file and kind are left in `at`.
function find(name, of, place, kinds,   ids, n, i, f) {
  n = split(rows_of[name], ids, " ")
  for (i = 1; i <= n; i++) {
    split(row[ids[i]], f, "\t")
    if (of != "" && f[1] != of || f[3] !~ kinds) continue
    if (place == "" || f[4] == place || index(f[2], "/" place ".") || index(f[2], "/" place "/")) {
      at["crate"] = f[1]; at["file"] = f[2]; at["kind"] = f[3]; return 1
    }
  }
  return 0
}
# Whether functions of this name stand in one file alone, of this crate or, where none is given, of all.
function is_alone(name, of,   ids, n, i, f, file) {
  n = split(rows_of[name], ids, " "); file = ""
  for (i = 1; i <= n; i++) {
    split(row[ids[i]], f, "\t")
    if (f[3] != "fn" || of != "" && f[1] != of) continue
    if (file != "" && f[2] != file) return 0
    file = f[2]; at["crate"] = f[1]; at["file"] = file
  }
  return file != ""
}
function add_contract(name, of) {
  if (!row_has_contract) { contracts = 0; row_has_contract = 1 }
  contract[++contracts] = name; contract_crate[contracts] = of
}
function check_path(token,   head, tail, names, n, i, segment, m, of, place, file) {
  head = token; tail = token
  if (match(token, /::\{.*\}$/)) { head = substr(token, 1, RSTART - 1); tail = substr(token, RSTART + 3, RLENGTH - 4) }
  else { match(token, /.*::/); head = substr(token, 1, RLENGTH - 2); tail = substr(token, RLENGTH + 1) }
  m = split(head, segment, "::"); of = segment[1] in crates ? segment[1] : ""
  if (of != "") { context = of; contexts = contexts " " of; if (m == 1) segment[m] = "" }
  n = split(tail, names, / *, */); link = ""
  for (i = 1; i <= n; i++) {
    place = segment[m]
    if (names[i] ~ /::/) { place = names[i]; sub(/::.*/, "", place); sub(/.*::/, "", names[i]) }
    if (find(names[i], of, place, "^(fn|type|variant|file|word)$")) {
      add_contract(names[i], at["crate"])
      if (link == "" && at["file"] ~ /\.rt$/) link = at["file"]
      if (at["kind"] == "type") last_type = names[i]
    } else complain("`" token "`: " names[i] " doesn't stand there")
  }
}
function check_clause(token,   i) {
  for (i = 1; i <= contracts; i++) if (find(token, contract_crate[i], contract[i], "^clause$")) return
  complain("`" token "` is no clause of the contract before it")
}
# A word that the crate, or where none was named any, defines in its specs is a definition. Else it is a function of that
# crate, or the only one of its name.
function check_word(token) {
  link = ""
  if (token in other_words) return
  if (token in crates) { context = token; contexts = contexts " " token; return }
  if (token in kit) return
  if (find(token, context, "", "^word$")) return
  if (is_function_of(token, context) || !names_crates() && is_alone(token, "")) {
    link = at["file"]; add_contract(token, at["crate"]); return
  }
  if (!stands(token)) complain("`" token "` stands nowhere in" (names_crates() ? contexts : " crates/"))
}
function is_function_of(token, of) {
  return of != "" && (last_type != "" && find(token, of, last_type, "^fn$") || is_alone(token, of))
}
# In a table's cell that names crates a word stands in one of them.
function names_crates() { return is_row && contexts != "" }
function stands(token,   n, i, of) {
  if (!names_crates()) return rows_of[token] != ""
  n = split(contexts, of, " ")
  for (i = 1; i <= n; i++) if (find(token, of[i], "", ".")) return 1
  return 0
}
function linked(text, file) {
  if (file == "" || !is_row) return "`" text "`"
  if (!(text in target)) { targets[++target_count] = text; target[text] = "../" file }
  return target[text] == "../" file ? "[`" text "`]" : "`" text "`"
}

/^```/ { is_code = !is_code }
/^\[`.*`\]: / { next }
{
  out = context = contexts = last_type = ""; in_clause = 0
  is_row = /^\|/; if (is_row) row_has_contract = 0; else contracts = 0
  n = is_code || /^```/ ? 1 : split($0, piece, "`")
  if (n == 1) { text[++lines] = $0; next }
  for (i = 1; i <= n; i++) {
    if (i % 2) {
      if (i > 1 && bracketed) sub(/^\]/, "", piece[i])
      between = piece[i]
      if (is_row && between ~ /\|/) contexts = ""
      in_clause = between ~ /clauses? \[?$/ || in_clause && between ~ /^(, | and )\[?$/
      bracketed = i < n && between ~ /\[$/ && piece[i + 2] ~ /^\]([^(]|$)/
      if (bracketed) sub(/\[$/, "", between)
      out = out between; continue
    }
    token = piece[i]; link = ""
    if (token ~ /::/) check_path(token)
    else if (token ~ /^[A-Za-z_][A-Za-z0-9_]*$/) { if (in_clause) check_clause(token); else check_word(token) }
    out = out (bracketed || link != "" ? linked(token, link) : "`" token "`")
  }
  text[++lines] = out
}
END {
  if (links) {
    while (text[lines] == "") lines--
    for (i = 1; i <= lines; i++) print text[i]
    if (target_count) print ""
    for (i = 1; i <= target_count; i++) print "[`" targets[i] "`]: " target[targets[i]]
  }
  exit faults > 0
}
