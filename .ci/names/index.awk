# Prints what stands in a crate's files, a line a thing: crate, file, kind, owner, name. The owner of a function or a
# variant is its type, if it has one; that of a clause is its function, and it is printed once more for the type. A call
# is what a variant's comment begins with, as those of a history's steps do.
function put(kind, owner, name) { print crate "\t" FILENAME "\t" kind "\t" (owner == "" ? "-" : owner) "\t" name }
function last_word(text) { sub(/.*[^A-Za-z0-9_]/, "", text); return text }

FNR == 1 {
  n = split(FILENAME, part, "/"); crate = part[2]; type = fn = ""; in_enum = 0
  base = part[n]; kind = base; sub(/.*\./, "", kind); sub(/\.[a-z]*$/, "", base)
  put(kind == "edit" ? "edit" : "file", "", base)
  for (i = 4; i < n; i++) put("folder", "", part[i])
}
kind == "rt" && /^impl/ {
  type = $0; sub(/^impl(<[^>]*>)? */, "", type); sub(/.* for /, "", type); sub(/[^A-Za-z0-9_].*/, "", type)
}
kind == "rt" && /^}/ { type = ""; in_enum = 0 }
kind == "rt" && match($0, /^ *(pub )?(const )?(final )?fn [a-z_0-9]+/) {
  fn = last_word(substr($0, RSTART, RLENGTH)); put("fn", type, fn); next
}
kind == "rt" && match($0, /^ *(pub )?(struct|enum|trait|type|const|static) [A-Za-z_0-9]+/) {
  name = last_word(substr($0, RSTART, RLENGTH)); put("type", "", name)
  if ($0 ~ /(enum|trait) /) { type = name; in_enum = $0 ~ /enum / }
}
kind == "rt" && in_enum && match($0, /^    \/\/\/ `[a-z_]+`[.:]/) {
  name = $2; gsub(/[^a-z_]/, "", name); put("call", type, name)
}
kind == "rt" && in_enum && match($0, /^    [A-Z][A-Za-z0-9]*/) { put("variant", type, substr($0, 5, RLENGTH - 4)) }
kind == "rt" && match($0, /^ +(requires|ensures) [a-z_0-9]+ \{/) {
  put("clause", fn, $2); if (type != "") put("clause", type, $2)
}
kind == "antt" && match($0, /^ *((abbrev|unfoldable|pub|record|data) )*[A-Za-z_][A-Za-z0-9_']* ([{(][^=]*)?(:|where)/) {
  name = $0; gsub(/^ *((abbrev|unfoldable|pub|record|data) )*/, "", name); sub(/[^A-Za-z0-9_'].*/, "", name)
  put(part[3] == "specs" ? "word" : "lemma", "", name); next
}
# A record whose parameters begin on the next line.
kind == "antt" && /^(  )?(pub )?(record|data) [A-Za-z_][A-Za-z0-9_']*$/ {
  put(part[3] == "specs" ? "word" : "lemma", "", $NF)
}
