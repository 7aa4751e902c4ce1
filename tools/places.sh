#!/usr/bin/env bash
# places.sh POINT: the places of one point of docs/DESIGN-PASS.md in the code as it stands, FILE:LINE each, and their number.
# Run it at the top of a checkout. It only reads; what it finds is a list to be read, and a place can be there for a reason.
set -euo pipefail
cd "$(git rev-parse --show-toplevel)"
mapfile -t files < <(git ls-files 'crates/*/src/*.rt')

# FILE:LINE: what stands there, in short
short() { sed -E 's|^crates/||; s|/src/|/|' | cut -c1-150; }
part() { sort -o "$room/part" -t: -k1,1 -k2,2n "$room/part"; printf '%s: %s\n' "$1" "$(wc -l <"$room/part")"; sed 's/^/  /' "$room/part"; cat "$room/part" >>"$room/all"; }
room=$(mktemp -d)
trap 'rm -rf "$room"' EXIT
: >"$room/all"

# each function's signature as one line
awk '/^[ \t]*(pub(\([a-z]+\))? )?(unsafe )?(extern "C" )?fn / { s = ""; on = 1; line = FNR }
on { t = $0; sub(/^[ \t]+/, "", t); sub(/ *\/\/.*/, "", t); s = s (s == "" ? "" : " ") t
     if (t ~ /\{$/ || t ~ /^(requires|ensures)/ || t ~ /;$/ || t ~ /\) -> [^{]*$/ || t ~ /\)$/) {
       sub(/ (requires|ensures).*/, "", s); sub(/ ?\{$/, "", s); gsub(/\( /, "(", s); gsub(/, \)/, ")", s)
       print FILENAME ":" line ": " s; on = 0 } }' "${files[@]}" >"$room/signatures"

# structs or enums with a line that matches, one line each
types() { awk -v kind="$1" -v arm="$2" '
  $0 ~ "^ *(pub(\\([a-z]+\\))? )?" kind " " { head = $0; sub(/^ */, "", head); sub(/ *\{.*/, "", head); line = FNR; on = 1; hit = "" }
  on && FNR > line && $0 ~ arm { t = $0; gsub(/^ *(pub(\([a-z]+\))? )?|,$/, "", t); hit = hit " " t }
  on && /^\}/ { on = 0; if (hit != "") print FILENAME ":" line ": " head " with" hit }' "${files[@]}" | short; }

twins() { awk -v least="$1" -v loose="$2" '
  function put(   k, t, out, map, cnt, w, nxt, prev) {
    t = text; gsub(/"[^"]*"/, "S", t); split("", map)
    while (match(t, /[A-Za-z_][A-Za-z0-9_]*|[0-9][0-9A-Za-z_]*|[^ \t]/)) {
      w = substr(t, RSTART, RLENGTH); t = substr(t, RSTART + RLENGTH); nxt = substr(t, 1, 1)
      if (w ~ /^[0-9]/ || w ~ /^[A-Z][A-Z0-9_]+$/) w = "N"
      else if (w ~ /^(u8|u16|u32|u64|usize)$/) w = "T"
      else if (w == name) w = "F"
      else if (w ~ /^[a-z_]/ && w !~ /^(let|mut|if|else|while|match|return|fn|pub|crate|for|in|as|self|true|false|impl)$/) {
        if (nxt == "(" || substr(t, 1, 2) == "::" || prev == ".") { gsub(/[0-9]+/, "#", w); if (loose && prev != ".") w = "G" }
        else { if (!(w in map)) map[w] = "v" (++cnt); w = map[w] } }
      out = out w " "; prev = w }
    if (split(out, k, " ") >= least) { many[out]++; where[out] = where[out] " " place } }
  FNR == 1 { on = 0 }
  !on && /^ *(pub(\([a-z]+\))? )?fn / { on = 1; text = ""; skip = 0; match($0, /^ */); indent = RLENGTH
    f = FILENAME; sub(/^crates\//, "", f); sub(/\/src\//, "/", f)
    s = $0; sub(/.*fn /, "", s); sub(/[^a-z0-9_].*/, "", s); name = s; place = f ":" FNR ":" name }
  on { l = $0; sub(/\/\/.*/, "", l)
    if (l ~ /^ *(requires|ensures)/) skip = 1
    if (skip && l ~ /^ *\{$/) skip = 0
    if (!skip) text = text " " l
    match($0, /^ */); if (RLENGTH == indent && $0 ~ /^ *\}/ || $0 ~ /^ *(pub )?fn .*\}$/) { on = 0; put() } }
  END { for (k in many) if (many[k] > 1) print substr(where[k], 2) }' "${files[@]}"; }

case ${1:?a point, 1 to 8} in
1)
  types enum '^ *(Refused|Done|Good|Nothing|Nowhere)[(,]' >"$room/part"; part 'own enums of the shape of Option or Result'
  types struct '^ *(pub(\([a-z]+\))? )?(answer|verdict|handed|turned|failed|begun|goes_on): ' >"$room/part"
  part 'structs with an answer or a flag beside values'
  grep -E -- '-> bool$' "$room/signatures" | grep '&mut' | short >"$room/part" || true; part 'a bool that tells whether memory was changed'
  grep -E 'fn [a-z_]*(number|answer|_state|turn_)[a-z_]*\(.*-> u(8|16|64)$' "$room/signatures" | grep -vE 'fn (wide|digest)_number' | short >"$room/part" || true
  part 'numbers for answers'
  grep -nE '^ *(pub(\([a-z]+\))? )?const [A-Z_0-9]+: u8' "${files[@]}" | short >"$room/part" || true; part 'numbers for kinds'
  ;;
2)
  { twins 25 0; twins 40 1; } | tr ' ' '\n' | sort -u >"$room/twins"; { twins 25 0; twins 40 1; } | sort -u | sed 's/^/  # /'
  cp "$room/twins" "$room/part"; part "functions alike but for types, sizes, constants and names"
  sed -E 's|^crates/||; s|/src/|/|; s/^([^:]*:[0-9]+): .*fn ([a-z0-9_]+).*/\1 \2/' "$room/signatures" | awk '
    { n = $2; if (n ~ /[0-9]/) { gsub(/[0-9]+/, "#", n); split($1, p, "/"); k = p[1] " " n; c[k]++; l[k] = l[k] $1 ":" $2 "\n" } }
    END { for (k in c) if (c[k] > 1) printf "%s", l[k] }' | sort -u | { grep -vxFf "$room/twins" || true; } >"$room/part"
  part 'further functions whose names differ in a number'
  cat "$room/part" >>"$room/twins"
  sed -E 's|^crates/||; s|/src/|/|; s/^([^:]*:[0-9]+): .*fn ([a-z0-9_]+).*/\1 \2/' "$room/signatures" | awk '
    $2 !~ /^(new|main|fmt)$/ { f = $1; sub(/:.*/, "", f); if (!((f, $2) in seen)) { seen[f, $2] = 1; c[$2]++ }; l[$2] = l[$2] $1 ":" $2 "\n" }
    END { for (k in c) if (c[k] > 1) printf "%s", l[k] }' | sort -u | { grep -vxFf "$room/twins" || true; } >"$room/part"
  part 'further functions of one name in several files'
  awk '/^ *(pub(\([a-z]+\))? )?(struct|enum) .*\{$/ { on = 1; body = ""; line = FNR; head = $0; sub(/^ */, "", head); sub(/ *\{.*/, "", head); next }
    on && /^\}/ { on = 0; many[body]++; l[body] = l[body] FILENAME ":" line ": " head "\n" }
    on { t = $0; sub(/\/\/.*/, "", t); gsub(/ |pub(\([a-z]+\))?/, "", t); gsub(/u(8|16|32|64|size)/, "T", t); gsub(/^[A-Z][a-z]+\(T\)/, "Value(T)", t); body = body t }
    END { for (k in many) if (many[k] > 1) printf "%s", l[k] }' "${files[@]}" | short | sort >"$room/part"; part 'types of one shape'
  ;;
3) grep -nE '^ *(while|loop) ' "${files[@]}" | short >"$room/part" || true; part 'loops that count or test by hand' ;;
4)
  grep -E 'fn (wide|wide_byte|wide_number|low_byte|byte_of|byte_at|word|four_bytes|pack_four|copy|is_same|least|minus_or_zero|rotate|sum|sum_of|hex_digit|power|within[0-9]*|fill[0-9]*|clear[0-9]*|are_all[0-9]*|read[0-9]*|write[0-9]*|read_big|put_big)\(' \
    "$room/signatures" | short >"$room/part" || true; part 'own copies of what std does for numbers and slices'
  grep -E 'fn (text|decimal|two_digits|hex[0-9]*|hex_[a-z]+|word|labelled|line_end|field|bytes|numbers|print_[a-z]+|put_(decimal|hex|number|value|text|counts|range|bytes)[a-z_]*)\(' "$room/signatures" |
    grep -E 'Print|out: &mut' | short >"$room/part" || true; part 'printing by hand'
  grep -nE '\bas (u8|u16|u32|u64|usize)\b' "${files[@]}" | short >"$room/part" || true; part 'lines that convert by `as`'
  ;;
5)
  grep -E '\bn: (u32|usize), m: (u32|usize), s: (u32|usize)' "$room/signatures" | short >"$room/part" || true; part 'n, m and s passed together'
  grep -E 'store: &(mut )?\[u8\]' "$room/signatures" | grep -E 'marks: &' | grep -vE '\bn: (u32|usize), m: (u32|usize), s: (u32|usize)' | short >"$room/part" || true
  part 'store and marks passed together, without n, m and s'
  awk '/^ *requires/ { t = $0; sub(/^ *requires ([a-z_]+ )?/, "", t); c[t]++; l[t] = l[t] FILENAME ":" FNR ": " t "\n" }
    END { for (k in c) if (c[k] > 2) printf "%s", l[k] }' "${files[@]}" | short >"$room/part"; part 'a fact that three requires ask'
  ;;
6)
  grep -E '(out|content): &mut \[[a-z0-9]+\], ([a-z]+: &mut \[[a-z0-9]+\], )*(at|k|to): usize' "$room/signatures" | short >"$room/part" || true; part 'a buffer with a place in it beside'
  types struct '^ *(pub(\([a-z]+\))? )?([a-z_]*length|bytes|numbers|store|marks|file|kept|held): (u8|usize)' >"$room/part"; part 'lengths beside buffers that lie elsewhere'
  grep -E 'fn (find_in|occurs|comes_again|look_up|find_[a-z]+)\(' "$room/signatures" | short >"$room/part" || true; part 'lists searched by hand'
  ;;
7)
  grep -nE 'match (frame\.)?opcode|opcode ==' "${files[@]}" | short >"$room/part" || true; part 'switches on which step to run'
  awk 'function done_run() { if (n >= 3) print f ":" start ": " n " calls of " last; n = 0 }
    FNR == 1 { done_run(); last = "" }
    { l = $0; sub(/^ +/, "", l)
      if (match(l, /^(let [a-z0-9_]+ = )?[a-z_][a-z0-9_:]*\(/)) {
        w = substr(l, RSTART, RLENGTH); sub(/^let [a-z0-9_]+ = /, "", w)
        if (w == last) n++; else { done_run(); n = 1; start = FNR; f = FILENAME; last = w } }
      else if (l !~ /^([a-z0-9_&*]+,?|\)|\)\?;|.*,)$/) { done_run(); last = "" } }
    END { done_run() }' "${files[@]}" | grep -v 'calls of pub' | short >"$room/part"; part 'three or more like calls in a row'
  ;;
8)
  for crate in $(git ls-files 'crates/*/src/*.rt' | cut -d/ -f2 | sort -u); do
    mapfile -t proofs < <(git ls-files "crates/$crate/proofs/*.antt")
    [ "${#proofs[@]}" -gt 0 ] || continue
    printf '%s: %s files (%s Answers, %s Invariants), %s answers, %s of them `search rules`\n' "$crate" "${#proofs[@]}" \
      "$(printf '%s\n' "${proofs[@]}" | grep -c '/Answers.antt$' || true)" "$(printf '%s\n' "${proofs[@]}" | grep -c '/Invariants.antt$' || true)" \
      "$(cat "${proofs[@]}" | grep -cE '^pub [^ ]+ : goal\.' || true)" "$(cat "${proofs[@]}" | grep -cE '^[^ ]+( g)? c = (search rules|search)$' || true)"
  done >"$room/part"; sed 's/^/  /' "$room/part"
  git ls-files 'crates/*/proofs/*.antt' >"$room/all"; cat "$room/all" | wc -l
  exit
  ;;
esac
printf 'point %s: %s places\n' "$1" "$(wc -l <"$room/all")"
