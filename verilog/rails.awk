# One circuit of two files in flat BLIF, whose output `differs:NAME` is 1 where both outputs NAME are known, and not the same.
#
# Each signal NAME of a file is two of this circuit: `A1:NAME` is 1 where it is known to be 1, and `A0:NAME` where it is known to be 0; B for the
# second file. Flip-flops aren't known at first, and a gate is known as far as its rows tell. The inputs are those of the file `columns`; in
# the first `held` cycles they have what the file `resets` says, or else 0.
FILENAME == resets { level[$1] = $2; next }
FILENAME == columns { inputs[++input_count] = $1; next }
FNR == 1 { side = FILENAME == old ? "A" : "B" }
{
  sub(/\r$/, "")
  if (sub(/\\$/, "")) { line = line $0 " "; next }
  $0 = line $0
  line = ""
}
NF == 0 { next }
$1 == ".names" || $1 ~ /^\./ { gate() }
$1 == ".outputs" { for (at = 2; at <= NF; at++) output[side, ++output_count[side]] = $at }
$1 == ".latch" { printf ".latch %s1:%s %s1:%s 0\n.latch %s0:%s %s0:%s 0\n", side, $2, side, $3, side, $2, side, $3 > body }
$1 == ".names" { name = $NF; count = NF - 2; for (at = 1; at <= count; at++) from[at] = $(at + 1); rows = 0; is_gate = 1 }
$1 == ".end" { nextfile }
$1 !~ /^\./ && is_gate { row[++rows] = NF == 2 ? $1 : ""; bit = $NF }

# Writes the gate that was read: where a row holds for what is known, and where none can any more.
function gate(  at, it, ones, zeros, names, known) {
  if (!is_gate) return
  is_gate = 0
  known = rows && bit == "0" ? "01" : "10"
  names = ""
  for (at = 1; at <= count; at++) names = names " " side "1:" from[at] " " side "0:" from[at]
  print ".names" names " " side substr(known, 1, 1) ":" name > body
  for (it = 1; it <= rows; it++) {
    ones = ""
    for (at = 1; at <= count; at++) ones = ones (substr(row[it], at, 1) == "1" ? "1-" : substr(row[it], at, 1) == "0" ? "-1" : "--")
    print (count ? ones " " : "") "1" > body
  }
  if (!rows || !count) {
    print ".names " side substr(known, 2, 1) ":" name (rows ? "" : "\n1") > body
    return
  }
  print ".names" names " " side substr(known, 2, 1) ":" name > body
  for (it = 1; it <= rows; it++) {
    zeros = ""
    for (at = 1; at <= count; at++) zeros = zeros (substr(row[it], at, 1) == "1" ? "-0" : substr(row[it], at, 1) == "0" ? "0-" : "--")
    print zeros " 0" > body
  }
}

END {
  gate()
  for (at = 1; at <= output_count["B"]; at++) is_there[output["B", at]] = 1
  printf ".model rails\n.inputs" > head
  for (at = 1; at <= input_count; at++) printf " %s", inputs[at] > head
  printf "\n.outputs" > head
  for (at = 1; at <= output_count["A"]; at++) {
    name = output["A", at]
    if (!(name in is_there)) continue
    printf " differs:%s", name > head
    printf ".names A1:%s A0:%s B1:%s B0:%s differs:%s\n1--1 1\n-11- 1\n", name, name, name, name, name > body
    printf ".names differs:%s\n", name > none
  }
  print "" > head
  for (at = 1; at <= held; at++) printf ".latch held:%d held:%d 1\n", at - 1, at > body
  print ".names held:0" > body
  for (at = 1; at <= input_count; at++) {
    name = inputs[at]
    printf ".names held:%d %s A1:%s\n%s", held, name, name, level[name] ? "1- 1\n-1 1\n" : "01 1\n" > body
    printf ".names A1:%s A0:%s\n0 1\n.names A1:%s B1:%s\n1 1\n.names A1:%s B0:%s\n0 1\n", name, name, name, name, name, name > body
  }
}
