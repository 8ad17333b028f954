# What a pair of a flat BLIF file depends on, as lines `input NAME`, `flip-flop NAME` and `gates COUNT`, nearest first: of the output NAME of the environment, or
# where `is_next` is set of what the flip-flop NAME will hold next. It ends at the flip-flops of EXPOSED, names parted by blanks.
{
  sub(/\r$/, "")
  if (sub(/\\$/, "")) { line = line $0 " "; next }
  $0 = line $0
  line = ""
}
$1 == ".names" { count[$NF] = NF - 2; for (at = 2; at < NF; at++) from[$NF, at - 1] = $at; is_gate[$NF] = 1 }
$1 == ".latch" { data[$3] = $2 }
$1 == ".end" { exit }
function take(name) {
  if (!(name in seen)) { seen[name] = 1; queue[++last] = name }
}
END {
  name = ENVIRON["NAME"]
  split(ENVIRON["EXPOSED"], names, " ")
  for (at in names) is_exposed[names[at]] = 1
  take(is_next ? data[name] : name)
  for (first = 1; first <= last; first++) {
    it = queue[first]
    if (it in data) {
      print "flip-flop " it
      if (!(it in is_exposed)) take(data[it])
    } else if (it in is_gate) {
      gates++
      for (at = 1; at <= count[it]; at++) take(from[it, at])
    } else if (it != "") print "input " it
  }
  print "gates " gates + 0
}
