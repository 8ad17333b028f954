# shellcheck shell=bash
# Read by the tests of scripts that prove and build: a repository of four crates and a kit that proves nothing, in the folder $folder.
# The kit's prover takes a second for a crate, and does what files beside crates.txt say: `broken` and `killed` name a crate, `line` holds
# another verdict line, and `compiled` one of what is compiled, and `same` what its library holds; where there is kit/old, it compiles nothing that was checked before.
: "${top:?}" "${folder:?}"
mkdir -p "$folder/repo/crates" "$folder/bin" "$folder/kit/bin"
cp "$top/sec" "$top/prove" "$folder/repo/"
for name in low middle beside sec_cli; do
  mkdir -p "$folder/repo/crates/$name/src"
  echo "// $name" > "$folder/repo/crates/$name/src/main.rt"
done
cat > "$folder/repo/crates.txt" <<'END'
# a comment: low
sec_cli: middle low clap
low:
beside: low
middle: low indexmap
END
cat > "$folder/bin/rt" <<END
#!/usr/bin/env bash
echo "\$*" >> '$folder/repo/asked'
case \$1 in
  version) echo 'kit 7 logic abc' ;;
  doc) echo '$folder/kit/START' ;;
  *) exit 2 ;;
esac
END
cat > "$folder/kit/bin/rattle" <<'END'
#!/usr/bin/env bash
top=../..
if [ "$*" = 'build --help' ]; then
  echo '--backend --statements'
  [ -f "${0%/*}/../old" ] || echo '--crate-checked'
  exit 0
fi
checked='' to='' name=''
while [ $# -gt 0 ]; do
  case $1 in
    --crate-name) name=$2 ;;
    --crate-checked) checked=' crate-checked=trusted' ;;
    -o) to=$2 ;;
  esac
  shift
done
line='logic=proved functions=1 sum=abc native=nat,char,string logic-built=trusted libraries-built=trusted statements=trusted'
if [ -n "$checked" ]; then
  echo object > "$to"
  [ -f "$top/compiled" ] && line=$(cat "$top/compiled")
else
  sleep 1
  if [ "$(cat "$top/broken" 2>/dev/null)" = "$name" ]; then echo 'a proof is missing'; exit 1; fi
  if [ "$(cat "$top/killed" 2>/dev/null)" = "$name" ]; then rm "$top/killed"; kill -KILL $$; fi
  [ -f "$top/line" ] && line=$(cat "$top/line")
  case $to in
    *.o) echo object > "$to" ;;
    *) mkdir "$to" && if [ -f "$top/same" ]; then cp "$top/same" "$to/format"; else date +%s%N > "$to/format"; fi ;;
  esac
  echo "proved $name" >> "$top/proved"
fi
echo "$line$checked"
END
cat > "$folder/kit/bin/rattle-link" <<'END'
#!/usr/bin/env bash
while [ "$1" != -o ]; do shift; done
cat > "$2" <<'PROGRAM'
#!/bin/sh
if [ $# -lt 2 ]; then echo "words refused"; exit 5; fi
if [ "$2" = long ]; then exec sleep 60; fi
if [ "$1" = graph ]; then exit 0; fi
echo "ran $*"; exit 3
PROGRAM
chmod +x "$2"
END
chmod +x "$folder/bin/rt" "$folder/kit/bin/rattle" "$folder/kit/bin/rattle-link"
export PATH=$folder/bin:$PATH
