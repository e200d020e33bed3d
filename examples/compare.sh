#!/usr/bin/env bash
# Runs FILE by the C example NAME and by ./savrunte --tsv, and compares their records: examples/compare.sh NAME FILE [WORD], where WORD comes before FILE on the program's command line.
# Of each record those fields are compared that the header lines of the C example name; a kind that it does not name is left out (format, file and status, which are the program's own).
set -eu
name=$1
file=$(realpath "$2")
cd "$(dirname "$0")/.."
tools/twice || exit 2
mkdir -p target/examples
to=target/examples/$name
examples/run.sh "$name" "$file" >"$to.c.tsv"
./savrunte --tsv ${3:+"$3"} "$file" >"$to.program.tsv"
grep -v '^#' "$to.c.tsv" >"$to.c.txt"
# the program's records with the fields of the example's headers, found by the names in the program's headers
awk -F '\t' '
    /^#/ && NR == FNR { kind = substr($1, 2); fields[kind] = NF; for (i = 2; i <= NF; i++) field[kind, i] = $i }
    NR == FNR { next }
    /^#/ { kind = substr($1, 2); for (i = 2; i <= NF; i++) place[kind, $i] = i; next }
    $1 in fields {
        line = $1
        for (i = 2; i <= fields[$1]; i++) line = line "\t" (($1, field[$1, i]) in place ? $place[$1, field[$1, i]] : "no field " field[$1, i])
        print line
    }
' "$to.c.tsv" "$to.program.tsv" >"$to.program.txt"
diff "$to.c.txt" "$to.program.txt"
echo "C and the program agree on all $(wc -l <"$to.c.txt") records"
