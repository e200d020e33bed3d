# A scratch repository for a crate of its own over some of ours; read in by functions/run.sh, solve/run.sh and judge/run.sh.

# Copies the crates named, and all that they stand on, with their lines of crates.txt.
scratch() { # TOP WORK CRATE..
    from=$1 to=$2
    shift 2
    mkdir -p "$to/crates"
    awk -v wanted="$*" '
        /^#/ || NF == 0 { next }
        { name = $1; sub(/:$/, "", name); line[name] = $0; order[++n] = name }
        END {
            split(wanted, first, " ")
            for (i in first) need[first[i]]
            do {
                more = 0
                for (i = 1; i <= n; i++) if (order[i] in need) {
                    count = split(line[order[i]], words, " ")
                    for (k = 2; k <= count; k++) if (!(words[k] in need)) { need[words[k]]; more = 1 }
                }
            } while (more)
            for (i = 1; i <= n; i++) if (order[i] in need) print line[order[i]]
        }' "$from/crates.txt" >"$to/crates.txt"
    sed 's/[: ].*//' "$to/crates.txt" | while read -r crate; do
        rm -rf "$to/crates/$crate"
        cp -r "$from/crates/$crate" "$to/crates/$crate"
        rm -rf "$to/crates/$crate/must-fail"
    done
}
