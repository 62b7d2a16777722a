#!/bin/sh
# The seconds that each crate's proof, its tests and its must-fail edits take, one crate after another from the lowest on; then their sum, and the
# longest chain of proofs, below which no number of processors brings the gate. A check begins with what any check on this machine kept, so the
# seconds are those of a gate only where nothing is kept. Usage: scripts/gate_times.sh [CRATE..]
top=$(CDPATH= cd -- "$(dirname -- "$0")/.." && pwd) || exit 2
cd "$top" || exit 2
command -v rt >/dev/null || { echo "$0: the kit's command rt is not on the PATH" >&2; exit 2; }
table=$(mktemp) || exit 2
trap 'rm -f "$table"' EXIT

# the crates, each behind those that it names
in_order() {
    sed 's/#.*//' crates.txt | awk -F: 'NF == 2 {
        own[$1] = 1; n = split($2, names, " "); print $1, $1
        for (i = 1; i <= n; i++) print names[i], $1
    }' | tsort | while read -r name; do [ -d "crates/$name" ] && echo "$name"; done
}

# the seconds of a command in a crate's folder, and - where it fails
seconds() {
    begun=$(date +%s)
    if (cd "$1" && shift && "$@") >/dev/null 2>&1; then echo $(($(date +%s) - begun)); else echo -; fi
}

[ $# -gt 0 ] || set -- $(in_order)
printf '%-20s %8s %8s %8s\n' crate proof tests edits
for name in "$@"; do
    proof=$(seconds "crates/$name" rt check)
    tests=0
    if grep -rq '#\[test\]' "crates/$name/src"; then tests=$(seconds "crates/$name" rt test); fi
    edits=0
    if [ -d "crates/$name/must-fail" ]; then edits=$(seconds . rt must-fail "$name"); fi
    printf '%-20s %8s %8s %8s\n' "$name" "$proof" "$tests" "$edits"
    echo "$name $proof $tests $edits" >>"$table"
done
sed 's/#.*//; s/:/ /' crates.txt | awk -v table="$table" '
    { for (i = 2; i <= NF; i++) needs[$1] = needs[$1] " " $i }
    function chain(name,    parts, n, i, most) {
        if (name in chains) return chains[name]
        n = split(needs[name], parts, " ")
        for (i = 1; i <= n; i++) if (parts[i] in proof && chain(parts[i]) > most) most = chain(parts[i])
        return chains[name] = most + proof[name]
    }
    END {
        while ((getline line < table) > 0) { split(line, f, " "); proof[f[1]] = f[2]; sum += f[2] + f[3] + f[4] }
        for (name in proof) if (chain(name) > longest) { longest = chain(name); last = name }
        printf "sum %d, longest chain of proofs %d (up to %s)\n", sum, longest, last
    }'
