# What the bench scripts share: a folder to work in, a program that does nothing, models, and the time of a run. Sets root, work and runs;
# RUNS in the environment is the number of runs of each program, else 500.
root=$(cd "$(dirname "$0")/.." && pwd)
work=$(mktemp -d)
trap 'rm -rf "$work"' EXIT
runs=${RUNS:-500}
printf 'int main(void) { return 0; }\n' > "$work/nothing.c"
cc -O3 -o "$work/nothing" "$work/nothing.c"

# the milliseconds of one run of a program in the current folder
each() {
    before=$(date +%s%N)
    i=0
    while [ "$i" -lt "$runs" ]; do
        "$@" > /dev/null
        i=$((i + 1))
    done
    after=$(date +%s%N)
    awk -v ns=$((after - before)) -v runs="$runs" 'BEGIN { printf "%.3f", ns / runs / 1e6 }'
}

# a packed model of n states without propositions: in a ring state s has a step to s + 1, the last to 0; in a dense model every state has a step to every state
model() {
    awk -v kind="$1" -v n="$2" 'BEGIN {
        bits = ""
        for (i = 7; i >= 0; i--) bits = bits (int((n - 1) / 2 ^ i) % 2)
        bits = bits "0000000000000"
        for (s = 0; s < n; s++) for (t = 0; t < n; t++) bits = bits (kind == "dense" || (s + 1) % n == t ? "1" : "0")
        while (length(bits) % 8) bits = bits "0"
        for (i = 1; i <= length(bits); i += 8) {
            byte = 0
            for (j = 0; j < 8; j++) byte = 2 * byte + substr(bits, i + j, 1)
            printf "\\%03o", byte
        }
    }'
}

# compare PROGRAM SOURCE N FILE ARGS..: times crates/PROGRAM/out/PROGRAM with ARGS beside the C program SOURCE, on a ring and a dense model of N states in FILE.
# A line of the table has our time, the plain program's, the one's that does nothing, the ratio, and the ratio less what doing nothing takes.
compare() {
    ours=$root/crates/$1/out/$1
    [ -x "$ours" ] || { echo "build it first: in crates/$1, rt run" >&2; exit 2; }
    cc -O3 -o "$work/plain" "$root/bench/$2"
    states=$3
    file=$4
    shift 4
    printf '%-8s %12s %12s %12s %8s %8s\n' model ours plain nothing ratio net
    for kind in ring dense; do
        mkdir "$work/$kind"
        cd "$work/$kind"
        printf "$(model "$kind" "$states")" > "$file"
        [ "$("$ours" "$@")" = "$("$work/plain" "$@")" ] || { echo "they differ on $kind" >&2; exit 1; }
        awk -v m="$kind" -v a="$(each "$ours" "$@")" -v b="$(each "$work/plain" "$@")" -v c="$(each "$work/nothing")" 'BEGIN { printf "%-8s %9s ms %9s ms %9s ms %8.2f %8.2f\n", m, a, b, c, a / b, (a - c) / (b - c) }'
    done
}
