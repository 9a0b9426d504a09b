# What the benchmarks share. A script that reads this file has set `top`, the top of the repository.

# A folder under /tmp, which goes when the script ends.
work=$(mktemp -d /tmp/moundurn-bench.XXXXXX)
trap 'rm -rf "$work"' EXIT

# all_below CRATE..: these crates and all crates of the repository that they stand on.
all_below() {
    found=" $* "
    more=1
    while [ -n "$more" ]; do
        more=
        for crate in $found; do
            for below in $(sed -n "s/^$crate://p" "$top/crates.txt"); do
                case "$found" in *" $below "*) continue ;; esac
                if [ -d "$top/crates/$below" ]; then found="$found$below "; more=1; fi
            done
        done
    done
    echo $found
}

# workspace_of PROGRAM SOURCE CRATE..: a workspace in that folder, of these crates as the repository has them and of a
# program over them with this source.
workspace_of() {
    program=$1
    source=$2
    shift 2
    for crate; do
        mkdir -p "$work/crates/$crate"
        for part in src specs proofs; do
            if [ -d "$top/crates/$crate/$part" ]; then cp -r "$top/crates/$crate/$part" "$work/crates/$crate/"; fi
        done
        grep "^$crate:" "$top/crates.txt" >>"$work/crates.txt"
    done
    mkdir -p "$work/crates/$program/src"
    cp "$source" "$work/crates/$program/src/main.rt"
    echo "$program: $*" >>"$work/crates.txt"
    cp "$top/HANDLES" "$work/HANDLES"
}

# run_program: proves, builds and runs that program. Where one of these fails, it shows what was said and ends the script.
run_program() {
    (cd "$work/crates/$program" && rt run --jobs 1) 2>"$work/log" || { cat "$work/log" >&2; exit 1; }
}
