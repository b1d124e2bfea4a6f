# Read by the measurements of crates: each builds its program in a folder outside the repository, and changes nothing here.
# Before it reads this, the caller sets `here` to its own folder.

top=$(cd "$(dirname "${BASH_SOURCE[0]}")/.." && pwd)

# Prints these crates and those of the repository that they need, in the order of crates.txt, in which each stands below
# those that it needs.
with_needed() {
    tac "$top/crates.txt" | awk -v wanted="$*" '
        BEGIN { split(wanted, names, " "); for (at in names) is_needed[names[at]] = 1 }
        /^[a-z]/ {
            name = $1
            sub(":", "", name)
            if (!(name in is_needed)) next
            sub(/^[^:]*:/, "")
            for (at = 1; at <= NF; at++) is_needed[$at] = 1
            print name
        }' | tac
}

# Begins crates.txt in the folder with these crates, and copies their sources, without their tests of edits.
copy_crates() {
    local scratch=$1 crate part
    shift
    : >"$scratch/crates.txt"
    for crate in "$@"; do
        mkdir -p "$scratch/crates/$crate"
        for part in src specs proofs; do
            rm -rf "$scratch/crates/$crate/$part"
            if [ -d "$top/crates/$crate/$part" ]; then cp -r "$top/crates/$crate/$part" "$scratch/crates/$crate/$part"; fi
        done
        grep "^$crate[: ]" "$top/crates.txt" >>"$scratch/crates.txt"
    done
    [ -d "$scratch/.git" ] || git init -q "$scratch"
}

# Builds and proves a crate of the folder, and runs it once with these arguments. What was said is printed if that fails.
build() {
    local scratch=$1 crate=$2
    shift 2
    (cd "$scratch/crates/$crate" && rt run -- "$@" >"$scratch/build.log" 2>&1) || {
        tail -20 "$scratch/build.log"
        exit 1
    }
}

# What a table has to say of the machine.
print_machine() {
    echo "processors: $(nproc), $(sed -n 's/^model name[^:]*: //p' /proc/cpuinfo | head -1)"
}
