# Reads crates.txt, for the scripts `build` and `vendor`, which set `root` to the top of the repository and source this file.

# Prints the line of a crate; nothing if there is none.
line_of() { sed -n "/^$1\( staticlib\)\?:/p" "$root/crates.txt"; }

# Prints the crates that a crate uses.
used_by() {
    local line
    line=$(line_of "$1")
    printf '%s\n' "${line#*:}"
}

# Tests whether a crate is one of this repository.
is_ours() { [ -d "$root/crates/$1" ]; }

# Adds a crate to the array `needed`, after the crates of this repository that it uses.
add_needed() {
    local lower
    case " ${needed[*]-} " in *" $1 "*) return ;; esac
    for lower in $(used_by "$1"); do
        if is_ours "$lower"; then add_needed "$lower"; fi
    done
    needed+=("$1")
}
