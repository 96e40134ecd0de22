# What the script `hydroplan`, bin/prove and bin/run-unproved share: which program runs, by the stamp of the one that was built here and the
# sum of the one in bin. Whoever reads this has the top of the repository in `top`.
bin="$top/bin"
crate="$top/crates/hydroplan"
kept="$bin/hydroplan-x86_64-linux"

say() { printf 'hydroplan: %s\n' "$*" >&2 || true; }

give_up() {
    say "$*"
    exit 1
}

# Prints the digest of the sources at hand, or nothing where it cannot be told.
sources() { "$bin/crates-digest" 2> /dev/null || true; }

# Prints the SHA-256 of a file, or nothing where it cannot be told.
sum_of() { sha256sum < "$1" 2> /dev/null | cut -d ' ' -f 1 || true; }

# Prints what stands behind a word at the beginning of a line of a file.
entry() { sed -n "s/^$1 //p" "$2"; }

# Whether a program is there with a stamp beside it that names it and the sources at hand.
is_of_these_sources() {
    [ -x "$1" ] && [ -f "$1.sources" ] || return 1
    local now
    now=$(sources)
    [ -n "$now" ] && [ "$(cat "$1.sources")" = "$now $(sum_of "$1")" ]
}

# Stamps a program with the digest that the sources had before it was built; fails where they changed meanwhile.
stamp() {
    [ "$(sources)" = "$2" ] || return 1
    printf '%s %s\n' "$2" "$(sum_of "$1")" > "$1.sources"
}

# Ends with a line where the program in bin is not the one that was put there, or is not for this machine.
check_kept() {
    [ -x "$kept" ] || give_up "the program $kept is not there"
    local wanted found
    read -r wanted _ < "$bin/SHA256SUMS"
    found=$(sha256sum < "$kept" 2> /dev/null) || found=
    found=${found%% *}
    [ -z "$found" ] || [ "$found" = "$wanted" ] || give_up "the program in bin is not the one that bin/SHA256SUMS names, and was not run"
    [ "$HOSTTYPE $OSTYPE" = "x86_64 linux-gnu" ] || [ "$(uname -sm)" = "Linux x86_64" ] ||
        give_up "the program in bin is for Linux on x86-64, and this is $(uname -sm)"
}

# Says, on a terminal, that the program in bin was built of other crates.
tell_of_other_crates() {
    [ -t 2 ] || return 0
    local now
    now=$(sources)
    [ -z "$now" ] || [ "$now" = "$(entry crates "$bin/CRATES")" ] ||
        say "the crates here are not those of the program in bin, which runs: ./hydroplan prove builds the one of these"
}

# Puts into `program` the program that is to run.
choose_program() {
    program="$crate/out/hydroplan"
    if is_of_these_sources "$program"; then return; fi
    program=$kept
    check_kept
    tell_of_other_crates
}

need_rt() { command -v rt > /dev/null || give_up "rt is not on the PATH: it comes with the Rattle kit, which README.md names"; }
