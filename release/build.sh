# shellcheck shell=sh
# How `./lolli` and `./prove` build the program of the sources of `$root`: it is proved by `rt` and build.py.

# Stops where there is no prover, or the checkout can't be written. A kit of another version may do as well.
look_for_prover() {
    [ -w "$root/crates/lolli" ] || fail "$root can't be written, so nothing can be built in it; copy it to a folder of yours"
    wanted=$(sed -n 's/.*`\(rattle-kit[^`]* logic [^`]*\)`.*/\1/p' "$root/README.md" | head -n 1)
    command -v rt >/dev/null || fail "there is no command rt here; the program is proved and built with $wanted"
    for command in python3 flock; do
        command -v "$command" >/dev/null || fail "there is no command $command here, which a build takes"
    done
    kit=$(rt version) || fail 'rt version fails, so the toolchain can'\''t be used'
    grep -qF "\`$kit\`" "$root/README.md" || say "rt is of $kit, which is none of the versions that README.md names; going on"
}

# One build at a time in a checkout.
lock_builds() {
    exec 9<"$root/crates"
    flock -n 9 || {
        say 'another call is building the program; waiting for it'
        flock 9
    }
}

unlock_builds() { exec 9<&-; }

# Copies the sources to a room, so that edits beside a build don't matter. Files and folders keep their places.
copy_sources() (
    cd "$root" || exit
    # Each folder is a word.
    # shellcheck disable=SC2046
    cp -RL --parents -- crates.txt $(source_folders) "$1"
)

# Proves the crates and puts the program beside the sum of what it was built of. An interrupt ends the provers too.
build() {
    room=$(mktemp -d) || fail 'there is no folder for a build; is TMPDIR well?'
    trap 'rm -rf "$room"' EXIT
    copy_sources "$room" || fail 'the sources can'\''t be copied to a folder for the build'
    built_of=$(cd "$room" && sum_of_tree)
    python3 -B "$root/build.py" "$room" "$root/$out/kept" &
    builder=$!
    trap 'kill "$builder" 2>/dev/null; wait "$builder"; say "interrupted; what was proved is kept, and the next build goes on from there"; exit 130' INT TERM HUP
    wait "$builder" || fail 'the program is not built'
    trap - INT TERM HUP
    keep_program || fail "$root/$out can't be written, so the program can't be kept"
    rm -rf "$room"
    trap - EXIT
}

# The text SOURCES comes last, so that no half of it is taken for the whole.
keep_program() (
    mkdir -p "$root/$out" && cd "$root/$out" && rm -f SOURCES &&
        cp "$room/lolli" lolli.new && mv lolli.new lolli &&
        write_sources "$(sum_of_file lolli)" "$kit" "$built_of" >SOURCES.new && mv SOURCES.new SOURCES
)
