# shellcheck shell=sh
# Which program is that of the sources: for `./lolli`, `./prove`, `./install` and `.ci/release`. The functions are called in the checkout's folder,
# and take nothing but sh and coreutils.

released=release/lolli-x86_64-linux
out=crates/lolli/out
end_of_line='
'

say() { echo "lolli: $*" >&2; }

fail() {
    say "$@"
    exit 125
}

is_sum() {
    case $1 in *[!0-9a-f]*) return 1 ;; esac
    [ ${#1} -eq 64 ]
}

# Reads a text SOURCES: a line `program SUM`, a line `kit VERSION` for each kit that gives this program, and a line `sources SUM`. Status 1: it
# has another form, or is cut short.
read_sources() {
    program_sum='' kits='' sources_sum='' word=''
    while read -r word rest; do
        case $word:$program_sum:$kits:$sources_sum in
        program:::) program_sum=$rest ;;
        kit:?*:*:) kits=$kits$rest$end_of_line ;;
        sources:?*:?*:) sources_sum=$rest ;;
        *) return 1 ;;
        esac
    done <"$1"
    [ -z "$word" ] && is_sum "$program_sum" && is_sum "$sources_sum"
}

# write_sources PROGRAM_SUM KITS SOURCES_SUM: writes such a text. Each kit is a line.
write_sources() {
    echo "program $1"
    echo "$2" | while read -r kit; do echo "kit $kit"; done
    echo "sources $3"
}

# The crates that the program stands on by crates.txt, with itself and those of the kit.
needed() {
    lines=$(tac crates.txt)
    found=' lolli ' before=''
    while [ "$before" != "$found" ]; do
        before=$found
        while IFS=: read -r name below; do
            case $found in *" ${name%% *} "*) ;; *) continue ;; esac
            for crate in $below; do
                case $found in *" $crate "*) ;; *) found="$found$crate " ;; esac
            done
        done <<END
$lines
END
    done
    echo "$found"
}

# The folders of their sources.
source_folders() {
    for crate in $(needed); do
        for part in src specs proofs; do
            [ ! -d "crates/$crate/$part" ] || echo "crates/$crate/$part"
        done
    done
}

# What the program is made of: crates.txt, and all files and folders in these folders, a line for each. Hidden ones, as editors leave them, are not
# among them.
list_sources() {
    # Each folder is a word.
    # shellcheck disable=SC2086
    du -alL --exclude='.*' -- crates.txt $1 2>/dev/null | cut -f 2- | LC_ALL=C sort
}

# The lines of a text that name files.
only_files() (
    IFS=$end_of_line
    set -f
    for name in $1; do [ -d "$name" ] || echo "$name"; done
)

# The sum over the names and the texts of the files that the lines name.
sum_of() (
    IFS=$end_of_line
    set -f
    # Each line is a word.
    # shellcheck disable=SC2086
    sum=$(sha256sum -- $1 2>/dev/null | sha256sum)
    echo "${sum%% *}"
)

sum_of_file() {
    sum=$(sha256sum <"$1") && echo "${sum%% *}"
}

# The sum of the sources.
sum_of_tree() { sum_of "$(only_files "$(list_sources "$(source_folders)")")"; }

# When the files and folders that the lines name were last changed, with nine places behind the point, a line for each.
times_of() (
    IFS=$end_of_line
    set -f
    # shellcheck disable=SC2086
    stat -L -c %.Z -- $1 2>/dev/null
)

# The latest of these times, in nanoseconds.
newest_of() {
    newest=$(times_of "$1" | LC_ALL=C sort -n | tail -n 1)
    echo "${newest%.*}${newest#*.}"
}

# choose SOURCES_SUM: writes which program is that of the sources with this sum: the released one, or else the one that was built here. Status 1:
# there is none, and why is written.
choose() {
    choose_released "$1" && return
    if [ -x "$out/lolli" ] && [ -r "$out/SOURCES" ] && read_sources "$out/SOURCES" && [ "$sources_sum" = "$1" ] &&
        [ "$(sum_of_file "$out/lolli")" = "$program_sum" ]; then
        echo "$out/lolli"
    else
        echo "$why"
        return 1
    fi
}

choose_released() {
    [ -e release/SOURCES ] || { why='there is no release/SOURCES'; return 1; }
    read_sources release/SOURCES 2>/dev/null || fail 'release/SOURCES is cut short or not of its form; take it from the repository again'
    [ "$sources_sum" = "$1" ] || { why='the sources are not those that release/SOURCES names'; return 1; }
    is_machine || { why="the released program is for Linux x86_64, and this is $machine"; return 1; }
    [ -e "$released" ] || { why="there is no $released"; return 1; }
    [ "$(sum_of_file "$released")" = "$program_sum" ] ||
        fail "$released is not the program that release/SOURCES names, and is not run; take it from the repository again"
    starts "./$released" || { why="$released does not start here; it takes the C library 2.34 or later, and a place where files may be run"; return 1; }
    echo "$released"
}

# Whether the machine is one for the released program.
is_machine() {
    machine=$(uname -sm)
    [ "$machine" = 'Linux x86_64' ]
}

# Whether a program starts: with no words it has nothing to do but to end with 3.
starts() {
    "$1" >/dev/null 2>&1
    [ $? -eq 3 ]
}
