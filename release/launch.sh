# shellcheck shell=sh
# What comes before the program: help, the version, pipes as texts, and a word on faults at a terminal. None of these words begins a form of the
# program, whose standard output and status stay as they are. `$root` is the folder that the launcher stands in.

help() {
    cat <<'END'
Runs linear logic programs.

  lolli run PROGRAM QUERY --bound N --workers W [--proofs] [--first K]
                                             searches for proofs, and writes the answers
  lolli session PROGRAM QUERIES --bound N --workers W [--proofs]
                                             runs each line of a text as a query
  lolli deepen PROGRAM QUERY --from A --by B --to C --workers W [--proofs]
                                             runs with the first bound of a series that decides
  lolli check PROGRAM QUERY PROOF            says whether a derivation shows the query
  lolli cover PROGRAM QUERY PROOF --bound N  says which answer of a run covers a derivation
  lolli convert PROOF --to V                 writes a derivation in version 1 or 2 of its text
  lolli print PROGRAM                        writes the program, laid out
  lolli make KIND N                          writes the program of a kind for a number
  lolli make KIND N --bound B --workers W    runs it, and writes the last line

  lolli --help, -h, help                     writes this
  lolli --version                            writes the version

A text may come through a pipe, as /dev/stdin or <(..). The manual page has every word, fault and status: man lolli, or man docs/lolli.1
in a checkout. There docs/LANGUAGE.md explains the language by examples, and docs/REFERENCE.md says each thing once.
END
}

# commit: that of the checkout, or the one that an installed copy came from, if it is known.
commit() {
    if [ -r "$root/COMMIT" ]; then
        cat "$root/COMMIT"
    elif [ -e "$root/.git" ]; then
        git -C "$root" rev-parse HEAD 2>/dev/null
    fi
}

# version STATUS: writes the release, the commit where there is one, and the sum of the program, if one was found (0).
version() {
    echo "lolli $(cat "$root/VERSION")"
    of=$(commit)
    [ -z "$of" ] || echo "commit $of"
    case $1 in
    0) echo "program $(sum_of_file "$root/$program")" ;;
    *) echo 'program none of these sources' ;;
    esac
}

# Whether a word names a descriptor. Its number is told.
is_descriptor() {
    case $1 in
    /dev/stdin) number=0 ;;
    /dev/fd/* | /proc/self/fd/*) number=${1##*/} ;;
    *) return 1 ;;
    esac
    case $number in '' | *[!0-9]*) return 1 ;; esac
}

# The descriptors among the names of texts of these words.
descriptors() {
    case ${1-} in run | session | deepen | check | cover | convert | print) shift ;; *) return ;; esac
    for word; do
        case $word in --*) return ;; esac
        if is_descriptor "$word"; then echo "$number"; fi
    done
}

# Reads what comes through a pipe into a file ($room/NUMBER), up to one byte more than a text may have.
spool() {
    [ -e "/dev/fd/$1" ] && [ ! -f "/dev/fd/$1" ] && [ ! -e "$room/$1" ] || return 0
    head -c 16777217 <"/dev/fd/$1" >"$room/$1" || fail "what comes through the descriptor $1 can't be kept in $room"
}

# start_over_pipes NUMBERS PROGRAM WORDS..: runs the program with these descriptors spooled. Each is opened anew on its file, whose name goes at once:
# so the program reads it under the name that was given, and a fault tells that name.
start_over_pipes() {
    numbers=$1
    shift
    room=$(mktemp -d 2>/dev/null) || fail 'there is no folder for what comes through a pipe; is TMPDIR well?'
    trap 'rm -rf "$room"' EXIT
    trap 'say "interrupted before the program ran"; exit 130' INT TERM HUP
    shell='sh'
    for number in $numbers; do
        spool "$number"
        case $number in ?) ;; *) shell=bash ;; esac
    done
    command -v "$shell" >/dev/null || fail 'a descriptor past 9 takes the command bash; give the text in a file'
    # shellcheck disable=SC2016
    exec "$shell" -c '
        room=$1 numbers=$2
        shift 2
        for number in $numbers; do [ ! -e "$room/$number" ] || eval "exec $number<\"\$room/$number\""; done
        rm -rf "$room"
        exec "$@"' lolli "$room" "$numbers" "$@"
}

# advise PROGRAM WORDS..: says more of the fault that these words end in. It is asked for once more, so that standard output stays the program's.
advise() {
    [ -r "$root/tools/fault" ] && command -v python3 >/dev/null || return 0
    "$@" 2>/dev/null | python3 "$root/tools/fault" >&2
}

# start_at_terminal PROGRAM WORDS..: runs the program for a user at a terminal, who gets a word more on a fault.
start_at_terminal() {
    "$@" &
    running=$!
    for signal in INT TERM HUP QUIT; do
        # shellcheck disable=SC2064
        trap "kill $running; wait $running 2>/dev/null; trap - $signal; kill -$signal \$\$" "$signal"
    done
    status=0
    wait "$running" || status=$?
    trap - INT TERM HUP QUIT
    case $status in
    3) [ $# -eq 1 ] || say '--help tells the forms' ;;
    4 | 5 | 7 | 8) advise "$@" ;;
    esac
    exit "$status"
}

# start PROGRAM WORDS..: runs the program.
start() {
    [ $# -gt 1 ] || say '--help tells the forms'
    case " $*" in
    *' /dev/'* | *' /proc/self/fd/'*)
        numbers=$(shift; descriptors "$@")
        [ -z "$numbers" ] || start_over_pipes "$numbers" "$@"
        ;;
    esac
    if [ -t 2 ]; then start_at_terminal "$@"; fi
    exec "$@"
}
