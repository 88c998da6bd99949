# For the scripts that hand a key and a tape to a proved program, list-tape and pay-sheet, to source: the two files, by files or pipes; the proof
# and the build of the program, where they are due; what may be wrong where the program refuses. The script has set before
#   here     the repository's directory
#   script   its own name
#   crate    the program's crate
#   called   what the program is called
# and has a function usage, whose first line is the short form. What the program prints goes to standard output, and all else to standard error.

. "$here/tools/crates_needed.bash"

program=$here/target/bin/$crate
# what the program on hand was proved and built from, and its own sum
stamp=$here/target/$script.proved
longest=65025 # bytes in the longest tape

# ---- parts of the usage

about_files='  KEY_FILE   the key: 16 raw bytes
  TAPE_FILE  the tape: 25 bytes, and 13 for each of at most 5,000 tickets'

about_proof="On first use, and after a change of the source, the program is proved and built, which takes some minutes and needs the Rattle toolchain's
command rt. After that it starts at once."

about_failures='1 the program was not proved, or nothing could be written; 2 wrong usage, a file that cannot be read, or no rt to prove with.'

note() { echo "$script: $*" >&2; }

wrong_usage() {
    usage | head -n 1 >&2
    note "--help says more"
    exit 2
}

# ---- the two files

from_stdin() { case $1 in - | /dev/stdin | /dev/fd/0 | /proc/self/fd/0) ;; *) return 1 ;; esac; }

is_directory() { if from_stdin "$1"; then [ -d /dev/stdin ]; else [ -d "$1" ]; fi; }

# Copies a file, or what comes by a pipe, which can be read once only, and no more of it than shows that it is too long. A directory has no bytes.
take() { # FILE COPY
    local most=$((longest + 1)) status=0
    if is_directory "$1"; then
        : > "$2"
    elif from_stdin "$1"; then
        head -c "$most" > "$2" 2> /dev/null || status=$?
    else
        { head -c "$most" < "$1" > "$2"; } 2> /dev/null || status=$?
    fi
    if [ $status -ne 0 ]; then
        note "cannot read '$1'"
        exit 2
    fi
}

# Takes the two files, or the sample where none are given: sets key and tape, their names, key_size and tape_size, and work, a directory with their
# copies.
take_files() { # SAMPLE [KEY_FILE TAPE_FILE]
    key=${2-$here/samples/shift.key}
    tape=${3-$here/$1}
    if [ $# -eq 1 ]; then
        note "no files given: this is the sample, $1"
    fi
    work=$(mktemp -d) # for its owner alone, since the key is copied there
    trap 'rm -rf "$work"' EXIT
    if from_stdin "$key" && from_stdin "$tape"; then
        note "only one of the two files can be standard input"
        exit 2
    fi
    take "$key" "$work/key"
    take "$tape" "$work/tape"
    key_size=$(wc -c < "$work/key")
    tape_size=$(wc -c < "$work/tape")
}

# says a number of bytes in words
bytes() {
    if [ "$1" -gt $longest ]; then
        echo "more than $longest bytes"
    elif [ "$1" -eq 1 ]; then
        echo "1 byte"
    else
        echo "$1 bytes"
    fi
}

# whether a tape can have this many bytes
fits_a_tape() { [ "$1" -ge 25 ] && [ "$1" -le $longest ] && [ $((($1 - 25) % 13)) -eq 0 ]; }

# whether the key's copy is 32 hexadecimal digits, with or without the end of a line
hexadecimal() {
    [ "$(tr -d '\r\n' < "$work/key" | wc -c)" -eq 32 ] && [ "$(tr -d '\r\n0-9A-Fa-f' < "$work/key" | wc -c)" -eq 0 ]
}

key_hints() {
    if is_directory "$key"; then
        note "'$key' is a directory; the key is a file of 16 bytes"
        return
    fi
    note "the key file '$key' has $(bytes "$key_size"), not 16"
    if [ "$key_size" -eq 17 ] && [ "$(tail -c 1 "$work/key" | wc -l)" -eq 1 ]; then
        note "its last byte is a line feed, which an editor may have added; without it: head -c 16 KEY_FILE > NEW_KEY_FILE"
    elif hexadecimal; then
        note "these are 32 hexadecimal digits; the key must be the 16 raw bytes that they stand for: xxd -r -p KEY_FILE > NEW_KEY_FILE"
    fi
}

tape_hints() {
    if is_directory "$tape"; then
        note "'$tape' is a directory; the tape is a file"
    elif [ "$tape_size" -gt $longest ]; then
        note "the tape file '$tape' has more than $longest bytes, which the longest tape has"
    elif ! fits_a_tape "$tape_size"; then
        note "the tape file '$tape' has $(bytes "$tape_size"), but a tape has 25, and 13 for each ticket: it may have been cut short or changed on its way"
        if fits_a_tape $((tape_size - 1)) && [ "$(tail -c 1 "$work/tape" | wc -l)" -eq 1 ]; then
            note "its last byte is a line feed, which an editor may have added"
        fi
    fi
}

# what may be wrong where number 2 was given
size_hints() {
    if [ "$key_size" -eq 16 ]; then
        tape_hints
        return
    fi
    key_hints
    if fits_a_tape "$key_size" && [ "$tape_size" -eq 16 ]; then
        note "are the files swapped? the key comes first"
    else
        tape_hints
    fi
}

# ---- the program

# The sum of every file of these crates and of crates.txt, names too. It goes by what the files hold, and not by their times: a file put back
# from an archive is older than the program, and one edited while the proof ran may be, too.
source_sum() {
    (cd "$here" && find crates.txt "${crates[@]/#/crates/}" -name out -prune -o \( -type f -o -type l \) -print0 | LC_ALL=C sort -z | xargs -0 sha256sum -- | sha256sum)
}

program_sum() { sha256sum < "$program"; }

# Reads what tools/build prints and says which crate is being proved, and nothing of those that are proved already: of such a crate rt says nothing, in
# less than a second.
progress() {
    local line part='' one now='' waited=0
    local -A place=() said=()
    for one in "${crates[@]}"; do
        place[$one]=$((${#place[@]} + 1))
    done
    while true; do
        if IFS= read -r -t 0.5 line; then
            line=$part$line part=''
            if [[ $line =~ ^build:\ ([A-Za-z0-9_]+)$ ]]; then
                now=${BASH_REMATCH[1]} waited=0
            elif [[ $line =~ ^(rt: chose|checked|fn|logic=proved) ]]; then
                tell "$now"
            fi
        elif [ $? -gt 128 ]; then # nothing for a while
            part+=$line
            waited=$((waited + 1))
            if [ $waited -ge 3 ]; then
                tell "$now"
            fi
        else
            break
        fi
    done
}

# says of a crate, once, that it is being proved; for progress
tell() { # CRATE
    if [ -z "$1" ] || [ -z "${place[$1]-}" ] || [ -n "${said[$1]-}" ]; then
        return
    fi
    if [ ${#said[@]} -eq 0 ]; then
        echo "First $called is proved and built, crate by crate. This takes some minutes." >&2
    fi
    said[$1]=1
    echo "proving $1 (${place[$1]} of ${#crates[@]})" >&2
}

# Proves and builds the program, unless the one on hand is proved and built from the present source.
prove() {
    local crates sources status
    mapfile -t crates < <(crates_needed "$crate")
    sources=$(source_sum 2> /dev/null) || sources='' # a crate is missing, which rt will say
    if [ -n "$sources" ] && [ -x "$program" ] && [ -f "$stamp" ] && [ "$(cat "$stamp")" = "$sources $(program_sum)" ]; then
        return
    fi
    if ! command -v rt > /dev/null; then
        note "the Rattle toolchain's command 'rt' is not on the path"
        exit 2
    fi
    set +e
    "$here/tools/build" "$crate" < /dev/null 2>&1 | tee "$work/log" | progress
    status=${PIPESTATUS[0]}
    set -e
    if [ "$status" -ne 0 ] || [ ! -x "$program" ]; then
        { grep -v '^build: ' "$work/log" || true; } | tail -n 20 >&2
        note "the program was not proved"
        exit 1
    fi
    # where a file was changed meanwhile, nobody knows what was proved
    if [ -n "$sources" ] && [ "$(source_sum)" = "$sources" ]; then
        echo "$sources $(program_sum)" > "$stamp"
    fi
}

# Runs the program on the file input in the work directory, and says what may be wrong where it refuses.
start() {
    prove
    "$program" < "$work/input" > "$work/printed"
    cat "$work/printed"
    case $(head -c 12 "$work/printed") in
    "REFUSED 2") size_hints ;;
    "REFUSED 3") note "the head's device, shift or sheet is outside its range" ;;
    "REFUSED 7") note "the tag differs: another key, or a damaged tape" ;;
    "REFUSED 8") note "the tape is sealed as it should be, but a ticket on it breaks the rules" ;;
    "REFUSED 13") note "the rate is above 1,000,000 cents per tonne" ;;
    esac
}
