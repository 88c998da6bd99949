# For the tests of a program and of the script that starts it, list_tape and pay_sheet, to source in the repository's directory. They have set
#   crate    the program's crate
#   script   the script's name
#   called   what the script calls the program

test=$(basename "$0")
root=$PWD
program=$root/target/bin/$crate
if [ ! -x "$program" ]; then
    echo "$test: target/bin/$crate is missing; 'tools/build $crate' builds it"
    exit 1
fi
work=$(mktemp -d)
trap 'rm -rf "$work"' EXIT

# expect NAME EXPECTED: what the last run printed must be that file
expect() {
    if ! cmp -s "$work/printed" "$2"; then
        echo "$test: what is printed differs: $1"
        diff "$2" "$work/printed" | head -n 5 || true
        exit 1
    fi
}

# slowly FILE PLACE ...: prints the file with a pause at each place, a number of bytes
slowly() {
    local from=0 place
    for place in "${@:2}"; do
        head -c "$place" "$1" | tail -c +$((from + 1))
        from=$place
        sleep 0.2
    done
    tail -c +$((from + 1)) "$1"
}

# run COMMAND [ARGUMENT ...]: keeps what the command prints and says, and its exit status
run() {
    status=0
    "$@" > "$work/printed" 2> "$work/said" || status=$?
}

# gives NAME STATUS PRINTED [LINE ...]: what the last run must have given: exit status, standard output, and the lines on standard error, no other
gives() {
    expect "$1" "$3"
    : > "$work/lines"
    if [ $# -gt 3 ]; then
        printf '%s\n' "${@:4}" > "$work/lines"
    fi
    if ! cmp -s "$work/said" "$work/lines"; then
        echo "$test: what is said on standard error differs: $1"
        diff "$work/lines" "$work/said" || true
        exit 1
    fi
    if [ "$status" -ne "$2" ]; then
        echo "$test: the exit status is $status, not $2: $1"
        exit 1
    fi
}

# gives_help COMMAND: what --help and -h must give, alike
gives_help() {
    run "$1" --help
    if [ "$status" -ne 0 ] || [ -s "$work/said" ] || ! grep -q '^Exit status: 0 ' "$work/printed"; then
        echo "$test: --help"
        exit 1
    fi
    mv "$work/printed" "$work/help"
    run "$1" -h
    gives "-h" 0 "$work/help"
}

# kit_files NAME: a tape of the kit and its key, as the files kit_key and kit_tape in the present directory
kit_files() {
    local name word
    read -r name word < "$root/conformance/tapes/$1.txt"
    [ "$name" = key ]
    python3 -c 'import sys; sys.stdout.buffer.write(bytes.fromhex(sys.argv[1]))' "$word" > kit_key
    cp "$root/conformance/tapes/$1.tape" kit_tape
}

# ---- a small tree with a stand-in for rt, to see when the script has the program proved and what it says of that

starts="First $called is proved and built, crate by crate. This takes some minutes."
tool_path=$work/tools:$PATH

# make_tree: the directory tree in the work directory, with the script and four crates, the last of which is the program; tools, with the stand-in; and
# no_rt, with all that the script uses but rt
make_tree() {
    local one
    mkdir -p "$work/tree/crates"/{first,second,other,"$crate"}/src "$work/tools" "$work/no_rt"
    cp -R "$root/$script" "$root/tools" "$root/samples" "$work/tree"
    cat > "$work/tree/crates.txt" << END
$crate: second # the program, before the crates that it uses
first:
second: first
other: first
END
    for one in first second other; do
        echo "// $one" > "$work/tree/crates/$one/src/lib.rt"
    done
    echo "// $crate" > "$work/tree/crates/$crate/src/main.rt"
    cat > "$work/tools/rt" << END
#!/usr/bin/env bash
one=\${PWD#"$work/tree/crates/"}
case "\$one \$*" in "$crate run" | "first lib" | "second lib" | "second run") . "$work/rt_does" ;; *) exit 2 ;; esac
END
    chmod +x "$work/tools/rt"
    for one in bash env dirname readlink mktemp rm head tail wc cat tr awk sort cut find xargs sha256sum tee; do
        ln -s "$(command -v $one)" "$work/no_rt"
    done
}

# proves: from now on the stand-in prints as rt does where two of the three crates are to be proved, one of them slowly, and builds the program
proves() {
    cat > "$work/rt_does" << END
case \$one in
second)
    for i in {1..300}; do # until the script has said so
        grep -q "proving second" "$work/said" && break
        sleep 0.1
    done
    cp "$work/said" "$work/said_meanwhile"
    echo "logic=proved functions=1"
    ;;
$crate)
    echo "logic=proved functions=1"
    mkdir -p out
    cp "$program" out
    echo "rt: running out/$crate; to give it other input, run that file yourself"
    ;;
esac
END
}

# unchanged: from now on it finds all proved
unchanged() { echo "touch '$work/tree/called'" > "$work/rt_does"; }

# fails: from now on it proves nothing
fails() { echo 'echo "logic=not-proved"; exit 1' > "$work/rt_does"; }

# in_tree [ARGUMENT ...]: runs the tree's script with the stand-in
in_tree() { run env "PATH=$tool_path" "$work/tree/$script" "$@"; }

# without_rt [ARGUMENT ...]: runs it without
without_rt() { run env "PATH=$work/no_rt" "$work/tree/$script" "$@"; }

# proof_called NAME [ARGUMENT ...]: with an rt that fails, the script must print nothing
proof_called() {
    fails
    in_tree "${@:2}"
    gives "$1" 1 /dev/null "logic=not-proved" "$script: the program was not proved"
}

# proof_not_called NAME EXPECTED [ARGUMENT ...]: it must print without an rt that does anything
proof_not_called() {
    fails
    in_tree "${@:3}"
    gives "$1" 0 "$2"
}

# first_use NAME EXPECTED [ARGUMENT ...]: two crates are proved, the program is built, and the script says so meanwhile
first_use() {
    proves
    in_tree "${@:3}"
    gives "$1" 0 "$2" "$starts" "proving second (2 of 3)" "proving $crate (3 of 3)"
    mv "$work/said_meanwhile" "$work/said"
    printf '%s\n' "$starts" "proving second (2 of 3)" > "$work/lines"
    if ! cmp "$work/said" "$work/lines"; then
        echo "$test: what is said while a crate is being proved: $1"
        exit 1
    fi
}
