# For scripts of sh that try the program: they read this file first. It leaves the program in $program and a folder of
# their own in $room, and has them end with `verdict`, which is that of tests/harness.py.
. "$top/bin/help"
program=$("$top/bin/dbrun" --which ${DBRUN_KIND:+"$DBRUN_KIND"}) || exit 1
echo "the program: $program"
room=$(mktemp -d) || exit 1
trap 'rm -rf "$room"' EXIT
passed=0
failed=0

passes() { passed=$((passed + 1)); }

# fails WHAT-WENT-WRONG
fails() {
    echo "$1"
    failed=$((failed + 1))
}

# case_of STATUS LAST-LINE-OF-STANDARD-ERROR WORDS..
case_of() {
    wanted=$1; said=$2; shift 2
    "$program" "$@" > out.txt 2> err.txt
    status=$?
    last=$(tail -n 1 err.txt)
    if [ "$status" -ne "$wanted" ] || { [ -n "$said" ] && [ "$last" != "$said" ]; }; then
        fails "dbrun $*: status $status and '$last', not $wanted and '$said'"
    else
        passes
    fi
}

# is WHAT FOUND WANTED
is() {
    if [ "$2" = "$3" ]; then passes; else fails "$1: '$2', not '$3'"; fi
}

# prints STANDARD-OUTPUT
prints() { is printed "$(cat out.txt)" "$1"; }

# holds WHAT-IT-MEANS-WHERE-IT-DOES-NOT COMMAND..
holds() {
    meaning=$1; shift
    if "$@"; then passes; else fails "$meaning"; fi
}

# same FILE FILE: whether both hold the same bytes
same() { [ "$(sha256sum < "$1")" = "$(sha256sum < "$2")" ]; }

# like PATTERN FILE, unlike PATTERN FILE: the lines that a pattern of `case` matches, and those that it doesn't
like() {
    while IFS= read -r line; do
        case $line in $1) printf '%s\n' "$line" ;; esac
    done < "$2"
}
unlike() {
    while IFS= read -r line; do
        case $line in $1) ;; *) printf '%s\n' "$line" ;; esac
    done < "$2"
}

# in_harness CODE WORDS..: runs code of Python that uses tests/harness.py
in_harness() {
    code=$1; shift
    PYTHONPATH="$top/tests" python3 -B -c "import sys, harness
$code" "$@"
}

verdict() {
    in_harness 'sys.exit(harness.verdict(*map(int, sys.argv[1:])))' "$passed" "$failed"
    exit
}
