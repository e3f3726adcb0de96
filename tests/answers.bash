# What tests/program/cases/run and tests/program/programs/run share, which source this file from the folder of their
# programs, with the name of the suite: runs of m4r, and of GNU m4 where it is installed, compared with the answers that
# are expected.
#
# Needs ./m4r, or the program that M4R names.
suite=$1
program=$(realpath "${M4R:-$(dirname "${BASH_SOURCE[0]}")/../m4r}")
scratch=$(mktemp -d)
trap 'rm -rf "$scratch"' EXIT
failed=0
count=0
# The status that is expected where no file has another.
echo 0 > "$scratch/zero"

theirs=no
if m4 --version 2> /dev/null | grep -q '^m4 (GNU M4)'; then
    theirs=yes
else
    echo "$suite: SKIPPED: the answers of GNU m4, which is not installed"
fi

# expects WHAT WANT GOT: two files have the same bytes
expects() {
    if ! cmp -s "$2" "$3"; then
        echo "$suite: $1" >&2
        diff "$2" "$3" | head -n 10 >&2
        failed=$((failed + 1))
    fi
}

# runs WORDS..: a command, its output, its messages and its status; one that does not end is stopped
runs() {
    timeout 60 "$@" > "$scratch/out" 2> "$scratch/err"
    echo $? > "$scratch/status"
}

# checks HOW OUTPUT MESSAGES STATUS: the run before, against what is expected
checks() {
    expects "the output of $1" "$2" "$scratch/out"
    expects "the messages of $1" "$3" "$scratch/err"
    expects "the status of $1" "$4" "$scratch/status"
}

# tells: how many programs were run, and how many answers are wrong; that is the status
tells() {
    echo "$suite: $count programs, $failed answers that are not as expected"
    [ "$failed" -eq 0 ]
}
