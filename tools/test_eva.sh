#!/bin/sh
# Compares ./eva without the proved program (a fresh clone) with ./eva as .ci/run left it: text and status, on the examples,
# on words with blanks, on files of other folders, on words without a meaning. Run it after .ci/run: tools/test_eva.sh
top=$(cd "$(dirname "$0")/.." && pwd) || exit 1
room=$(mktemp -d) || exit 1
trap 'rm -rf "$room"' EXIT
git clone -q "$top" "$room/clone" || exit 1
if [ ! -x "$top/crates/eva_cli/out/eva_cli" ]; then
    echo "run .ci/run first: there is no proved program"
    exit 1
fi
mkdir -p "$room/a folder"
cp "$top/examples/a.c" "$room/a folder/a file.c"
failed=0

# compare FOLDER WORDS..
compare() {
    folder=$1
    shift
    proved=$(cd "$folder" && "$top/eva" "$@" 2>"$room/said")
    status=$?
    if [ -s "$room/said" ]; then
        echo "the proved program isn't current: $(cat "$room/said")"
        exit 1
    fi
    first=$(cd "$folder" && "$room/clone/eva" "$@" 2>/dev/null)
    first_status=$?
    if [ "$proved" = "$first" ] && [ $status = $first_status ]; then
        echo "same ($status): eva $*"
    else
        echo "DIFFERS: eva $*: status $status and $first_status"
        failed=1
    fi
}

compare "$top" examples/a.c main
compare "$top" examples/half.c f
compare "$top" examples/limit.c limit
compare "$top" examples/two.c h
compare "$room" "a folder/a file.c" main
compare "$room/a folder" "../a folder/a file.c" main
compare "$top" "$room/a folder/a file.c" main
compare "$top" examples/missing.c main
compare "$top" gen:3 f
compare "$top" -- examples/a.c main
compare "$top" examples/a.c
exit $failed
