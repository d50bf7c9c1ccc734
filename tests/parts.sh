# shellcheck shell=bash
# For tests/quick and tests/gate: what a part of theirs comes to, and all parts together.

# What parts say, and what they come to.
room=$(mktemp -d)
trap 'rm -rf "$room"' EXIT

# Keeps what part $1 comes to, which ended with status $2 and said what is in $room/$1.said: in $room/$1.verdict how many
# passed, failed and were skipped. Its last line with two counts says so, or the last of all, if that is `skipped: WHY`.
keep_verdict() {
    local said=$room/$1.said counts passed failed skipped=0
    counts=$(grep -E '^[0-9]+ passed, [0-9]+ failed$' "$said" | tail -n 1)
    read -r passed _ failed _ <<<"${counts:-0 passed, 0 failed}"
    case $(tail -n 1 "$said") in
    'skipped: '*) skipped=1 ;;
    esac
    # What ends badly, or counts nothing, has failed.
    [ $((failed + skipped)) -gt 0 ] || { [ "$2" -eq 0 ] && [ "$passed" -gt 0 ]; } || failed=1
    echo "$passed $failed $skipped" >"$room/$1.verdict"
}

# Says why parts were skipped, and in the last line what all parts come to. Fails where something has failed, or nothing
# has passed.
say_sum() {
    local verdict name good bad none passed=0 failed=0 skipped=0
    for verdict in "$room"/*.verdict; do
        name=$(basename "$verdict" .verdict)
        read -r good bad none <"$verdict"
        passed=$((passed + good)) failed=$((failed + bad)) skipped=$((skipped + none))
        [ "$none" -eq 0 ] || echo "$name $(tail -n 1 "$room/$name.said")"
    done
    echo "$passed passed, $failed failed, $skipped skipped"
    [ "$failed" -eq 0 ] && [ "$passed" -gt 0 ]
}
