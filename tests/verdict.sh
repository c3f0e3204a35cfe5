# How the scripts count what passed and what failed. To be sourced.
passed=0
failed=0

# verdict NAME REASON: a case has passed if there is no reason against it
verdict() {
    if [ -z "$2" ]; then
        passed=$((passed + 1))
    else
        failed=$((failed + 1))
        echo "failed: $1: $2"
    fi
}
