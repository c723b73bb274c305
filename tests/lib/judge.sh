# Sourced by tests that judge case by case; they print 'N passed, M failed' of these at their end.
# judge WHAT yes|no: counts it, and tells what failed
passed=0
failed=0

judge() {
    if [ "$2" = yes ]; then
        passed=$((passed + 1))
    else
        failed=$((failed + 1))
        echo "FAILED $1" | cut -c 1-200
    fi
}
