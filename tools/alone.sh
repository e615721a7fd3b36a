# For the scripts that prove in this tree: rt lets nobody else near what it works on, so each works alone.

# alone: waits until no other of these scripts works here, and keeps them away until this one ends. What it starts is to be
# started with `9>&-`, so that nothing which outlives the script keeps them away.
alone() {
    mkdir -p build
    exec 9>build/.lock
    flock -n 9 || {
        echo "$(basename "$0"): a build or the gate works in this tree; waiting for its end .." >&2
        flock 9
    }
}
