# Sourced by the scripts of the gate.

# stage NAME COMMAND...: a heading, the command, the seconds that it took. Where the command fails, the last line says so and the script ends.
stage() {
    local name=$1 start=$SECONDS status=0
    shift
    echo "== $name"
    "$@" || status=$?
    if [[ $status -ne 0 ]]; then
        echo "FAILED after $((SECONDS - start)) s: $name"
        exit "$status"
    fi
    echo "== $name: $((SECONDS - start)) s"
}
