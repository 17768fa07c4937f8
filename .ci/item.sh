# For the scripts of .ci/after: `item` says in one line how a test went. To be sourced.
bad=0

item() { # NAME COMMAND...: says how it went, with the last line of its output, or with all of it if it failed
    local output
    if output=$("${@:2}" 2>&1); then
        output=$(tail -n 1 <<<"$output")
        echo "ok: $1${output:+: $output}"
    else
        [ -z "$output" ] || echo "$output"
        echo "FAILED: $1"
        bad=1
    fi
}
