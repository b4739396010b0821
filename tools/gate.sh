#!/bin/bash
# The one test command, as `make test`. Every step runs, whatever came before it, and the last line is
# `N passed, M failed` over all of them; the exit status is 0 only if nothing failed.
set -u
cd "$(dirname "${BASH_SOURCE[0]}")/.." || exit 2
exec 2>&1

passed=0
failed=0
log=$(mktemp -d) || exit 2

# The count is the last line even where the gate itself breaks off, which is a failure.
whole=no
finish() {
    [ ! -f "$log/again" ] || cat "$log/again"
    rm -rf "$log"
    if [ "$whole" = no ]; then
        echo 'the gate broke off'
        failed=$((failed + 1))
    fi
    echo "$passed passed, $failed failed"
    # A bare exit here would give the status from before the trap.
    if [ "$failed" = 0 ]; then exit 0; else exit 1; fi
}
trap finish EXIT

# The gate is about the proved archive and no other.
unset YB_ARCHIVE
. tools/env.sh

# step COUNTS NAME COMMAND..: run one step and add up its tests. COUNTS says where they are counted:
#   line    the last line of the output is `N passed, M failed`
#   cargo   the sum of cargo's `test result:` lines
#   one     the step is one test
#   none    the step is no test, but may fail
# A step that fails or dies without counting a failure counts as one. What a step said that failed is told again at the
# end, without the lines that tell of success: a gate's output is long, and people see its end first.
success='^(test .* \.\.\. ok|rt: [a-z_]+ proved .*|rt: must-fail .*: refused, as it must be .*|(logic|library|logic=).*|)$'
step() {
    local counts=$1 name=$2 good=0 bad=0 counted=yes status started=$SECONDS
    shift 2
    echo "== $name"
    "$@" 2>&1 | tee "$log/step"
    status=${PIPESTATUS[0]}
    cp "$log/step" "$log/$name" 2>/dev/null
    case $counts in
    line)
        local last
        last=$(tail -n 1 "$log/step")
        if [[ $last =~ ^([0-9]+)\ passed,\ ([0-9]+)\ failed$ ]]; then
            good=${BASH_REMATCH[1]} bad=${BASH_REMATCH[2]}
        else
            counted=no
        fi
        ;;
    cargo)
        read -r good bad counted < <(awk '
            /^test result: / { n++; for (i = 2; i <= NF; i++) {
                if ($i == "passed;") good += $(i - 1)
                if ($i == "failed;") bad += $(i - 1) } }
            END { print good + 0, bad + 0, n ? "yes" : "no" }' "$log/step")
        ;;
    one) if [ "$status" = 0 ]; then good=1; fi ;;
    none) ;;
    esac
    # A step that counts no test at all has shown nothing.
    if [ "$counts" != none ] && [ "$good $bad" = "0 0" ]; then counted=no; fi
    if [ "$bad" = 0 ] && { [ "$status" != 0 ] || [ "$counted" = no ]; }; then
        bad=1
        echo "$name: ended with status $status, counted as a failure"
    fi
    passed=$((passed + good))
    failed=$((failed + bad))
    if [ "$bad" != 0 ]; then
        echo "== $name, again: $bad failed"
        grep -vE "$success" "$log/step" | cut -c 1-400 | head -n 50
    fi >>"$log/again"
    echo "-- $name: $good passed, $bad failed, $((SECONDS - started)) s"
}

# The stored cases that the Rattle program is run on are those that the reference writes today.
stored_cases() {
    if mkdir "$log/cases" &&
        cargo run --quiet --release --offline --manifest-path reference/Cargo.toml --bin cases -- \
            "$log/cases/stdin" "$log/cases/stdout" &&
        cmp "$log/cases/stdin" crates/cases/stdin &&
        cmp "$log/cases/stdout" crates/cases/stdout; then
        return 0
    fi
    echo 'crates/cases is not what the reference writes; make cases rewrites it'
    return 1
}

# The sample sticks are those that the reference writes today, and no others; the sample log lies beside them, and the
# desk's tests hold it to the program that writes it.
sample_sticks() {
    if mkdir "$log/examples" &&
        cargo run --quiet --release --offline --manifest-path reference/Cargo.toml --bin sticks -- \
            "$log/examples" &&
        diff -r --exclude=log "$log/examples" examples; then
        return 0
    fi
    echo 'examples is not what the reference writes; make examples rewrites it'
    return 1
}

# What `rt ci` proved of the crates below stands in their out/, so that this proves the surface alone.
archive() {
    rm -f "$YB_ARCHIVE"
    tools/archive.sh && [ -f "$YB_ARCHIVE" ]
}

surface() {
    # shellcheck disable=SC2086 # YB_EMULATOR may be no word
    $YB_EMULATOR build/x86_64/test_surface
}

stack() {
    # shellcheck disable=SC2086 # YB_EMULATOR may be no word
    $YB_EMULATOR build/x86_64/test_stack
}

# The README's two commands from a log to a page. Without the desk's the season begins with a stick.
sample() {
    if [ -n "$YB_PYTHON_WHY" ]; then
        make --no-print-directory sample SAMPLE=examples/harvest.stick
        return
    fi
    make --no-print-directory sample || return
    if [ -z "$YB_CHARTS_WHY" ]; then build/season-page build/barn.stick build/barn.html; fi
}

# The line `rt: ok` of the proofs counts no bad edit.
tried() {
    grep -qE '^rt: ok' "$log/proofs" && ! grep -qE '^rt: ok.*, [1-9][0-9]* bad' "$log/proofs"
}

reference() {
    (cd reference && cargo test --release --offline --no-fail-fast "$@")
}

# later COUNTS NAME COMMAND..: a step of those that run together.
names=() counts=() commands=()
later() {
    counts+=("$1") names+=("$2")
    shift 2
    commands+=("$(printf '%q ' "$@")")
}

# apart K: run the command of such a step, and keep what it said, its status and its seconds.
apart() {
    local started=$SECONDS status
    eval "${commands[$1]}" >"$log/said.$1" 2>&1
    status=$?
    echo "$status $((SECONDS - started))" >"$log/status.$1"
}

told() {
    local status=1 seconds
    read -r status seconds <"$log/status.$1" && echo "it took $seconds s, beside others"
    cat "$log/said.$1"
    return "$status"
}

# tell K: count such a step once it has ended, and say what it said.
tell() {
    step "${counts[$1]}" "${names[$1]}" told "$1"
}

# together FIRST: run those steps from the FIRST on, one more at a time than there are cores, since each waits now and
# then; then tell them in their order. What runs already counts for none of them.
together() {
    local i pids=() others
    others=$(jobs -rp | wc -l)
    for ((i = $1; i < ${#names[@]}; i++)); do
        while [ "$(($(jobs -rp | wc -l) - others))" -gt "$(nproc)" ]; do sleep 0.2; done
        apart "$i" &
        pids+=($!)
    done
    wait "${pids[@]}"
    for ((i = $1; i < ${#names[@]}; i++)); do tell "$i"; done
}

export CARGO_TARGET_DIR=$PWD/build/reference
yb_toolchain
# Relative to reference/, where cargo runs the tests: the host's command is split at blanks.
export YB_HOST="$YB_EMULATOR ../build/x86_64/host"

# The reference is compiled, and what the tests need of Debian's packages is installed. What goes wrong with either shows in
# the steps below: they compile or install what is not there.
ahead() {
    yb_python
    yb_charts
    yb_browser
    (cd reference && nice -n 19 cargo build --quiet --release --offline --all-targets)
}
ahead >"$log/ahead" 2>&1

# The proofs and the wrong programs, by a plain `rt ci` at the top. It goes first and alone: other commands of rt wait for
# it, and what it leaves in out/ spares the archive the proofs of the crates below.
step line 'proofs' rt ci
# It ends well where a wrong program could not be tried: that is a failure here.
step one 'every wrong program was tried' tried
step one 'functions with a requires' tools/requires.sh --check
step one 'stored cases' stored_cases
step one 'sample sticks' sample_sticks
step none 'archive' archive
step none 'Rattle programs' tools/programs.sh
step one 'inlined' tools/inlined.sh
if [ -n "$YB_CC" ]; then
    step none 'C programs' tools/build.sh
    # Where it was not built the tests that need it say so.
    [ -x build/x86_64/host ] || unset YB_HOST
    # The longest first, so that none of them is left over at the end.
    later line 'wrong programs' tools/refusals.sh
    later line 'import command' c/tests/test_import.sh plain
    later line 'import command, sanitized' c/tests/test_import.sh sanitized
    later cargo 'reference and archive' reference
    later line 'C surface' surface
    if yb_python; then
        later line 'desk' desk/tests/run.sh
        if yb_charts && yb_browser; then
            later line 'page in a browser' desk/tests/browser.py
        fi
    fi
    later line 'install' c/tests/test_install.sh
    later line 'programs' c/tests/test_programs.sh
    later line 'feed command' c/tests/test_feed.sh
    later line 'watts command' c/tests/test_watts.sh
    later line 'C stack' stack
    together 0
    step one 'sample season' sample
else
    step cargo 'reference' reference --lib --bins
    for tests in 'C surface' 'C stack' 'the archive beside the reference' 'watts command' 'feed command' \
        'import command' 'programs' 'install' 'desk' 'sample season'; do
        echo "NOT RUN: $tests: $YB_CC_WHY"
    done
fi

[ -n "$YB_CC" ] || step line 'wrong programs' tools/refusals.sh

# What was left out is said where it is seen.
[ -z "$YB_PYTHON_WHY" ] || echo "NOT RUN: desk, and the page in a browser: $YB_PYTHON_WHY"
[ -z "$YB_CHARTS_WHY$YB_BROWSER_WHY" ] || echo "NOT RUN: the page in a browser: ${YB_CHARTS_WHY:-$YB_BROWSER_WHY}"
echo "-- all steps: $SECONDS s"
whole=yes
