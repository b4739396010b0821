# shellcheck shell=bash
# shellcheck disable=SC2034,SC2154 # the variables are those of test_import.sh
# Sourced by test_import.sh: what summary, peak and table say for programs.

# read_by COMMAND WORD..: what the tool says is what other means make of the sticks; what differs is told.
read_by() {
    local kind=$1
    [ "$has_python" = yes ] || return
    shift
    called="what other means make of $kind $*"
    error=$(python3 c/tests/test_import_figures.py "$kind" "$import" "$@" 2>&1)
    status=$? output=''
    good test "$status|$error" = '0|'
}

# one_line <LINES: lines of an object as one, with the folder of the tests for @.
one_line() {
    tr '\n' ' ' | sed "s|@|$work|; s/ \$//"
}

json_suite() {
    local name
    peak_sticks
    for name in examples/{season,harvest,mill,dairy,roof,vineyard,voltage,rescued-three-faults}.stick \
        "$work/"{peaky,low,support,unread,unstepped,gap,giving,taking,none,whole,c1}; do
        read_by figures "$name" "$work"
        read_by peaks "$name" "$work"
    done
    read_by names "$work"

    # Whole objects, as they are written.
    check 0 "$(one_line <<'END'
{"file": "@/peaky", "status": "complete", "number": 0, "steps": 4, "bytes": 167, "seconds": 60, "edition": 1,
"mode": 1, "phase": 0, "band_W": 0, "factor_thousandths": 1000, "missing_steps": 1, "least_W": 500, "least_step": 3,
"most_W": 2000, "most_step": 1, "target_W": 1000, "outside_steps": 2, "net_least_W": 0, "net_least_step": 3,
"net_most_W": 1000, "net_most_step": 0, "net_outside_steps": 0, "store_least_J": 3420000, "store_least_step": 3,
"loss_J": 0, "not_met_steps": 0, "units": [{"unit": 0, "request_W": 1000, "out_W": 1000, "in_W": 0, "out_J": 180000,
"in_J": 0, "loss_J": 0, "store_least_J": 3420000, "store_least_step": 3, "not_met_steps": 0, "rated_J": 3600000,
"reserve_J": 0, "stored_J": 3600000, "rating_W": 1000, "kva_VA": 1000, "request_var": 0, "provide_var": 1000,
"absorb_var": 1000, "out_var": 0, "in_var": 0, "high_var": 0, "high_var_step": 0, "low_var": 0, "low_var_step": 0}], "fleet": {"request_W": 1000, "out_W": 1000, "in_W": 0,
"out_J": 180000, "in_J": 0, "loss_J": 0, "store_least_J": 3420000, "store_least_step": 3, "not_met_steps": 0},
"inverters": [], "roof": {"out_W": 0, "out_step": null, "out_J": 0, "on_s": 0, "unused_J": 0}}
END
    )" '' summary --json "$work/peaky"
    check 0 "$(one_line <<'END'
{"file": "@/peaky", "status": "complete", "number": 0, "steps": 4, "bytes": 167, "seconds": 60, "edition": 1,
"mode": 1, "phase": 0, "band_W": 0, "factor_thousandths": 1000, "own_target_W": 1000, "missing_steps": 1,
"least_W": 500, "least_step": 3, "most_W": 2000, "most_step": 1, "held_target_W": 1000, "targets": [{"target_W": 900,
"outside_steps": 2, "net_least_W": -100, "net_least_step": 3, "net_most_W": 1000, "net_most_step": 1,
"net_outside_steps": 1, "store_least_J": 3408000, "store_least_step": 3, "loss_J": 0, "not_met_steps": 0,
"held": false}, {"target_W": 1000, "outside_steps": 2, "net_least_W": 0, "net_least_step": 3, "net_most_W": 1000,
"net_most_step": 0, "net_outside_steps": 0, "store_least_J": 3420000, "store_least_step": 3, "loss_J": 0,
"not_met_steps": 0, "held": true}]}
END
    )" '' peak --json "$work/peaky" 900 1000 100
    # A refused one is told as check tells it.
    for name in examples/refused-*; do
        check 1 "$("$import" check --json "$name" 2>/dev/null)" '' summary --json "$name"
        check 1 "$("$import" check --json "$name" 2>/dev/null)" '' peak --json "$name"
    done
    check 2 '{"file": "none", "status": "failed", "what": "cannot be read: No such file or directory"}' \
        'import: none: cannot be read: No such file or directory' peak --json none
    # A thousand sticks give a thousand objects, in their order, and all words are sticks.
    call summary --json examples/season.stick "$work/season.result"
    good test "$status|$error|$(wc -l <"$work/output")" = '1|import: 1 of 2 files refused|2'
    good like "$output" \
        '{"file": "examples/season.stick", "status": "complete", *'$'\n''{"file": *, "status": "refused", *'
    call peak --json examples/*.stick none - examples </dev/null
    good test "$status|$(sed 's/^{"file": "\([^"]*\)".*/\1/' "$work/output")" = \
        "2|$(printf '%s\n' examples/*.stick none - examples)"
    good test "$(grep -c '"status": "failed"' "$work/output")" = 2
    # A stick that is too long has no figures, and no other targets.
    call summary --json "$work/long"
    good like "$status|$error|$output" \
        '0||*"steps": 65535, *"missing_steps": null, *"net_most_W": null, *"loss_J": null, *'
    good like "$output" '*"units": \[{"unit": 0, *"in_J": 47185200, "loss_J": 47185200, *'
    call peak --json "$work/long"
    good like "$status|$error|$output" '1||{"file": *, "status": "refused", "number": 12, "steps": 0, "words": "too '\
'many bytes or steps", "place": 0, "what": "*2,097,152 bytes*", "advice": "*"}'
    error=$("$import" summary --json examples/mill.stick 2>&1 >/dev/full)
    status=$? output='' called='summary --json >/dev/full'
    good test "$status|$error" = '2|import: the lines cannot be written'
}

# The sums that no 64 bits hold are told all the same; over the sticks of largest_suite and largest_roof_suite.
large_json() {
    local digits='([0-9]*)'
    call summary --json "$1"
    good test "$status|$error|$(sed -E "s/.*\"net_outside_steps\".*\"store_least_step\": 0, \"loss_J\": $digits, .*\
\"fleet\": .*\"in_J\": $digits, \"loss_J\": $digits, .*\"roof\": .*\"out_J\": $digits, .*\"unused_J\": $digits.*/\
\\2 \\3 \\1 \\4 \\5/" "$work/output")" = "0||$2"
}

# The table for a spreadsheet.
csv_suite() {
    local stick=examples/roof.stick
    call run "$stick" "$work/roof.result"
    check 0 'step,unit,request_W,delivered_kW,vars,stored_J,loss_J,measure_W,fleet_W,net_W
0,0,900,0.900,0,175749,21750,900,900,0
1,0,900,0.899,0,100074,21735,missing,899,
2,0,900,-0.012,0,100074,720,missing,-12,' '' table --csv "$work/giving" "$work/giving.result"
    call table --csv "$stick" "$work/roof.result"
    good test "$status|$error|$(sed -n '1,2p; 5p' "$work/output")" = \
        '0||step,unit,request_W,delivered_kW,vars,stored_J,loss_J,on,DC_W,measure_W,fleet_W,net_W
0,0,0,-0.310,0,162000000,279000,,,16190,-583,16773
0,inverter 0,,0.000,0,,,0,0,16190,-583,16773'
    call run examples/dairy.stick "$work/dairy.result"
    call table --csv examples/dairy.stick "$work/dairy.result"
    good like "$status|$error|${output%%$'\n'*}" '0||*,loss_J,on,DC_W,measure_mA,fleet_W,net_W'
    good test "$(sed -n 2p "$work/output")" = '0,0,0,-0.125,3000,1404000000,450000,,,29600,-403,'
    # Powers that lie midway between two watts, and each choice of a phase.
    local choice measure
    while read -r choice measure; do
        bytes "$fleet_1 $full_unit $(settings 1 0 0)" 04 0018 3FB0000000000000 BFC8000000000000 4059000000000000 \
            "$(end 1)" >"$work/phases"
        patch "$work/phases" 75 "0$choice"
        call run "$work/phases" "$work/phases.result"
        call table "$work/phases" "$work/phases.result"
        good test "$status|$error|$(tail -n 1 "$work/output" | cut -f 8)" = "0||$measure"
        read_by figures "$work/phases" "$work"
    done <<END
0 99874
1 62
2 -188
3 100000
4 100000
5 -188
END
    rm "$work/phases" "$work/phases.result"
}
