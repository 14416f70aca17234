#!/usr/bin/env bash
# Tests of the sources, the gate, and then the tests of the built program. Each part ends with a line
# 'N passed, M failed', and the last line of all is their sum. A part without such a line counts as one that failed.
# At the end it says what was skipped, which parts took longest, and what failed.
set -u
cd "$(dirname "$0")/.." || exit 2
program=$PWD/crates/sdtool/out/sdtool
passed=0
failed=0
library=
watcher=
lanes=()
# No other program is tested.
export SDTOOL_PROGRAM=$program
# No lane writes into the tree, which others read. So Python keeps nothing beside the modules that it imports.
export PYTHONDONTWRITEBYTECODE=1
logs=$(mktemp -d) || exit 2
copy=$logs/tree
trap end EXIT

# Nothing goes on in the background after the tests, however they end.
end() {
    local job
    for job in $watcher $library "${lanes[@]}"; do
        kill -- "-$job" 2>/dev/null
    done
    end_rest
    wait
    rm -rf "$logs"
}

# Browsers, clusters and servers leave the group of their lane. All that a lane starts has the folder of this run in its
# surroundings.
end_rest() {
    local place
    for place in $(grep -lszxF "SDTOOL_TESTS=$logs" /proc/[0-9]*/environ); do
        place=${place#/proc/}
        kill -KILL "${place%/environ}" 2>/dev/null
    done
}

# Where this shell is killed, so that it cannot end its lanes, this ends them.
start_watcher() {
    set -m
    {
        while kill -0 $$; do
            sleep 1
        done
        # A lane whose part is ended here ends by itself.
        until end_rest && rm -rf "$logs" && sleep 1 && [[ ! -e $logs ]]; do
            sleep 1
        done
    } </dev/null >/dev/null 2>&1 &
    watcher=$!
    set +m
}

# Adds what a part printed, by its log, its status and its name. A library may write to standard error behind the line that
# counts, as the program ends.
add() {
    local before=$failed
    if [[ $(grep -aE '^[0-9]+ passed, [0-9]+ failed$' "$1" | tail -n 1) =~ ^([0-9]+)\ passed,\ ([0-9]+)\ failed$ ]]; then
        ((passed += BASH_REMATCH[1], failed += BASH_REMATCH[2]))
        (($2 == 0 || BASH_REMATCH[2] > 0 || (failed += 1)))
    else
        ((failed += 1))
    fi
    ((failed == before)) || note_failure "$3" <"$1"
}

# Counts what is wrong beside the parts.
fail() {
    echo "$1"
    ((failed += 1))
    note_failure "$1" </dev/null
}

# Keeps what failed, and the lines that say why.
note_failure() {
    echo "    $1"
    cat >"$logs/failing"
    grep -a '^FAIL' "$logs/failing" | head -n 20
    tail -n 8 "$logs/failing"
} >>"$logs/failures"

count() {
    echo "== $*"
    timed "$logs/part.time" "$@" 2>&1 | tee "$logs/part"
    add "$logs/part" "${PIPESTATUS[0]}" "$*"
    note_part "$logs/part" "$logs/part.time" "$*"
}

# Runs a command, and keeps its seconds by the clock and those of processors.
timed() {
    local TIMEFORMAT='%0R %0U %0S'
    { time "${@:2}" 2>&3; } 3>&2 2>"$1"
}

# Keeps how long a part took, and what it skipped for want of a tool.
note_part() {
    local clock user system
    read -r clock user system <"$2"
    echo "$clock $((user + system)) $3" >>"$logs/times"
    grep -ah 'skipped' "$1" >>"$logs/skipped"
}

# What was skipped, which parts took longest, and what failed. That comes last, where somebody who sees the end alone
# finds it.
show_notes() {
    if [[ -s $logs/skipped ]]; then
        echo "Skipped; CONTRIBUTING.md lists the packages:"
        sort -u "$logs/skipped" | sed -e 's/^ *//' -e 's/^/    /'
    fi
    echo "The longest parts, in seconds by the clock and of processors:"
    sort -rn "$logs/times" | head -n 10 | sed 's/^/    /'
    if [[ -s $logs/failures ]]; then
        echo "What failed:"
        cut -c 1-500 "$logs/failures"
    fi
}

# Runs the parts of a lane one after the other. What a part prints comes out whole when it has ended, with its time, since
# other lanes print too.
run_lane() {
    local folder=$1 part log number=0
    shift
    export SDTOOL_TESTS=$logs
    for part; do
        kill -0 $$ 2>/dev/null || return
        log=$folder/$((number += 1))
        # Each part is a test and its words.
        echo "$part" >"$log.name"
        timed "$log.time" tests/run $part >"$log" 2>&1
        echo $? >"$log.status"
        {
            flock 9
            note_part "$log" "$log.time" "$part"
            echo "== $part ($(cut -d ' ' -f 1 "$log.time") s)"
            cat "$log"
        } 9>"$logs/lock"
    done
}

# Starts a lane of parts beside the others. A group of processes of its own is what `end` stops.
start_lane() {
    local folder=$logs/lane${#lanes[@]}
    mkdir "$folder"
    set -m
    run_lane "$folder" "$@" </dev/null &
    lanes+=($!)
    set +m
    echo $# >"$folder/parts"
}

# Waits for all lanes, and adds their parts. A part that left no status counts as one that failed.
add_lanes() {
    local folder number
    wait "${lanes[@]}"
    lanes=()
    for folder in "$logs"/lane*; do
        for ((number = 1; number <= $(<"$folder/parts"); number += 1)); do
            if [[ -f $folder/$number.status ]]; then
                add "$folder/$number" "$(<"$folder/$number.status")" "$(<"$folder/$number.name")"
            else
                fail "a part of $(basename "$folder") left no status"
            fi
        done
    done
}

# What is newer than all that was built was written by a lane.
judge_tree() {
    local written
    [[ -e $logs/built ]] || return
    written=$(find . -path ./.git -prune -o -type f -newer "$logs/built" -print)
    if [[ $written ]]; then
        fail "a test wrote into the tree: ${written//$'\n'/ }"
    fi
}

# Builds the library, and all for other systems, in a copy of the tree, where the gate does not set aside what was proved. It
# has the work that `make run` kept.
start_library() {
    mkdir "$copy" &&
        tar --create --exclude=./.git --exclude=./out . | tar --extract --directory "$copy"
    SDTOOL_TESTS=$logs setsid nice "${MAKE:-make}" --no-print-directory --directory "$copy" library systems >"$logs/library" 2>&1 &
    library=$!
}

# Puts the library where its tests look. If its build was stopped, as for memory, it goes on alone.
take_library() {
    wait "$library"
    library=
    cat "$logs/library"
    "${MAKE:-make}" --no-print-directory --directory "$copy" library && mkdir -p out && cp -r "$copy/out/lib" out
}

# The same of what is built for other systems.
take_systems() {
    "${MAKE:-make}" --no-print-directory --directory "$copy" systems && cp -r "$copy/out/systems" out
}

# The page has a module inside that is built for WebAssembly. Where that is there, so has to be the page, but for its tool.
build_page() {
    if ! command -v esbuild >/dev/null; then
        echo "the page: skipped, there is no command esbuild (Debian: esbuild)" | tee -a "$logs/skipped"
    elif [[ -f out/systems/wasm/sdtool.wasm ]] && ! "${MAKE:-make}" --no-print-directory --assume-old=wasm page; then
        fail "the page is not built"
    fi
}

# Several lanes import the Python module. Its extension is built before them, and says why where it cannot be.
build_extension() {
    python3 python/build_wheel.py --extension
}

# No older program, library or extension is to be tested where the gate stops before it has built one.
start_watcher
rm -rf "$program" out/beside out/lib out/sdtool.html out/systems python/sdtool/_native.abi3.so
count tests/run sources/
# The gate keeps no work that the library could be built over, so its crates are proved once more. That takes the
# processors that the gate leaves idle.
start_library
count rt ci
count tests/run run_rows --reference
if "${MAKE:-make}" --no-print-directory program; then
    # Ten lanes, none much longer than the others. What starts a browser or another system's programs is in one, so that
    # no two of these wait for each other.
    start_lane compare
    start_lane run_rows "run_rows --one-byte" refused_allocations tables neighbours run_examples door_examples \
        completions system_calls memory device_faults
    if take_library; then
        take_systems
        build_page
        build_extension
        touch "$logs/built"
        start_lane c_library c_objects c_columns fault_places fault_words c_neighbours c_comparisons c_stacks c_reasons \
            c_origins c_edits c_texts c_install c_examples instructions bench_run
        start_lane python_calls python_objects python_plain columns python_lies python_wheels page_growth
        start_lane all_languages dotnet_requests dotnet_loading dotnet_package
        start_lane audit audit_sources audit_directory audit_reports audit_stopping audit_reasons audit_inherited \
            audit_package
        start_lane audit_forms hostile_lists audit_terminal audit_growth risk_rows abilities severities many_types \
            collector
        start_lane live_clients live_shares directory_source live_directory
        start_lane distributed distributed_faults distributed_scale audit_cluster rust go
        start_lane page page_commands page_kinds page_questions page_verdicts page_units "risk_rows --page" lowering systems
    else
        fail "the library is not built, so its tests have not run"
        start_lane page_units page_growth systems
    fi
    add_lanes
    judge_tree
else
    fail "the program is not built, so its tests have not run"
fi
show_notes
echo "$passed passed, $failed failed"
((failed == 0))
