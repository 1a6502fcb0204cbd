#!/usr/bin/env bash
# Proofs and tests from nothing, by `rt ci`; then the edits of `must-fail/` are tried, whole runs of the programs are made, each growth
# of them is refused in turn, crowded inputs are bounded, and the tests of the Rust package, of the calls for C and of the package for Python run, where cargo and gcc
# are, and wrong calls are planted there. The last line is `N passed, M failed`.
#
#     bash tools/gate.sh                  the whole gate
#     bash tools/gate.sh --since COMMIT   every proof and test, and of the edits only those of crates that changed since COMMIT
#
# Where a stage ends, its line begins with the seconds since the start. All runs on a copy of the tree without `must-fail/`: `rt ci`
# would check a crate once for each of its edits, and `tools/must_fail.py` tries them together, in half of the time.
set -euo pipefail
cd "$(dirname "$0")/.."
UPSTREAM=${UPSTREAM:-$PWD/bench/upstream/out/target/release/upstream_arrange}
export UPSTREAM
room=$(mktemp -d)
trap 'rm -rf "$room"' EXIT

# Copies the tree, and its edits apart from it.
copy_tree() {
    mkdir "$room/copy" "$room/edits"
    tar -c --exclude=./.git --exclude='./crates/*/out' --exclude='./bench/*/out' --exclude=./rust/target --exclude=./c/out . | tar -x -C "$room/copy"
    for folder in "$room"/copy/crates/*/must-fail; do
        mv "$folder" "$room/edits/$(basename "$(dirname "$folder")")"
    done
}

# Drops the edits of crates in which nothing changed since the commit $1.
drop_edits_before() {
    local changed folder
    changed=$(git diff --name-only "$1" -- crates; git ls-files --others --exclude-standard -- crates)
    for folder in "$room"/edits/*; do
        grep -q "^crates/$(basename "$folder")/" <<<"$changed" || rm -rf "$folder"
    done
}

# Makes the archive of the exports as soon as their crate is proved. Then compares what is shipped, which `rust/`, `c/` and `python/` take,
# with what the proved sources give: the library and the program, byte for byte.
make_archive() {
    until [[ -f $room/proved/overlay_c && -f $room/proved/polygons ]]; do sleep 2; done
    python3 tools/archive.py --beside-ci && python3 tools/dist.py --check
}

# Runs the tests of the Rust package over what is shipped, and its table over the archive; one of them compares its texts with those of
# `arrange`.
test_package() {
    export ARRANGE="$PWD/crates/arrange/out/arrange"
    (cd rust && FADRINZO_LIB=../crates/overlay_c/out/libfadrinzo_exports.a cargo test --release --offline --quiet --test table --test build) || return
    (cd rust && cargo test --release --offline --quiet && cargo test --release --offline --quiet --test program package_and_program_agree -- --ignored) \
        && python3 tools/little_memory.py
}

# Compares 100,000 runs of the package with upstream's files, where these are at hand: `bench/upstream/build.py` compiles them.
compare_with_upstream() {
    if ! [[ -x $UPSTREAM ]]; then
        printf '%5d s: runs were not compared with upstream: its files are not at hand\n' "$SECONDS"
    elif (cd rust && cargo test --release --offline --quiet --test program package_and_upstream_agree -- --ignored); then
        printf '%5d s: runs agree with upstream\n' "$SECONDS"
        passed=$((passed + 1))
    else
        printf '%5d s: runs DIFFER from upstream\n' "$SECONDS"
        failed=$((failed + 1)) status=1
    fi
}

# Compares the relations of 100,000 random pairs of valid polygons with those that GEOS finds, where it is installed.
compare_with_geos() {
    local said state=0
    said=$(python3 bench/peers/relations.py check 100000) || state=$?
    printf '%5d s: %s\n' "$SECONDS" "${said:-relations were NOT compared with GEOS}"
    if ((state == 0)); then
        passed=$((passed + 1))
    elif ((state != 3)); then
        printf '%5d s: relations DIFFER from those of GEOS\n' "$SECONDS"
        failed=$((failed + 1)) status=1
    fi
}

# Builds the checked calls for C over what is shipped, runs the example and the table under sanitizers, where the compiler has them, and
# the tests of the package for Python over the shared library; then all that is installed, in an empty environment.
test_calls() {
    make --no-print-directory -C c OUT="$room/c" all test >"$room/calls" 2>&1 || { cat "$room/calls"; return 1; }
    python3 tools/try_packages.py || return 1
    FADRINZO_SO="$room/c/libfadrinzo.so" PYTHONPATH=python python3 -B -m unittest discover -s python/tests >"$room/calls" 2>&1 \
        || { cat "$room/calls"; return 1; }
    test_dask
}

# Runs the example over Dask by the Python of the system, where the first one in PATH, whose run has left it out, has no Dask.
test_dask() {
    local has_dask='import importlib.util, sys; sys.exit(importlib.util.find_spec("distributed") is None)'
    python3 -B -c "$has_dask" && return
    if ! /usr/bin/python3 -B -c "$has_dask"; then
        printf '%5d s: the example over Dask was not run: it is not installed\n' "$SECONDS"
        return
    fi
    FADRINZO_SO="$room/c/libfadrinzo.so" PYTHONPATH=python /usr/bin/python3 -B -m unittest discover -s python/tests -p test_dask.py \
        >"$room/calls" 2>&1 || { cat "$room/calls"; return 1; }
}

# Makes the page of that code and compares it with the shared library, in node and in Chromium, where these are.
test_page() {
    python3 page/make.py --library "$room/c/libfadrinzo.so" >"$room/page" 2>&1 || { cat "$room/page"; return 1; }
    cat "$room/page"
}

copy_tree
if [[ ${1:-} == --since && $# == 2 ]]; then
    drop_edits_before "$2"
elif (($#)); then
    echo "usage: bash tools/gate.sh [--since COMMIT]" >&2
    exit 2
fi

# Each check gets one job, and as many run side by side as there are processors: a further job of a check loads the libraries
# again, and takes two thirds more of processor time.
RT_JOBS=${RT_JOBS:-$(PYTHONPATH=tools python3 -B -c 'import run; print(run.processors())')}
export RT_JOBS

python3 tools/check_docs.py
python3 tools/unused_lemmas.py
python3 tools/c_header.py --check
python3 tools/dist.py --stale
cd "$room/copy"
lines="$room/lines"
status=0
# Edits are tried while libraries above are proved, by what these leave of the processors; a file in `proved` says that a library is.
mkdir "$room/proved"
nice -n 19 python3 tools/must_fail.py --edits "$room/edits" --proved "$room/proved" >"$room/tried" 2>&1 &
trying=$!
make_archive >"$room/archive" 2>&1 &
archiving=$!
trap 'kill "$trying" "$archiving" 2>/dev/null || true; rm -rf "$room"' EXIT
python3 tools/ci.py | while IFS= read -r line; do
    printf '%s\n' "$line" >>"$lines"
    # where another run proves a crate, the line that says so has no end, and the next follows in it
    [[ $line =~ rt:\ ([a-z_0-9]+)\ (proved$|is\ kept:) ]] && touch "$room/proved/${BASH_REMATCH[1]}"
    case $line in
    "rt: "*" proved" | "rt: "*" NOT PROVED") printf '%5d s: %s\n' "$SECONDS" "$line" ;;
    *) printf '%s\n' "$line" ;;
    esac
done || status=$?
verdict=$(tail -n 1 "$lines")

# The last line is that of `rt ci`, with a test more for each edit, for the runs, for the growths, and for the package.
if [[ $verdict =~ ^([0-9]+)\ passed,\ ([0-9]+)\ failed(.*)$ ]]; then
    passed=${BASH_REMATCH[1]} failed=${BASH_REMATCH[2]} rest=${BASH_REMATCH[3]}
    if ((status)); then
        printf '%5d s: edits, runs, growths and the package were not tried: an earlier step failed\n' "$SECONDS"
    else
        if python3 tools/program_tests.py; then
            printf '%5d s: runs of the programs end as they have to\n' "$SECONDS"
            passed=$((passed + 1))
        else
            printf '%5d s: runs of the programs DIFFER\n' "$SECONDS"
            failed=$((failed + 1)) status=1
        fi
        if python3 tools/refusals.py; then
            passed=$((passed + 1))
        else
            failed=$((failed + 1)) status=1
        fi
        if python3 tools/crowded_inputs.py; then
            passed=$((passed + 1))
        else
            printf '%5d s: crowded inputs take TOO MUCH\n' "$SECONDS"
            failed=$((failed + 1)) status=1
        fi
        if ! wait "$archiving"; then
            cat "$room/archive"
            printf '%5d s: the archive was NOT made, or rust/dist/ is NOT what the proved sources give\n' "$SECONDS"
            failed=$((failed + 1)) status=1
        elif ! command -v cargo >/dev/null; then
            printf '%5d s: the tests of rust/ were not run: there is no cargo\n' "$SECONDS"
        elif test_package; then
            printf '%5d s: the tests of rust/ passed\n' "$SECONDS"
            passed=$((passed + 1))
            compare_with_upstream
            compare_with_geos
        else
            printf '%5d s: the tests of rust/ FAILED\n' "$SECONDS"
            failed=$((failed + 1)) status=1
        fi
        if ! { command -v gcc && command -v make; } >/dev/null; then
            printf '%5d s: the tests of c/ and python/ were not run: there is no gcc or no make\n' "$SECONDS"
        elif ! [[ -f crates/overlay_c/out/libfadrinzo_exports.a ]]; then
            printf '%5d s: the tests of c/ and python/ were not run: there is no archive\n' "$SECONDS"
        elif test_calls; then
            printf '%5d s: the tests of c/ and python/ passed\n' "$SECONDS"
            passed=$((passed + 1))
        else
            printf '%5d s: the tests of c/ and python/ FAILED\n' "$SECONDS"
            failed=$((failed + 1)) status=1
        fi
        if ! [[ -f $room/c/libfadrinzo.so ]] || ! command -v node >/dev/null; then
            printf '%5d s: the page was not made: there is no shared library or no node\n' "$SECONDS"
        elif test_page; then
            printf '%5d s: the page overlays as the library does\n' "$SECONDS"
            passed=$((passed + 1))
        else
            printf '%5d s: the page DIFFERS\n' "$SECONDS"
            failed=$((failed + 1)) status=1
        fi
        if ! { command -v gcc && command -v make && [[ -f crates/overlay_c/out/libfadrinzo_exports.a ]]; } >/dev/null; then
            printf '%5d s: wrong calls were not tried: there is no gcc, no make or no archive\n' "$SECONDS"
        elif python3 tools/plant_calls.py; then
            printf '%5d s: wrong calls of c/, python/ and rust/ are refused\n' "$SECONDS"
            passed=$((passed + 1))
        else
            printf '%5d s: wrong calls PASS\n' "$SECONDS"
            failed=$((failed + 1)) status=1
        fi
        wait "$trying" || status=1
        cat "$room/tried"
        if [[ $(tail -n 1 "$room/tried") =~ ^([0-9]+)\ of\ ([0-9]+)\ edits\ refused$ ]]; then
            passed=$((passed + BASH_REMATCH[1])) failed=$((failed + BASH_REMATCH[2] - BASH_REMATCH[1]))
        else
            failed=$((failed + 1)) status=1
        fi
    fi
    # the second line of `times` is what ended children took: user and system
    times >"$lines"
    minutes=$(awk -F '[ms ]+' 'NR == 2 { printf "%d", $1 + $3 + ($2 + $4) / 60 }' "$lines")
    printf '%5d s: end, %d minutes of processor time\n' "$SECONDS" "$minutes"
    printf '%d passed, %d failed%s\n' "$passed" "$failed" "$rest"
fi
exit "$status"
