# shellcheck shell=bash
# What .ci/run and .ci/floor-of share, and the gate's own checks, one function each: a check prints what is wrong and has status 1
# then. Sourced by bash.

# What may reach a run from outside: where tools and reference are, how git is set up, whether edits are tried at their places. Anything
# else could lead it elsewhere (another folder's archives, another kit, flags for a compiler, a runner for the tests), so it goes.
clean_environment() {
    local name
    for name in $(compgen -e); do
        case $name in
        PATH | HOME | USER | LOGNAME | SHELL | TERM | TMPDIR | LANG | LC_* | TZ | PWD | OLDPWD | SHLVL | _) ;;
        CI | ZEN_REFERENCE | CARGO_HOME | RUSTUP_* | GIT_CONFIG_*) ;;
        *) unset -v "$name" 2>/dev/null || : ;; # bash's own can't be
        esac
    done
}

# Goes to the top of the repository; sets `root`, `reference`, `host`, and what cargo is to know. Takes the path of a script in .ci.
settle() {
    local top
    clean_environment
    top=$(dirname -- "$1")/..
    reference=$(realpath -m -- "${ZEN_REFERENCE:-$top/../shared/docs/src}") && cd -- "$top" || return 1
    root=$PWD
    host=(--manifest-path host/Cargo.toml)
    export ZEN_REFERENCE=$reference
    # target/ is what a run makes: cargo's folder, and the archives, which each run writes anew.
    export CARGO_TARGET_DIR=$root/target/cargo CARGO_NET_OFFLINE=true CARGO_TERM_COLOR=never
}

# ---- The tree

# What differs from the commit: changes; files that git does not know, whatever an ignore file says (only the top target/ is ours to
# fill, and each crate's out/ is rt's); files that git was told not to look at.
tree() {
    git status --porcelain --untracked-files=no &&
        git ls-files --others --exclude=/target/ --exclude='/crates/*/out/' | sed 's/^/not in git: /' &&
        git ls-files -v | sed -n 's/^[a-zS] /hidden from git: /p'
}

tree_is_the_commit() {
    local wrong
    wrong=$(tree) || return 1
    if [ -n "$wrong" ]; then printf 'the tree is not the commit:\n%s\n' "$wrong" && return 1; fi
}

# ---- The C interface

# A line for each exported function: file, name, kinds of its clauses, its text up to the body.
exports() {
    find crates/*/src -name '*.rt' -print0 | LC_ALL=C sort -z | xargs -0 -r awk -f .ci/exports.awk
}

# The archives there are: NAME for a crate NAME that has exported functions, and its crate NAME_c, which says what C sees of it.
archives() { exports | sed 's|^crates/||; s|/.*||; s|_c$||' | LC_ALL=C sort -u; }

# Proves a crate NAME_c and copies its archive to where the Rust side and C take it from.
archive() { # NAME
    mkdir -p target/staticlib && rm -f -- "target/staticlib/lib$1.a" &&
        env -C "crates/$1_c" rt lib && cp -- "crates/$1_c/out/lib$1_c.a" "target/staticlib/lib$1.a"
}

# Whoever calls from C or Rust proves nothing: a `requires` would be a promise that nobody checks, and without an `ensures` the
# function may do anything.
exports_are_stated() {
    local file name kinds text status=0
    while IFS=$'\t' read -r file name kinds text; do
        if [[ ! $kinds =~ ^ensures(\ ensures)*$ ]]; then
            printf '%s: exported %s has the clauses: %s (it wants `ensures` and no other): %s\n' "$file" "$name" "$kinds" "$text"
            status=1
        fi
    done < <(exports)
    return $status
}

# ---- Must-fail edits

# The mistakes of an edit that holds several, as lines 'NAME AT': `mistake: NAME, refused in AT` stands before each.
mistakes_of() { sed -n 's/^mistake: \([a-z0-9_]*\), refused in \(.*\)$/\1 \2/p' -- "$1"; }

# Each mistake of an edit has a place, and no two of an edit have one.
mistakes_are_placed() {
    local edit status=0
    for edit in crates/*/must-fail/*.edit; do
        [ -e "$edit" ] || continue
        if [ "$(grep -c '^mistake' -- "$edit")" -ne "$(mistakes_of "$edit" | cut -d ' ' -f 2- | sort -u | wc -l)" ]; then
            printf '%s: two mistakes have one place, or a mistake none\n' "$edit" && status=1
        fi
    done
    return $status
}

# Each edit is refused by a proof that fails, not by the parser or for a name that is not there, and each of its mistakes at its place.
edits_reach_the_prover() { .ci/edits; }

# ---- The Rust side

# The folders of the workspace's members, and those that have a Cargo.toml.
members() {
    cargo metadata "${host[@]}" --locked --no-deps --format-version 1 | grep -o '"manifest_path":"[^"]*"' |
        sed "s|^\"manifest_path\":\"$root/||; s|/Cargo.toml\"\$||" | LC_ALL=C sort
}
rust_folders() {
    find . -path ./target -prune -o -path ./.git -prune -o -name Cargo.toml -print | sed 's|^\./||; s|/Cargo.toml$||' |
        grep -vx host | LC_ALL=C sort
}

members_are_folders() {
    if ! diff <(members) <(rust_folders); then echo 'workspace members (<) and folders with a Cargo.toml (>) differ' && return 1; fi
}

# ---- The floor

# Compares .ci/floor with what is there; --without-tests leaves the Rust tests out on both sides.
floor_is_kept() {
    local asked found
    if [ $# -eq 0 ]; then asked=$(cat .ci/floor); else asked=$(grep -vE '^(test|ignored) ' .ci/floor); fi
    if ! found=$(.ci/floor-of "$@") ||
        ! diff -u --label .ci/floor --label 'what was found' <(printf '%s\n' "$asked") <(printf '%s\n' "$found"); then
        echo 'where the change is meant: .ci/floor-of > .ci/floor' && return 1
    fi
}
