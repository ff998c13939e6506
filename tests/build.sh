# Sourced by tests/run, tests/bench and tests/fuzz in the repository's root: builds what tests and benchmarks are linked from, each library once per call.
mkdir -p target/tests
rust=(rustc --edition 2021 -O)

# The libraries of these Rattle crates. Says in `link` how to link them: after all Rust, since the tests' own crates call them.
libraries() {
    link=()
    local name
    for name in "$@"; do
        case " ${libraries_built-} " in
            *" $name "*) ;;
            *)
                command/library "$name" >target/tests/staticlib.log 2>&1 || { tail -n 20 target/tests/staticlib.log; return 1; }
                libraries_built+=" $name"
                ;;
        esac
        link+=(-C "link-arg=target/staticlib/lib$name.a")
    done
}

# The crate tests/common.
common() {
    [ -z "${common_is_built-}" ] || return 0
    "${rust[@]}" --crate-type rlib --crate-name common tests/common/lib.rs -o target/tests/libcommon.rlib
    common_is_built=1
}

# The crate tests/against, put beside the oracle libpatched.rlib of a folder. Says in `with_oracle` how to use both.
against() {
    common
    with_oracle=(--extern "oracle=$1/libpatched.rlib" --extern "against=$1/libagainst.rlib" -L dependency=target/tests -L "dependency=$1")
    [ "${against_is_built-}" != "$1" ] || return 0
    "${rust[@]}" --crate-type rlib --crate-name against tests/against/lib.rs -o "$1/libagainst.rlib" \
        --extern common=target/tests/libcommon.rlib --extern "oracle=$1/libpatched.rlib"
    against_is_built=$1
}

# A program that uses tests/common: its main file, where it is put, and what else rustc is told.
program() {
    common
    "${rust[@]}" "$1" -o "$2" --extern common=target/tests/libcommon.rlib "${@:3}"
}

# The program that writes part files.
generator() {
    [ -z "${generator_is_built-}" ] || return 0
    mkdir -p target/tests/oracle
    program tests/oracle/generate.rs target/tests/oracle/generate
    generator_is_built=1
}
