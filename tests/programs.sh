# The programs under test, for the scripts of tests/ that are of the shell: $program is mdbcheck, $import is mdbimport, $page is
# the page, and $top is the top of the repository. MDBCHECK, MDBIMPORT and MDBPAGE of the environment name them. Else they are
# those that were built last in crates/ and out/ (by tests/run, or by rt run in crates/mdbcheck and crates/mdbimport, and by
# page/build), and where none was built, those of release/. tests/programs.py says the same for scripts that are Python. Read it
# in before the working folder changes.
top=$(cd "$(dirname "${BASH_SOURCE[0]}")/.." && pwd)

# The path of a program, of which the environment may have given one.
program_of() {
    if [ -n "$2" ]; then
        realpath -m "$2"
    elif [ -x "$top/crates/$1/out/$1" ]; then
        echo "$top/crates/$1/out/$1"
    else
        echo "$top/release/$1"
    fi
}

page=$top/out/mdbcheck.html
[ -e "$page" ] || page=$top/release/mdbcheck.html
page=${MDBPAGE:-$page}
program=$(program_of mdbcheck "${MDBCHECK-}")
import=$(program_of mdbimport "${MDBIMPORT-}")

# Ends with a script's own `fail` unless a program can be run.
want_program() {
    [ -x "$1" ] || fail "there is no $1: build it by tests/run, or name another with MDBCHECK or MDBIMPORT"
}
