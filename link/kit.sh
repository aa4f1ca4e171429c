# Sourced by the scripts that use the toolchain. Sets kit, its folder, and tools, its compiler and what that links; and what else they share.
# shellcheck shell=sh disable=SC2034,SC2154
if ! command -v rt >/dev/null; then
    echo "$0: there is no rt, the command of the Rattle toolchain, on the PATH" >&2
    exit 2
fi
if [ "$(uname -m)" != x86_64 ]; then
    echo "$0: the toolchain, and what it builds, is for x86-64; for this processor, $(uname -m), all of it is left out" >&2
    exit 2
fi
guide=$(rt doc </dev/null)
kit=${guide%/*}
tools=$kit/toolchain

# Proves and builds the program NAME of the repository at root, unless it is so already, and sets program to its path. What rt says goes to standard
# error. There is no rt that only builds: it also runs the program, here on an empty input, to which ours answer nothing.
build_program() { # NAME
    program=$root/crates/$1/out/$1
    (cd "$root/crates/$1" && rt run </dev/null) >&2
}

# Runs PROGRAM, and has a status for it. Our programs have none of their own to give: each can only say on standard error, in a line
# `NAME: answers could not be written`, that it failed, also where its reader is gone. The status is 1 where that line is there; else what the shell
# says of the program: 0, or 128 and the number of the signal that ended it. What it says on standard error is passed on once it has ended.
# Its input and output are the script's; either may be closed.
run_told() { # PROGRAM
    status=0
    (: 3<&0) 2>/dev/null || exec </dev/null # else some shells put their end of a pipe there, and the program would wait for itself
    if (: 3>&1) 2>/dev/null; then
        { said=$("$1" 2>&1 >&3 3>&-) || status=$?; } 3>&1
    else
        said=$("$1" 2>&1 >&-) || status=$?
    fi
    [ -z "$said" ] || printf '%s\n' "$said" >&2
    case $status:$said in 0:*"${1##*/}: answers could not be written"*) status=1 ;; esac
    return "$status"
}
