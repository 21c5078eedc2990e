# tools/kit.sh: the Rattle kit's compiler, linker, loader and C library, all for x86-64 on x86-64. It is sourced, by a script that has a
# `die`, which says why and ends. Those that compile run at the root.
# shellcheck shell=sh

# the kit is where rt stands
kit_rt=$(command -v rt) || die "rt, the Rattle kit's command, is not on the path"
kit_tools=$(dirname "$(dirname "$(readlink -f "$kit_rt")")")/toolchain
kit_lib=$kit_tools/lib
kit_loader=$kit_lib/ld-linux-x86-64.so.2
[ -f "$kit_loader" ] || die "the kit has no loader, $kit_loader"
kit_headers=''
kit_under=''

# The kit has no C headers: those of this machine's compiler serve.
kit_find_headers() {
    command -v gcc >/dev/null || apt-get install -y gcc libc6-dev >/dev/null || exit 2
    kit_headers=-nostdinc
    for kit_directory in $(gcc -E -Wp,-v -xc /dev/null 2>&1 | sed -n 's/^ //p'); do
        kit_headers="$kit_headers -isystem $kit_directory"
    done
}

# The compiler, with our header and with every warning an error.
kit_clang() { # WORDS...
    [ -n "$kit_headers" ] || kit_find_headers
    # shellcheck disable=SC2086 # words
    "$kit_tools/bin/clang" --target=x86_64-unknown-linux-gnu -Wall -Wextra -pedantic -Werror -Iinclude $kit_headers "$@"
}

# Compiles a file of C11.
kit_compile() { # SOURCE OBJECT [FLAGS...]
    kit_source=$1 kit_object=$2
    shift 2
    kit_clang -std=c11 -O2 -fPIE "$@" -c "$kit_source" -o "$kit_object"
}

# Links a program with the C library.
kit_link() { # PROGRAM [FLAGS...] OBJECTS... [ARCHIVES...]
    kit_program=$1
    shift
    "$kit_tools/bin/ld.lld" -pie -dynamic-linker /lib64/ld-linux-x86-64.so.2 -o "$kit_program" \
        "$kit_lib/Scrt1.o" "$kit_lib/crti.o" "$kit_lib/crtbeginS.o" "$@" \
        "$kit_lib/libc.so.6" "$kit_lib/libc_nonshared.a" "$kit_lib/libgcc.a" "$kit_lib/crtendS.o" "$kit_lib/crtn.o"
}

# A tool of Debian's binutils for x86-64 code.
kit_binutil() { # TOOL [WORDS...]
    kit_tool=x86_64-linux-gnu-$1
    shift
    command -v "$kit_tool" >/dev/null || apt-get install -y binutils-x86-64-linux-gnu >/dev/null || die "there is no $kit_tool"
    "$kit_tool" "$@"
}

# Runs a program in place of the shell, with the kit's loader and C library. Where kit_under is set it runs under that tool, as in
# kit_under='valgrind --tool=callgrind' kit_run PROGRAM
kit_exec() { # PROGRAM [WORDS...]
    # shellcheck disable=SC2086 # words
    exec $kit_under "$kit_loader" --library-path "$kit_lib" "$@"
}

# Prints the command that runs a program, a word to a line.
kit_words() { # PROGRAM [WORDS...]
    printf '%s\n' "$kit_loader" --library-path "$kit_lib" "$@"
}

# Runs a program, and goes on.
kit_run() { # PROGRAM [WORDS...]
    (kit_exec "$@")
}
