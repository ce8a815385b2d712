# For bash scripts to source: compiles and runs programs of x86-64, which is what the library is compiled for, on any machine.
#
#     x86_cc WORD..              the C compiler
#     x86_cxx WORD..             the C++ compiler
#     x86_run PROGRAM WORD..     runs a program that they have linked
#     x86_run_in_stack BYTES PROGRAM WORD..
#     x86_emulated               whether these are not the machine's own
#
# On x86-64 they are. Elsewhere they are Debian's cross compilers and its emulator (qemu-user), which are installed where they are missing,
# and programs are linked statically, so that no library of another machine is looked for. With X86_64=emulated the emulator is used on
# x86-64 too, so that this way can be tried there (the cross compiler is then the machine's own, under its full name).

x86_emulated() { [ "$(uname -m)" != x86_64 ] || [ "${X86_64:-}" = emulated ]; }

if x86_emulated; then
    if ! { command -v x86_64-linux-gnu-gcc && command -v x86_64-linux-gnu-g++ && command -v qemu-x86_64; } > /dev/null; then
        echo "installing Debian's cross compilers for x86-64 and qemu-user" >&2
        apt-get update > /dev/null &&
            apt-get install -y --no-install-recommends qemu-user g++-x86-64-linux-gnu gcc-x86-64-linux-gnu > /dev/null || {
            echo "they can't be had: install qemu-user, gcc-x86-64-linux-gnu and g++-x86-64-linux-gnu" >&2
            exit 1
        }
    fi
    x86_cc() { x86_64-linux-gnu-gcc -static "$@"; }
    x86_cxx() { x86_64-linux-gnu-g++ -static "$@"; }
    x86_run() { env -i qemu-x86_64 "$@"; }
    x86_run_in_stack() { env -i qemu-x86_64 -s "$1" "${@:2}"; }
else
    x86_cc() { cc "$@"; }
    x86_cxx() { c++ "$@"; }
    x86_run() { "$@"; }
    x86_run_in_stack() { (ulimit -s $(($1 / 1024)) && env -i "${@:2}"); }
fi
