# Sourced by the scripts of this repository: how this machine makes and runs programs for x86-64, for which the library and the programs are built.
# The kit runs on x86-64 alone. A C program could be built on another processor by a cross compiler (Debian's gcc-x86-64-linux-gnu) and run under an emulator
# (Debian's qemu-user), over a library that was made on x86-64; that was not tried with today's kit.
if [ "$(uname -m)" = x86_64 ]; then
    cc=${CC:-cc}
    emulator=
else
    cc=${CC:-x86_64-linux-gnu-gcc}
    emulator='qemu-x86_64 -L /usr/x86_64-linux-gnu'
fi
