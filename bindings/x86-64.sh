# Sourced by ./draw, .ci/run and the scripts of bindings/, and by whoever links the library on an Arm machine. `rt lib` writes an
# archive for x86-64 alone: on another machine what links it is built by a cross compiler and run by an emulator, which .ci/install
# brings where apt-get does. Sets
#   cc, cxx     the compilers of C and C++
#   run         what a program is run by: nothing on x86-64
#   built       the folder below cargo's target folder in which a release build stands
if [[ $(uname -m) == x86_64 ]]; then
    cc=cc cxx=g++ run=() built=release
else
    x86=x86_64-unknown-linux-gnu
    cc=x86_64-linux-gnu-gcc cxx=x86_64-linux-gnu-g++ run=(qemu-x86_64) built=$x86/release
    # Debian's rustc has x86-64's standard library beside its own; the one that comes first on the path may not.
    if [[ ! -d $(rustc --print sysroot 2>/dev/null)/lib/rustlib/$x86 ]]; then
        PATH=/usr/bin:$PATH
    fi
    export PATH CARGO_BUILD_TARGET=$x86 CARGO_TARGET_X86_64_UNKNOWN_LINUX_GNU_LINKER=$cc
    export CARGO_TARGET_X86_64_UNKNOWN_LINUX_GNU_RUNNER=${run[*]}
fi
