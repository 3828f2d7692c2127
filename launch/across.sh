# How Rust programs for x86-64 are built and run on another machine, with the packages that .ci/host-tests installs there. To be
# sourced.

# Debian's own compiler: another Rust may be first on the PATH, without x86-64.
PATH=/usr/bin:$PATH
export PATH RUSTC=/usr/bin/rustc
export CARGO_TARGET_X86_64_UNKNOWN_LINUX_GNU_LINKER=x86_64-linux-gnu-gcc
export CARGO_TARGET_X86_64_UNKNOWN_LINUX_GNU_RUNNER=qemu-x86_64
# Linked statically, because the emulator aborts Debian's dynamically linked programs.
export CARGO_TARGET_X86_64_UNKNOWN_LINUX_GNU_RUSTFLAGS="-C target-feature=+crt-static"

# Is all of it there: the linker, the emulator, and Rust's library for x86-64?
can_link_across() {
    command -v x86_64-linux-gnu-gcc >/dev/null && command -v qemu-x86_64 >/dev/null &&
        [ -d "$("$RUSTC" --print target-libdir --target x86_64-unknown-linux-gnu 2>/dev/null)" ]
}
