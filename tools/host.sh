# Sourced: how code for x86-64 is linked and run on this host. On x86-64 itself there is nothing to do. On Arm the cross compiler, the
# emulator, a C and a Rust library for x86-64 come from Debian's packages and are installed when they are missing.
host_is_arm=false
[ "$(uname -m)" = aarch64 ] && host_is_arm=true
if $host_is_arm; then
    if ! command -v x86_64-linux-gnu-gcc >/dev/null || ! command -v qemu-x86_64 >/dev/null || ! [ -x /usr/bin/cargo ] ||
        ! dpkg -s libc6:amd64 libstd-rust-dev:amd64 libc6-dev-amd64-cross >/dev/null 2>&1; then
        as_root=
        [ "$(id -u)" = 0 ] || as_root=sudo
        $as_root dpkg --add-architecture amd64
        $as_root apt-get update -q
        $as_root apt-get install -q -y --no-install-recommends gcc-x86-64-linux-gnu libc6-dev-amd64-cross qemu-user libc6:amd64 \
            rustc cargo libstd-rust-dev:amd64
    fi
    export CARGO_TARGET_X86_64_UNKNOWN_LINUX_GNU_LINKER=x86_64-linux-gnu-gcc
    # Programs find loader and C library where x86-64 has them. With the cross compiler's folder as a root the loader would be of
    # one version and the library of another, and every program would end at once.
    # The plain processor makes the C library clear memory by wide stores: by the string instruction that it takes on newer ones,
    # the emulator goes byte by byte, and a query in rooms would take two to four times as long.
    export AZEBIMORU_RUNNER="qemu-x86_64 -cpu qemu64"
    export CARGO_TARGET_X86_64_UNKNOWN_LINUX_GNU_RUNNER="$AZEBIMORU_RUNNER"
    export AZEBIMORU_EMULATED=1
    export RUSTC=/usr/bin/rustc
    CARGO=/usr/bin/cargo
    CARGO_TARGET="--target x86_64-unknown-linux-gnu"
    CC=x86_64-linux-gnu-gcc
    RUN="$AZEBIMORU_RUNNER"
    # Threads that wait for one another are what an emulator is most likely to get wrong.
    ONE_BY_ONE="-- --test-threads=1"
else
    CARGO=cargo
    CARGO_TARGET=
    CC=cc
    RUN=
    ONE_BY_ONE=
fi
