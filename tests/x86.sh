# To be sourced, at the repository's root: C for x86-64 on either kind of machine, as the archive is for x86-64 alone.
#   want COMMAND:PACKAGE ..   what is missing is installed from Debian's packages
#   want_cc                   the same for a C compiler for x86-64, which is then $x86_cc, and for an emulator where one is needed
#   $x86_run PROGRAM          runs a statically linked program: as it is, or by Debian's emulator (Rattle's kit has none, and runs on x86-64 alone: an archive
#                             that was built there has to be brought along)
# shellcheck shell=sh disable=SC2034
if [ "$(uname -m)" = x86_64 ]; then
    x86_cc=cc
    x86_packages="gcc libc6-dev"
    x86_run=
else
    x86_cc=x86_64-linux-gnu-gcc
    x86_packages="gcc-x86-64-linux-gnu libc6-dev-amd64-cross"
    x86_run=qemu-x86_64
fi

install_packages() {
    echo "$0: installing $* from Debian's packages" >&2
    as=
    [ "$(id -u)" = 0 ] || as=sudo
    if ! { $as apt-get install -y "$@" || { $as apt-get update && $as apt-get install -y "$@"; }; } >&2; then
        echo "$0: NOT RUN: the packages $* could not be had" >&2
        exit 2
    fi
}

want() {
    for tool in "$@"; do
        command -v "${tool%%:*}" >/dev/null || install_packages "${tool##*:}"
    done
}

want_cc() {
    # shellcheck disable=SC2086
    echo '#include <stdio.h>' | "$x86_cc" -E - >/dev/null 2>&1 || install_packages $x86_packages
    [ -z "$x86_run" ] || want "$x86_run:qemu-user"
}
