# What bench/run and bench/root share. For bash, sourced at the top of the repository.
# shellcheck shell=bash disable=SC2034

die() { echo "bench: $*" >&2; exit 2; }

# Where the kit's rt is, as the front finds it, on a machine on which programs run.
find_kit() {
    command -v python3 >/dev/null || die "python3 is missing"
    rt=$(python3 -m front.kit 2>&1) || die "${rt#tailfiddle: }"
}
