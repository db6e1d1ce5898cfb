#!/bin/sh
# Puts a release into one archive, for machines without the Rattle kit, and its SHA-256 beside it; and makes the Debian
# package (tools/debian.py), where dpkg-deb is and the service can be built.
#
#   tools/release.sh [FOLDER]                           by default out/release
#   tools/release.sh --any PROGRAM LIBRARY [--service FILE] [FOLDER]
#                                                       of any built program, library (a folder of tools/library.py) and
#                                                       service; without a service there is no package
#
# The archive is jumbetai-VERSION-x86_64-linux.tar.xz. It has the program in bin, libjumbetai.a, jumbetai.h and
# the wheel for Python in library, the bindings, that for Python with libjumbetai.so in it, a man page and completions for bash, zsh and
# fish, README and the pages of docs that are for users (tools/archive_pages.py), LICENSE where there is one, the
# examples, the source of the service, SHA256SUMS of all files, and ABOUT, which says the version, the commit, the kit, and what the gate said last.
# Made twice of one commit, program, library and service both have the same bytes. The program wants Linux on x86-64 with the C library
# of GNU. Without --any it is refused where ./gate hasn't passed whole for this very commit and program; with it ABOUT
# says that no gate was asked.
top=$(CDPATH='' cd -- "$(dirname -- "$(readlink -f -- "$0")")/.." && pwd) || exit 1
fail() {
    echo "release: $1" >&2
    exit 1
}
if [ "$1" = --any ]; then
    [ $# -ge 3 ] || fail 'usage: tools/release.sh --any PROGRAM LIBRARY [--service FILE] [FOLDER]'
    program=$(readlink -f -- "$2") && library=$(readlink -f -- "$3") || exit 1
    line='none was asked'
    shift 3
    service=
    if [ "$1" = --service ]; then
        service=$(readlink -f -- "$2") || exit 1
        shift 2
    fi
    to=$(mkdir -p -- "${1:-$top/out/release}" && CDPATH='' cd -- "${1:-$top/out/release}" && pwd) || exit 1
    cd "$top" || exit 1
else
    to=$(mkdir -p -- "${1:-$top/out/release}" && CDPATH='' cd -- "${1:-$top/out/release}" && pwd) || exit 1
    cd "$top" || exit 1
    passed=out/gate/passed
    program=crates/site_cli/out/site_cli
    library=out/library
    [ -f "$passed" ] || fail 'the gate has not passed here: run ./gate'
    [ -z "$(git status --porcelain)" ] || fail 'there are changes that no commit has'
    { read -r seen && read -r sum && read -r line; } <"$passed"
    [ "$seen" = "$(git rev-parse HEAD)" ] || fail "the gate has passed for $seen, and this is $(git rev-parse HEAD)"
    [ "$(sha256sum "$program" | cut -d' ' -f1)" = "$sum" ] || fail "$program is not what the gate has seen"
    tools/library.py "$library" >/dev/null || fail 'the library is not built'
    service=$(tools/service.py --library "$library" --features tls,postgres out/service | tail -1)
    [ -x "$service" ] || service=
fi
version=$(tools/version.py --check) || fail 'the version is not the same wherever it stands'
commit=$(git rev-parse HEAD) || exit 1
name=jumbetai-$version-x86_64-linux
room=$(mktemp -d) || exit 1
trap 'rm -rf "$room"' EXIT
here=$room/$name
mkdir -p "$here/bin" "$here/library" || exit 1
cp -- "$program" "$here/bin/site" && cp -- "$library/libjumbetai.a" "$library/jumbetai.h" "$here/library/" || exit 1
licence=$(git ls-tree --name-only "$commit" LICENSE) || exit 1
git archive -o "$room/pages.tar" "$commit" README.md CHANGELOG.md SECURITY.md docs/GUIDE.md docs/OPERATIONS.md \
    docs/PRODUCERS.md docs/FORMATS.md docs/GUARANTEES.md docs/PERFORMANCE.md docs/GLOSSARY.md docs/SERVICE.md docs/SCALING.md docs/page.webp docs/page-narrow.webp examples bindings \
    service contrib tools/make_batch.py ${licence:+"$licence"} && tar -xf "$room/pages.tar" -C "$here" || exit 1
tools/archive_pages.py "$here" || fail 'a page speaks of what the archive has not'
# shellcheck disable=SC2015
tools/library.py --from "$library" --object "$here/bindings/python/jumbetai/libjumbetai.so" >/dev/null &&
    tools/library.py --from "$library" --wheel "$here/library" >/dev/null || fail 'the wheel is not made'
tools/completions.py --program "$here/bin/site" --all "$here/complete" || exit 1
chmod 755 "$here/bin/site" || exit 1
{
    echo "Jumbetai $version, for Linux on x86-64. README.md says what it is, bin/site --help what the program does;"
    echo 'library is for programs in C, Rust or Python: bindings says how. complete has a man page and completions.'
    echo "licence: ${licence:-none is chosen yet}"
    echo "commit: $commit"
    echo "proved and built with: $(rt version 2>/dev/null || echo 'a kit that is not here')"
    echo "the gate's last line: $line"
    echo 'whether these are its files: sha256sum -c SHA256SUMS'
} >"$here/ABOUT"
# shellcheck disable=SC2094
(cd "$here" && find . -type f ! -name SHA256SUMS -printf '%P\n' | LC_ALL=C sort | xargs -d '\n' sha256sum >SHA256SUMS) || exit 1
tar -C "$room" --format=gnu --sort=name --owner=0 --group=0 --numeric-owner --mode='u=rwX,go=rX' \
    --mtime="@$(git log -1 --format=%ct "$commit")" -cf "$room/made.tar" "$name" || exit 1
xz -9 -T1 <"$room/made.tar" >"$to/$name.tar.xz" || exit 1
(cd "$to" && sha256sum "$name.tar.xz" >"$name.tar.xz.sha256") || exit 1
echo "$to/$name.tar.xz"
if [ -n "$service" ] && command -v dpkg-deb >/dev/null; then
    tools/debian.py --program "$program" --service "$service" --library "$library" "$to" || fail 'the Debian package is not made'
else
    echo 'release: no Debian package is made: dpkg-deb or the service is not here' >&2
fi
