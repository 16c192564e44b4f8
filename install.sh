#!/bin/bash
# Install mercator: the program, its man page, completions for bash and zsh, and the Python clients.
#
# Usage: install.sh [--program FILE] [PREFIX]
#        install.sh [--program FILE] --deb [FOLDER]
#
#   PREFIX          Install below this folder [default: ~/.local]
#   --program FILE  Install this program instead of building one
#   --deb           Make a Debian package instead, in FOLDER [default: .], and print its name
#
# Without --program, the program is proved and built, unless that was done before. This needs the Rattle toolchain,
# and takes 200 CPU minutes.
# Everything else needs Python 3.9 or later, and --deb also dpkg-dev and binutils. The maintainer of the package is
# taken from DEBFULLNAME and DEBEMAIL, or from git's user.
# Exit status: 0 success, 1 error, 3 bad command line.
set -euo pipefail

help() {
    sed -n '2,/^[^#]/s/^# \{0,1\}//p' "$0"
}

# Prints the usage and, if there is one, a message, and exits with status 3.
usage() {
    sed -n 's/^# Usage: /usage: /p; s/^#        install.sh/       install.sh/p' "$0" >&2
    [ $# -eq 0 ] || echo "install.sh: $1" >&2
    exit 3
}

fail() {
    echo "install.sh: $1" >&2
    exit 1
}

# require COMMAND PACKAGE: exits if a command that --deb needs is missing.
require() {
    command -v "$1" > /dev/null || fail "--deb needs the command $1, which is in Debian's package $2"
}

built() {
    command -v rt > /dev/null || fail "the Rattle toolchain is required, and its command rt is not in PATH"
    echo "install.sh: proving and building the program, unless that was done; it takes 200 CPU minutes .." >&2
    (cd "$here/crates/mercator_cli" && rt run -- --help) > "$scratch/told" 2>&1 || { cat "$scratch/told" >&2; exit 1; }
    echo "$here/crates/mercator_cli/out/mercator_cli"
}

# place PROGRAM ROOT PYTHON ZSH: installs all files below ROOT, the clients in its folder PYTHON and the completions for zsh in
# share/zsh/ZSH.
place() {
    install -D -m 755 "$1" "$2/bin/mercator"
    install -D -m 644 "$here/docs/mercator.1" "$2/share/man/man1/mercator.1"
    install -D -m 644 "$here/completions/mercator.bash" "$2/share/bash-completion/completions/mercator"
    install -D -m 644 "$here/completions/_mercator" "$2/share/zsh/$4/_mercator"
    python3 "$here/clients/python/make_wheel.py" "$2/$3"
}

# Prints the folder below PREFIX in which this machine's Python looks for modules.
python_folder() {
    python3 -c 'import sysconfig; print(sysconfig.get_path("purelib", "posix_prefix", {"base": ""}).lstrip("/"))'
}

install_below() {
    local folder
    folder=$(python_folder)
    place "$1" "$2" "$folder" site-functions
    echo "installed below $2: bin/mercator, share/man/man1/mercator.1, completions, and the Python clients in $folder"
    [[ :$PATH: == *:$2/bin:* ]] || echo "to run the program, set PATH=$2/bin:\$PATH"
    (cd / && python3 -c 'import mercator_frontier') 2> /dev/null || echo "to use the clients, set PYTHONPATH=$2/$folder"
}

version() {
    sed -n 's/^## \([0-9][0-9.]*\).*/\1/p' "$here/CHANGELOG.md" | head -n 1
}

maintainer() {
    local name email
    name=${DEBFULLNAME:-$(git -C "$here" config user.name || id -un)}
    email=${DEBEMAIL:-$(git -C "$here" config user.email || echo "$(id -un)@$(hostname)")}
    echo "$name <$email>"
}

# Prints the packages of the libraries that the program is linked with.
libraries() {
    mkdir -p "$scratch/shlibs/debian"
    printf 'Source: mercator\n\nPackage: mercator\nArchitecture: any\n' > "$scratch/shlibs/debian/control"
    (cd "$scratch/shlibs" && dpkg-shlibdeps -O "$1" 2> /dev/null) | sed -n 's/^shlibs:Depends=\(..*\)/\1, /p'
}

control() {
    cat << END
Package: mercator
Version: $(version)
Architecture: $(dpkg --print-architecture)
Maintainer: $(maintainer)
Installed-Size: $(du -sk --apparent-size "$1/usr" | cut -f 1)
Depends: $(libraries "$1/usr/bin/mercator")python3 (>= 3.9)
Suggests: python3-redis, python3-scrapy
Section: web
Priority: optional
Description: link checker for folders of HTML pages, and URL frontier for crawlers
 mercator check finds broken links in a folder of HTML pages, and prints the
 file, line and column of each. It reads the files, and never uses the
 network.
 .
 mercator crawl crawls a saved web, which is a text file of pages and their
 links. The report is the same, byte for byte, for any number of threads.
 .
 mercator serve is a URL frontier for crawlers in any language, with clients
 for Python. It gives out each URL once, and the URLs of a host one at a
 time.
 .
 The code of the program is checked by a prover.
END
}

copyright() {
    cat << END
mercator, its man page and its clients are licensed under either MIT or
Apache-2.0, at your option. On Debian systems, the text of Apache-2.0 is in
/usr/share/common-licenses/Apache-2.0.

END
    cat "$here/LICENSE-MIT"
}

# Prints the items of the newest section of CHANGELOG.md as a Debian changelog, without Markdown. Each heading is in brackets.
changes() {
    local line
    printf 'mercator (%s) unstable; urgency=medium\n' "$(version)"
    sed -n '/^## /,$p' "$here/CHANGELOG.md" | sed '1d; /^## /,$d; s/\*\*//g; s/`//g; s/\[\([^]]*\)\]([^)]*)/\1/g' | while IFS= read -r line; do
        case $line in
        '### '*) printf '\n  [ %s ]\n' "${line#\#\#\# }" ;;
        '- '*) fold -s -w 74 <<< "${line#- }" | sed '1s/^/  * /; 2,$s/^/    /; s/ *$//' ;;
        esac
    done
    printf '\n -- %s  %s\n' "$(maintainer)" "$(date -R -u -d "@$SOURCE_DATE_EPOCH")"
}

# script NAME COMMAND: makes a maintainer script of the package that runs COMMAND on the bytecode of the Python modules.
script() {
    printf '#!/bin/sh\nset -e\nif command -v %s > /dev/null; then\n    %s -p mercator\nfi\n' "$2" "$2" > "$root/DEBIAN/$1"
    chmod 755 "$root/DEBIAN/$1"
}

make_package() {
    local root=$scratch/mercator name
    name=mercator_$(version)_$(dpkg --print-architecture).deb
    SOURCE_DATE_EPOCH=${SOURCE_DATE_EPOCH:-$(git -C "$here" log -1 --format=%ct 2> /dev/null || date +%s)}
    export SOURCE_DATE_EPOCH
    umask 022
    place "$1" "$root/usr" lib/python3/dist-packages vendor-completions
    strip "$root/usr/bin/mercator"
    gzip -9n "$root/usr/share/man/man1/mercator.1"
    mkdir -p "$root/usr/share/doc/mercator" "$root/DEBIAN"
    copyright > "$root/usr/share/doc/mercator/copyright"
    changes | gzip -9n > "$root/usr/share/doc/mercator/changelog.gz"
    control "$root" > "$root/DEBIAN/control"
    (cd "$root" && find usr -type f -exec md5sum {} +) > "$root/DEBIAN/md5sums"
    script postinst py3compile
    script prerm py3clean
    dpkg-deb --root-owner-group --build "$root" "$2/$name" > "$scratch/told"
    echo "$2/$name"
}

here=$(cd "$(dirname "$0")" && pwd)
program='' deb=''
while [[ ${1:-} == -* ]]; do
    case $1 in
    --program)
        [ -n "${2:-}" ] || usage "--program needs the path of a program"
        if [ ! -f "$2" ] || [ ! -x "$2" ]; then usage "$2 is not an executable file"; fi
        program=$(realpath "$2")
        shift 2
        ;;
    --deb) deb=1; shift ;;
    -h | --help) help; exit ;;
    *) usage "unknown option $1" ;;
    esac
done
[ $# -le 1 ] || usage "unexpected argument $2"
# An empty argument is probably a variable that is not set.
if [ $# -eq 1 ] && [ -z "$1" ]; then usage "the folder is an empty string"; fi
if [ -n "$deb" ]; then
    require dpkg-deb dpkg
    require dpkg-shlibdeps dpkg-dev
    require strip binutils
fi
scratch=$(mktemp -d)
trap 'rm -rf "$scratch"' EXIT
program=${program:-$(built)}
if [ -n "$deb" ]; then
    make_package "$program" "${1:-.}"
else
    prefix=$(realpath -m "${1:-$HOME/.local}")
    install_below "$program" "$prefix"
fi
