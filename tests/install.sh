#!/bin/bash
# Tests install.sh and the Python packages: pip installs the clients in a new virtual environment, without the network; install.sh
# installs everything below a folder; and the Debian package is installed in a root folder of its own and removed without a trace.
#
# Usage: tests/install.sh [--root FOLDER] [PROGRAM]
#
#   --root FOLDER  Install the package in this root folder, which `debootstrap --include=python3` made. If it is missing, it is made,
#                  which needs root and the network. Without --root, the package is made and, if lintian is installed, checked.
#   PROGRAM        Program to install [default: the built one]
#
# The last line is `N passed, M failed`.
set -uo pipefail
cd "$(dirname "$0")/.." || exit 1
root=
if [ "${1:-}" = --root ]; then
    root=$(realpath -m "$2")
    shift 2
fi
program=$(realpath "${1:-crates/mercator_cli/out/mercator_cli}")
scratch=$(mktemp -d)
trap 'rm -rf "$scratch"' EXIT
passed=0
failed=0

# expect NAME COMMAND..: runs a command that has to succeed.
expect() {
    local name=$1
    shift
    if "$@" > "$scratch/told" 2>&1; then
        passed=$((passed + 1))
    else
        failed=$((failed + 1))
        echo "$name: FAILED"
        tail -n 20 "$scratch/told"
    fi
}

# refused NAME MESSAGE ARGUMENT..: install.sh prints its usage and the message, exits with status 3, and installs nothing.
refused() {
    local name=$1 message=$2
    shift 2
    rm -rf "$scratch/home"
    mkdir "$scratch/home"
    expect "install.sh: $name" is_refused "$message" "$@"
}

is_refused() {
    local message=$1 tool=$PWD/install.sh status=0
    shift
    (cd "$scratch/home" && HOME=$scratch/home "$tool" --program "$program" "$@") > "$scratch/refused" 2>&1 || status=$?
    cat "$scratch/refused"
    [ "$status" -eq 3 ] && grep -q '^usage: install.sh' "$scratch/refused" && grep -qxF "install.sh: $message" "$scratch/refused" \
        && [ -z "$(find "$scratch/home" -mindepth 1)" ]
}

# The Python example in the README of the clients, and its output.
sed -n '/^```python$/,/^```$/{//!p}' clients/python/README.md > "$scratch/lines.py"
printf '%s\n' http://a.test/ http://a.test/b http://c.test/ > "$scratch/urls"

# lines_run FOLDER COMMAND..: runs the example in a new folder. It prints all URLs the first time, and none the second time.
lines_run() {
    local folder=$1
    shift
    mkdir "$folder"
    (cd "$folder" && "$@" | diff "$scratch/urls" - && "$@" | diff /dev/null -)
}

is_typed() {
    printf 'from mercator_frontier import Frontier\nreveal_type(Frontier().take(0))\n' > "$scratch/typed.py"
    (cd "$scratch" && mypy --python-executable "$1" typed.py) | grep 'note: Revealed type is "Union\[builtins.str, None\]"'
}

# install.sh, try.sh and README state the same CPU time to prove and build the program.
has_one_build_time() {
    local times
    times=$(cat install.sh try.sh <(grep prove README.md) | grep -oE '[0-9]+ CPU minutes|an hour and a (quarter|half)' \
        | sed 's/an hour and a quarter/75 CPU minutes/; s/an hour and a half/90 CPU minutes/' | sort -u)
    echo "$times"
    [ "$(wc -l <<< "$times")" -eq 1 ]
}

# Tests the help of install.sh and make_wheel.py, a bad command line, and that the time to build is the same in all texts.
texts() {
    expect "install.sh --help" sh -c './install.sh --help | grep -q "^Usage: install.sh"'
    expect "install.sh -h is not a folder" sh -c './install.sh -h > /dev/null && [ ! -e ./-h ]'
    expect "install.sh with a program that is not there" sh -c \
        './install.sh --program /no/such/program 2>&1 | grep -qxF "install.sh: /no/such/program is not an executable file"'
    refused "PREFIX that is empty" "the folder is an empty string" ''
    refused "FOLDER that is empty" "the folder is an empty string" --deb ''
    refused "PREFIX that looks like an option" "unknown option -x" -x
    refused "two prefixes" "unexpected argument b" a b
    for command in dpkg-shlibdeps strip; do
        expect "install.sh --deb without $command" lacks "$command" \
            "install.sh: --deb needs the command $command, which is in Debian's package" ./install.sh --program "$program" --deb "$scratch/none"
    done
    expect "install.sh without the toolchain" lacks rt \
        "install.sh: the Rattle toolchain is required, and its command rt is not in PATH" ./install.sh "$scratch/none"
    expect "try.sh --proved without the toolchain" lacks rt \
        "try.sh: the Rattle toolchain is required, and its command rt is not in PATH" ./try.sh --proved
    expect "make_wheel.py --help" sh -c 'cd "$1" && python3 "$2" --help | grep -q "^usage: " && [ ! -e ./--help ]' \
        sh "$scratch" "$PWD/clients/python/make_wheel.py"
    expect "one time to prove and build" has_one_build_time
}

# lacks COMMAND MESSAGE SCRIPT ARGUMENT..: without this command, the script only prints the message, and exits with status 1. Nothing
# is installed in the folder `none`.
lacks() {
    local command=$1 message=$2 status=0
    shift 2
    rm -rf "$scratch/few" "$scratch/none"
    mkdir "$scratch/few" "$scratch/none"
    ln -s /usr/bin/* "$scratch/few"
    rm -f "$scratch/few/$command"
    PATH=$scratch/few "$@" > "$scratch/printed" 2>&1 || status=$?
    cat "$scratch/printed"
    [ "$status" -eq 1 ] && [ "$(wc -l < "$scratch/printed")" -eq 1 ] && grep -qF "$message" "$scratch/printed" \
        && [ -z "$(find "$scratch/none" -mindepth 1)" ]
}

# The description of the package names the three main commands.
is_described() {
    local text command
    text=$(dpkg-deb --field "$1" Description)
    for command in check crawl serve; do
        grep -q "mercator $command" <<< "$text" || { echo "no mercator $command: $text"; return 1; }
    done
}

by_pip() {
    local python=$scratch/venv/bin/python
    expect "a virtual environment" python3 -m venv "$scratch/venv"
    expect "pip install" env PIP_NO_INDEX=1 "$python" -m pip install ./clients/python
    expect "README's example, by pip" lines_run "$scratch/by_pip" env MERCATOR="$program" "$python" "$scratch/lines.py"
    expect "the service, by pip" sh -c '"$1" -m mercator_service --help | grep -q "^usage: "' sh "$python"
    if command -v mypy > /dev/null; then
        expect "the types" is_typed "$python"
    fi
    expect "pip uninstall" "$python" -m pip uninstall -y mercator-clients
}

below_a_folder() {
    local prefix=$scratch/prefix modules
    expect "install.sh" ./install.sh --program "$program" "$prefix"
    modules=$(echo "$prefix"/lib/python3*/site-packages)
    expect "README's example, below a folder" lines_run "$scratch/below" env -u MERCATOR PATH="$prefix/bin:$PATH" PYTHONPATH="$modules" python3 "$scratch/lines.py"
    expect "the program" cmp "$program" "$prefix/bin/mercator"
    expect "the man page" cmp docs/mercator.1 "$prefix/share/man/man1/mercator.1"
    expect "completions for bash" cmp completions/mercator.bash "$prefix/share/bash-completion/completions/mercator"
    expect "completions for zsh" cmp completions/_mercator "$prefix/share/zsh/site-functions/_mercator"
}

files_of_root() {
    (cd "$root" && find . -xdev ! -path './proc/*' ! -path './tmp/*' ! -path './var/lib/dpkg/*' ! -path './var/log/*' ! -path './var/cache/*' | sort)
}

in_root() {
    PYTHONDONTWRITEBYTECODE='' LC_ALL=C.UTF-8 chroot "$root" "$@"
}

lines_run_in_root() {
    rm -rf "$root/tmp/trial"
    mkdir "$root/tmp/trial"
    cp "$scratch/lines.py" "$root/tmp/trial"
    in_root sh -c 'cd /tmp/trial && python3 lines.py' | diff "$scratch/urls" -
}

by_package() {
    local file=$scratch/mercator.deb
    expect "install.sh --deb" sh -c './install.sh --program "$1" --deb "$2" && mv "$2"/mercator_*.deb "$2/mercator.deb"' sh "$program" "$scratch"
    expect "the package's description" is_described "$file"
    expect "the package's version is that of the program" sh -c \
        '[ "$(dpkg-deb --field "$1" Version)" = "$("$2" --version | cut -d " " -f 2)" ]' sh "$file" "$program"
    if command -v lintian > /dev/null; then
        expect "lintian" lintian --allow-root --fail-on error "$file"
    fi
    [ -n "$root" ] || { echo "without --root, the package is not installed"; return; }
    [ -d "$root/etc" ] || expect "debootstrap" debootstrap --variant=minbase --include=python3 bookworm "$root" http://deb.debian.org/debian
    files_of_root > "$scratch/before"
    cp "$file" "$root/tmp/mercator.deb"
    expect "dpkg --install" in_root dpkg --install /tmp/mercator.deb
    expect "the program's help, in the root" in_root mercator --help
    expect "README's example, in the root" lines_run_in_root
    expect "the modules' bytecode, in the root" in_root test -d /usr/lib/python3/dist-packages/mercator_frontier/__pycache__
    expect "dpkg --verify" in_root dpkg --verify mercator
    expect "dpkg --purge" in_root dpkg --purge mercator
    files_of_root > "$scratch/after"
    expect "the root folder is as before" diff "$scratch/before" "$scratch/after"
}

texts
by_pip
below_a_folder
by_package
echo "$passed passed, $failed failed"
[ "$failed" -eq 0 ]
