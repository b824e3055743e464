#!/bin/bash
# Tries what `make dist` packs on a system that has neither the kit nor this tree: tools/dist_trial.sh LIBRARY PROGRAM [ROOT.tar]
#
# The system is a root folder of Debian, without a network. There the archive is installed by its own Makefile. Then the program, a host
# in C (shared and static), a wheel of Python and a crate of Rust each render the page of docs/tutorial.md, and each text is compared
# with the one that the tutorial shows. The last line is 'N passed, M failed'.
#
# It wants to be run by root. Without ROOT.tar it makes one by mmdebstrap, which downloads some 250 MB, and prints the line that does;
# SUITE names another release of Debian than bookworm. All is done in a temporary folder, which takes 2 GB.
set -u
library=$(realpath "${1:?usage: tools/dist_trial.sh LIBRARY PROGRAM [ROOT.tar]}") || exit 2
program=$(realpath "${2:?usage: tools/dist_trial.sh LIBRARY PROGRAM [ROOT.tar]}") || exit 2
top=$(realpath "$(dirname "$0")/..")
room=$(mktemp -d)
root=$room/root work=$room/root/trial
trap 'rm -rf "$room"' EXIT
passed=0 failed=0
tools=gcc,libc6-dev,make,pkg-config,python3,python3-venv,python3-pip,cargo

# Runs one trial: its name, and a command. Shows what the command prints if it fails.
try() {
    local name=$1
    shift
    if "$@" >"$room/said" 2>&1; then
        passed=$((passed + 1))
    else
        failed=$((failed + 1))
        echo "$name: failed"
        tail -n 20 "$room/said"
    fi
}

# Unpacks the root folder, or makes it.
make_root() {
    local tar=${1:-$room/root.tar}
    if [ ! -e "$tar" ]; then
        echo "mmdebstrap --variant=minbase --include=$tools ${SUITE:-bookworm} $tar"
        mmdebstrap --quiet --variant=minbase --include="$tools" "${SUITE:-bookworm}" "$tar" || exit 2
    fi
    mkdir "$root"
    tar -xf "$tar" -C "$root" --exclude='./dev/*' && mkdir -p "$work" && mknod -m 666 "$root/dev/null" c 1 3
}

# Packs the archive, the wheel and the crate, as a maintainer does, and puts them into the root folder.
pack() {
    make -s -C "$top/bindings" dist LIBRARY="$library" PROGRAM="$program" OUT="$room/out" KIT="${KIT:-a trial}" &&
        cp "$room"/out/*.tar.gz "$work/archive.tar.gz" &&
        JT_STATIC_LIBRARY=$library python3 -m pip wheel --quiet --no-index --no-deps --disable-pip-version-check \
            --wheel-dir "$work" "$top/bindings/python" &&
        (cd "$top/bindings/rust" && CARGO_TARGET_DIR=$room/target JT_LIBRARY_DIR=${library%/*} \
            cargo package --quiet --offline --allow-dirty --no-verify) &&
        cp "$room"/target/package/*.crate "$work/jt.crate" &&
        cp "$top"/tools/dist_trial/host.* "$work"
}

# Writes the files of the tutorial, and the page that it shows last.
tutorial() {
    python3 - "$top" "$work" <<'PY'
import pathlib, sys
top, work = map(pathlib.Path, sys.argv[1:])
sys.dont_write_bytecode = True
sys.path.insert(0, str(top / "docs"))
import run_examples
shown = []
for _, _, words, name, body in run_examples.blocks((top / "docs/tutorial.md").read_text()):
    if words != "console":
        (work / name).parent.mkdir(exist_ok=True)
        (work / name).write_text(body)
    else:
        shown += [lines for command, lines in run_examples.commands(body) if command == "jt render pages page.html new.json"]
(work / "wanted").write_text("\n".join(shown[-1]) + "\n")
PY
}

# Runs a command in the root folder, where no network is.
inside() { env -i PATH=/usr/local/bin:/usr/sbin:/usr/bin:/sbin:/bin HOME=/trial LC_ALL=C.UTF-8 unshare --net --pid --fork --mount-proc="$root/proc" chroot "$root" bash -c "cd /trial && $1"; }

# Runs a command there, and compares its text with the tutorial's but for a line end at the end.
renders() { inside "$1" >"$room/text" && diff <(cat "$work/wanted") <(cat "$room/text" && [ -n "$(tail -c 1 "$room/text")" ] && echo); }

make_root "${3:-}"
try 'archive, wheel and crate are packed' pack
try 'the page of the tutorial' tutorial
try 'neither the kit nor the tree is there' inside "! command -v rt && ! test -e '$top'"
try 'the archive' inside 'tar -xzf archive.tar.gz && cd jt-*/ && make -s check install && ldconfig'
try 'the program' renders 'jt render pages page.html new.json'
try 'a host in C is built' inside 'cc -Wall -Wextra -Werror -o shared host.c $(pkg-config --cflags --libs jt)'
try 'the host in C' renders './shared pages new.json'
try 'a static host in C is built' inside 'cc -static -o static host.c $(pkg-config --static --cflags --libs jt)'
try 'the static host in C' renders './static pages new.json'
try 'the wheel is installed' inside 'python3 -m venv venv && venv/bin/pip install --quiet --no-index jt-*.whl'
try 'the host in Python' renders 'venv/bin/python -I -W ignore host.py pages new.json'
try 'the crate is built' inside 'mkdir -p crate host/src && tar -xf jt.crate -C crate --strip-components=1 &&
    cp host.rs host/src/main.rs && printf "%s\n" "[package]" "name = \"host\"" "version = \"0.1.0\"" "edition = \"2021\"" \
    "[dependencies]" "jt = { path = \"../crate\" }" >host/Cargo.toml && cargo build --quiet --offline --manifest-path host/Cargo.toml'
try 'the host in Rust' renders 'host/target/debug/host pages new.json'
grep -h '^PRETTY_NAME=' "$root/etc/os-release"
inside 'ldd --version | head -n 1; python3 --version; cargo --version; cc --version | head -n 1; cat jt-*/KIT'
echo "$passed passed, $failed failed"
[ "$failed" -eq 0 ]
