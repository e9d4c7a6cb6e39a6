# Debian's source packages, for programs.sh and checked_bugs.sh: sourced in this folder, with the packages' versions as `version`.
# DEBIAN_MIRROR names another mirror than http://deb.debian.org/debian.
mirror=${DEBIAN_MIRROR:-http://deb.debian.org/debian}
keys=/usr/share/keyrings/debian-archive-keyring.gpg

missing() {
    echo "$(basename "$0"): $1" >&2
    exit 3
}

# apt WORD..: apt-get with a list of sources and a state of its own.
apt() {
    apt-get -q -o Dir::Etc::sourcelist="$PWD/sources.list" -o Dir::Etc::sourceparts=- -o Dir::State="$PWD" -o Dir::Cache="$PWD" \
        -o APT::Sandbox::User=root -o APT::Update::Error-Mode=any -o Acquire::Retries=0 -o Acquire::http::Timeout=20 "$@" >>log 2>&1
}

# source_of PACKAGE: its files are fetched, as the mirror's signed list has them, and unpacked into out/PACKAGE_original_source and out/PACKAGE_debian_source.
source_of() {
    local package=$1 described=${1}_${version[$1]}.dsc
    if ! [ -e "out/apt/$described" ]; then
        mkdir -p out/apt/lists/partial out/apt/archives/partial
        (
            cd out/apt
            echo "deb-src [signed-by=$keys] $mirror bookworm main" >sources.list
            apt update || missing "$mirror can't be reached: out/apt/log"
            apt source --download-only "$package=${version[$package]}" || missing "$described can't be had from $mirror: out/apt/log"
        )
    fi
    rm -rf "out/${package}_original_source" "out/${package}_debian_source"
    dpkg-source --no-check --no-copy --skip-patches -x "out/apt/$described" "out/${package}_original_source" >>out/apt/log 2>&1
    dpkg-source --no-check --no-copy -x "out/apt/$described" "out/${package}_debian_source" >>out/apt/log 2>&1
}

# has_tools TOOL..: what is fetched and built by is on this machine, and these tools.
has_tools() {
    local tool
    for tool in apt-get dpkg-source patch make "$@"; do
        command -v "$tool" >/dev/null || missing "$tool isn't on this machine"
    done
    [ -e "$keys" ] || missing "the package debian-archive-keyring isn't on this machine"
}
