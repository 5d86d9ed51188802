# Lets a script download packages of another release of Debian, by an apt with a folder of its own. It is to be sourced.
# Nothing is installed, and the sources and the packages of the system stay as they are.

# The archive that the system's own sources name: the one of its release, or else the first. MIRROR names another one. The
# lists of packages are not needed for this: a new machine doesn't have them.
archive() {
    if [ -n "${MIRROR:-}" ]; then
        echo "$MIRROR"
        return
    fi
    apt-get indextargets --no-release-info --format '$(RELEASE)|$(REPO_URI)' 'Created-By: Packages' |
        awk -F '|' -v own="$(. /etc/os-release && echo "${VERSION_CODENAME:-}")" '
            $2 ~ /security/ || found { next }
            first == "" || $1 == own { first = $2; found = $1 == own }
            END { if (first == "") exit 1; print first }' ||
        { echo "$0: the sources of apt name no archive" >&2; return 1; }
}

# apt_of FOLDER ARCHIVE RELEASE: gives apt-get this one release of the archive as its source, and keeps its state in the folder.
apt_of() {
    rm -rf "$1"
    mkdir -p "$1/lists/partial" "$1/cache/archives/partial" "$1/parts"
    : >"$1/status"
    echo "deb [signed-by=${KEY:-/usr/share/keyrings/debian-archive-keyring.gpg}] $2 $3 main" >"$1/sources.list"
    cat >"$1/apt.conf" <<CONF
Dir::Etc::sourcelist "$1/sources.list";
Dir::Etc::sourceparts "$1/parts";
Dir::State::lists "$1/lists";
Dir::State::status "$1/status";
Dir::Cache "$1/cache";
APT::Sandbox::User "";
CONF
    export APT_CONFIG=$1/apt.conf
    apt-get -qq update >&2
}
