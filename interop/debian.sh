# shellcheck shell=bash
# What the scripts know of Debian: its packages, and cargo over the crates that it packages. It is sourced in strict mode, with
# `interop` the folder of the package.
: "${interop:?}"

registry=/usr/share/cargo/registry
# What the example is built over.
# shellcheck disable=SC2034
example_packages=(libnghttp3-dev librust-html-escape-dev librust-httpdate-dev librust-libc-dev librust-mime-guess-dev librust-nix-dev librust-percent-encoding-dev librust-ring-dev librust-rlimit-dev librust-rustls-dev librust-rustls-pemfile-dev
  librust-signal-hook-dev)

is_installed() {
  dpkg-query -W -f '${Status}' "$1" 2>/dev/null | grep -q 'install ok installed'
}

install_packages() {
  # (another call of apt-get may go on)
  DEBIAN_FRONTEND=noninteractive timeout 600 apt-get -o DPkg::Lock::Timeout=300 install -qq -y --no-install-recommends "$@"
}

# The version of nghttp3 whose header the C compiler finds.
nghttp3_version() {
  echo NGHTTP3_VERSION | cc -E -P -include nghttp3/version.h - 2>/dev/null | tr -d '"' || true
}

# The versions for which the example is written are those of Debian 12. Says what isn't so.
other_versions() {
  local crate
  for crate in "$@"; do
    compgen -G "$registry/$crate*" >/dev/null || echo "the crate ${crate%.}"
  done
  [[ $(nghttp3_version) == 0.8.* ]] || echo 'nghttp3 0.8'
}

# Cargo, in the package's folder, with Debian's crates in place of the registry, from a folder for its settings. What is built is
# shared.
debian_cargo() {
  local home=$1
  shift
  mkdir -p "$home"
  cat >"$home/config.toml" <<TOML
[source.crates-io]
replace-with = "debian"
[source.debian]
directory = "$registry"
[net]
offline = true
TOML
  CARGO_HOME=$home CARGO_TARGET_DIR=$interop/target CARGO_TERM_COLOR=never CARGO_NET_OFFLINE=true cargo "$@"
}
