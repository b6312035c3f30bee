# How the scripts of this folder call cargo, for them to source: with Debian's crates where they are there, so that nothing is fetched.
cargo_here() {
    local registry=/usr/share/cargo/registry command=$1
    shift
    if compgen -G "$registry/hyper-rustls-0.23*" >/dev/null && compgen -G "$registry/rusqlite-0.28*" >/dev/null; then
        set -- --offline --config 'source.crates-io.replace-with="debian"' --config "source.debian.directory=\"$registry\"" "$@"
    fi
    (cd host && cargo "$command" --release "$@")
}
