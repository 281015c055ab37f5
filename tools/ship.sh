#!/usr/bin/env bash
# Makes the archive that ships, of a clone without changes that passes the gate: tools/ship.sh FOLDER puts cuckoolocker-COMMIT.tar.gz there.
# The same commit and the same built program make the same bytes.
set -euo pipefail
to=$(realpath "${1:?usage: tools/ship.sh FOLDER}")
cd "$(dirname "$0")/.."
[ -z "$(git status --porcelain)" ] || { echo 'ship: commit first: the archive names a commit' >&2; exit 2; }

said=$(rt ci | tail -n 1)
case $said in *' passed, 0 failed') ;; *) echo "ship: the gate does not pass: $said" >&2; exit 1 ;; esac

commit=$(git rev-parse --short=12 HEAD)
name=cuckoolocker-$commit
room=$(mktemp -d)
trap 'rm -rf "$room"' EXIT
mkdir -p "$room/$name/docs" "$room/$name/examples"
cp crates/xi_core/out/xi_core README.md "$room/$name/"
for page in docs/PROTOCOL.md docs/DIFFERENCES.md docs/INSTALL.md docs/PLUGINS.md; do
    if [ -f "$page" ]; then cp "$page" "$room/$name/docs/"; fi
done
cp examples/*.py "$room/$name/examples/"
cat > "$room/$name/BUILT" <<END
commit   $(git rev-parse HEAD)
kit      $(rt version)
gate     $said

Trusted besides what the gate checks: the toolchain with its checker and its ported crates, the C library, the kernel, and the
standard streams and files below what the program calls (README.md, 'What is proved, tested, trusted').
END
(cd "$room/$name" && find . -type f ! -name SHA256SUMS | sort | sed 's|^\./||' | xargs sha256sum > SHA256SUMS)
chmod -R u=rwX,go=rX "$room/$name"
tar -C "$room" --sort=name --mtime="@$(git log -1 --format=%ct)" --owner=0 --group=0 --numeric-owner -cf - "$name" | gzip -n9 > "$to/$name.tar.gz"
echo "$to/$name.tar.gz"
