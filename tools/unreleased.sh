#!/usr/bin/env bash
# Prints what CHANGELOG.md has under `Unreleased`: nothing just after a release.
set -euo pipefail
cd "$(dirname "$0")/.."
sed -n '/^## Unreleased$/,/^## [0-9]/ { /^## /d; /./p }' CHANGELOG.md
