#!/usr/bin/env bash
# documents.sh   no Markdown file names a file of the repository that is not there, no link in one is dead, and examples that are
# quoted from a file are in it (documents.py).
set -eu -o pipefail
exec python3 "$(dirname "$0")/documents.py"
